//! Random values: of the whole range, at its ends, at the ends of years, at the ends of days, and past all of these.
use crate::sys::{MuxanduDuration, MuxanduTimestamp};
use time::{Date, Duration, Month, OffsetDateTime, PrimitiveDateTime, Time, UtcOffset};

/// A day in seconds, the Julian day of 1970-01-01, and the seconds of the longest offset of `time`.
pub const DAY: i64 = 86_400;
pub const EPOCH: i32 = 2_440_588;
pub const LONGEST: i32 = 86_399;

pub const MONTHS: [Month; 12] = [
    Month::January,
    Month::February,
    Month::March,
    Month::April,
    Month::May,
    Month::June,
    Month::July,
    Month::August,
    Month::September,
    Month::October,
    Month::November,
    Month::December,
];

/// Whether a year is of the range, as `time` has it.
pub fn is_in_range(year: i32) -> bool {
    (Date::MIN.year()..=Date::MAX.year()).contains(&year)
}

/// The first and the last Unix second of the range, as `time` has it.
pub fn first_second() -> i64 {
    Date::MIN.midnight().assume_utc().unix_timestamp()
}

pub fn last_second() -> i64 {
    Date::MAX.midnight().assume_utc().unix_timestamp() + DAY - 1
}

pub struct Source(u64);

impl Source {
    /// A source of its own for each seed, 0 too.
    pub fn new(seed: u64) -> Source {
        let mut source = Source(seed.wrapping_mul(0x9E37_79B9_7F4A_7C15) ^ 88_172_645_463_325_252);
        (0..16).for_each(|_| _ = source.next());
        source
    }

    fn next(&mut self) -> u64 {
        self.0 ^= self.0 << 13;
        self.0 ^= self.0 >> 7;
        self.0 ^= self.0 << 17;
        self.0
    }

    /// One of so many, from 0 on.
    pub fn one_of(&mut self, count: u64) -> u64 {
        (self.next() >> 11) % count
    }

    pub fn is_one_in(&mut self, count: u64) -> bool {
        self.one_of(count) == 0
    }

    pub fn between(&mut self, first: i64, last: i64) -> i64 {
        first + (self.next() % (last - first + 1) as u64) as i64
    }

    /// A number not far from either of two.
    pub fn near(&mut self, first: i64, last: i64, far: i64) -> i64 {
        let end = if self.is_one_in(2) { first } else { last };
        end + self.between(-far, far)
    }

    pub fn any_number(&mut self) -> i64 {
        let shift = self.one_of(64);
        self.next() as i64 >> shift
    }

    pub fn one<'a, T: ?Sized>(&mut self, items: &[&'a T]) -> &'a T {
        items[self.one_of(items.len() as u64) as usize]
    }

    /// A year of the range.
    pub fn year(&mut self) -> i32 {
        let (first, last) = (Date::MIN.year().into(), Date::MAX.year().into());
        match self.one_of(8) {
            0 => self.near(first + 2, last - 2, 2) as i32,
            1 => self.between(1890, 2110) as i32,
            2 => self.between(0, 9999) as i32,
            3 => (self.between(first / 100, last / 100) * 100) as i32,
            _ => self.between(first, last) as i32,
        }
    }

    /// A year of the range or past it.
    pub fn any_year(&mut self) -> i32 {
        match self.one_of(16) {
            0 => self.near(Date::MIN.year().into(), Date::MAX.year().into(), 3) as i32,
            1 => self.any_number() as i32,
            _ => self.year(),
        }
    }

    /// The last days of a year, of its February, and the first of the year and of March.
    fn end_of_year(&mut self) -> Date {
        let year = self.year();
        let february = if time::util::is_leap_year(year) { 29 } else { 28 };
        let (month, day) = match self.one_of(4) {
            0 => (Month::January, 1),
            1 => (Month::February, february),
            2 => (Month::March, 1),
            _ => (Month::December, 31),
        };
        Date::from_calendar_date(year, month, day).expect("a day of each year")
    }

    /// A second of the range.
    pub fn second(&mut self) -> i64 {
        let (first, last) = (first_second(), last_second());
        let second = match self.one_of(8) {
            0 => self.near(first, last, 2),
            1 => self.near(first, last, 2 * DAY),
            2 => self.between(-62_167_219_200, 253_402_300_799),
            3 => self.any_number(),
            4 | 5 => self.end_of_year().midnight().assume_utc().unix_timestamp() + self.in_day(),
            _ => self.between(first, last),
        };
        second.clamp(first, last)
    }

    /// A second of a day, and a second or two past its ends.
    fn in_day(&mut self) -> i64 {
        if self.is_one_in(2) { self.near(0, DAY - 1, 2) } else { self.between(0, DAY - 1) }
    }

    /// A second of the range or past it.
    pub fn any_second(&mut self) -> i64 {
        match self.one_of(32) {
            0 => self.near(first_second(), last_second(), DAY),
            1 => self.near(first_second(), last_second(), 2),
            2 => self.any_number(),
            _ => self.second(),
        }
    }

    pub fn nanosecond(&mut self) -> u32 {
        match self.one_of(4) {
            0 => self.near(0, 999_999_999, 2).clamp(0, 999_999_999) as u32,
            1 => self.one_of(1_000) as u32 * 1_000_000,
            2 => 0,
            _ => self.one_of(1_000_000_000) as u32,
        }
    }

    pub fn any_nanosecond(&mut self) -> u32 {
        match self.one_of(32) {
            0 => self.any_number() as u32,
            1 => self.near(1_000_000_000, 999_999_999, 1) as u32,
            _ => self.nanosecond(),
        }
    }

    /// An offset that `time` has.
    pub fn offset(&mut self) -> i32 {
        let longest = i64::from(LONGEST);
        match self.one_of(8) {
            0 => 0,
            1 => self.near(-longest, longest, 2).clamp(-longest, longest) as i32,
            2 => self.between(-3_600, 3_600) as i32,
            3 | 4 => self.between(-1_439, 1_439) as i32 * 60,
            5 => self.between(-56, 56) as i32 * 900,
            _ => self.between(-longest, longest) as i32,
        }
    }

    /// An offset that there is or is not.
    pub fn any_offset(&mut self) -> i32 {
        match self.one_of(32) {
            0 => self.near(-86_400, 86_400, 2) as i32,
            1 => self.near(-93_599, 93_599, 2) as i32,
            2 => self.between(-100_000, 100_000) as i32,
            3 => self.any_number() as i32,
            _ => self.offset(),
        }
    }

    pub fn utc_offset(&mut self) -> UtcOffset {
        UtcOffset::from_whole_seconds(self.offset()).expect("an offset of `time`")
    }

    pub fn time(&mut self) -> Time {
        let second = self.in_day().clamp(0, DAY - 1);
        let (hour, minute, second) = (second / 3_600, second / 60 % 60, second % 60);
        Time::from_hms_nano(hour as u8, minute as u8, second as u8, self.nanosecond()).expect("a time of day")
    }

    pub fn date(&mut self) -> Date {
        let day = self.second().div_euclid(DAY) as i32;
        Date::from_julian_day(day + EPOCH).expect("a day of the range")
    }

    /// An instant of the range, in UTC.
    pub fn instant(&mut self) -> OffsetDateTime {
        let at = OffsetDateTime::from_unix_timestamp(self.second()).expect("a second of the range");
        at.replace_nanosecond(self.nanosecond()).expect("a nanosecond")
    }

    /// A date-time of the range at an offset. Its instant may lie past the range.
    pub fn at_offset(&mut self) -> OffsetDateTime {
        let at = self.instant();
        PrimitiveDateTime::new(at.date(), at.time()).assume_offset(self.utc_offset())
    }

    /// A duration of any parts.
    pub fn any_duration(&mut self) -> MuxanduDuration {
        let seconds = match self.one_of(8) {
            0 => self.near(i64::MIN + 2, i64::MAX - 2, 2),
            1 => self.near(-DAY, DAY, 2),
            _ => self.any_number(),
        };
        let nanoseconds = match self.one_of(4) {
            0 => self.near(-1_000_000_000, 1_000_000_000, 2) as i32,
            1 => self.any_number() as i32,
            _ => self.between(-999_999_999, 999_999_999) as i32,
        };
        MuxanduDuration { seconds, nanoseconds }
    }

    /// A duration, often one that leads from a date-time to an end of the range, to within two nanoseconds.
    pub fn duration_from(&mut self, at: OffsetDateTime) -> Duration {
        match self.one_of(8) {
            0 => {
                let day = if self.is_one_in(2) { Date::MIN } else { Date::MAX };
                let time = Time::from_hms_nano(23, 59, 59, 999_999_999).expect("the last time of day");
                let time = if day == Date::MIN { Time::MIDNIGHT } else { time };
                let end = PrimitiveDateTime::new(day, time).assume_offset(at.offset());
                let lasts = end - at + Duration::nanoseconds(self.between(-2, 2));
                if self.is_one_in(2) { -lasts } else { lasts }
            }
            1 => self.end_of_year().midnight().assume_offset(at.offset()) - at,
            2 => Duration::seconds(self.between(-2 * DAY, 2 * DAY)),
            3 => [Duration::MIN, Duration::MAX, Duration::ZERO, Duration::DAY][self.one_of(4) as usize],
            _ => loop {
                let lasts = self.any_duration();
                let whole = Duration::seconds(lasts.seconds);
                if let Some(lasts) = whole.checked_add(Duration::nanoseconds(lasts.nanoseconds.into())) {
                    break lasts;
                }
            },
        }
    }

    /// A timestamp of any parts.
    pub fn any_timestamp(&mut self) -> MuxanduTimestamp {
        MuxanduTimestamp { seconds: self.any_second(), nanoseconds: self.any_nanosecond() }
    }
}
