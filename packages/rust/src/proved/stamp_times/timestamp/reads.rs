// Made by make/erase of crates/stamp_times/src/timestamp/reads.rt. Do not edit.
//! The date and the time of day of a timestamp, in UTC.
use crate::proved::stamp_times::Timestamp;
use crate::proved::stamp_times::reciprocal::year_leap_ordinal;
use crate::proved::calendar_values::units::EPOCH_JULIAN_DAY;
use crate::proved::calendar_values::{
    Date, Month, Time, Weekday, day_and_second, leap_ordinal_to_month_day,
};

// The days from a Monday before the range to 1970-01-01.
const DAYS_FROM_MONDAY: i32 = 365_961_669;

impl Timestamp {
    // The day number of the date.
    /// # Contract
    ///
    /// ```text
    /// ensures value { result ≡ wall_day self }
    /// ensures in_range { IsDay result }
    /// ```
    ///
    /// [docs/proofs/STATEMENT.md](crate::proved#contracts) explains the words.
    #[inline]
    pub(crate) const fn day_number(self) -> i32 {
        day_and_second(self.as_seconds()).0
    }

    // The second of the day.
    /// # Contract
    ///
    /// ```text
    /// ensures value { result ≡ wall_time self / nanos_per_second }
    /// ensures in_range { result < 86_400 }
    /// ```
    ///
    /// [docs/proofs/STATEMENT.md](crate::proved#contracts) explains the words.
    #[inline]
    pub(crate) const fn second_of_day(self) -> u32 {
        day_and_second(self.as_seconds()).1
    }

    /// The date.
    ///
    /// ```
    /// # use muxandu::proved::*;
    /// # fn main() -> Result<(), Box<dyn std::error::Error>> {
    /// let at = Timestamp::from_seconds(1_577_664_000)?;
    /// assert_eq!(at.date(), Date::from_calendar_date(2019, Month::December, 30)?);
    /// # Ok(())
    /// # }
    /// ```
    ///
    /// # Contract
    ///
    /// ```text
    /// ensures value { result ≡ wall_day self }
    /// ensures self_in_range { IsInstant self }
    /// ```
    ///
    /// [docs/proofs/STATEMENT.md](crate::proved#contracts) explains the words.
    #[inline]
    pub const fn date(self) -> Date {
        let (year, _, ordinal) = year_leap_ordinal(self.day_number());
        Date::at_ordinal_date(year, ordinal)
    }

    /// The time of day.
    ///
    /// ```
    /// # use muxandu::proved::*;
    /// # fn main() -> Result<(), Box<dyn std::error::Error>> {
    /// let at = Timestamp::new(1_577_710_979, 480_300_002)?;
    /// assert_eq!(at.time(), Time::from_hms_nano(13, 2, 59, 480_300_002)?);
    /// # Ok(())
    /// # }
    /// ```
    ///
    /// # Contract
    ///
    /// ```text
    /// ensures value { result ≡ wall_time self }
    /// ensures self_in_range { IsInstant self }
    /// ```
    ///
    /// [docs/proofs/STATEMENT.md](crate::proved#contracts) explains the words.
    #[inline]
    pub const fn time(self) -> Time {
        Time::at_second_of_day(self.second_of_day(), self.nanosecond())
    }

    /// As [`Date::year`], of the day in UTC.
    ///
    /// ```
    /// # use muxandu::proved::*;
    /// # fn main() -> Result<(), Box<dyn std::error::Error>> {
    /// let at = Timestamp::from_seconds(1_577_664_000)?;
    /// assert_eq!(at.year(), 2019);
    /// # Ok(())
    /// # }
    /// ```
    ///
    /// # Contract
    ///
    /// ```text
    /// ensures value { result ≡ year_of (wall_day self) }
    /// ensures in_range { IsYear result }
    /// ```
    ///
    /// [docs/proofs/STATEMENT.md](crate::proved#contracts) explains the words.
    #[inline]
    pub const fn year(self) -> i32 {
        year_leap_ordinal(self.day_number()).0
    }

    /// As [`Date::month`], of the day in UTC.
    ///
    /// ```
    /// # use muxandu::proved::*;
    /// # fn main() -> Result<(), Box<dyn std::error::Error>> {
    /// let at = Timestamp::from_seconds(1_577_664_000)?;
    /// assert_eq!(at.month(), Month::December);
    /// # Ok(())
    /// # }
    /// ```
    ///
    /// # Contract
    ///
    /// ```text
    /// ensures { month_number result ≡ month_of (wall_day self) }
    /// ```
    ///
    /// [docs/proofs/STATEMENT.md](crate::proved#contracts) explains the words.
    #[inline]
    pub const fn month(self) -> Month {
        let (_, is_leap, ordinal) = year_leap_ordinal(self.day_number());
        leap_ordinal_to_month_day(is_leap, ordinal).0
    }

    /// As [`Date::day`], of the day in UTC.
    ///
    /// ```
    /// # use muxandu::proved::*;
    /// # fn main() -> Result<(), Box<dyn std::error::Error>> {
    /// let at = Timestamp::from_seconds(1_577_664_000)?;
    /// assert_eq!(at.day(), 30);
    /// # Ok(())
    /// # }
    /// ```
    ///
    /// # Contract
    ///
    /// ```text
    /// ensures value { result ≡ day_of_month_of (wall_day self) }
    /// ensures in_range { IsInRange 1 31 result }
    /// ```
    ///
    /// [docs/proofs/STATEMENT.md](crate::proved#contracts) explains the words.
    #[inline]
    pub const fn day(self) -> u8 {
        let (_, is_leap, ordinal) = year_leap_ordinal(self.day_number());
        leap_ordinal_to_month_day(is_leap, ordinal).1
    }

    /// As [`Date::ordinal`], of the day in UTC.
    ///
    /// ```
    /// # use muxandu::proved::*;
    /// # fn main() -> Result<(), Box<dyn std::error::Error>> {
    /// let at = Timestamp::from_seconds(1_577_664_000)?;
    /// assert_eq!(at.ordinal(), 364);
    /// # Ok(())
    /// # }
    /// ```
    ///
    /// # Contract
    ///
    /// ```text
    /// ensures value { result ≡ ordinal_of (wall_day self) }
    /// ensures in_range { IsInRange 1 366 result }
    /// ```
    ///
    /// [docs/proofs/STATEMENT.md](crate::proved#contracts) explains the words.
    #[inline]
    pub const fn ordinal(self) -> u16 {
        year_leap_ordinal(self.day_number()).2
    }

    /// As [`Date::iso_week`], of the day in UTC.
    ///
    /// ```
    /// # use muxandu::proved::*;
    /// # fn main() -> Result<(), Box<dyn std::error::Error>> {
    /// let at = Timestamp::from_seconds(1_577_664_000)?;
    /// assert_eq!(at.iso_week(), 1);
    /// # Ok(())
    /// # }
    /// ```
    ///
    /// # Contract
    ///
    /// ```text
    /// ensures value { result ≡ iso_week_of (wall_day self) }
    /// ensures in_range { IsInRange 1 53 result }
    /// ```
    ///
    /// [docs/proofs/STATEMENT.md](crate::proved#contracts) explains the words.
    #[inline]
    pub const fn iso_week(self) -> u8 {
        self.date().iso_week()
    }

    /// As [`Date::sunday_based_week`], of the day in UTC.
    ///
    /// ```
    /// # use muxandu::proved::*;
    /// # fn main() -> Result<(), Box<dyn std::error::Error>> {
    /// let at = Timestamp::from_seconds(1_577_664_000)?;
    /// assert_eq!(at.sunday_based_week(), 52);
    /// # Ok(())
    /// # }
    /// ```
    ///
    /// # Contract
    ///
    /// ```text
    /// ensures value { result ≡ sunday_week_of (wall_day self) }
    /// ensures in_range { result ≤ 53 }
    /// ```
    ///
    /// [docs/proofs/STATEMENT.md](crate::proved#contracts) explains the words.
    #[inline]
    pub const fn sunday_based_week(self) -> u8 {
        self.date().sunday_based_week()
    }

    /// As [`Date::monday_based_week`], of the day in UTC.
    ///
    /// ```
    /// # use muxandu::proved::*;
    /// # fn main() -> Result<(), Box<dyn std::error::Error>> {
    /// let at = Timestamp::from_seconds(1_577_664_000)?;
    /// assert_eq!(at.monday_based_week(), 52);
    /// # Ok(())
    /// # }
    /// ```
    ///
    /// # Contract
    ///
    /// ```text
    /// ensures value { result ≡ monday_week_of (wall_day self) }
    /// ensures in_range { result ≤ 53 }
    /// ```
    ///
    /// [docs/proofs/STATEMENT.md](crate::proved#contracts) explains the words.
    #[inline]
    pub const fn monday_based_week(self) -> u8 {
        self.date().monday_based_week()
    }

    /// As [`Date::to_calendar_date`], of the day in UTC.
    ///
    /// ```
    /// # use muxandu::proved::*;
    /// # fn main() -> Result<(), Box<dyn std::error::Error>> {
    /// let at = Timestamp::from_seconds(1_577_664_000)?;
    /// assert_eq!(at.to_calendar_date(), (2019, Month::December, 30));
    /// # Ok(())
    /// # }
    /// ```
    ///
    /// # Contract
    ///
    /// ```text
    /// ensures { IsCalendarDateOf (wall_day self) result }
    /// ```
    ///
    /// [docs/proofs/STATEMENT.md](crate::proved#contracts) explains the words.
    #[inline]
    pub const fn to_calendar_date(self) -> (i32, Month, u8) {
        let (year, is_leap, ordinal) = year_leap_ordinal(self.day_number());
        let (month, day) = leap_ordinal_to_month_day(is_leap, ordinal);
        (year, month, day)
    }

    /// As [`Date::to_ordinal_date`], of the day in UTC.
    ///
    /// ```
    /// # use muxandu::proved::*;
    /// # fn main() -> Result<(), Box<dyn std::error::Error>> {
    /// let at = Timestamp::from_seconds(1_577_664_000)?;
    /// assert_eq!(at.to_ordinal_date(), (2019, 364));
    /// # Ok(())
    /// # }
    /// ```
    ///
    /// # Contract
    ///
    /// ```text
    /// ensures { IsOrdinalDateOf (wall_day self) result }
    /// ```
    ///
    /// [docs/proofs/STATEMENT.md](crate::proved#contracts) explains the words.
    #[inline]
    pub const fn to_ordinal_date(self) -> (i32, u16) {
        let (year, _, ordinal) = year_leap_ordinal(self.day_number());
        (year, ordinal)
    }

    /// As [`Date::to_iso_week_date`], of the day in UTC.
    ///
    /// ```
    /// # use muxandu::proved::*;
    /// # fn main() -> Result<(), Box<dyn std::error::Error>> {
    /// let at = Timestamp::from_seconds(1_577_664_000)?;
    /// assert_eq!(at.to_iso_week_date(), (2020, 1, Weekday::Monday));
    /// # Ok(())
    /// # }
    /// ```
    ///
    /// # Contract
    ///
    /// ```text
    /// ensures { IsIsoWeekDateOf (wall_day self) result }
    /// ```
    ///
    /// [docs/proofs/STATEMENT.md](crate::proved#contracts) explains the words.
    #[inline]
    pub const fn to_iso_week_date(self) -> (i32, u8, Weekday) {
        self.date().to_iso_week_date()
    }

    /// As [`Date::weekday`], of the day in UTC.
    ///
    /// ```
    /// # use muxandu::proved::*;
    /// # fn main() -> Result<(), Box<dyn std::error::Error>> {
    /// let at = Timestamp::from_seconds(1_577_664_000)?;
    /// assert_eq!(at.weekday(), Weekday::Monday);
    /// # Ok(())
    /// # }
    /// ```
    ///
    /// # Contract
    ///
    /// ```text
    /// ensures { weekday_number result ≡ weekday_of (wall_day self) }
    /// ```
    ///
    /// [docs/proofs/STATEMENT.md](crate::proved#contracts) explains the words.
    #[inline]
    pub const fn weekday(self) -> Weekday {
        Weekday::of_number(self.days_from_monday())
    }

    // How many days the date comes after a Monday.
    /// # Contract
    ///
    /// ```text
    /// ensures value { result ≡ weekday_of (wall_day self) }
    /// ensures in_range { result < 7 }
    /// ```
    ///
    /// [docs/proofs/STATEMENT.md](crate::proved#contracts) explains the words.
    #[inline]
    const fn days_from_monday(self) -> u8 {
        ((self.day_number() + DAYS_FROM_MONDAY) as u32 % 7) as u8
    }

    /// As [`Date::to_julian_day`], of the day in UTC.
    ///
    /// ```
    /// # use muxandu::proved::*;
    /// # fn main() -> Result<(), Box<dyn std::error::Error>> {
    /// let at = Timestamp::from_seconds(1_577_664_000)?;
    /// assert_eq!(at.to_julian_day(), 2_458_848);
    /// # Ok(())
    /// # }
    /// ```
    ///
    /// # Contract
    ///
    /// ```text
    /// ensures value { result ≡ julian_day_of (wall_day self) }
    /// ensures self_in_range { IsInstant self }
    /// ```
    ///
    /// [docs/proofs/STATEMENT.md](crate::proved#contracts) explains the words.
    #[inline]
    pub const fn to_julian_day(self) -> i32 {
        self.day_number() + EPOCH_JULIAN_DAY
    }

    /// As [`Time::as_hms`], of the time of day in UTC.
    ///
    /// ```
    /// # use muxandu::proved::*;
    /// # fn main() -> Result<(), Box<dyn std::error::Error>> {
    /// let at = Timestamp::new(1_577_710_979, 480_300_002)?;
    /// assert_eq!(at.as_hms(), (13, 2, 59));
    /// # Ok(())
    /// # }
    /// ```
    ///
    /// # Contract
    ///
    /// ```text
    /// ensures value { let c = wall_time self in result ≡ (hour_of c, minute_of c, second_of c) }
    /// ensures in_range { AreTimeParts result.0 result.1 result.2 0 }
    /// ```
    ///
    /// [docs/proofs/STATEMENT.md](crate::proved#contracts) explains the words.
    #[inline]
    pub const fn as_hms(self) -> (u8, u8, u8) {
        self.time().as_hms()
    }

    /// As [`Time::as_hms_milli`], of the time of day in UTC.
    ///
    /// ```
    /// # use muxandu::proved::*;
    /// # fn main() -> Result<(), Box<dyn std::error::Error>> {
    /// let at = Timestamp::new(1_577_710_979, 480_300_002)?;
    /// assert_eq!(at.as_hms_milli(), (13, 2, 59, 480));
    /// # Ok(())
    /// # }
    /// ```
    ///
    /// # Contract
    ///
    /// ```text
    /// ensures value { let c = wall_time self in
    ///     result ≡ (hour_of c, minute_of c, second_of c, millisecond_of c) }
    /// ensures in_range { AreTimeParts result.0 result.1 result.2
    ///     (result.3 * nanos_per_millisecond) }
    /// ```
    ///
    /// [docs/proofs/STATEMENT.md](crate::proved#contracts) explains the words.
    #[inline]
    pub const fn as_hms_milli(self) -> (u8, u8, u8, u16) {
        let (hour, minute, second) = self.as_hms();
        (hour, minute, second, self.millisecond())
    }

    /// As [`Time::as_hms_micro`], of the time of day in UTC.
    ///
    /// ```
    /// # use muxandu::proved::*;
    /// # fn main() -> Result<(), Box<dyn std::error::Error>> {
    /// let at = Timestamp::new(1_577_710_979, 480_300_002)?;
    /// assert_eq!(at.as_hms_micro(), (13, 2, 59, 480_300));
    /// # Ok(())
    /// # }
    /// ```
    ///
    /// # Contract
    ///
    /// ```text
    /// ensures value { let c = wall_time self in
    ///     result ≡ (hour_of c, minute_of c, second_of c, microsecond_of c) }
    /// ensures in_range { AreTimeParts result.0 result.1 result.2
    ///     (result.3 * nanos_per_microsecond) }
    /// ```
    ///
    /// [docs/proofs/STATEMENT.md](crate::proved#contracts) explains the words.
    #[inline]
    pub const fn as_hms_micro(self) -> (u8, u8, u8, u32) {
        let (hour, minute, second) = self.as_hms();
        (hour, minute, second, self.microsecond())
    }

    /// As [`Time::as_hms_nano`], of the time of day in UTC.
    ///
    /// ```
    /// # use muxandu::proved::*;
    /// # fn main() -> Result<(), Box<dyn std::error::Error>> {
    /// let at = Timestamp::new(1_577_710_979, 480_300_002)?;
    /// assert_eq!(at.as_hms_nano(), (13, 2, 59, 480_300_002));
    /// # Ok(())
    /// # }
    /// ```
    ///
    /// # Contract
    ///
    /// ```text
    /// ensures value { let c = wall_time self in
    ///     result ≡ (hour_of c, minute_of c, second_of c, nanosecond_of c) }
    /// ensures in_range { AreTimeParts result.0 result.1 result.2 result.3 }
    /// ```
    ///
    /// [docs/proofs/STATEMENT.md](crate::proved#contracts) explains the words.
    #[inline]
    pub const fn as_hms_nano(self) -> (u8, u8, u8, u32) {
        let (hour, minute, second) = self.as_hms();
        (hour, minute, second, self.nanosecond())
    }

    /// As [`Time::hour`], of the time of day in UTC.
    ///
    /// ```
    /// # use muxandu::proved::*;
    /// # fn main() -> Result<(), Box<dyn std::error::Error>> {
    /// let at = Timestamp::new(1_577_710_979, 480_300_002)?;
    /// assert_eq!(at.hour(), 13);
    /// # Ok(())
    /// # }
    /// ```
    ///
    /// # Contract
    ///
    /// ```text
    /// ensures value { result ≡ hour_of (wall_time self) }
    /// ensures in_range { result ≤ 23 }
    /// ```
    ///
    /// [docs/proofs/STATEMENT.md](crate::proved#contracts) explains the words.
    #[inline]
    pub const fn hour(self) -> u8 {
        self.time().hour()
    }

    /// As [`Time::minute`], of the time of day in UTC.
    ///
    /// ```
    /// # use muxandu::proved::*;
    /// # fn main() -> Result<(), Box<dyn std::error::Error>> {
    /// let at = Timestamp::new(1_577_710_979, 480_300_002)?;
    /// assert_eq!(at.minute(), 2);
    /// # Ok(())
    /// # }
    /// ```
    ///
    /// # Contract
    ///
    /// ```text
    /// ensures value { result ≡ minute_of (wall_time self) }
    /// ensures in_range { result ≤ 59 }
    /// ```
    ///
    /// [docs/proofs/STATEMENT.md](crate::proved#contracts) explains the words.
    #[inline]
    pub const fn minute(self) -> u8 {
        self.time().minute()
    }

    /// As [`Time::second`], of the time of day in UTC.
    ///
    /// ```
    /// # use muxandu::proved::*;
    /// # fn main() -> Result<(), Box<dyn std::error::Error>> {
    /// let at = Timestamp::new(1_577_710_979, 480_300_002)?;
    /// assert_eq!(at.second(), 59);
    /// # Ok(())
    /// # }
    /// ```
    ///
    /// # Contract
    ///
    /// ```text
    /// ensures value { result ≡ second_of (wall_time self) }
    /// ensures in_range { result ≤ 59 }
    /// ```
    ///
    /// [docs/proofs/STATEMENT.md](crate::proved#contracts) explains the words.
    #[inline]
    pub const fn second(self) -> u8 {
        self.time().second()
    }

    /// As [`Time::millisecond`], of the time of day in UTC.
    ///
    /// ```
    /// # use muxandu::proved::*;
    /// # fn main() -> Result<(), Box<dyn std::error::Error>> {
    /// let at = Timestamp::new(1_577_710_979, 480_300_002)?;
    /// assert_eq!(at.millisecond(), 480);
    /// # Ok(())
    /// # }
    /// ```
    ///
    /// # Contract
    ///
    /// ```text
    /// ensures value { result ≡ millisecond_of (wall_time self) }
    /// ensures in_range { result ≤ 999 }
    /// ```
    ///
    /// [docs/proofs/STATEMENT.md](crate::proved#contracts) explains the words.
    #[inline]
    pub const fn millisecond(self) -> u16 {
        (self.nanosecond() / 1_000_000) as u16
    }

    /// As [`Time::microsecond`], of the time of day in UTC.
    ///
    /// ```
    /// # use muxandu::proved::*;
    /// # fn main() -> Result<(), Box<dyn std::error::Error>> {
    /// let at = Timestamp::new(1_577_710_979, 480_300_002)?;
    /// assert_eq!(at.microsecond(), 480_300);
    /// # Ok(())
    /// # }
    /// ```
    ///
    /// # Contract
    ///
    /// ```text
    /// ensures value { result ≡ microsecond_of (wall_time self) }
    /// ensures in_range { result ≤ 999_999 }
    /// ```
    ///
    /// [docs/proofs/STATEMENT.md](crate::proved#contracts) explains the words.
    #[inline]
    pub const fn microsecond(self) -> u32 {
        self.nanosecond() / 1_000
    }

    /// As [`Time::nanosecond`], of the time of day in UTC.
    ///
    /// ```
    /// # use muxandu::proved::*;
    /// # fn main() -> Result<(), Box<dyn std::error::Error>> {
    /// let at = Timestamp::new(1_577_710_979, 480_300_002)?;
    /// assert_eq!(at.nanosecond(), 480_300_002);
    /// # Ok(())
    /// # }
    /// ```
    ///
    /// # Contract
    ///
    /// ```text
    /// ensures value { result ≡ nanosecond_of (wall_time self) }
    /// ensures in_range { result ≤ 999_999_999 }
    /// ```
    ///
    /// [docs/proofs/STATEMENT.md](crate::proved#contracts) explains the words.
    #[inline]
    pub const fn nanosecond(self) -> u32 {
        self.nanosecond
    }
}
