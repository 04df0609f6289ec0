// Every call that the package and `time` 0.3.9 have, by the same text over either: `library` is one of them.
use std::collections::hash_map::DefaultHasher;
use std::fmt::Write as _;
use std::hash::{Hash, Hasher};
use std::hint::black_box;

use library::error::ComponentRange;
use library::ext::{NumericalDuration, NumericalStdDuration};
use library::format_description::well_known::Rfc3339;
use library::{Date, Duration, Month, OffsetDateTime, PrimitiveDateTime, Time, UtcOffset, Weekday, util};

use crate::source::Input;

/// What a call answers.
type Answers = Vec<i128>;

fn month(input: &Input) -> Month {
    Month::try_from(input.month).unwrap()
}

fn weekday(input: &Input) -> Weekday {
    (0..input.weekday).fold(Weekday::Monday, |weekday, _| weekday.next())
}

fn put_text(text: &str, out: &mut Answers) {
    let mut number = 0_i128;
    for byte in text.bytes() {
        number = number.wrapping_mul(257).wrapping_add(i128::from(byte));
    }
    out.push(number);
}

fn put_refusal(refusal: &ComponentRange, out: &mut Answers) {
    put_text(refusal.name(), out);
}

/// Answers as numbers.
trait Put {
    fn put_answer(&self, out: &mut Answers);
}

macro_rules! put_numbers {
    ($($Number:ident)+) => {
        $(impl Put for $Number {
            fn put_answer(&self, out: &mut Answers) {
                out.push(i128::from(*self));
            }
        })+
    };
}

put_numbers! { i8 u8 i16 u16 i32 u32 i64 i128 bool }

macro_rules! put_parts {
    ($($Type:ident: $value:ident => $parts:expr;)+) => {
        $(impl Put for $Type {
            fn put_answer(&self, out: &mut Answers) {
                let $value = *self;
                $parts.put_answer(out);
            }
        })+
    };
}

put_parts! {
    Month: value => u8::from(value);
    Weekday: value => value.number_days_from_monday();
    Date: value => value.to_calendar_date();
    Time: value => value.as_hms_nano();
    UtcOffset: value => value.whole_seconds();
    Duration: value => (value.whole_seconds(), value.subsec_nanoseconds());
    PrimitiveDateTime: value => (value.date(), value.time());
    OffsetDateTime: value => (value.date(), value.time(), value.offset());
}

macro_rules! put_tuples {
    ($($($Part:ident $place:tt)+;)+) => {
        $(impl<$($Part: Put),+> Put for ($($Part,)+) {
            fn put_answer(&self, out: &mut Answers) {
                $(self.$place.put_answer(out);)+
            }
        })+
    };
}

put_tuples! {
    A 0 B 1;
    A 0 B 1 C 2;
    A 0 B 1 C 2 D 3;
}

impl<T: Put> Put for Option<T> {
    fn put_answer(&self, out: &mut Answers) {
        match self {
            Some(value) => value.put_answer(out),
            None => out.push(i128::MIN),
        }
    }
}

impl<T: Put> Put for Result<T, ComponentRange> {
    fn put_answer(&self, out: &mut Answers) {
        match self {
            Ok(value) => value.put_answer(out),
            Err(refusal) => put_refusal(refusal, out),
        }
    }
}

macro_rules! put {
    ($out:expr, $($value:expr),+ $(,)?) => {
        $($value.put_answer($out);)+
    };
}

/// The lengths of a month and a year.
#[allow(deprecated)]
fn put_lengths_of_years(date: Date, out: &mut Answers) {
    let year = date.year();
    put!(
        out,
        util::days_in_year_month(year, date.month()),
        util::days_in_year(year),
        util::is_leap_year(year),
        util::weeks_in_year(year)
    );
}

/// The reads of the date, which all types have.
macro_rules! put_date_reads {
    ($out:expr, $value:expr) => {
        put!(
            $out,
            $value.year(),
            $value.month(),
            $value.day(),
            $value.ordinal(),
            $value.iso_week(),
            $value.sunday_based_week(),
            $value.monday_based_week(),
            $value.to_calendar_date(),
            $value.to_ordinal_date(),
            $value.to_iso_week_date(),
            $value.weekday(),
            $value.to_julian_day(),
        );
    };
}

macro_rules! put_time_reads {
    ($out:expr, $value:expr) => {
        put!(
            $out,
            $value.hour(),
            $value.minute(),
            $value.second(),
            $value.millisecond(),
            $value.microsecond(),
            $value.nanosecond(),
        );
    };
}

macro_rules! put_sums {
    ($out:expr, $value:expr, $duration:expr) => {
        put!(
            $out,
            $value.checked_add($duration),
            $value.checked_sub($duration),
            $value.saturating_add($duration),
            $value.saturating_sub($duration),
        );
    };
}

macro_rules! put_date_replacements {
    ($out:expr, $value:expr, $input:expr) => {
        put!($out, $value.replace_year($input.year), $value.replace_month(month($input)), $value.replace_day($input.day),);
    };
}

macro_rules! put_time_replacements {
    ($out:expr, $value:expr, $input:expr) => {
        put!(
            $out,
            $value.replace_hour($input.clock.0),
            $value.replace_minute($input.clock.1),
            $value.replace_second($input.clock.2),
            $value.replace_millisecond($input.small as u16),
            $value.replace_microsecond($input.small),
            $value.replace_nanosecond($input.nanosecond),
        );
    };
}

fn put_display(value: &impl std::fmt::Display, out: &mut Answers) {
    let mut text = String::with_capacity(64);
    write!(text, "{value}").unwrap();
    put_text(&text, out);
}

fn duration(input: &Input) -> Duration {
    Duration::new(input.seconds, input.nanoseconds)
}

/// Lengths of each unit, their products, quotients and sums, and std's lengths beside them.
fn put_lengths(duration: Duration, input: &Input, out: &mut Answers) {
    let count = i64::from(input.offset_seconds);
    let std_duration = std::time::Duration::new(input.seconds.unsigned_abs(), input.small % 1_000_000_000);
    // 0.3.9 divides seconds and nanoseconds apart, and loses a nanosecond where both leave a rest.
    let whole = Duration::seconds(input.seconds);
    put!(
        out,
        Duration::weeks(count),
        Duration::days(count),
        Duration::hours(count),
        Duration::minutes(count),
        Duration::seconds(count),
        Duration::milliseconds(input.seconds),
        Duration::microseconds(input.seconds),
        Duration::nanoseconds(input.seconds),
        count.weeks() + count.days() - count.hours(),
        count.minutes() + count.seconds() - input.seconds.milliseconds(),
        input.seconds.microseconds() - input.seconds.nanoseconds(),
        Duration::WEEK + Duration::DAY - Duration::HOUR + Duration::MINUTE - Duration::SECOND,
        Duration::MILLISECOND + Duration::MICROSECOND - Duration::NANOSECOND + Duration::ZERO,
        duration * input.offset.0,
        duration * i16::from(input.offset.1),
        duration * input.month,
        duration * u16::from(input.day),
        input.month * duration,
        i16::from(input.offset.1) * duration,
        Duration::seconds(count) * u32::from(input.ordinal),
        whole / input.month,
        whole / -(input.month as i8),
        whole / i16::from(input.month),
        whole / u16::from(input.month),
        whole / (input.offset_seconds | 1),
        whole / u32::from(input.month),
        [duration, whole, duration].iter().sum::<Duration>(),
        [duration, whole, duration].into_iter().sum::<Duration>(),
        duration + std_duration,
        duration - std_duration,
        Duration::try_from(std_duration).ok(),
        Duration::try_from(std::time::Duration::from_secs(input.seconds as u64)).ok(),
        duration < std_duration,
        duration > std_duration,
        (duration / (whole + Duration::SECOND)).to_bits() as i64,
        (duration / (std_duration + 1.std_seconds())).to_bits() as i64,
    );
    let mut moved = duration;
    moved += whole;
    moved -= std_duration;
    moved *= input.month;
    put!(out, moved);
    put_display(&duration, out);
    put_display(&Duration::seconds(count), out);
}

/// Numbers and names of months and of days of the week.
fn put_names(input: &Input, out: &mut Answers) {
    let weekday = weekday(input);
    put!(out, Month::try_from(input.day));
    put_display(&month(input), out);
    put_display(&weekday, out);
    let names = [month(input).to_string(), weekday.to_string(), month(input).to_string().to_lowercase()];
    for name in names {
        put!(out, name.parse::<Month>().ok(), name.parse::<Weekday>().ok());
    }
}

/// The answers of a round.
pub fn answers(input: &Input, out: &mut Answers) {
    let (hour, minute, second) = input.clock;
    put!(
        out,
        Date::from_calendar_date(input.year, month(input), input.day),
        Date::from_ordinal_date(input.year, input.ordinal),
        Date::from_iso_week_date(input.year, input.week, weekday(input)),
        Date::from_julian_day(input.julian_day),
        Time::from_hms(hour, minute, second),
        Time::from_hms_milli(hour, minute, second, input.small as u16),
        Time::from_hms_micro(hour, minute, second, input.small),
        Time::from_hms_nano(hour, minute, second, input.nanosecond),
        UtcOffset::from_whole_seconds(input.offset_seconds),
        month(input).next(),
        month(input).previous(),
        weekday(input).next(),
        weekday(input).previous(),
        weekday(input).number_from_sunday(),
        weekday(input).number_from_monday(),
        weekday(input).number_days_from_sunday(),
        OffsetDateTime::from_unix_timestamp(input.second),
    );
    // 0.3.9 has no offset of 24 hours and more.
    if input.offset.0.unsigned_abs() < 24 {
        put!(out, UtcOffset::from_hms(input.offset.0, input.offset.1, input.offset.2));
    }
    let duration = duration(input);
    // 0.3.9 drops what is finer than a nanosecond, and a 512th of a second has nothing finer.
    let part = f64::from(input.small % 512) / 512.0;
    put!(
        out,
        duration,
        duration.whole_weeks(),
        duration.whole_days(),
        duration.whole_hours(),
        duration.whole_minutes(),
        duration.whole_milliseconds(),
        duration.whole_microseconds(),
        duration.whole_nanoseconds(),
        duration.subsec_milliseconds(),
        duration.subsec_microseconds(),
        duration.is_negative(),
        duration.abs(),
        duration.checked_add(Duration::seconds(input.second)),
        duration.checked_sub(Duration::seconds(input.second)),
        duration.checked_mul(input.offset_seconds),
        // 0.3.9 divides seconds and nanoseconds apart, and loses a nanosecond where both leave a rest.
        Duration::seconds(input.seconds).checked_div(input.offset_seconds),
        -duration,
        duration.is_zero(),
        duration.is_positive(),
        duration.saturating_add(Duration::seconds(input.second)),
        duration.saturating_sub(Duration::seconds(input.second)),
        duration.saturating_mul(input.offset_seconds),
        duration.subsec_nanoseconds(),
        duration.as_seconds_f64().to_bits() as i64,
        Duration::seconds_f64(input.second as f64 + part),
        // 0.3.9 rounds to 53 bits, which hold the seconds of any date and 256ths.
        Duration::seconds(input.second) * (f64::from(input.small % 256) / 256.0),
        Duration::seconds(input.second) / f64::from(1_u32 << (input.small % 9)),
        part.weeks() + part.days() - part.hours(),
        part.minutes() - part.seconds(),
        (-part).weeks() - (-part).seconds(),
        (part.std_weeks() + part.std_hours()).as_nanos() as i128,
        (part.std_days() + part.std_minutes() + part.std_seconds()).as_nanos() as i128,
        duration < Duration::seconds(input.seconds),
        std::time::Duration::try_from(duration).map(|duration| duration.as_nanos() as i128).ok(),
        duration == std::time::Duration::new(input.seconds.unsigned_abs(), input.nanoseconds.unsigned_abs()),
    );
    put_lengths(duration, input, out);
    put_names(input, out);
    let (Ok(date), Ok(time)) = (
        Date::from_julian_day(input.julian_day),
        Time::from_hms_nano(hour % 24, minute % 60, second % 60, input.nanosecond % 1_000_000_000),
    ) else {
        return;
    };
    put_date_reads!(out, date);
    put!(out, date.next_day(), date.previous_day());
    put_lengths_of_years(date, out);
    put!(
        out,
        date.midnight(),
        date.with_time(time),
        date.with_hms(hour, minute, second),
        date.with_hms_milli(hour, minute, second, input.small as u16),
        date.with_hms_micro(hour, minute, second, input.small),
        date.with_hms_nano(hour, minute, second, input.nanosecond),
    );
    let std_duration = std::time::Duration::new(input.seconds.unsigned_abs() % 1_000_000_000, input.small % 1_000_000_000);
    put!(out, time + std_duration, time - std_duration);
    // Away from the ends of the range, where 0.3.9 does not hold all that clocks at an offset show.
    let other = Date::from_ordinal_date(input.year.clamp(-999_000, 999_000), 1).unwrap();
    let inner = date.year().abs() < 999_900;
    put!(out, date - other, other - date, date < other, date == other, other + std_duration, other - std_duration);
    put_sums!(out, date, duration);
    put_date_replacements!(out, date, input);
    put_display(&date, out);
    put_time_reads!(out, time);
    put!(out, time.as_hms(), time.as_hms_milli(), time.as_hms_micro(), time + duration, time - duration);
    let second_time = Time::from_hms_nano(second % 24, hour % 60, minute % 60, input.small % 1_000_000_000).unwrap();
    // 0.3.9 gives seconds and nanoseconds of two signs.
    put!(out, (time - second_time).whole_nanoseconds(), (second_time - time).whole_nanoseconds(), time < second_time);
    put_time_replacements!(out, time, input);
    put_display(&time, out);

    let plain = PrimitiveDateTime::new(date, time);
    put_date_reads!(out, plain);
    put_time_reads!(out, plain);
    put_sums!(out, plain, duration);
    put_date_replacements!(out, plain, input);
    put_time_replacements!(out, plain, input);
    put!(out, plain.replace_time(Time::MIDNIGHT), plain.replace_date(Date::MAX));
    put_display(&plain, out);
    let midnight = other.midnight();
    put!(out, plain - midnight, midnight - plain, plain < midnight, plain == midnight);
    put!(out, midnight + std_duration, midnight - std_duration, plain.assume_utc());
    if inner {
        let offset = UtcOffset::from_whole_seconds(input.offset_seconds).unwrap();
        let shown = plain.assume_offset(offset);
        put!(out, shown, shown.unix_timestamp_nanos(), shown - midnight.assume_utc(), shown < midnight.assume_utc());
        put!(out, shown + std_duration, shown - std_duration, shown.replace_date_time(midnight), shown.replace_date(other));
        put!(out, shown == plain.assume_utc(), shown.to_offset(UtcOffset::UTC), shown.date(), shown.time(), shown.offset());
    }

    // 0.3.9 keeps the date-time in UTC, so what clocks at an offset show at the ends of the range is not compared.
    let Ok(at) = OffsetDateTime::from_unix_timestamp(input.second) else {
        return;
    };
    let at = at + Duration::nanoseconds(i64::from(input.nanosecond));
    let offset = UtcOffset::from_whole_seconds(input.offset_seconds).unwrap();
    let shown = at.to_offset(offset);
    put!(
        out,
        shown,
        shown.unix_timestamp(),
        shown.unix_timestamp_nanos(),
        shown.to_hms(),
        shown.to_hms_milli(),
        shown.to_hms_micro(),
        shown.to_hms_nano(),
        OffsetDateTime::from_unix_timestamp_nanos(shown.unix_timestamp_nanos()),
        offset,
        offset.as_hms(),
        offset.whole_hours(),
        offset.whole_minutes(),
        offset.minutes_past_hour(),
        offset.seconds_past_minute(),
        offset.is_negative(),
        offset.is_utc(),
        (-offset).whole_seconds(),
        offset < UtcOffset::from_whole_seconds(i32::from(input.offset.1)).unwrap(),
    );
    // A time of the system lies as far back as the clocks of the machine count.
    let of_system = std::time::SystemTime::from(shown);
    let earlier = at - Duration::seconds(input.seconds % 1_000_000_000);
    put!(out, OffsetDateTime::from(of_system), shown == of_system, of_system < earlier, earlier < of_system);
    put!(out, shown - of_system, of_system - earlier, earlier - of_system);
    put_date_reads!(out, shown);
    put_time_reads!(out, shown);
    put_date_replacements!(out, shown, input);
    put_time_replacements!(out, shown, input);
    if input.seconds.unsigned_abs() < 100_000_000_000 || input.seconds.unsigned_abs() > 100_000_000_000_000 {
        put_sums!(out, shown, duration);
    }
    put!(
        out,
        shown.replace_time(time),
        // 0.3.9 takes what clocks in UTC show, which is right from the offset 0 alone.
        at.replace_offset(offset),
        shown == at,
        shown < at + Duration::seconds(i64::from(input.offset_seconds)),
        shown - (at - Duration::seconds(input.seconds % 1_000_000_000)),
    );
    put_display(&shown, out);
    put_display(&offset, out);
}

macro_rules! sizes {
    ($($name:literal $Type:ident)+) => {
        /// The bytes of each type, and of an `Option` of it.
        pub const SIZES: &[(&str, (usize, usize))] = &[
            $(($name, (size_of::<$Type>(), size_of::<Option<$Type>>()))),+
        ];
    };
}

sizes! {
    "Date" Date
    "Time" Time
    "UtcOffset" UtcOffset
    "Duration" Duration
    "PlainDateTime" PrimitiveDateTime
    "OffsetDateTime" OffsetDateTime
    "Month" Month
    "Weekday" Weekday
}

/// Values that loops go over.
pub struct Data {
    inputs: Vec<Input>,
    months: Vec<Month>,
    weekdays: Vec<Weekday>,
    names: Vec<(String, String)>,
    texts: Vec<String>,
    dates: Vec<Date>,
    times: Vec<Time>,
    plain: Vec<PrimitiveDateTime>,
    shown: Vec<OffsetDateTime>,
    near: Vec<OffsetDateTime>,
    minutes: Vec<OffsetDateTime>,
    offsets: Vec<UtcOffset>,
    durations: Vec<Duration>,
}

impl Data {
    pub fn new(inputs: &[Input]) -> Data {
        let dates: Vec<Date> = inputs.iter().map(|input| Date::from_julian_day(input.julian_day).unwrap()).collect();
        let times: Vec<Time> = inputs
            .iter()
            .map(|input| Time::from_hms_nano(input.clock.0, input.clock.1, input.clock.2, input.nanosecond).unwrap())
            .collect();
        let plain: Vec<PrimitiveDateTime> =
            dates.iter().zip(&times).map(|(date, time)| PrimitiveDateTime::new(*date, *time)).collect();
        let offsets: Vec<UtcOffset> =
            inputs.iter().map(|input| UtcOffset::from_whole_seconds(input.offset_seconds).unwrap()).collect();
        let shown = plain.iter().zip(&offsets).map(|(plain, offset)| plain.assume_offset(*offset)).collect();
        // Within two days of one another, at the same offsets.
        let near: Vec<OffsetDateTime> = inputs
            .iter()
            .zip(&offsets)
            .map(|(input, offset)| {
                let second = 1_709_164_800 + input.second.rem_euclid(172_800);
                let at = OffsetDateTime::from_unix_timestamp(second).unwrap();
                (at + Duration::nanoseconds(i64::from(input.nanosecond))).to_offset(*offset)
            })
            .collect();
        let durations = inputs.iter().map(|input| Duration::new(input.seconds % 100_000_000, input.nanoseconds)).collect();
        let months: Vec<Month> = inputs.iter().map(month).collect();
        let weekdays: Vec<Weekday> = inputs.iter().map(weekday).collect();
        let names = months.iter().zip(&weekdays);
        let names = names.map(|(month, weekday)| (month.to_string(), weekday.to_string()));
        Data {
            inputs: inputs.to_vec(),
            names: names.collect(),
            texts: in_minutes(&near).map(|at| at.format(&Rfc3339).unwrap()).collect(),
            minutes: in_minutes(&near).collect(),
            months,
            weekdays,
            dates,
            times,
            plain,
            shown,
            near,
            offsets,
            durations,
        }
    }

    /// The orders of neighbours, and the instants when they are sorted: what comparisons must have alike.
    pub fn orders(&self) -> Answers {
        let mut found = Answers::new();
        for list in [&self.shown, &self.near] {
            found.extend(list.windows(2).map(|pair| i128::from(pair[0] < pair[1])));
            let mut sorted = list.clone();
            sorted.sort_unstable();
            found.extend(sorted.iter().map(|at| at.unix_timestamp_nanos()));
        }
        found
    }
}

/// The instants at offsets of whole minutes, which have texts of RFC 3339.
fn in_minutes(near: &[OffsetDateTime]) -> impl Iterator<Item = OffsetDateTime> {
    near.iter().map(|at| {
        let seconds = i32::from(at.offset().whole_minutes()) * 60;
        at.to_offset(UtcOffset::from_whole_seconds(seconds).unwrap())
    })
}

fn hash(value: &impl Hash) -> u64 {
    let mut hasher = DefaultHasher::new();
    value.hash(&mut hasher);
    hasher.finish()
}

macro_rules! loops {
    ($($name:literal: $data:ident, $at:ident, $($item:ident of $field:ident),+ => $answer:expr;)+
     $(sorted $sorted:literal: $list:ident;)+) => {
        /// A name and a loop for each call.
        pub const LOOPS: &[(&str, fn(&Data) -> u64)] = &[
            $(($name, |$data: &Data| {
                for $at in 0..$data.inputs.len() {
                    $(let $item = black_box(&$data.$field[$at]);)+
                    _ = black_box($answer);
                }
                $data.inputs.len() as u64
            }),)+
            $(($sorted, |data: &Data| {
                let mut items = black_box(&data.$list).clone();
                items.sort_unstable();
                black_box(&items).len() as u64
            }),)+
        ];
    };
}

/// The place after, for the second of two values.
fn after(at: usize) -> usize {
    (at + 1) & 4_095
}

loops! {
    "`Date::from_calendar_date`": data, at, input of inputs, month of months => Date::from_calendar_date(input.year, *month, input.day);
    "`Date::from_ordinal_date`": data, at, input of inputs => Date::from_ordinal_date(input.year, input.ordinal);
    "`Date::from_iso_week_date`": data, at, input of inputs, weekday of weekdays => Date::from_iso_week_date(input.year, input.week, *weekday);
    "`Date::from_julian_day`": data, at, input of inputs => Date::from_julian_day(input.julian_day);
    "`year`": data, at, date of dates => date.year();
    "`to_calendar_date`": data, at, date of dates => date.to_calendar_date();
    "`ordinal`": data, at, date of dates => date.ordinal();
    "`to_ordinal_date`": data, at, date of dates => date.to_ordinal_date();
    "`weekday`": data, at, date of dates => date.weekday();
    "`to_iso_week_date`": data, at, date of dates => date.to_iso_week_date();
    "`iso_week`": data, at, date of dates => date.iso_week();
    "`sunday_based_week`": data, at, date of dates => date.sunday_based_week();
    "`monday_based_week`": data, at, date of dates => date.monday_based_week();
    "`to_julian_day`": data, at, date of dates => date.to_julian_day();
    "`next_day`": data, at, date of dates => date.next_day();
    "`previous_day`": data, at, date of dates => date.previous_day();
    "`Date::checked_add`": data, at, date of dates, duration of durations => date.checked_add(*duration);
    "`Date::checked_sub`": data, at, date of dates, duration of durations => date.checked_sub(*duration);
    "`Date::saturating_add`": data, at, date of dates, duration of durations => date.saturating_add(*duration);
    "`Date::saturating_sub`": data, at, date of dates, duration of durations => date.saturating_sub(*duration);
    "`Date - Date`": data, at, date of dates => *date - data.dates[after(at)];
    "`Date < Date`": data, at, date of dates => *date < data.dates[after(at)];
    "`Date == Date`": data, at, date of dates => *date == data.dates[after(at)];
    "`Date` hashed": data, at, date of dates => hash(date);
    "`Date::replace_year`": data, at, date of dates => date.replace_year(2024);
    "`Date::replace_month`": data, at, date of dates => date.replace_month(Month::March);
    "`Date::replace_day`": data, at, date of dates => date.replace_day(28);
    "`Date::with_time`": data, at, date of dates, time of times => date.with_time(*time);
    "`Date::with_hms`": data, at, date of dates, input of inputs => date.with_hms(input.clock.0, input.clock.1, input.clock.2);
    "`Date` written": data, at, date of dates => date.to_string();
    "`Time::from_hms_nano`": data, at, input of inputs => Time::from_hms_nano(input.clock.0, input.clock.1, input.clock.2, input.nanosecond);
    "`Time::from_hms`": data, at, input of inputs => Time::from_hms(input.clock.0, input.clock.1, input.clock.2);
    "`Time::from_hms_milli`": data, at, input of inputs => Time::from_hms_milli(input.clock.0, input.clock.1, input.clock.2, input.small as u16);
    "`Time::from_hms_micro`": data, at, input of inputs => Time::from_hms_micro(input.clock.0, input.clock.1, input.clock.2, input.small);
    "`Time::as_hms_nano`": data, at, time of times => time.as_hms_nano();
    "`Time::as_hms_milli`": data, at, time of times => time.as_hms_milli();
    "`Time < Time`": data, at, time of times => *time < data.times[after(at)];
    "`Time == Time`": data, at, time of times => *time == data.times[after(at)];
    "`Time` hashed": data, at, time of times => hash(time);
    "`Time::replace_hour`": data, at, time of times => time.replace_hour(12);
    "`Time::replace_millisecond`": data, at, time of times => time.replace_millisecond(7);
    "`Time + Duration`": data, at, time of times, duration of durations => *time + *duration;
    "`Time - Duration`": data, at, time of times, duration of durations => *time - *duration;
    "`Time - Time`": data, at, time of times => *time - data.times[after(at)];
    "`Time` written": data, at, time of times => time.to_string();
    "`UtcOffset::from_hms`": data, at, input of inputs => UtcOffset::from_hms(input.offset.0, input.offset.1, input.offset.2);
    "`UtcOffset::from_whole_seconds`": data, at, input of inputs => UtcOffset::from_whole_seconds(input.offset_seconds);
    "`UtcOffset::as_hms`": data, at, offset of offsets => offset.as_hms();
    "`UtcOffset::whole_hours`": data, at, offset of offsets => offset.whole_hours();
    "`UtcOffset` written": data, at, offset of offsets => offset.to_string();
    "`Duration::new`": data, at, input of inputs => Duration::new(input.seconds, input.nanoseconds);
    "`Duration + Duration`": data, at, duration of durations => *duration + data.durations[after(at)];
    "`Duration::checked_sub`": data, at, duration of durations => duration.checked_sub(data.durations[after(at)]);
    "`Duration * i32`": data, at, duration of durations => *duration * 7;
    "`Duration / i32`": data, at, duration of durations => *duration / 7;
    "`whole_days`": data, at, duration of durations => duration.whole_days();
    "`whole_milliseconds`": data, at, duration of durations => duration.whole_milliseconds();
    "`Duration < Duration`": data, at, duration of durations => *duration < data.durations[after(at)];
    "`Duration == Duration`": data, at, duration of durations => *duration == data.durations[after(at)];
    "`Duration` hashed": data, at, duration of durations => hash(duration);
    "`Duration` written": data, at, duration of durations => duration.to_string();
    "`Month` read": data, at, name of names => name.0.parse::<Month>();
    "`Weekday` read": data, at, name of names => name.1.parse::<Weekday>();
    "`PlainDateTime::new`": data, at, date of dates, time of times => PrimitiveDateTime::new(*date, *time);
    "`PlainDateTime`: `date`, `time`": data, at, plain of plain => (plain.date(), plain.time());
    "`PlainDateTime::ordinal`": data, at, plain of plain => plain.ordinal();
    "`PlainDateTime::weekday`": data, at, plain of plain => plain.weekday();
    "`PlainDateTime::to_iso_week_date`": data, at, plain of plain => plain.to_iso_week_date();
    "`PlainDateTime::to_julian_day`": data, at, plain of plain => plain.to_julian_day();
    "`PlainDateTime::assume_offset`": data, at, plain of plain, offset of offsets => plain.assume_offset(*offset);
    "`PlainDateTime::assume_utc`": data, at, plain of plain => plain.assume_utc();
    "`PlainDateTime::checked_add`": data, at, plain of plain, duration of durations => plain.checked_add(*duration);
    "`PlainDateTime::checked_sub`": data, at, plain of plain, duration of durations => plain.checked_sub(*duration);
    "`PlainDateTime::saturating_add`": data, at, plain of plain, duration of durations => plain.saturating_add(*duration);
    "`PlainDateTime::saturating_sub`": data, at, plain of plain, duration of durations => plain.saturating_sub(*duration);
    "`PlainDateTime - PlainDateTime`": data, at, plain of plain => *plain - data.plain[after(at)];
    "`PlainDateTime < PlainDateTime`": data, at, plain of plain => *plain < data.plain[after(at)];
    "`PlainDateTime == PlainDateTime`": data, at, plain of plain => *plain == data.plain[after(at)];
    "`PlainDateTime` hashed": data, at, plain of plain => hash(plain);
    "`PlainDateTime::replace_hour`": data, at, plain of plain => plain.replace_hour(12);
    "`PlainDateTime::replace_year`": data, at, plain of plain => plain.replace_year(2024);
    "`PlainDateTime::replace_day`": data, at, plain of plain => plain.replace_day(28);
    "`PlainDateTime::replace_nanosecond`": data, at, plain of plain => plain.replace_nanosecond(7);
    "`PlainDateTime`: `replace_date`, `replace_time`": data, at, plain of plain, date of dates, time of times => plain.replace_date(*date).replace_time(*time);
    "`PlainDateTime` written": data, at, plain of plain => plain.to_string();
    "`OffsetDateTime::from_unix_timestamp`": data, at, input of inputs => OffsetDateTime::from_unix_timestamp(input.second);
    "`from_unix_timestamp_nanos`": data, at, input of inputs => OffsetDateTime::from_unix_timestamp_nanos(i128::from(input.second) * 1_000_000_000 + 7);
    "`unix_timestamp`": data, at, shown of shown => shown.unix_timestamp();
    "`unix_timestamp_nanos`": data, at, shown of shown => shown.unix_timestamp_nanos();
    "`to_offset`": data, at, shown of shown, offset of offsets => shown.to_offset(*offset);
    "`to_offset(UTC)`": data, at, shown of shown => shown.to_offset(UtcOffset::UTC);
    "`OffsetDateTime`: `to_calendar_date`, `to_hms`": data, at, shown of shown => (shown.to_calendar_date(), shown.to_hms());
    "`OffsetDateTime::hour`": data, at, shown of shown => shown.hour();
    "`OffsetDateTime::nanosecond`": data, at, shown of shown => shown.nanosecond();
    "`OffsetDateTime::offset`": data, at, shown of shown => shown.offset();
    "`OffsetDateTime`: `date`, `time`": data, at, shown of shown => (shown.date(), shown.time());
    "`OffsetDateTime::ordinal`": data, at, shown of shown => shown.ordinal();
    "`OffsetDateTime::iso_week`": data, at, shown of shown => shown.iso_week();
    "`OffsetDateTime::to_julian_day`": data, at, shown of shown => shown.to_julian_day();
    "`OffsetDateTime::weekday`": data, at, shown of shown => shown.weekday();
    "`OffsetDateTime::checked_add`": data, at, shown of shown, duration of durations => shown.checked_add(*duration);
    "`OffsetDateTime::checked_sub`": data, at, shown of shown, duration of durations => shown.checked_sub(*duration);
    "`OffsetDateTime::saturating_add`": data, at, shown of shown, duration of durations => shown.saturating_add(*duration);
    "`OffsetDateTime - OffsetDateTime`": data, at, shown of shown => *shown - data.shown[after(at)];
    "`OffsetDateTime < OffsetDateTime`": data, at, shown of shown => *shown < data.shown[after(at)];
    "`OffsetDateTime < OffsetDateTime`, within two days": data, at, near of near => *near < data.near[after(at)];
    "`OffsetDateTime == OffsetDateTime`": data, at, shown of shown => *shown == data.shown[after(at)];
    "`OffsetDateTime` hashed": data, at, shown of shown => hash(shown);
    "`OffsetDateTime::replace_year`": data, at, shown of shown => shown.replace_year(2024);
    "`OffsetDateTime::replace_hour`": data, at, shown of shown => shown.replace_hour(12);
    "`OffsetDateTime::replace_time`": data, at, shown of shown, time of times => shown.replace_time(*time);
    "`OffsetDateTime::replace_date`": data, at, shown of shown, date of dates => shown.replace_date(*date);
    "`OffsetDateTime::replace_offset`": data, at, shown of shown, offset of offsets => shown.replace_offset(*offset);
    "`OffsetDateTime` written": data, at, shown of shown => shown.to_string();
    "`OffsetDateTime` of RFC 3339 read": data, at, text of texts => OffsetDateTime::parse(text, &Rfc3339);
    "`OffsetDateTime` of RFC 3339 written": data, at, minute of minutes => minute.format(&Rfc3339);
    sorted "`OffsetDateTime` sorted, for each of 4,096": shown;
    sorted "`OffsetDateTime` sorted, within two days": near;
    sorted "`PlainDateTime` sorted, for each of 4,096": plain;
    sorted "`Date` sorted, for each of 4,096": dates;
    sorted "`Time` sorted, for each of 4,096": times;
    sorted "`Duration` sorted, for each of 4,096": durations;
}
