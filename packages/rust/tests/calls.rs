//! Each call of the crate, on values that other programs gave.

use std::time::Duration as StdDuration;

use muxandu::ext::{NumericalDuration, NumericalStdDuration};
use muxandu::macros::{date, datetime, offset, time, timestamp, utc_datetime};
use muxandu::{
    Date, Duration, Month, OffsetDateTime, PlainDateTime, PrimitiveDateTime, Refusal,
    SignedDuration, Time, Timestamp, Unit, UtcDateTime, UtcOffset, Weekday, days_in_month, util,
};

fn name<T>(result: Result<T, muxandu::error::ComponentRange>) -> (&'static str, bool) {
    let refused = result.err().expect("a refusal");
    (refused.name(), refused.is_conditional())
}

#[test]
fn dates_are_tested() {
    assert_eq!(name(Date::from_calendar_date(1_000_000, Month::May, 32)), ("year", false));
    assert_eq!(name(Date::from_calendar_date(2023, Month::May, 32)), ("day", false));
    assert_eq!(name(Date::from_calendar_date(2023, Month::February, 29)), ("day", true));
    assert_eq!(name(Date::from_ordinal_date(2023, 0)), ("ordinal", false));
    assert_eq!(name(Date::from_ordinal_date(2023, 366)), ("ordinal", true));
    assert_eq!(name(Date::from_iso_week_date(2023, 54, Weekday::Monday)), ("week", false));
    assert_eq!(name(Date::from_iso_week_date(2023, 53, Weekday::Monday)), ("week", true));
    assert_eq!(name(Date::from_julian_day(i32::MAX)), ("julian_day", false));
    assert_eq!(Date::from_days_since_epoch(i32::MIN), None);
    assert_eq!(name(date!(2024 - 02 - 29).replace_year(2023)), ("day", true));
    assert_eq!(name(date!(2024 - 01 - 31).replace_month(Month::April)), ("day", true));
    assert_eq!(name(date!(2024 - 01 - 31).replace_day(0)), ("day", false));
    assert_eq!(name(date!(2024 - 01 - 31).replace_ordinal(367)), ("ordinal", false));
    assert_eq!(name(Month::try_from(13)), ("month", false));
    assert_eq!(name(Month::try_from(0)), ("month", false));
}

#[test]
fn dates_show() {
    let date = date!(2021 - 01 - 01);
    assert_eq!(date.to_calendar_date(), (2021, Month::January, 1));
    assert_eq!((date.year(), date.month(), date.day()), date.to_calendar_date());
    assert_eq!(date.to_ordinal_date(), (2021, 1));
    assert_eq!(date.to_iso_week_date(), (2020, 53, Weekday::Friday));
    assert_eq!((date.iso_week(), date.weekday()), (53, Weekday::Friday));
    assert_eq!((date.sunday_based_week(), date.monday_based_week()), (0, 0));
    assert_eq!((date.to_julian_day(), date.days_since_epoch()), (2_459_216, 18_628));
    assert_eq!(Date::from_julian_day(2_459_216), Ok(date));
    assert_eq!(Date::from_days_since_epoch(18_628), Some(date));
    assert_eq!(Date::from_ordinal_date(2021, 1), Ok(date));
    assert_eq!(Date::from_iso_week_date(2020, 53, Weekday::Friday), Ok(date));
    assert_eq!((days_in_month(2024, Month::February), Month::February.length(2023)), (29, 28));
    assert_eq!((Month::February.length(1900), Month::February.length(2000)), (28, 29));
    assert_eq!((Date::MIN.weekday(), Date::MAX.weekday()), (Weekday::Monday, Weekday::Friday));
}

// The weeks are those of the last 28 December by Python's `isocalendar`.
#[test]
#[allow(deprecated)]
fn months_and_years_have_lengths() {
    const LEAP: (u8, u8, u8) = (
        util::days_in_month(Month::February, 2024),
        util::days_in_year_month(2023, Month::February),
        util::weeks_in_year(2020),
    );
    assert_eq!(LEAP, (29, 28, 53));
    assert_eq!((util::days_in_year(1900), util::days_in_year(2000)), (365, 366));
    assert_eq!((util::is_leap_year(1900), util::is_leap_year(2000)), (false, true));
    let short = [1, 1900, 2000, 2019, 2024, 9999];
    let long = [4, 1976, 2004, 2020, 2026];
    assert!(short.iter().all(|year| util::weeks_in_year(*year) == 52));
    assert!(long.iter().all(|year| util::weeks_in_year(*year) == 53));
}

#[test]
fn dates_move() {
    let date = date!(2024 - 02 - 28);
    assert_eq!(date.next_day(), Some(date!(2024 - 02 - 29)));
    assert_eq!(date!(2024 - 03 - 01).previous_day(), Some(date!(2024 - 02 - 29)));
    assert_eq!((Date::MIN.previous_day(), Date::MAX.next_day()), (None, None));
    assert_eq!(date + 47.hours(), date!(2024 - 02 - 29));
    assert_eq!(date - 47.hours(), date!(2024 - 02 - 27));
    assert_eq!(date - date!(2023 - 02 - 28), 365.days());
    assert_eq!(date.checked_add(SignedDuration::MAX), None);
    assert_eq!(date.saturating_sub(SignedDuration::MAX), Date::MIN);
    assert_eq!(date.saturating_sub(SignedDuration::MIN), Date::MAX);
    assert_eq!(date.checked_next_occurrence(Weekday::Wednesday), Some(date!(2024 - 03 - 06)));
    assert_eq!(date.checked_prev_occurrence(Weekday::Tuesday), Some(date!(2024 - 02 - 27)));
    assert_eq!(date.replace_day(29), Ok(date!(2024 - 02 - 29)));
    let mut moved = date;
    moved += 1.std_days();
    moved -= 2.days();
    assert_eq!(moved, date!(2024 - 02 - 27));
}

#[test]
fn days_of_the_week_are_counted() {
    let start = date!(2024 - 02 - 21);
    for (weekday, n) in (0..7).map(|n| Weekday::Monday.nth_next(n)).zip([1, 2, 5, 53, 255, 3, 4]) {
        let (mut later, mut earlier) = (start, start);
        for _ in 0..n {
            later = later.checked_next_occurrence(weekday).unwrap();
            earlier = earlier.checked_prev_occurrence(weekday).unwrap();
        }
        assert_eq!(start.nth_next_occurrence(weekday, n), later, "{weekday} {n}");
        assert_eq!(start.nth_prev_occurrence(weekday, n), earlier, "{weekday} {n}");
    }
    assert_eq!(start.next_occurrence(Weekday::Wednesday), date!(2024 - 02 - 28));
    assert_eq!(start.prev_occurrence(Weekday::Wednesday), date!(2024 - 02 - 14));
    fn panics(call: impl FnOnce() -> Date + std::panic::UnwindSafe) -> bool {
        std::panic::catch_unwind(call).is_err()
    }
    assert!(panics(|| start.nth_next_occurrence(Weekday::Monday, 0)));
    assert!(panics(|| start.nth_prev_occurrence(Weekday::Monday, 0)));
    assert!(panics(|| Date::MAX.next_occurrence(Weekday::Monday)));
    assert!(panics(|| Date::MIN.prev_occurrence(Weekday::Monday)));
}

#[test]
fn times_of_day() {
    assert_eq!(name(Time::from_hms(24, 60, 60)), ("hour", false));
    assert_eq!(name(Time::from_hms(23, 60, 60)), ("minute", false));
    assert_eq!(name(Time::from_hms(23, 59, 60)), ("second", false));
    assert_eq!(name(Time::from_hms_milli(23, 59, 59, 1_000)), ("millisecond", false));
    assert_eq!(name(Time::from_hms_micro(23, 59, 59, u32::MAX)), ("microsecond", false));
    assert_eq!(name(Time::from_hms_nano(23, 59, 59, u32::MAX)), ("nanosecond", false));
    let time = Time::from_hms_nano(1, 2, 3, 4_005_006).unwrap();
    assert_eq!(time, time!(1:02:03.004_005_006));
    assert_eq!(time.as_hms(), (1, 2, 3));
    assert_eq!(time.as_hms_milli(), (1, 2, 3, 4));
    assert_eq!(time.as_hms_micro(), (1, 2, 3, 4_005));
    assert_eq!(time.as_hms_nano(), (1, 2, 3, 4_005_006));
    assert_eq!(time - 2.hours(), time!(23:02:03.004_005_006));
    assert_eq!(
        time!(23:00) + StdDuration::from_secs(u64::MAX),
        time!(23:00) + ((u64::MAX % 86_400) as i64).seconds()
    );
    assert_eq!(time!(1:00) - time!(2:00), (-1).hours());
    assert_eq!(time!(23:00).duration_until(time!(1:00)), 2.hours());
    assert_eq!(time!(1:00).duration_since(time!(23:00)), 2.hours());
    assert_eq!(time.replace_hour(23), Ok(time!(23:02:03.004_005_006)));
    assert_eq!(time.replace_millisecond(9), Ok(time!(1:02:03.009)));
    assert_eq!(name(time.replace_microsecond(1_000_000)), ("microsecond", false));
    assert_eq!(time.truncate_to_minute(), time!(1:02));
    assert_eq!(time.truncate_to_microsecond(), time!(1:02:03.004_005));
}

#[test]
fn offsets() {
    assert_eq!(name(UtcOffset::from_hms(26, 60, 60)), ("hours", false));
    assert_eq!(name(UtcOffset::from_hms(25, 60, 60)), ("minutes", false));
    assert_eq!(name(UtcOffset::from_hms(25, 59, -60)), ("seconds", false));
    assert_eq!(name(UtcOffset::from_whole_seconds(93_600)), ("offset_seconds", false));
    let offset = UtcOffset::from_hms(1, -2, -3).unwrap();
    assert_eq!((offset.whole_seconds(), offset.as_hms()), (3_723, (1, 2, 3)));
    assert_eq!((-offset).as_hms(), (-1, -2, -3));
    assert_eq!((offset.whole_hours(), offset.whole_minutes()), (1, 62));
    assert_eq!((offset.minutes_past_hour(), offset.seconds_past_minute()), (2, 3));
    assert!(offset.is_positive() && !offset.is_negative() && !offset.is_utc());
    assert_eq!(offset, offset!(+1:02:03));
}

#[test]
fn date_times_show_and_move() {
    let plain = datetime!(2024-02-29 12:34:56.789);
    assert_eq!(plain, PrimitiveDateTime::new(date!(2024 - 02 - 29), time!(12:34:56.789)));
    assert_eq!((plain.ordinal(), plain.hour(), plain.millisecond()), (60, 12, 789));
    assert_eq!(plain + 1.days(), datetime!(2024-03-01 12:34:56.789));
    assert_eq!(plain.checked_sub(SignedDuration::MAX), None);
    assert_eq!(plain.saturating_sub(SignedDuration::MAX), PlainDateTime::MIN);
    assert_eq!(plain.truncate_to_day(), datetime!(2024-02-29 0:00));
    assert_eq!(plain.truncate_to_second(), datetime!(2024-02-29 12:34:56));
    assert_eq!(plain.replace_ordinal(61), Ok(datetime!(2024-03-01 12:34:56.789)));
    assert_eq!(name(plain.replace_ordinal(367)), ("ordinal", false));
    let shown = plain.assume_offset(offset!(+1));
    assert_eq!(shown, datetime!(2024-02-29 11:34:56.789 UTC));
    assert_eq!(shown.to_hms_milli(), (12, 34, 56, 789));
    assert_eq!((shown.date().days_since_epoch(), shown.offset()), (19_782, offset!(+1)));
    assert_eq!(shown.unix_timestamp(), 1_709_206_496);
    assert_eq!(shown.unix_timestamp_nanos(), 1_709_206_496_789_000_000);
    assert_eq!(shown.replace_offset(offset!(UTC)).unix_timestamp(), 1_709_210_096);
    assert!(
        shown.is_same(datetime!(2024-02-29 12:34:56.789 +1))
            && !shown.is_same(shown.to_utc().into())
    );
    assert_eq!(shown.truncated_to(Unit::Hour), datetime!(2024-02-29 12:00 +1));
    assert_eq!(shown.replace_hour(0), Ok(datetime!(2024-02-29 0:34:56.789 +1)));
    assert_eq!(shown - datetime!(2024-02-29 12:34:56.789 UTC), (-1).hours());
}

#[test]
fn wall_clocks_beyond_the_instants() {
    let before = PlainDateTime::MIN.assume_offset(offset!(+1));
    assert_eq!((before.checked_to_utc(), before.checked_to_timestamp()), (None, None));
    assert_eq!(before.checked_to_offset(offset!(UTC)), None);
    assert_eq!(before.to_offset(offset!(+2)).to_string(), "-999999-01-01 1:00:00.0 +02:00:00");
    assert_eq!(before.unix_timestamp(), Timestamp::MIN.as_seconds() - 3_600);
    assert!(before < Timestamp::MIN && before < UtcDateTime::MIN);
    assert!(Timestamp::MIN > before);
    assert_eq!(Timestamp::MIN.checked_to_offset(offset!(-0:00:01)), None);
}

#[test]
fn instants() {
    assert_eq!(name(Timestamp::new(i64::MAX, u32::MAX)), ("seconds", false));
    assert_eq!(name(Timestamp::new(0, 1_000_000_000)), ("nanoseconds", false));
    assert_eq!(name(Timestamp::from_milliseconds(i64::MAX)), ("milliseconds", false));
    assert_eq!(name(Timestamp::from_microseconds(i128::MIN)), ("microseconds", false));
    assert_eq!(name(UtcDateTime::from_unix_timestamp(i64::MIN)), ("timestamp", false));
    let at = Timestamp::from_nanoseconds(-999_000_001).unwrap();
    assert_eq!(at, timestamp!(-0.999_000_001));
    assert_eq!((at.as_seconds(), at.nanosecond()), (-1, 999_999));
    assert_eq!((at.as_milliseconds(), at.as_microseconds()), (-1_000, -999_001));
    assert_eq!(at.as_nanoseconds(), -999_000_001);
    for at in [Timestamp::MIN, at, Timestamp::MAX] {
        assert_eq!(Timestamp::from_nanoseconds(at.as_nanoseconds()), Ok(at));
        assert_eq!(UtcDateTime::from_unix_timestamp_nanos(at.as_nanoseconds()), Ok(at.to_utc()));
        assert_eq!(Timestamp::from(at.to_utc()), at);
        assert_eq!(at.to_utc().unix_timestamp(), at.as_seconds());
        assert_eq!(at, OffsetDateTime::from(at));
    }
    assert_eq!(Timestamp::MAX.checked_add(1.nanoseconds()), None);
    assert_eq!(Timestamp::MAX.saturating_add(1.nanoseconds()), Timestamp::MAX);
    assert_eq!(at.truncated_to(Unit::Day), timestamp!(-86_400));
    assert_eq!(at.replace_hour(0), timestamp!(-82_800.999_000_001).replace_nanosecond(999_999));
    assert_eq!(name(at.replace_nanosecond(u32::MAX)), ("nanosecond", false));
    assert_eq!(at.replace_date(date!(1970 - 01 - 01)), timestamp!(86_399.000_999_999));
    assert_eq!(at.weekday(), Weekday::Wednesday);
    assert_eq!(at - utc_datetime!(1970-01-01 0:00), (-999_000_001).nanoseconds());
}

#[cfg(feature = "std")]
#[test]
fn clocks_of_the_machine() {
    use std::time::SystemTime;

    let time = SystemTime::UNIX_EPOCH - StdDuration::from_millis(500);
    assert_eq!(Timestamp::from(time), timestamp!(-0.5));
    assert_eq!(SystemTime::from(utc_datetime!(1969-12-31 23:59:59.5)), time);
    assert_eq!(datetime!(1970-01-01 0:00 UTC) - time, 500.milliseconds());
    assert!(OffsetDateTime::now_utc() > time && UtcDateTime::now() > Timestamp::from(time));
    assert_eq!(time, timestamp!(-0.5));
    let mut moved = time + (-1.5).seconds();
    assert_eq!(moved, timestamp!(-2));
    moved -= 1.days();
    moved += 1.hours();
    assert_eq!(moved, timestamp!(-82_802));
    assert_eq!(moved - (-82_802).seconds(), SystemTime::UNIX_EPOCH);
    let began = std::time::Instant::now();
    assert_eq!(began + 1.seconds() - 1.seconds(), began);
    // Times that no value of the range has compare too.
    let year = StdDuration::from_secs(31_556_952);
    for (later, far) in [
        (true, SystemTime::UNIX_EPOCH + year * 2_000_000),
        (false, SystemTime::UNIX_EPOCH - year * 2_000_000),
    ] {
        assert_ne!(Timestamp::UNIX_EPOCH, far);
        assert_eq!(Timestamp::MAX < far, later);
        assert_eq!(UtcDateTime::MIN < far, later);
        assert_eq!(far > datetime!(+999999-12-31 23:59 -25:59:59), later);
        assert_eq!((far - Timestamp::UNIX_EPOCH).is_positive(), later);
        assert_eq!(UtcDateTime::UNIX_EPOCH - far, datetime!(1970-01-01 0:00 UTC) - far);
    }
}

/// `x.to_string().parse()` gives x.
macro_rules! read_back {
    ($($value:expr),+ $(,)?) => {
        $(
            let value = $value;
            assert_eq!(value.to_string().parse(), Ok(value));
        )+
    };
}

#[test]
fn texts_are_read_back() {
    read_back!(
        Date::MIN,
        Date::MAX,
        date!(0 - 02 - 29),
        date!(-1 - 12 - 31),
        date!(9999 - 12 - 31),
        date!(10000 - 01 - 01)
    );
    read_back!(Time::MIDNIGHT, Time::MAX, time!(1:02:03.004_005));
    read_back!(UtcOffset::UTC, offset!(-25:59:59), offset!(+0:00:01), offset!(-0:30));
    read_back!(PlainDateTime::MIN, PlainDateTime::MAX, datetime!(2024-02-29 1:02:03.5));
    read_back!(UtcDateTime::MIN, UtcDateTime::MAX, utc_datetime!(0-01-01 0:00));
    read_back!(
        datetime!(2024-02-29 1:02:03.5 -5:30),
        PlainDateTime::MAX.assume_offset(offset!(-25:59:59))
    );
    read_back!(
        Timestamp::MIN,
        Timestamp::MAX,
        timestamp!(-0.000_000_001),
        timestamp!(0),
        timestamp!(1.5)
    );
    read_back!(
        SignedDuration::MIN,
        SignedDuration::MAX,
        SignedDuration::ZERO,
        (-1_001).milliseconds()
    );
    for month in 1..=12 {
        read_back!(Month::try_from(month).unwrap());
    }
    let mut weekday = Weekday::Monday;
    for _ in 0..7 {
        read_back!(weekday);
        weekday = weekday.next();
    }
    let text = datetime!(2024-02-29 1:02:03.5 -5:30).to_string();
    let shown: OffsetDateTime = text.parse().unwrap();
    assert_eq!(shown.offset(), offset!(-5:30));
}

#[test]
fn texts_of_other_forms_are_refused() {
    for text in
        ["", "2024-2-29", "2024-02-29 ", "2024-060", "20_24-02-29", "+2024-02-29", "2024-W09-4"]
    {
        assert_eq!(text.parse::<Date>(), Err(Refusal::Syntax), "{text}");
    }
    assert_eq!("2023-02-29".parse::<Date>(), Err(Refusal::OutOfRange("day")));
    for text in ["1:02", "01:02:03.0", "1:02:03", "1:02:03.10"] {
        assert_eq!(text.parse::<Time>(), Err(Refusal::Syntax), "{text}");
    }
    assert_eq!("24:00:00.0".parse::<Time>(), Err(Refusal::OutOfRange("hour")));
    assert_eq!("UTC".parse::<UtcOffset>(), Err(Refusal::Syntax));
    assert_eq!("2024-02-29 1:02:03.0 +00:00:00".parse::<UtcDateTime>(), Err(Refusal::Syntax));
    assert_eq!("1.50".parse::<Timestamp>(), Err(Refusal::Syntax));
    assert_eq!("-0".parse::<Timestamp>(), Err(Refusal::Syntax));
    for text in ["2024-02-29", "1 000", "1 month", "1.", "1h30", "PT", "0.5ns"] {
        assert_eq!(text.parse::<SignedDuration>(), Err(Refusal::Syntax), "{text}");
    }
    let past_the_end = "106751991167301 days".parse::<SignedDuration>();
    assert_eq!(past_the_end, Err(Refusal::OutOfRange("duration")));
    assert!("Mon".parse::<Weekday>().is_err() && "january".parse::<Month>().is_err());
}

#[test]
fn texts_of_durations() {
    for (text, duration) in [
        ("36h", 36.hours()),
        ("PT36H", 36.hours()),
        ("-1h30m", -90.minutes()),
        ("-1 hour 30 minutes", -30.minutes()),
        ("1 day -0.5 seconds", 1.days() - 500.milliseconds()),
        ("1.5", 1_500.milliseconds()),
        ("7µs", 7.microseconds()),
    ] {
        assert_eq!(text.parse(), Ok(duration), "{text}");
    }
}

#[test]
fn texts_of_rfc_3339() {
    let at = datetime!(1996-12-19 16:39:57 -8);
    assert_eq!(at.to_rfc3339().unwrap(), "1996-12-19T16:39:57-08:00");
    assert_eq!(at.to_rfc3339_digits(1).unwrap(), "1996-12-19T16:39:57.0-08:00");
    assert_eq!(at.to_utc().to_rfc3339().unwrap(), "1996-12-20T00:39:57Z");
    assert_eq!(Timestamp::from(at).to_rfc3339_nanos().unwrap(), "1996-12-20T00:39:57.000000000Z");
    assert_eq!("1996-12-19T16:39:57-08:00".parse(), Ok(at));
    assert_eq!("1996-12-19T16:39:57-08:00".parse(), Ok(Timestamp::from(at)));
    assert_eq!("1996-12-19 16:39:57-08:00".parse(), Ok(at.to_utc()));
    assert_eq!(OffsetDateTime::from_rfc3339(b"1996-12-20t00:39:57z"), Ok(at));
    assert!(Timestamp::MAX.to_rfc3339().is_none());
    assert_eq!("1996-12-19T24:39:57Z".parse::<Timestamp>(), Err(Refusal::OutOfRange("hour")));
    assert_eq!(
        "1996-12-19T16:39:57+24:00".parse::<OffsetDateTime>(),
        Err(Refusal::OutOfRange("hours"))
    );
    assert_eq!(Refusal::OutOfRange("hour").to_string(), "hour is out of range");
}

#[test]
fn leap_seconds_are_read_in_order() {
    let written = [
        ("2016-12-31T23:59:58.999999999Z", false),
        ("2016-12-31T23:59:59.9Z", false),
        ("2016-12-31T23:59:60Z", true),
        ("2016-12-31T15:59:60.5-08:00", true),
        ("2017-01-01T00:00:00Z", false),
    ];
    let read = written.map(|(text, _)| OffsetDateTime::from_rfc3339_leap(text.as_bytes()).unwrap());
    assert_eq!(read.map(|(_, is_leap)| is_leap), written.map(|(_, is)| is));
    assert!(read.is_sorted_by_key(|(at, _)| *at));
    let last = datetime!(2016-12-31 15:59:59.999999999 -8);
    assert!(read[2].0 == last && read[3].0.is_same(last));
    for (text, refusal) in [
        ("2016-12-31T23:59:60-08:00", Refusal::OutOfRange("second")),
        ("2024-02-28T23:59:60Z", Refusal::OutOfRange("second")),
        ("2016-12-31T23:59:61Z", Refusal::OutOfRange("second")),
        ("2016-12-31T12:00:60+24:00", Refusal::OutOfRange("hours")),
        ("2016-12-31T23:59:60", Refusal::Syntax),
    ] {
        let read = OffsetDateTime::from_rfc3339_leap(text.as_bytes());
        assert_eq!(read.map_err(Refusal::from), Err(refusal));
    }
}

#[test]
fn durations() {
    let duration: Duration = 1.days() + 2.hours() - 3.minutes();
    assert_eq!((duration.whole_days(), duration.whole_hours()), (1, 25));
    assert_eq!((duration.whole_minutes(), duration.whole_weeks()), (1_557, 0));
    assert_eq!(duration.to_string(), "1d1h57m");
    assert_eq!(-duration / 3, (-31_140).seconds());
    assert_eq!(2 * duration, duration + duration);
    assert_eq!((-1.5).seconds().subsec_milliseconds(), -500);
    assert_eq!(
        SignedDuration::seconds_f64(123_456_789.125),
        SignedDuration::new(123_456_789, 125_000_000)
    );
    assert!(std::panic::catch_unwind(|| SignedDuration::seconds_f64(f64::NAN)).is_err());
    assert!(std::panic::catch_unwind(|| SignedDuration::seconds_f64(1e19)).is_err());
    assert_eq!(SignedDuration::seconds_f64(-(2_f64.powi(63))).whole_seconds(), i64::MIN);
    assert_eq!((1.5 * 1.hours(), 1.hours() / 4_u8), (90.minutes(), 15.minutes()));
    assert_eq!(1.hours() + 30.std_minutes(), SignedDuration::seconds_f32(5_400.0));
    for duration in [SignedDuration::new(10_000_000_000, 1), SignedDuration::MAX] {
        assert_eq!((duration * 1.0, duration / -1.0), (duration, -duration));
        assert_eq!((duration * 0.0, duration / f64::INFINITY), (Duration::ZERO, Duration::ZERO));
        for factor in [2e20, f64::INFINITY, f64::NAN] {
            assert!(std::panic::catch_unwind(|| duration * factor).is_err(), "{factor}");
        }
        assert!(std::panic::catch_unwind(|| duration / 0.0).is_err());
    }
    assert!(1.hours() < 61.std_minutes() && StdDuration::MAX > SignedDuration::MAX);
    assert_eq!(1.std_hours(), 60.minutes());
    assert_eq!(SignedDuration::MAX.checked_add(1.nanoseconds()), None);
    assert_eq!(SignedDuration::MIN.saturating_sub(1.weeks()), SignedDuration::MIN);
    assert_eq!(SignedDuration::MIN.checked_neg(), None);
    assert_eq!(SignedDuration::try_from(StdDuration::MAX), Err(muxandu::error::ConversionRange));
    assert_eq!(StdDuration::try_from(1.hours()), Ok(1.std_hours()));
    assert_eq!(1.std_hours() + (-2).hours(), (-1).hours());
    assert_eq!(1.std_hours() - 2.hours(), (-1).hours());
    let mut length = 1.std_hours();
    length += (-30).minutes();
    length -= (-1).minutes();
    assert_eq!(length, 31.minutes());
    let mut signed = 3.hours();
    signed *= -2;
    signed /= 0.5;
    assert_eq!(signed, (-12).hours());
    assert_eq!((1.hours() / 2.std_hours(), 1.std_hours() / (-2).hours()), (0.5, -0.5));
    assert!(StdDuration::try_from((-1).nanoseconds()).is_err());
    assert_eq!([1.hours(), 30.minutes()].iter().sum::<SignedDuration>(), 90.minutes());
}

#[test]
fn padding() {
    assert_eq!(
        format!("{:>12}|{:<12}|{:^6}", date!(2024 - 02 - 29), time!(1:02), Month::May),
        "  2024-02-29|1:02:00.0   | May  "
    );
    assert_eq!(format!("{:?}", datetime!(2024-02-29 1:02 UTC)), "2024-02-29 1:02:00.0 +00:00:00");
}
