//! Values of the crate `chrono`, both ways: each is the same, or an error names its part.

use chrono::{DateTime, Datelike, FixedOffset, NaiveDate, NaiveDateTime, NaiveTime};
use chrono::{Offset, TimeZone, Timelike, Utc};
use time::error::{ComponentRange, ConversionRange};
use time::ext::NumericalDuration;
use time::macros::{date, datetime, offset, time, timestamp, utc_datetime};
use time::{
    Date, Duration, Month, OffsetDateTime, PlainDateTime, Time, Timestamp, UtcDateTime, UtcOffset,
    Weekday,
};

/// The two are the same, both ways.
macro_rules! is_same {
    ($Ours:ty: $ours:expr, $Theirs:ty: $theirs:expr) => {{
        let (ours, theirs): ($Ours, $Theirs) = ($ours, $theirs);
        assert_eq!(<$Theirs>::try_from(ours).unwrap(), theirs);
        assert_eq!(<$Ours>::try_from(theirs).unwrap(), ours);
    }};
}

/// The part that a value is refused for.
fn part<T: std::fmt::Debug>(refused: Result<T, ComponentRange>) -> &'static str {
    refused.unwrap_err().name()
}

fn naive(year: i32, month: u32, day: u32) -> NaiveDate {
    NaiveDate::from_ymd_opt(year, month, day).unwrap()
}

/// The Julian day 1,721,425 precedes the first day of the year 1, from which `chrono` counts.
#[test]
fn dates_have_the_same_day() {
    let (first, last) = (NaiveDate::MIN, NaiveDate::MAX);
    let days = first.num_days_from_ce()..=last.num_days_from_ce();
    let every = days.clone().step_by(997).chain([*days.end()]);
    for day in every {
        let theirs = NaiveDate::from_num_days_from_ce_opt(day).unwrap();
        let ours = Date::from(theirs);
        assert_eq!(ours.to_julian_day(), day + 1_721_425);
        assert_eq!(NaiveDate::try_from(ours), Ok(theirs));
        assert_eq!(chrono::Weekday::from(ours.weekday()), theirs.weekday());
    }
    is_same!(Date: date!(2024 - 02 - 29), NaiveDate: naive(2024, 2, 29));
    assert_eq!(part(NaiveDate::try_from(Date::MAX)), "year");
    assert_eq!(part(NaiveDate::try_from(Date::MIN)), "year");
    assert_eq!(part(NaiveDate::try_from(Date::from(last).next_day().unwrap())), "year");
    assert_eq!(part(NaiveDate::try_from(Date::from(first).previous_day().unwrap())), "year");
}

#[test]
fn times_of_day_have_the_same_nanosecond() {
    let theirs = NaiveTime::from_hms_nano_opt(23, 59, 59, 999_999_999).unwrap();
    is_same!(Time: time!(23:59:59.999_999_999), NaiveTime: theirs);
    is_same!(Time: Time::MIDNIGHT, NaiveTime: NaiveTime::from_hms_opt(0, 0, 0).unwrap());
    let leap = NaiveTime::from_hms_nano_opt(23, 59, 59, 1_000_000_000).unwrap();
    assert_eq!(part(Time::try_from(leap)), "nanosecond");
}

#[test]
fn offsets_have_the_same_seconds() {
    for seconds in [-86_399, -5_400, -1, 0, 1, 19_800, 86_399] {
        let theirs = FixedOffset::east_opt(seconds).unwrap();
        is_same!(UtcOffset: UtcOffset::from_whole_seconds(seconds).unwrap(), FixedOffset: theirs);
    }
    assert_eq!(part(FixedOffset::try_from(offset!(+24))), "hours");
    assert_eq!(part(FixedOffset::try_from(offset!(-25:59:59))), "hours");
}

#[test]
fn durations_have_the_same_nanoseconds() {
    use chrono::Duration as Theirs;

    is_same!(Duration: 90.minutes(), Theirs: Theirs::minutes(90));
    is_same!(Duration: Duration::new(-1, -1), Theirs: -Theirs::nanoseconds(1_000_000_001));
    is_same!(Duration: 999_999_999.nanoseconds(), Theirs: Theirs::nanoseconds(999_999_999));
    is_same!(Duration: Duration::ZERO, Theirs: Theirs::zero());
    let most = Duration::milliseconds(i64::MAX);
    is_same!(Duration: most, Theirs: Theirs::milliseconds(i64::MAX));
    is_same!(Duration: -most, Theirs: -Theirs::milliseconds(i64::MAX));
    for beyond in [most + 1.nanoseconds(), -most - 2.milliseconds(), Duration::MIN] {
        assert_eq!(Theirs::try_from(beyond), Err(ConversionRange));
    }
    let first = Theirs::min_value();
    assert_eq!(Duration::from(first).whole_milliseconds(), first.num_milliseconds().into());
}

fn plain_of_chrono() -> NaiveDateTime {
    naive(2024, 2, 29).and_hms_nano_opt(12, 34, 56, 789_000_000).unwrap()
}

#[test]
fn date_times_show_the_same() {
    let ours = datetime!(2024-02-29 12:34:56.789);
    is_same!(PlainDateTime: ours, NaiveDateTime: plain_of_chrono());
    assert_eq!(part(NaiveDateTime::try_from(PlainDateTime::MAX)), "year");
    let leap = plain_of_chrono().with_nanosecond(1_500_000_000).unwrap();
    assert_eq!(part(PlainDateTime::try_from(leap)), "nanosecond");
}

#[test]
fn instants_are_the_same() {
    let theirs: DateTime<Utc> = Utc.from_utc_datetime(&plain_of_chrono());
    is_same!(UtcDateTime: utc_datetime!(2024-02-29 12:34:56.789), DateTime<Utc>: theirs);
    is_same!(Timestamp: timestamp!(1_709_210_096.789), DateTime<Utc>: theirs);
    assert_eq!(Timestamp::try_from(theirs).unwrap().as_seconds(), theirs.timestamp());
    let before: DateTime<Utc> = Utc.timestamp_opt(-1, 500_000_000).unwrap();
    is_same!(Timestamp: timestamp!(-0.5), DateTime<Utc>: before);
    assert_eq!(part(DateTime::<Utc>::try_from(UtcDateTime::MIN)), "year");
    assert_eq!(part(DateTime::<Utc>::try_from(Timestamp::MAX)), "year");
    let leap = theirs.with_nanosecond(1_000_000_000).unwrap();
    assert_eq!(part(UtcDateTime::try_from(leap)), "nanosecond");
    assert_eq!(part(Timestamp::try_from(leap)), "nanosecond");
    assert_eq!(part(OffsetDateTime::try_from(leap)), "nanosecond");
}

#[test]
fn date_times_at_an_offset_are_the_same() {
    let west = FixedOffset::west_opt(12_600).unwrap();
    let theirs: DateTime<FixedOffset> = west.from_local_datetime(&plain_of_chrono()).unwrap();
    let ours = datetime!(2024-02-29 12:34:56.789 -3:30);
    let made = DateTime::<FixedOffset>::try_from(ours).unwrap();
    assert_eq!((made, made.offset().fix(), made.naive_local()), (theirs, west, plain_of_chrono()));
    assert!(OffsetDateTime::try_from(theirs).unwrap().is_same(ours));
    let utc = OffsetDateTime::try_from(theirs.with_timezone(&Utc)).unwrap();
    assert!(utc.is_same(datetime!(2024-02-29 16:04:56.789 UTC)));
    let refused = |at: OffsetDateTime| part(DateTime::<FixedOffset>::try_from(at));
    assert_eq!(refused(ours.replace_offset(offset!(+25))), "hours");
    assert_eq!(refused(PlainDateTime::MAX.assume_utc()), "year");
    assert_eq!(refused(PlainDateTime::MAX.assume_offset(offset!(-1))), "year");
    // The instant is in the range of `chrono`, and what the clocks show is not, and the other way.
    let last = PlainDateTime::new(NaiveDate::MAX.into(), time!(23:00)).assume_utc();
    assert!(DateTime::<FixedOffset>::try_from(last).is_ok());
    assert_eq!(refused(last.to_offset(offset!(+2))), "year");
    assert_eq!(refused(last.replace_offset(offset!(-2))), "year");
}

#[test]
fn names_are_the_same() {
    let months = [Month::January, Month::February, Month::March, Month::April, Month::May];
    for month in months.into_iter().chain([Month::June, Month::July, Month::August]) {
        let theirs = chrono::Month::from(month);
        assert_eq!(theirs.number_from_month(), u32::from(u8::from(month)));
        assert_eq!((theirs.name(), Month::from(theirs)), (&*month.to_string(), month));
    }
    for month in [Month::September, Month::October, Month::November, Month::December] {
        let theirs = chrono::Month::from(month);
        assert_eq!(theirs.number_from_month(), u32::from(u8::from(month)));
        assert_eq!(Month::from(theirs), month);
    }
    let mut weekday = Weekday::Monday;
    for number in 0..7 {
        let theirs = chrono::Weekday::from(weekday);
        assert_eq!((theirs.num_days_from_monday(), Weekday::from(theirs)), (number, weekday));
        weekday = weekday.next();
    }
}
