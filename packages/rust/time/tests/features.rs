//! Random values, values for quickcheck, and the offset of the machine's clock.

use quickcheck::{Arbitrary, Gen, QuickCheck, Testable};
use rand::distributions::{Distribution, Standard};
use rand::rngs::SmallRng;
use rand::{Rng, SeedableRng};
use std::process::Command;
use time::error::{DifferentVariant, IndeterminateOffset};
use time::macros::{date, datetime, offset, time, timestamp};
use time::zones::Zone;
use time::{
    Date, Duration, Month, OffsetDateTime, PrimitiveDateTime, Time, Timestamp, UtcDateTime,
    UtcOffset, Weekday,
};

/// The numbers of 1,000 random values.
fn random<T>(number: impl Fn(T) -> i128) -> Vec<i128>
where
    Standard: Distribution<T>,
{
    let mut rng = SmallRng::seed_from_u64(1);
    (0..1_000).map(|_| number(rng.r#gen())).collect()
}

/// The numbers lie in a range, and in each tenth of it, or are all of a small one.
fn are_spread(numbers: &[i128], least: i128, most: i128) {
    assert!(numbers.iter().all(|number| (least..=most).contains(number)));
    let size = most - least + 1;
    let parts = if size < 100 { size } else { 10 };
    for part in 0..parts {
        let has_one = numbers.iter().any(|number| (number - least) * parts / size == part);
        assert!(has_one, "{least} to {most}: none in part {part}");
    }
}

#[test]
fn random_values_are_spread_over_the_range() {
    let of_date = |date: Date| i128::from(date.to_julian_day());
    are_spread(&random(of_date), of_date(Date::MIN), of_date(Date::MAX));
    let of_time = |time: Time| (time - Time::MIDNIGHT).whole_nanoseconds();
    are_spread(&random(of_time), 0, of_time(Time::MAX));
    are_spread(&random(|offset: UtcOffset| offset.whole_seconds().into()), -86_399, 86_399);
    let plain = |at: PrimitiveDateTime| at.assume_utc().unix_timestamp_nanos();
    are_spread(&random(plain), plain(PrimitiveDateTime::MIN), plain(PrimitiveDateTime::MAX));
    let utc = |at: UtcDateTime| at.unix_timestamp_nanos();
    are_spread(&random(utc), utc(UtcDateTime::MIN), utc(UtcDateTime::MAX));
    are_spread(
        &random(|at: OffsetDateTime| at.date().to_julian_day().into()),
        of_date(Date::MIN),
        of_date(Date::MAX),
    );
    are_spread(&random(|at: OffsetDateTime| at.offset().whole_seconds().into()), -86_399, 86_399);
    let instant = |at: Timestamp| at.as_nanoseconds();
    are_spread(&random(instant), instant(Timestamp::MIN), instant(Timestamp::MAX));
    let length = |duration: Duration| duration.whole_nanoseconds();
    are_spread(&random(length), length(Duration::MIN), length(Duration::MAX));
    are_spread(&random(|month: Month| u8::from(month).into()), 1, 12);
    are_spread(&random(|weekday: Weekday| weekday.number_from_monday().into()), 1, 7);
}

/// The values of quickcheck for 1,000 sizes.
fn arbitrary<T: Arbitrary>(number: impl Fn(T) -> i128) -> Vec<i128> {
    let mut g = Gen::new(100);
    (0..2_000).map(|_| number(T::arbitrary(&mut g))).collect()
}

#[test]
fn arbitrary_values_are_spread_over_the_range() {
    let of_date = |date: Date| i128::from(date.to_julian_day());
    are_spread(&arbitrary(of_date), of_date(Date::MIN), of_date(Date::MAX));
    let of_time = |time: Time| (time - Time::MIDNIGHT).whole_nanoseconds();
    are_spread(&arbitrary(of_time), 0, of_time(Time::MAX));
    are_spread(&arbitrary(|offset: UtcOffset| offset.whole_seconds().into()), -86_399, 86_399);
    are_spread(
        &arbitrary(|at: OffsetDateTime| at.date().to_julian_day().into()),
        of_date(Date::MIN),
        of_date(Date::MAX),
    );
    are_spread(
        &arbitrary(|at: UtcDateTime| at.date().to_julian_day().into()),
        of_date(Date::MIN),
        of_date(Date::MAX),
    );
    let instant = |at: Timestamp| at.as_nanoseconds();
    are_spread(&arbitrary(instant), instant(Timestamp::MIN), instant(Timestamp::MAX));
    let length = |duration: Duration| duration.whole_nanoseconds();
    are_spread(&arbitrary(length), length(Duration::MIN), length(Duration::MAX));
    are_spread(&arbitrary(|month: Month| u8::from(month).into()), 1, 12);
    are_spread(&arbitrary(|weekday: Weekday| weekday.number_from_monday().into()), 1, 7);
}

#[test]
fn values_shrink_to_the_simplest() {
    /// The last of the first simpler ones of each.
    fn simplest<T: Arbitrary>(mut value: T) -> T {
        while let Some(simpler) = value.shrink().next() {
            value = simpler;
        }
        value
    }
    assert_eq!(simplest(Month::May), Month::January);
    assert_eq!(simplest(Weekday::Sunday), Weekday::Monday);
    assert_eq!(simplest(Duration::MIN), Duration::ZERO);
    assert_eq!(simplest(timestamp!(1.5)), Timestamp::UNIX_EPOCH);
    assert_eq!(simplest(time!(23:59)), Time::MIDNIGHT);
    assert_eq!(simplest(offset!(-1:30)), UtcOffset::UTC);
    assert!(date!(2024 - 02 - 29).shrink().all(|date| date < date!(2024 - 02 - 29)));
    assert!(datetime!(2024-02-29 1:00).shrink().count() > 5);
    assert!(datetime!(2024-02-29 1:00).as_utc().shrink().count() > 5);
    let at = datetime!(2024-02-29 1:00 +1);
    let (plain, offset): (Vec<_>, Vec<_>) =
        at.shrink().partition(|simpler| simpler.offset() == at.offset());
    assert!(plain.len() > 5 && !offset.is_empty());
}

#[test]
fn a_property_is_tested() {
    fn days_come_back(date: Date, duration: Duration) -> bool {
        let whole = Duration::days(duration.whole_days());
        date.checked_add(whole).is_none_or(|later| later - date == whole)
    }
    let property: fn(Date, Duration) -> bool = days_come_back;
    QuickCheck::new().quickcheck(property as fn(Date, Duration) -> bool);
    let mut g = Gen::new(10);
    assert!(!property.result(&mut g).is_failure());
}

#[test]
fn the_offset_of_the_machine_is_that_of_its_zone() {
    let zone = Zone::local().unwrap();
    for at in [OffsetDateTime::UNIX_EPOCH, datetime!(2024-07-01 12:00 -5)] {
        assert_eq!(UtcOffset::local_offset_at(at), Ok(zone.offset_at(at)));
    }
    let now = OffsetDateTime::now_local().unwrap();
    assert_eq!(UtcOffset::local_offset_at(now), Ok(now.offset()));
    assert!((OffsetDateTime::now_utc() - now).whole_minutes() == 0);
    assert!(UtcOffset::current_local_offset().is_ok());
}

/// What the machine's offset is with these variables, in a process of its own.
fn told(tz: &str) -> String {
    let mut run = Command::new(std::env::current_exe().unwrap());
    run.args(["--exact", "tell_offsets", "--ignored", "--nocapture"]).env("TZ", tz);
    let text = String::from_utf8(run.output().unwrap().stdout).unwrap();
    let begin = text.find('[').expect(&text) + 1;
    text[begin..begin + text[begin..].find(']').expect(&text)].into()
}

#[test]
#[ignore = "another test runs it with variables of its own"]
fn tell_offsets() {
    let summer = UtcOffset::local_offset_at(datetime!(2024-07-01 12:00 UTC));
    let winter = UtcOffset::local_offset_at(datetime!(2024-01-01 12:00 UTC));
    // SAFETY: no other thread of this process reads or changes variables.
    unsafe { std::env::set_var("TZ", "AAA-5") };
    let now = OffsetDateTime::now_local().map(OffsetDateTime::offset);
    let same = now == UtcOffset::current_local_offset();
    println!("[{summer:?} {winter:?} {now:?} {same}]");
}

#[test]
fn the_offset_of_the_machine_follows_its_variable() {
    let berlin = "Ok(+02:00:00) Ok(+01:00:00) Ok(+05:00:00) true";
    assert_eq!(told("CET-1CEST,M3.5.0,M10.5.0/3"), berlin);
    assert_eq!(told(""), "Ok(+00:00:00) Ok(+00:00:00) Ok(+05:00:00) true");
    let unknown = "Err(IndeterminateOffset) Err(IndeterminateOffset) Ok(+05:00:00) true";
    assert_eq!((told("Nowhere/Here").as_str(), told("../UTC").as_str()), (unknown, unknown));
}

#[test]
fn the_error_of_an_unknown_offset_is_one_of_the_crate() {
    let error = time::Error::from(IndeterminateOffset);
    assert!(error.to_string().starts_with("the offset of the machine's clock is not known"));
    assert_eq!(IndeterminateOffset::try_from(error), Ok(IndeterminateOffset));
    let error = time::Error::from(IndeterminateOffset);
    assert_eq!(time::error::Format::try_from(error), Err(DifferentVariant));
}
