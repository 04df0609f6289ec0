//! Instants by their Unix seconds.
use super::is;
use calendar_values::{ComponentRange, Date, Month, SignedDuration, Time, UtcOffset, Weekday};
use offset_times::{Assume, OffsetDateTime};
use stamp_times::{Timestamp, ToTimestamp, laws};
use std::cmp::Ordering;
use std::hash::{DefaultHasher, Hash, Hasher};
use std::test::Fail;
use std::time::Duration;
use utc_times::UtcDateTime;

#[test]
fn texts(rt: HostRuntime) -> Result<(), Fail> {
    for (second, nanosecond, text) in [
        (0, 0, "0"),
        (-31_619_087_596_800, 0, "-31619087596800"),
        (-31_619_087_596_800, 1, "-31619087596799.999999999"),
        (31_494_784_780_799, 999_999_999, "31494784780799.999999999"),
        (31_494_784_780_799, 999_000_000, "31494784780799.999"),
        (-1, 500_000_000, "-0.5"),
        (-1, 300_000_000, "-0.7"),
        (-1, 0, "-1"),
        (-1, 999_999_000, "-0.000001"),
        (-1, 999_999_999, "-0.000000001"),
        (1_546_398_245, 100, "1546398245.0000001"),
    ] {
        let at = Timestamp::new(second, nanosecond)?;
        is(&rt, at.text().as_str(), text);
        is(&rt, at.as_seconds(), second);
        is(&rt, at.nanosecond(), nanosecond);
    }
    Ok(())
}

#[test]
fn constructors(rt: HostRuntime) -> Result<(), Fail> {
    let known = stamp_times::constants::timestamps();
    let (first, last, epoch) = (known.first, known.last, known.epoch);
    let half = Timestamp::from_milliseconds(-500);
    for (at, second, nanosecond) in [
        (Ok(epoch), 0, 0),
        (Ok(first), -31_619_087_596_800, 0),
        (Ok(last), 31_494_784_780_799, 999_999_999),
        (half, -1, 500_000_000),
        (half?.replace_nanosecond(0), -1, 0),
        (half?.replace_nanosecond(300_000_000), -1, 300_000_000),
        (Timestamp::from_microseconds(-1), -1, 999_999_000),
        (Timestamp::from_nanoseconds(-1), -1, 999_999_999),
        (
            Timestamp::from_nanoseconds(1_546_398_245_000_000_100),
            1_546_398_245,
            100,
        ),
        (
            Timestamp::from_milliseconds(-31_619_087_596_800_000),
            -31_619_087_596_800,
            0,
        ),
        (
            Timestamp::from_milliseconds(31_494_784_780_799_999),
            31_494_784_780_799,
            999_000_000,
        ),
    ] {
        let at = at?;
        is(&rt, at.as_seconds(), second);
        is(&rt, at.nanosecond(), nanosecond);
    }
    Ok(())
}

#[test]
fn counts_are_rounded_down(rt: HostRuntime) -> Result<(), Fail> {
    for (nanosecond, milliseconds, microseconds, nanoseconds) in [
        (500_000_000, -500, -500_000, -500_000_000),
        (999_999, -1_000, -999_001, -999_000_001),
        (999_999_999, -1, -1, -1),
    ] {
        let at = Timestamp::new(-1, nanosecond)?;
        is(&rt, at.as_milliseconds(), milliseconds);
        is(&rt, at.as_microseconds(), microseconds);
        is(&rt, at.as_nanoseconds(), nanoseconds);
    }
    Ok(())
}

#[test]
fn formats(rt: HostRuntime) -> Result<(), Fail> {
    let half = Timestamp::new(-1, 500_000_000)?;
    let shown = format!(in rt.alloc(); "{half} {half:?}{half:>8}{half:*^9}")?;
    is(&rt, shown.as_str(), "-0.5 -0.5    -0.5**-0.5***");
    Ok(())
}

// The part that is refused, and whether only given the other parts.
fn refusal<T: Copy>(answer: Result<T, ComponentRange>) -> Option<(&'static str, bool)> {
    match answer {
        Ok(_) => None,
        Err(refusal) => Some((refusal.name(), refusal.is_conditional())),
    }
}

#[test]
fn refusals_of_constructors(rt: HostRuntime) -> Result<(), Fail> {
    for (refused, name) in [
        (Timestamp::new(31_494_784_780_800, 1_000_000_000), "seconds"),
        (Timestamp::new(-31_619_087_596_801, 0), "seconds"),
        (Timestamp::new(0, 1_000_000_000), "nanoseconds"),
        (Timestamp::new(0, u32::MAX), "nanoseconds"),
        (Timestamp::from_seconds(31_494_784_780_800), "seconds"),
        (Timestamp::from_seconds(i64::MIN), "seconds"),
        (
            Timestamp::from_milliseconds(-31_619_087_596_800_001),
            "milliseconds",
        ),
        (
            Timestamp::from_milliseconds(31_494_784_780_800_000),
            "milliseconds",
        ),
        (
            Timestamp::from_microseconds(-31_619_087_596_800_000_001),
            "microseconds",
        ),
        (Timestamp::from_microseconds(i128::MAX), "microseconds"),
        (
            Timestamp::from_nanoseconds(31_494_784_780_800_000_000_000),
            "nanoseconds",
        ),
        (Timestamp::from_nanoseconds(i128::MIN), "nanoseconds"),
    ] {
        is(&rt, refusal(refused), Some((name, false)));
    }
    Ok(())
}

#[test]
fn days_by_products(rt: HostRuntime) -> Result<(), Fail> {
    for (second, year, ordinal, weekday) in [
        (946_684_800, 2000, 1, Weekday::Saturday),
        (-2_177_539_200, 1900, 365, Weekday::Monday),
        (-2_177_452_800, 1901, 1, Weekday::Tuesday),
        (1_072_915_200, 2004, 1, Weekday::Thursday),
        (-31_619_087_596_800, -999_999, 1, Weekday::Monday),
        (31_494_784_780_799, 999_999, 365, Weekday::Friday),
    ] {
        let at = Timestamp::from_seconds(second)?;
        is(&rt, at.to_ordinal_date(), (year, ordinal));
        is(&rt, at.year(), year);
        is(&rt, at.ordinal(), ordinal);
        is(&rt, at.weekday(), weekday);
        is(&rt, at.date(), Date::from_ordinal_date(year, ordinal)?);
    }
    Ok(())
}

#[test]
fn reads_of_the_date(rt: HostRuntime) -> Result<(), Fail> {
    for (second, date) in [
        (-31_619_087_596_800, (-999_999, Month::January, 1)),
        (1_546_398_245, (2019, Month::January, 2)),
        (31_494_784_780_799, (999_999, Month::December, 31)),
    ] {
        let at = Timestamp::from_seconds(second)?;
        is(&rt, at.to_calendar_date(), date);
    }
    let at = Timestamp::new(1_546_398_245, 4_005_006)?;
    is(&rt, (at.month(), at.day()), (Month::January, 2));
    is(&rt, at.weekday(), Weekday::Wednesday);
    is(&rt, at.to_julian_day(), 2_458_486);
    is(&rt, at.to_iso_week_date(), (2019, 1, Weekday::Wednesday));
    is(&rt, at.iso_week(), 1);
    is(&rt, at.sunday_based_week(), 0);
    is(&rt, at.monday_based_week(), 0);
    Ok(())
}

#[test]
fn reads_of_the_time(rt: HostRuntime) -> Result<(), Fail> {
    let at = Timestamp::new(1_546_398_245, 4_005_006)?;
    is(&rt, at.time(), Time::from_hms_nano(3, 4, 5, 4_005_006)?);
    is(&rt, at.as_hms(), (3, 4, 5));
    is(&rt, at.as_hms_milli(), (3, 4, 5, 4));
    is(&rt, at.as_hms_micro(), (3, 4, 5, 4_005));
    is(&rt, at.as_hms_nano(), (3, 4, 5, 4_005_006));
    is(&rt, (at.hour(), at.minute(), at.second()), (3, 4, 5));
    is(&rt, at.millisecond(), 4);
    is(&rt, at.microsecond(), 4_005);
    is(&rt, at.nanosecond(), 4_005_006);
    let half = Timestamp::new(-1, 500_000_000)?;
    is(&rt, half.as_hms(), (23, 59, 59));
    is(
        &rt,
        half.to_utc().text().as_str(),
        "1969-12-31 23:59:59.5 +00",
    );
    let last = Timestamp::new(-1, 999_999_999)?.to_utc();
    is(
        &rt,
        last.truncate_to_millisecond().text().as_str(),
        "1969-12-31 23:59:59.999 +00",
    );
    Ok(())
}

#[test]
fn truncations_round_down(rt: HostRuntime) -> Result<(), Fail> {
    let early = Timestamp::new(-1, 500_300_002)?;
    is(&rt, early.truncate_to_day(), Timestamp::new(-86_400, 0)?);
    is(&rt, early.truncate_to_hour(), Timestamp::new(-3_600, 0)?);
    is(&rt, early.truncate_to_minute(), Timestamp::new(-60, 0)?);
    is(&rt, early.truncate_to_second(), Timestamp::new(-1, 0)?);
    let (millisecond, microsecond) = (
        Timestamp::new(-1, 500_000_000)?,
        Timestamp::new(-1, 500_300_000)?,
    );
    is(&rt, early.truncate_to_millisecond(), millisecond);
    is(&rt, early.truncate_to_microsecond(), microsecond);
    is(&rt, Timestamp::MIN.truncate_to_day(), Timestamp::MIN);
    Ok(())
}

#[test]
fn replacements(rt: HostRuntime) -> Result<(), Fail> {
    let at = Timestamp::from_seconds(1_546_398_245)?;
    let leap_day = Timestamp::from_seconds(951_782_400)?;
    let half = Timestamp::new(-1, 500_000_000)?;
    let date = Date::from_calendar_date(1970, Month::January, 1)?;
    for (replaced, seconds, nanosecond) in [
        (
            Ok(at.replace_time(Time::from_hms(12, 34, 56)?)),
            1_546_432_496,
            0,
        ),
        (Ok(half.replace_date(date)), 86_399, 500_000_000),
        (at.replace_year(2020), 1_577_934_245, 0),
        (at.replace_month(Month::February), 1_549_076_645, 0),
        (at.replace_day(1), 1_546_311_845, 0),
        (at.replace_ordinal(1), 1_546_311_845, 0),
        (at.replace_hour(0), 1_546_387_445, 0),
        (at.replace_minute(0), 1_546_398_005, 0),
        (at.replace_second(0), 1_546_398_240, 0),
        (leap_day.replace_year(2004), 1_078_012_800, 0),
        (leap_day.replace_month(Month::April), 956_966_400, 0),
        (half.replace_hour(0), -82_801, 500_000_000),
        (half.replace_nanosecond(300_000_000), -1, 300_000_000),
        (half.replace_nanosecond(0), -1, 0),
        (half.replace_millisecond(7), -1, 7_000_000),
        (half.replace_microsecond(7_008), -1, 7_008_000),
    ] {
        let replaced = replaced?;
        is(&rt, replaced.as_seconds(), seconds);
        is(&rt, replaced.nanosecond(), nanosecond);
    }
    Ok(())
}

#[test]
fn refused_dates(rt: HostRuntime) -> Result<(), Fail> {
    let at = Timestamp::from_seconds(1_645_146_123)?;
    let leap_day = Timestamp::from_seconds(951_782_400)?;
    is(&rt, at.to_calendar_date(), (2022, Month::February, 18));
    for (replaced, name, conditional) in [
        (leap_day.replace_year(1900), "day", true),
        (at.replace_year(1_000_000), "year", false),
        (at.replace_day(0), "day", false),
        (at.replace_day(32), "day", false),
        (at.replace_day(30), "day", true),
        (at.replace_ordinal(0), "ordinal", false),
        (leap_day.replace_ordinal(367), "ordinal", false),
        (at.replace_ordinal(366), "ordinal", true),
    ] {
        is(&rt, refusal(replaced), Some((name, conditional)));
    }
    Ok(())
}

#[test]
fn refused_clocks(rt: HostRuntime) -> Result<(), Fail> {
    let at = Timestamp::from_seconds(1_546_398_245)?;
    for (replaced, name) in [
        (at.replace_hour(24), "hour"),
        (at.replace_minute(60), "minute"),
        (at.replace_second(60), "second"),
        (at.replace_millisecond(1_000), "millisecond"),
        (at.replace_millisecond(4_295), "millisecond"),
        (at.replace_millisecond(65_535), "millisecond"),
        (at.replace_microsecond(1_000_000), "microsecond"),
        (at.replace_microsecond(4_294_968), "microsecond"),
        (
            Timestamp::UNIX_EPOCH.replace_microsecond(u32::MAX),
            "microsecond",
        ),
        (at.replace_nanosecond(1_000_000_000), "nanosecond"),
    ] {
        is(&rt, refusal(replaced), Some((name, false)));
    }
    Ok(())
}

#[test]
fn sums(rt: HostRuntime) -> Result<(), Fail> {
    let known = stamp_times::constants::timestamps();
    let (first, last, epoch) = (known.first, known.last, known.epoch);
    let at = Timestamp::from_seconds(1_546_398_245)?;
    let half = Timestamp::new(-1, 500_000_000)?;
    let nanosecond = SignedDuration::nanoseconds(1);
    let day = SignedDuration::days(1);
    for (sum, expected) in [
        (at.checked_add(day), Some((1_546_484_645, 0))),
        (at.checked_sub(day), Some((1_546_311_845, 0))),
        (
            half.checked_add(SignedDuration::nanoseconds(500_000_000)),
            Some((0, 0)),
        ),
        (
            half.checked_sub(SignedDuration::nanoseconds(500_000_001)),
            Some((-2, 999_999_999)),
        ),
        (epoch.checked_sub(nanosecond), Some((-1, 999_999_999))),
        (epoch.checked_add(SignedDuration::MIN), None),
        (epoch.checked_add(SignedDuration::MAX), None),
        (epoch.checked_sub(SignedDuration::MIN), None),
        (
            first.checked_add(last - first),
            Some((31_494_784_780_799, 999_999_999)),
        ),
        (epoch.checked_add_std(Duration::MAX), None),
        (epoch.checked_sub_std(Duration::MAX), None),
        (
            half.checked_add_std(Duration::from_nanos(500_000_000)),
            Some((0, 0)),
        ),
        (
            epoch.checked_sub_std(Duration::from_nanos(1)),
            Some((-1, 999_999_999)),
        ),
    ] {
        is(
            &rt,
            sum.map(|sum| (sum.as_seconds(), sum.nanosecond())),
            expected,
        );
    }
    let later = Timestamp::from_seconds(1_546_484_645)?;
    is(&rt, at.saturating_add(day), later);
    is(&rt, later.saturating_sub(day), at);
    let day_std = Duration::from_secs(86_400);
    is(&rt, by_operators(later, day, day_std), Some(at));
    for (difference, seconds, nanoseconds) in [
        (epoch - half, 0, 500_000_000),
        (half - epoch, 0, -500_000_000),
        (last - first, 63_113_872_377_599, 999_999_999),
        (last - first.to_utc(), 63_113_872_377_599, 999_999_999),
        (first.to_utc() - last, -63_113_872_377_599, -999_999_999),
    ] {
        is(&rt, difference.whole_seconds(), seconds);
        is(&rt, difference.subsec_nanoseconds(), nanoseconds);
    }
    Ok(())
}

// Takes the duration away once more than it adds it, by each operator.
fn by_operators(start: Timestamp, duration: SignedDuration, same: Duration) -> Option<Timestamp> {
    start.checked_sub(duration)?;
    let mut difference = start;
    difference -= duration;
    difference.checked_add_std(same)?;
    difference += same;
    difference.checked_sub_std(same)?;
    difference -= same;
    difference.checked_add(duration)?;
    difference += duration;
    difference.checked_sub(duration)?;
    let difference = difference - duration;
    difference.checked_add(duration)?;
    let sum = difference + duration;
    sum.checked_sub_std(same)?;
    let difference = sum - same;
    difference.checked_add_std(same)?;
    let sum = difference + same;
    sum.checked_sub(duration)
}

#[test]
fn ends_of_the_range(rt: HostRuntime) -> Result<(), Fail> {
    let known = stamp_times::constants::timestamps();
    let (first, last, epoch) = (known.first, known.last, known.epoch);
    let nanosecond = SignedDuration::nanoseconds(1);
    let longer = SignedDuration::seconds(63_113_872_377_600);
    let whole_std = Duration::new(63_113_872_377_599, 999_999_999);
    let longer_std = Duration::from_secs(63_113_872_377_600);
    for (sum, expected) in [
        (first.checked_add_std(whole_std), Some(last)),
        (first.checked_add_std(longer_std), None),
        (first.checked_add(SignedDuration::MAX), None),
        (last.checked_sub(longer), None),
        (last.checked_sub_std(whole_std), Some(first)),
        (last.checked_sub_std(Duration::MAX), None),
        (last.checked_add(nanosecond), None),
        (first.checked_sub(nanosecond), None),
    ] {
        is(&rt, sum, expected);
    }
    for (sum, expected) in [
        (first.saturating_add(SignedDuration::MAX), last),
        (last.saturating_add(SignedDuration::MIN), first),
        (last.saturating_sub(SignedDuration::MIN), last),
        (last.saturating_add(nanosecond), last),
        (epoch.saturating_sub(SignedDuration::MIN), last),
        (epoch.saturating_add(SignedDuration::MIN), first),
    ] {
        is(&rt, sum, expected);
    }
    Ok(())
}

fn hash_of(at: Timestamp) -> u64 {
    let mut hasher = DefaultHasher::new();
    at.hash(&mut hasher);
    hasher.finish()
}

#[test]
fn comparisons(rt: HostRuntime) -> Result<(), Fail> {
    let before = Timestamp::new(-1, 500_000_000)?;
    let after = Timestamp::new(-1, 500_000_001)?;
    is(&rt, before, Timestamp::from_milliseconds(-500)?);
    assert!(rt; before != after);
    assert!(rt; before < after);
    is(&rt, before.cmp(&before), Ordering::Equal);
    is(
        &rt,
        Timestamp::from_seconds(-2)?.cmp(&before),
        Ordering::Less,
    );
    let utc = UtcDateTime::from(before);
    is(&rt, Timestamp::from(utc), before);
    assert!(rt; before.eq_utc(utc));
    assert!(rt; !after.eq_utc(utc));
    is(&rt, after.cmp_utc(utc), Ordering::Greater);
    is(
        &rt,
        hash_of(before),
        hash_of(Timestamp::from_milliseconds(-500)?),
    );
    assert!(rt; hash_of(before) != hash_of(after));
    Ok(())
}

// Conversions by the calls that ask for the range, where the checked ones say that they may be made.
fn to_offset(at: Timestamp, offset: UtcOffset) -> Option<OffsetDateTime> {
    at.checked_to_offset(offset)?;
    Some(at.to_offset(offset))
}

fn to_timestamp<T: ToTimestamp + Copy>(at: T) -> Option<Timestamp> {
    at.checked_to_timestamp()?;
    Some(at.to_timestamp())
}

#[test]
fn offsets(rt: HostRuntime) -> Result<(), Fail> {
    let known = stamp_times::constants::timestamps();
    let (first, last) = (known.first, known.last);
    let at = Timestamp::from_seconds(1_546_398_245)?;
    let plus_one = UtcOffset::from_hms(1, 0, 0)?;
    let minus_one = UtcOffset::from_hms(-1, 0, 0)?;
    let greatest = UtcOffset::from_hms(25, 59, 59)?;
    is(
        &rt,
        to_offset(at, plus_one).map(|shown| shown.hour()),
        Some(4),
    );
    match at.checked_to_offset(plus_one) {
        Some(shown) => {
            is(&rt, shown.date_time().as_hms(), (4, 4, 5));
            is(&rt, shown.checked_to_timestamp(), Some(at));
            is(&rt, to_timestamp(shown), Some(at));
        }
        None => assert!(rt; false),
    }
    assert!(rt; last.checked_to_offset(plus_one).is_none());
    assert!(rt; last.checked_to_offset(minus_one).is_some());
    assert!(rt; first.checked_to_offset(minus_one).is_none());
    let before_all = first.to_utc().as_plain().assume_offset(greatest);
    is(&rt, to_timestamp(before_all), None);
    assert!(rt; !first.eq_offset(before_all));
    is(&rt, first.cmp_offset(before_all), Ordering::Greater);
    is(&rt, (first - before_all).whole_seconds(), 93_599);
    is(&rt, (before_all - first).whole_seconds(), -93_599);
    let in_utc = OffsetDateTime::from(at);
    assert!(rt; in_utc.offset().is_utc());
    assert!(rt; at.eq_offset(in_utc));
    is(&rt, at.cmp_offset(in_utc), Ordering::Equal);
    Ok(())
}

#[test]
fn offsets_at_the_ends(rt: HostRuntime) -> Result<(), Fail> {
    let known = stamp_times::constants::timestamps();
    let (first, last) = (known.first, known.last);
    for seconds in [-93_599, -1, 0, 1, 93_599] {
        let stored = UtcOffset::from_whole_seconds(seconds)?;
        let earliest = first.to_utc().as_plain().assume_offset(stored);
        let latest = last.to_utc().as_plain().assume_offset(stored);
        is(&rt, earliest.checked_to_timestamp().is_some(), seconds <= 0);
        is(&rt, latest.checked_to_timestamp().is_some(), seconds >= 0);
    }
    Ok(())
}

#[test]
fn conversions_and_laws(rt: HostRuntime) {
    let known = stamp_times::constants::timestamps();
    let (first, last) = (known.first, known.last);
    is(&rt, Timestamp::from(UtcDateTime::from(first)), first);
    is(
        &rt,
        UtcDateTime::from(Timestamp::from(last.to_utc())),
        last.to_utc(),
    );
    laws::conversions_lose_nothing();
    laws::compared_by_instant();
    laws::counts_read_as_given();
    laws::nanoseconds_keep_the_second();
    laws::texts_tell_instants();
    laws::differences_undo_sums();
    laws::differences_lead_back();
    laws::replaced_parts_read_as_given();
    laws::replacements_keep_the_rest();
}
