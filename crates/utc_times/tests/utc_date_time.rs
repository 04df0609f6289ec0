//! Dates with a time of day in UTC, and Unix time.
use super::is;
use calendar_values::{ComponentRange, Date, Month, SignedDuration, Time, Weekday};
use plain_times::PlainDateTime;
use std::hash::{DefaultHasher, Hash, Hasher};
use std::test::Fail;
use std::time::Duration;
use utc_times::{AsUtc, UtcDateTime, laws};

fn utc(
    date: (i32, Month, u8),
    hour: u8,
    minute: u8,
    second: u8,
    nanosecond: u32,
) -> Result<UtcDateTime, Fail> {
    let date = Date::from_calendar_date(date.0, date.1, date.2)?;
    let time = Time::from_hms_nano(hour, minute, second, nanosecond)?;
    Ok(UtcDateTime::new(date, time))
}

// The part that is refused, and whether only given the other parts.
fn refusal<T: Copy>(answer: Result<T, ComponentRange>) -> Option<(&'static str, bool)> {
    match answer {
        Ok(_) => None,
        Err(refusal) => Some((refusal.name(), refusal.is_conditional())),
    }
}

#[test]
fn unix_seconds(rt: HostRuntime) -> Result<(), Fail> {
    for (second, text) in [
        (0, "1970-01-01 0:00:00.0 +00"),
        (-1, "1969-12-31 23:59:59.0 +00"),
        (951_782_400, "2000-02-29 0:00:00.0 +00"),
        (-2_177_539_200, "1900-12-31 0:00:00.0 +00"),
        (1_645_146_123, "2022-02-18 1:02:03.0 +00"),
        (-377_705_116_800, "-9999-01-01 0:00:00.0 +00"),
        (253_402_300_799, "9999-12-31 23:59:59.0 +00"),
        (253_402_300_800, "+10000-01-01 0:00:00.0 +00"),
        (-31_619_087_596_800, "-999999-01-01 0:00:00.0 +00"),
        (31_494_784_780_799, "+999999-12-31 23:59:59.0 +00"),
    ] {
        let at = UtcDateTime::from_unix_timestamp(second)?;
        is(&rt, at.text().as_str(), text);
        is(&rt, at.unix_timestamp(), second);
    }
    Ok(())
}

#[test]
fn unix_nanoseconds(rt: HostRuntime) -> Result<(), Fail> {
    for (nanosecond, second, text) in [
        (-500_000_000, -1, "1969-12-31 23:59:59.5 +00"),
        (-1, -1, "1969-12-31 23:59:59.999999999 +00"),
        (1, 0, "1970-01-01 0:00:00.000000001 +00"),
        (
            -31_619_087_596_800_000_000_000,
            -31_619_087_596_800,
            "-999999-01-01 0:00:00.0 +00",
        ),
        (
            31_494_784_780_799_999_999_999,
            31_494_784_780_799,
            "+999999-12-31 23:59:59.999999999 +00",
        ),
    ] {
        let at = UtcDateTime::from_unix_timestamp_nanos(nanosecond)?;
        is(&rt, at.text().as_str(), text);
        is(&rt, at.unix_timestamp(), second);
        is(&rt, at.unix_timestamp_nanos(), nanosecond);
    }
    Ok(())
}

#[test]
fn unix_time_out_of_range(rt: HostRuntime) -> Result<(), Fail> {
    for refused in [
        UtcDateTime::from_unix_timestamp(-31_619_087_596_801),
        UtcDateTime::from_unix_timestamp(31_494_784_780_800),
        UtcDateTime::from_unix_timestamp(i64::MIN),
        UtcDateTime::from_unix_timestamp(i64::MAX),
        UtcDateTime::from_unix_timestamp_nanos(-31_619_087_596_800_000_000_001),
        UtcDateTime::from_unix_timestamp_nanos(31_494_784_780_800_000_000_000),
        UtcDateTime::from_unix_timestamp_nanos(i128::MIN),
        UtcDateTime::from_unix_timestamp_nanos(i128::MAX),
    ] {
        is(&rt, refusal(refused), Some(("timestamp", false)));
    }
    Ok(())
}

#[test]
fn constants_and_laws(rt: HostRuntime) -> Result<(), Fail> {
    let known = utc_times::constants::utc_date_times();
    for (constant, same, nanosecond) in [
        (UtcDateTime::UNIX_EPOCH, known.epoch, 0),
        (
            UtcDateTime::MIN,
            known.first,
            -31_619_087_596_800_000_000_000,
        ),
        (UtcDateTime::MAX, known.last, 31_494_784_780_799_999_999_999),
    ] {
        is(&rt, constant, same);
        is(&rt, constant.unix_timestamp_nanos(), nanosecond);
    }
    is(&rt, UtcDateTime::MAX.text().as_bytes().len(), 36);
    laws::differences_undo_sums();
    laws::differences_lead_back();
    laws::replacements_keep_the_rest();
    laws::replaced_parts_read_as_given();
    laws::truncations_round_down();
    laws::truncations_round_down_once();
    Ok(())
}

#[test]
fn reads(rt: HostRuntime) -> Result<(), Fail> {
    let at = utc((2022, Month::February, 18), 1, 2, 3, 4_005_006)?;
    is(
        &rt,
        at.date(),
        Date::from_calendar_date(2022, Month::February, 18)?,
    );
    is(&rt, at.year(), 2022);
    is(&rt, at.month(), Month::February);
    is(&rt, at.day(), 18);
    is(&rt, at.to_calendar_date(), (2022, Month::February, 18));
    is(&rt, at.ordinal(), 49);
    is(&rt, at.to_ordinal_date(), (2022, 49));
    is(&rt, at.iso_week(), 7);
    is(&rt, at.to_iso_week_date(), (2022, 7, Weekday::Friday));
    is(&rt, at.sunday_based_week(), 7);
    is(&rt, at.monday_based_week(), 7);
    is(&rt, at.weekday(), Weekday::Friday);
    is(&rt, at.to_julian_day(), 2_459_629);
    is(&rt, at.time(), Time::from_hms_nano(1, 2, 3, 4_005_006)?);
    is(&rt, at.as_hms(), (1, 2, 3));
    is(&rt, at.as_hms_milli(), (1, 2, 3, 4));
    is(&rt, at.as_hms_micro(), (1, 2, 3, 4_005));
    is(&rt, at.as_hms_nano(), (1, 2, 3, 4_005_006));
    is(&rt, (at.hour(), at.minute(), at.second()), (1, 2, 3));
    is(&rt, at.millisecond(), 4);
    is(&rt, at.microsecond(), 4_005);
    is(&rt, at.nanosecond(), 4_005_006);
    let epoch = UtcDateTime::UNIX_EPOCH;
    is(&rt, epoch.to_iso_week_date(), (1970, 1, Weekday::Thursday));
    is(&rt, epoch.to_julian_day(), 2_440_588);
    Ok(())
}

#[test]
fn replaced_dates(rt: HostRuntime) -> Result<(), Fail> {
    let at = utc((2022, Month::February, 18), 1, 2, 3, 4_005_006)?;
    let date = Date::from_calendar_date(1969, Month::July, 20)?;
    for (replaced, text) in [
        (
            Ok(at.replace_date(date)),
            "1969-07-20 1:02:03.004005006 +00",
        ),
        (at.replace_year(-5), "-0005-02-18 1:02:03.004005006 +00"),
        (
            at.replace_month(Month::May),
            "2022-05-18 1:02:03.004005006 +00",
        ),
        (at.replace_day(28), "2022-02-28 1:02:03.004005006 +00"),
        (at.replace_ordinal(365), "2022-12-31 1:02:03.004005006 +00"),
    ] {
        is(&rt, replaced?.text().as_str(), text);
    }
    Ok(())
}

#[test]
fn replaced_clocks(rt: HostRuntime) -> Result<(), Fail> {
    let at = utc((2022, Month::February, 18), 1, 2, 3, 4_005_006)?;
    for (replaced, text) in [
        (
            Ok(at.replace_time(Time::MAX)),
            "2022-02-18 23:59:59.999999999 +00",
        ),
        (at.replace_hour(23), "2022-02-18 23:02:03.004005006 +00"),
        (at.replace_minute(59), "2022-02-18 1:59:03.004005006 +00"),
        (at.replace_second(59), "2022-02-18 1:02:59.004005006 +00"),
        (at.replace_millisecond(7), "2022-02-18 1:02:03.007 +00"),
        (
            at.replace_microsecond(7_008),
            "2022-02-18 1:02:03.007008 +00",
        ),
        (at.replace_nanosecond(9), "2022-02-18 1:02:03.000000009 +00"),
    ] {
        is(&rt, replaced?.text().as_str(), text);
    }
    Ok(())
}

#[test]
fn refused_dates(rt: HostRuntime) -> Result<(), Fail> {
    let end_of_january = utc((2022, Month::January, 30), 12, 0, 0, 0)?;
    let at = utc((2022, Month::February, 18), 1, 2, 3, 4_005_006)?;
    for (replaced, name, conditional) in [
        (end_of_january.replace_month(Month::February), "day", true),
        (at.replace_year(1_000_000), "year", false),
        (at.replace_day(0), "day", false),
        (at.replace_day(29), "day", true),
        (at.replace_day(30), "day", true),
        (at.replace_day(32), "day", false),
        (at.replace_ordinal(0), "ordinal", false),
        (at.replace_ordinal(366), "ordinal", true),
        (at.replace_ordinal(367), "ordinal", false),
    ] {
        is(&rt, refusal(replaced), Some((name, conditional)));
    }
    Ok(())
}

#[test]
fn refused_clocks(rt: HostRuntime) -> Result<(), Fail> {
    let at = utc((2022, Month::February, 18), 1, 2, 3, 4_005_006)?;
    for (replaced, name) in [
        (at.replace_hour(24), "hour"),
        (at.replace_minute(60), "minute"),
        (at.replace_second(60), "second"),
        (at.replace_millisecond(1_000), "millisecond"),
        (at.replace_millisecond(4_295), "millisecond"),
        (at.replace_millisecond(65_535), "millisecond"),
        (at.replace_microsecond(1_000_000), "microsecond"),
        (at.replace_microsecond(4_294_968), "microsecond"),
        (at.replace_nanosecond(1_000_000_000), "nanosecond"),
    ] {
        is(&rt, refusal(replaced), Some((name, false)));
    }
    Ok(())
}

#[test]
fn truncations(rt: HostRuntime) -> Result<(), Fail> {
    let after = utc((2022, Month::February, 18), 15, 30, 45, 123_456_789)?;
    let before = utc((1969, Month::December, 31), 23, 59, 59, 500_000_000)?;
    let last = utc((1969, Month::December, 31), 23, 59, 59, 999_999_999)?;
    for (truncated, text) in [
        (after.truncate_to_day(), "2022-02-18 0:00:00.0 +00"),
        (after.truncate_to_hour(), "2022-02-18 15:00:00.0 +00"),
        (after.truncate_to_minute(), "2022-02-18 15:30:00.0 +00"),
        (after.truncate_to_second(), "2022-02-18 15:30:45.0 +00"),
        (
            after.truncate_to_millisecond(),
            "2022-02-18 15:30:45.123 +00",
        ),
        (
            after.truncate_to_microsecond(),
            "2022-02-18 15:30:45.123456 +00",
        ),
        (before.truncate_to_second(), "1969-12-31 23:59:59.0 +00"),
        (before.truncate_to_day(), "1969-12-31 0:00:00.0 +00"),
        (
            last.truncate_to_millisecond(),
            "1969-12-31 23:59:59.999 +00",
        ),
        (
            last.truncate_to_microsecond(),
            "1969-12-31 23:59:59.999999 +00",
        ),
    ] {
        is(&rt, truncated.text().as_str(), text);
    }
    Ok(())
}

#[test]
fn formats(rt: HostRuntime) -> Result<(), Fail> {
    let at = UtcDateTime::UNIX_EPOCH;
    let shown = format!(in rt.alloc(); "{at} {at:?}{at:>27}{at:*^29}{at:26}|")?;
    let wanted = "1970-01-01 0:00:00.0 +00 1970-01-01 0:00:00.0 +00   1970-01-01 0:00:00.0 +00\
        **1970-01-01 0:00:00.0 +00***1970-01-01 0:00:00.0 +00  |";
    is(&rt, shown.as_str(), wanted);
    Ok(())
}

fn as_utc<T: AsUtc>(plain: T) -> UtcDateTime {
    plain.as_utc()
}

#[test]
fn wall_clocks(rt: HostRuntime) -> Result<(), Fail> {
    let at = utc((2022, Month::February, 18), 1, 2, 3, 4_005_006)?;
    let plain = PlainDateTime::new(at.date(), at.time());
    is(&rt, as_utc(plain), at);
    is(&rt, at.as_plain(), plain);
    Ok(())
}

fn hash_of(at: UtcDateTime) -> u64 {
    let mut hasher = DefaultHasher::new();
    at.hash(&mut hasher);
    hasher.finish()
}

#[test]
fn order(rt: HostRuntime) -> Result<(), Fail> {
    let before = utc((1969, Month::December, 31), 23, 59, 59, 500_000_000)?;
    let after = UtcDateTime::UNIX_EPOCH;
    assert!(rt; before < after);
    assert!(rt; before != after);
    is(&rt, before.max(after), after);
    let same = UtcDateTime::from_unix_timestamp_nanos(-500_000_000)?;
    is(&rt, same, before);
    is(&rt, hash_of(same), hash_of(before));
    assert!(rt; hash_of(before) != hash_of(after));
    Ok(())
}

#[test]
fn sums(rt: HostRuntime) -> Result<(), Fail> {
    let (first, last) = (UtcDateTime::MIN, UtcDateTime::MAX);
    let whole = SignedDuration::new(63_113_872_377_599, 999_999_999);
    let longer = SignedDuration::seconds(63_113_872_377_600);
    let whole_std = Duration::new(63_113_872_377_599, 999_999_999);
    let longer_std = Duration::new(63_113_872_377_600, 0);
    for (sum, wanted) in [
        (first.checked_add(whole), Some(last)),
        (first.checked_add(longer), None),
        (first.checked_add(SignedDuration::MAX), None),
        (first.checked_add(SignedDuration::MIN), None),
        (last.checked_sub(whole), Some(first)),
        (last.checked_sub(longer), None),
        (last.checked_add(SignedDuration::nanoseconds(1)), None),
        (first.checked_sub(SignedDuration::nanoseconds(1)), None),
        (first.checked_add_std(whole_std), Some(last)),
        (first.checked_add_std(longer_std), None),
        (last.checked_sub_std(whole_std), Some(first)),
        (last.checked_sub_std(longer_std), None),
        (last.checked_sub_std(Duration::MAX), None),
    ] {
        is(&rt, sum, wanted);
    }
    for (sum, wanted) in [
        (first.saturating_add(SignedDuration::MAX), last),
        (first.saturating_add(whole), last),
        (last.saturating_sub(SignedDuration::MIN), last),
        (last.saturating_add(SignedDuration::MIN), first),
        (last.saturating_sub(whole), first),
    ] {
        is(&rt, sum, wanted);
    }
    Ok(())
}

#[test]
fn differences(rt: HostRuntime) -> Result<(), Fail> {
    let half = utc((1969, Month::December, 31), 23, 59, 59, 500_000_000)?;
    let (first, last) = (UtcDateTime::MIN, UtcDateTime::MAX);
    let epoch = UtcDateTime::UNIX_EPOCH;
    is(&rt, epoch - half, SignedDuration::nanoseconds(500_000_000));
    is(&rt, half - epoch, SignedDuration::nanoseconds(-500_000_000));
    let whole = last - first;
    is(&rt, whole.whole_seconds(), 63_113_872_377_599);
    is(&rt, whole.subsec_nanoseconds(), 999_999_999);
    Ok(())
}

#[test]
fn operators(rt: HostRuntime) -> Result<(), Fail> {
    let at = utc((2019, Month::November, 25), 15, 30, 0, 0)?;
    let later = utc((2019, Month::November, 26), 18, 30, 0, 0)?;
    let hours_27 = SignedDuration::hours(27);
    let hours_27_std = Duration::from_secs(97_200);
    is(&rt, by_operators(later, hours_27, hours_27_std), Some(at));
    Ok(())
}

// Takes the duration away once more than it adds it, by each operator.
fn by_operators(at: UtcDateTime, duration: SignedDuration, same: Duration) -> Option<UtcDateTime> {
    at.checked_sub(duration)?;
    let mut difference = at;
    difference -= duration;
    difference.checked_add_std(same)?;
    difference += same;
    difference.checked_sub_std(same)?;
    difference -= same;
    difference.checked_add(duration)?;
    difference += duration;
    difference.checked_sub(duration)?;
    let difference = difference - duration;
    difference.checked_add(duration)?;
    let sum = difference + duration;
    sum.checked_sub_std(same)?;
    let difference = sum - same;
    difference.checked_add_std(same)?;
    let sum = difference + same;
    sum.checked_sub(duration)
}
