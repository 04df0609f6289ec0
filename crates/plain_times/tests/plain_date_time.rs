//! Dates with a time of day.
use super::is;
use calendar_values::{ComponentRange, Date, Month, SignedDuration, Time, Weekday};
use plain_times::{PlainDateTime, constants, laws, packed_number};
use std::hash::{DefaultHasher, Hash, Hasher};
use std::test::Fail;
use std::time::Duration;

fn at(
    date: (i32, Month, u8),
    hour: u8,
    minute: u8,
    second: u8,
    nanosecond: u32,
) -> Result<PlainDateTime, Fail> {
    let (year, month, day) = date;
    let date = Date::from_calendar_date(year, month, day)?;
    let time = Time::from_hms_nano(hour, minute, second, nanosecond)?;
    Ok(PlainDateTime::new(date, time))
}

#[test]
fn reads(rt: HostRuntime) -> Result<(), Fail> {
    let shown = at((2022, Month::February, 18), 15, 30, 45, 123_456_789)?;
    is(&rt, shown.date(), Date::from_ordinal_date(2022, 49)?);
    is(
        &rt,
        shown.time(),
        Time::from_hms_nano(15, 30, 45, 123_456_789)?,
    );
    is(&rt, shown.year(), 2022);
    is(&rt, shown.day(), 18);
    is(&rt, shown.ordinal(), 49);
    is(&rt, shown.month(), Month::February);
    is(&rt, shown.iso_week(), 7);
    is(&rt, shown.sunday_based_week(), 7);
    is(&rt, shown.monday_based_week(), 7);
    is(&rt, shown.to_calendar_date(), (2022, Month::February, 18));
    is(&rt, shown.to_ordinal_date(), (2022, 49));
    is(&rt, shown.to_iso_week_date(), (2022, 7, Weekday::Friday));
    is(&rt, shown.weekday(), Weekday::Friday);
    is(&rt, shown.weekday().number_days_from_monday(), 4);
    is(&rt, shown.to_julian_day(), 2_459_629);
    is(&rt, shown.as_hms(), (15, 30, 45));
    is(&rt, shown.as_hms_milli(), (15, 30, 45, 123));
    is(&rt, shown.as_hms_micro(), (15, 30, 45, 123_456));
    is(&rt, shown.as_hms_nano(), (15, 30, 45, 123_456_789));
    is(&rt, shown.hour(), 15);
    is(&rt, shown.minute(), 30);
    is(&rt, shown.second(), 45);
    is(&rt, shown.millisecond(), 123);
    is(&rt, shown.microsecond(), 123_456);
    is(&rt, shown.nanosecond(), 123_456_789);
    Ok(())
}

#[test]
fn replaced_dates(rt: HostRuntime) -> Result<(), Fail> {
    let shown = at((2022, Month::February, 18), 1, 2, 3, 4_005_006)?;
    let first = Date::from_ordinal_date(2000, 1)?;
    for (replaced, text) in [
        (
            Ok(shown.replace_date(first)),
            "2000-01-01 1:02:03.004005006",
        ),
        (shown.replace_year(-1), "-0001-02-18 1:02:03.004005006"),
        (
            shown.replace_month(Month::April),
            "2022-04-18 1:02:03.004005006",
        ),
        (shown.replace_day(28), "2022-02-28 1:02:03.004005006"),
        (shown.replace_ordinal(365), "2022-12-31 1:02:03.004005006"),
    ] {
        is(&rt, replaced?.text().as_str(), text);
    }
    Ok(())
}

#[test]
fn replaced_clocks(rt: HostRuntime) -> Result<(), Fail> {
    let shown = at((2022, Month::February, 18), 1, 2, 3, 4_005_006)?;
    let noon = Time::from_hms(12, 0, 0)?;
    for (replaced, text) in [
        (Ok(shown.replace_time(noon)), "2022-02-18 12:00:00.0"),
        (shown.replace_hour(23), "2022-02-18 23:02:03.004005006"),
        (shown.replace_minute(59), "2022-02-18 1:59:03.004005006"),
        (shown.replace_second(59), "2022-02-18 1:02:59.004005006"),
        (shown.replace_millisecond(7), "2022-02-18 1:02:03.007"),
        (
            shown.replace_microsecond(7_008),
            "2022-02-18 1:02:03.007008",
        ),
        (
            shown.replace_nanosecond(7_008_009),
            "2022-02-18 1:02:03.007008009",
        ),
    ] {
        is(&rt, replaced?.text().as_str(), text);
    }
    Ok(())
}

// The part that is refused, and whether only given the other parts.
fn refusal<T: Copy>(answer: Result<T, ComponentRange>) -> Option<(&'static str, bool)> {
    match answer {
        Ok(_) => None,
        Err(refusal) => Some((refusal.name(), refusal.is_conditional())),
    }
}

#[test]
fn refused_dates(rt: HostRuntime) -> Result<(), Fail> {
    let end_of_january = at((2022, Month::January, 30), 12, 0, 0, 0)?;
    let shown = at((2022, Month::February, 18), 1, 2, 3, 4_005_006)?;
    let leap_day = at((2000, Month::February, 29), 0, 0, 0, 0)?;
    for (replaced, name, conditional) in [
        (end_of_january.replace_month(Month::February), "day", true),
        (shown.replace_year(1_000_000), "year", false),
        (shown.replace_day(0), "day", false),
        (shown.replace_day(29), "day", true),
        (shown.replace_day(30), "day", true),
        (shown.replace_day(32), "day", false),
        (leap_day.replace_year(1900), "day", true),
        (leap_day.replace_year(1_000_000), "year", false),
        (shown.replace_ordinal(0), "ordinal", false),
        (shown.replace_ordinal(366), "ordinal", true),
        (shown.replace_ordinal(367), "ordinal", false),
    ] {
        is(&rt, refusal(replaced), Some((name, conditional)));
    }
    Ok(())
}

#[test]
fn refused_clocks(rt: HostRuntime) -> Result<(), Fail> {
    let shown = at((2022, Month::February, 18), 1, 2, 3, 4_005_006)?;
    for (replaced, name) in [
        (shown.replace_hour(24), "hour"),
        (shown.replace_minute(60), "minute"),
        (shown.replace_second(60), "second"),
        (shown.replace_millisecond(1_000), "millisecond"),
        (shown.replace_millisecond(4_295), "millisecond"),
        (shown.replace_millisecond(65_535), "millisecond"),
        (shown.replace_microsecond(1_000_000), "microsecond"),
        (shown.replace_microsecond(4_294_968), "microsecond"),
        (shown.replace_nanosecond(1_000_000_000), "nanosecond"),
    ] {
        is(&rt, refusal(replaced), Some((name, false)));
    }
    Ok(())
}

#[test]
fn truncations(rt: HostRuntime) -> Result<(), Fail> {
    let after = at((2022, Month::February, 18), 15, 30, 45, 123_456_789)?;
    let before = at((1969, Month::December, 31), 23, 59, 59, 999_999_999)?;
    for (truncated, text) in [
        (after.truncate_to_day(), "2022-02-18 0:00:00.0"),
        (after.truncate_to_hour(), "2022-02-18 15:00:00.0"),
        (after.truncate_to_minute(), "2022-02-18 15:30:00.0"),
        (after.truncate_to_second(), "2022-02-18 15:30:45.0"),
        (after.truncate_to_millisecond(), "2022-02-18 15:30:45.123"),
        (
            after.truncate_to_microsecond(),
            "2022-02-18 15:30:45.123456",
        ),
        (before.truncate_to_day(), "1969-12-31 0:00:00.0"),
        (before.truncate_to_hour(), "1969-12-31 23:00:00.0"),
        (before.truncate_to_minute(), "1969-12-31 23:59:00.0"),
        (before.truncate_to_second(), "1969-12-31 23:59:59.0"),
        (before.truncate_to_millisecond(), "1969-12-31 23:59:59.999"),
        (
            before.truncate_to_microsecond(),
            "1969-12-31 23:59:59.999999",
        ),
    ] {
        is(&rt, truncated.text().as_str(), text);
    }
    Ok(())
}

#[test]
fn texts(rt: HostRuntime) -> Result<(), Fail> {
    for (shown, text) in [
        (PlainDateTime::MIN, "-999999-01-01 0:00:00.0"),
        (PlainDateTime::MAX, "+999999-12-31 23:59:59.999999999"),
        (PlainDateTime::UNIX_EPOCH, "1970-01-01 0:00:00.0"),
        (
            at((9999, Month::December, 31), 23, 59, 59, 999_999_999)?,
            "9999-12-31 23:59:59.999999999",
        ),
        (
            at((10_000, Month::January, 1), 0, 0, 0, 0)?,
            "+10000-01-01 0:00:00.0",
        ),
        (
            at((-9999, Month::January, 1), 0, 0, 0, 0)?,
            "-9999-01-01 0:00:00.0",
        ),
        (
            at((-10_000, Month::December, 31), 9, 5, 0, 250_000_000)?,
            "-10000-12-31 9:05:00.25",
        ),
    ] {
        is(&rt, shown.text().as_str(), text);
    }
    is(&rt, PlainDateTime::MAX.text().as_bytes().len(), 32);
    Ok(())
}

#[test]
fn formats(rt: HostRuntime) -> Result<(), Fail> {
    let first = PlainDateTime::MIN;
    let shown = format!(in rt.alloc(); "{first} {first:?}{first:26}|{first:>26}{first:*^26}")?;
    let wanted = "-999999-01-01 0:00:00.0 -999999-01-01 0:00:00.0-999999-01-01 0:00:00.0   |   \
        -999999-01-01 0:00:00.0*-999999-01-01 0:00:00.0**";
    is(&rt, shown.as_str(), wanted);
    Ok(())
}

fn hash_of(date_time: PlainDateTime) -> u64 {
    let mut state = DefaultHasher::new();
    date_time.hash(&mut state);
    state.finish()
}

#[test]
fn comparisons(rt: HostRuntime) -> Result<(), Fail> {
    let earlier = at((1969, Month::December, 31), 23, 0, 0, 0)?;
    let later = at((1970, Month::January, 1), 1, 0, 0, 0)?;
    let latest = at((1970, Month::January, 1), 1, 0, 0, 1)?;
    assert!(rt; earlier < later && later < latest);
    assert!(rt; later > earlier && earlier != later && later != latest);
    is(&rt, later, latest.replace_nanosecond(0)?);
    is(&rt, hash_of(later), hash_of(latest.truncate_to_hour()));
    assert!(rt; hash_of(later) != hash_of(latest));
    Ok(())
}

#[test]
fn packed_numbers(rt: HostRuntime) -> Result<(), Fail> {
    for (shown, number) in [
        (
            PlainDateTime::UNIX_EPOCH,
            37_212_266_331_756_877_993_476_096,
        ),
        (PlainDateTime::MIN, -18_889_447_023_565_905_302_493_593_600),
        (PlainDateTime::MAX, 18_889_453_775_074_322_680_189_485_055),
    ] {
        is(
            &rt,
            packed_number(shown.year(), shown.ordinal(), shown.time()),
            number,
        );
    }
    Ok(())
}

#[test]
fn constants_and_laws(rt: HostRuntime) {
    let known = constants::plain_date_times();
    is(&rt, known.first, PlainDateTime::MIN);
    is(&rt, known.last, PlainDateTime::MAX);
    is(&rt, known.epoch, PlainDateTime::UNIX_EPOCH);
    laws::differences_undo_sums();
    laws::differences_lead_back();
    laws::replacements_keep_the_rest();
    laws::replaced_parts_read_as_given();
    laws::truncations_round_down();
    laws::truncations_round_down_once();
    laws::packed_numbers_keep_the_order();
}

#[test]
fn ends_of_the_range(rt: HostRuntime) -> Result<(), Fail> {
    let (first, last) = (PlainDateTime::MIN, PlainDateTime::MAX);
    let whole_range = Duration::new(63_113_872_377_599, 999_999_999);
    let too_long = Duration::from_secs(63_113_872_377_600);
    let whole_range_signed = SignedDuration::new(63_113_872_377_599, 999_999_999);
    let too_long_signed = SignedDuration::seconds(63_113_872_377_600);
    for (sum, expected) in [
        (first.checked_add_std(whole_range), Some(last)),
        (first.checked_add_std(too_long), None),
        (last.checked_sub_std(whole_range), Some(first)),
        (last.checked_sub_std(too_long), None),
        (last.checked_sub_std(Duration::MAX), None),
        (first.checked_add(whole_range_signed), Some(last)),
        (first.checked_add(too_long_signed), None),
        (last.checked_sub(whole_range_signed), Some(first)),
        (last.checked_sub(too_long_signed), None),
        (first.checked_add(SignedDuration::MAX), None),
        (first.checked_add(SignedDuration::MIN), None),
        (first.checked_sub(SignedDuration::MIN), None),
        (last.checked_add(SignedDuration::ZERO), Some(last)),
        (last.checked_add(SignedDuration::nanoseconds(1)), None),
        (first.checked_sub(SignedDuration::nanoseconds(1)), None),
    ] {
        is(&rt, sum, expected);
    }
    for (sum, expected) in [
        (first.saturating_add(SignedDuration::MAX), last),
        (last.saturating_add(SignedDuration::MIN), first),
        (last.saturating_sub(SignedDuration::MIN), last),
        (last.saturating_sub(SignedDuration::MAX), first),
        (first.saturating_add(whole_range_signed), last),
        (last.saturating_sub(whole_range_signed), first),
    ] {
        is(&rt, sum, expected);
    }
    let difference = last - first;
    is(&rt, difference.whole_seconds(), 63_113_872_377_599);
    is(&rt, difference.subsec_nanoseconds(), 999_999_999);
    Ok(())
}

#[test]
fn sums_within_the_range(rt: HostRuntime) -> Result<(), Fail> {
    let afternoon = at((2019, Month::November, 25), 15, 30, 0, 0)?;
    let later = at((2019, Month::November, 26), 18, 30, 0, 0)?;
    let earlier = at((2019, Month::November, 24), 12, 30, 0, 0)?;
    let hours_27 = SignedDuration::hours(27);
    let hours_27_back = SignedDuration::hours(-27);
    let hours_27_std = Duration::from_secs(97_200);
    for (sum, expected) in [
        (afternoon.checked_add(hours_27), later),
        (afternoon.checked_sub(hours_27_back), later),
        (afternoon.checked_add_std(hours_27_std), later),
        (afternoon.checked_sub(hours_27), earlier),
        (afternoon.checked_add(hours_27_back), earlier),
        (afternoon.checked_sub_std(hours_27_std), earlier),
        (Some(afternoon.saturating_add(hours_27)), later),
        (Some(afternoon.saturating_sub(hours_27)), earlier),
        (by_operators(later, hours_27, hours_27_std), afternoon),
    ] {
        is(&rt, sum, Some(expected));
    }
    Ok(())
}

// Takes the duration away once more than it adds it, by each operator.
fn by_operators(
    start: PlainDateTime,
    duration: SignedDuration,
    same: Duration,
) -> Option<PlainDateTime> {
    start.checked_sub(duration)?;
    let mut difference = start;
    difference -= duration;
    difference.checked_add_std(same)?;
    difference += same;
    difference.checked_sub_std(same)?;
    difference -= same;
    difference.checked_add(duration)?;
    difference += duration;
    difference.checked_sub(duration)?;
    let difference = difference - duration;
    difference.checked_add(duration)?;
    let sum = difference + duration;
    sum.checked_sub_std(same)?;
    let difference = sum - same;
    difference.checked_add_std(same)?;
    let sum = difference + same;
    sum.checked_sub(duration)
}
