//! Times of day.
use super::is;
use calendar_values::DateAdjustment::{Next, Previous, Same};
use calendar_values::{DateAdjustment, SignedDuration, Time};
use std::hash::{DefaultHasher, Hash, Hasher};
use std::test::Fail;
use std::time::Duration;

fn time(hour: u8, minute: u8, second: u8, nanosecond: u32) -> Result<Time, Fail> {
    Ok(Time::from_hms_nano(hour, minute, second, nanosecond)?)
}

#[test]
fn texts_have_the_digits_that_matter(rt: HostRuntime) -> Result<(), Fail> {
    for (hour, minute, second, nanosecond, text) in [
        (0, 0, 0, 0, "0:00:00.0"),
        (23, 59, 59, 999_999_999, "23:59:59.999999999"),
        (1, 2, 3, 40_000, "1:02:03.00004"),
        (9, 10, 11, 500_000_000, "9:10:11.5"),
        (10, 0, 0, 1, "10:00:00.000000001"),
    ] {
        let time = time(hour, minute, second, nanosecond)?;
        is(&rt, time.text().as_str(), text);
    }
    Ok(())
}

#[test]
fn formats_pad_the_text(rt: HostRuntime) -> Result<(), Fail> {
    let (midnight, last) = (Time::MIDNIGHT, Time::MAX);
    is(
        &rt,
        format!(in rt.alloc();
            "{last} {last:?}|{midnight:12}{midnight:>12}{midnight:*^14}"
        )?.as_str(),
        "23:59:59.999999999 23:59:59.999999999|0:00:00.0      0:00:00.0**0:00:00.0***",
    );
    Ok(())
}

#[test]
fn times_out_of_range_are_refused_by_their_first_part(rt: HostRuntime) {
    for (refused, name) in [
        (Time::from_hms(24, 60, 60), "hour"),
        (Time::from_hms(23, 60, 60), "minute"),
        (Time::from_hms(23, 59, 60), "second"),
        (Time::from_hms_milli(24, 60, 60, 1_000), "hour"),
        (Time::from_hms_milli(23, 59, 59, 1_000), "millisecond"),
        (Time::from_hms_micro(23, 60, 60, 1_000_000), "minute"),
        (Time::from_hms_micro(23, 59, 59, 1_000_000), "microsecond"),
        (Time::from_hms_nano(23, 59, 60, 1_000_000_000), "second"),
        (Time::from_hms_nano(23, 59, 59, 1_000_000_000), "nanosecond"),
    ] {
        let refusal = refused.expect_err(&rt, "a time");
        is(&rt, refusal.name(), name);
        is(&rt, refusal.is_conditional(), false);
    }
}

#[test]
fn replacements_out_of_range_are_refused(rt: HostRuntime) -> Result<(), Fail> {
    let time = time(1, 2, 3, 4_005_006)?;
    for (refused, name) in [
        (time.replace_hour(24), "hour"),
        (time.replace_minute(60), "minute"),
        (time.replace_second(60), "second"),
        (time.replace_millisecond(1_000), "millisecond"),
        (time.replace_millisecond(4_295), "millisecond"),
        (time.replace_millisecond(65_535), "millisecond"),
        (time.replace_microsecond(1_000_000), "microsecond"),
        (time.replace_microsecond(4_294_968), "microsecond"),
        (time.replace_microsecond(u32::MAX), "microsecond"),
        (time.replace_nanosecond(1_000_000_000), "nanosecond"),
    ] {
        let refusal = refused.expect_err(&rt, "a time");
        is(&rt, refusal.name(), name);
        is(&rt, refusal.is_conditional(), false);
    }
    Ok(())
}

#[test]
fn parts_are_those_given(rt: HostRuntime) -> Result<(), Fail> {
    let time = time(1, 2, 3, 4_005_006)?;
    is(&rt, time.as_hms(), (1, 2, 3));
    is(&rt, time.as_hms_milli(), (1, 2, 3, 4));
    is(&rt, time.as_hms_micro(), (1, 2, 3, 4_005));
    is(&rt, time.as_hms_nano(), (1, 2, 3, 4_005_006));
    is(&rt, time.hour(), 1);
    is(&rt, time.minute(), 2);
    is(&rt, time.second(), 3);
    is(&rt, time.millisecond(), 4);
    is(&rt, time.microsecond(), 4_005);
    is(&rt, time.nanosecond(), 4_005_006);
    Ok(())
}

#[test]
fn seconds_and_nanoseconds_are_counted_from_midnight(rt: HostRuntime) -> Result<(), Fail> {
    for (hour, minute, second, nanosecond, second_of_day, nanosecond_of_day) in [
        (0, 0, 0, 0, 0, 0),
        (1, 2, 3, 4, 3_723, 3_723_000_000_004),
        (23, 59, 59, 999_999_999, 86_399, 86_399_999_999_999),
    ] {
        let time = time(hour, minute, second, nanosecond)?;
        is(&rt, time.second_of_day(), second_of_day);
        is(&rt, time.nanosecond_of_day(), nanosecond_of_day);
        is(
            &rt,
            Time::from_second_of_day(second_of_day, nanosecond),
            Some(time),
        );
        is(
            &rt,
            Time::at_hms_nano(hour, minute, second, nanosecond),
            time,
        );
    }
    is(&rt, Time::at_second_of_day(86_399, 999_999_999), Time::MAX);
    is(&rt, Time::from_second_of_day(86_400, 0), None);
    is(&rt, Time::from_second_of_day(0, 1_000_000_000), None);
    Ok(())
}

#[test]
fn times_have_the_given_parts_and_no_finer_ones(rt: HostRuntime) -> Result<(), Fail> {
    let shown = time(1, 2, 3, 4_005_006)?;
    for (given, parts) in [
        (Time::from_hms_milli(1, 2, 3, 4), (1, 2, 3, 4_000_000)),
        (Time::from_hms_micro(1, 2, 3, 4_005), (1, 2, 3, 4_005_000)),
        (shown.replace_hour(7), (7, 2, 3, 4_005_006)),
        (shown.replace_minute(7), (1, 7, 3, 4_005_006)),
        (shown.replace_second(7), (1, 2, 7, 4_005_006)),
        (shown.replace_millisecond(7), (1, 2, 3, 7_000_000)),
        (shown.replace_microsecond(7_008), (1, 2, 3, 7_008_000)),
        (shown.replace_nanosecond(7_008_009), (1, 2, 3, 7_008_009)),
    ] {
        is(&rt, given?.as_hms_nano(), parts);
    }
    Ok(())
}

#[test]
fn truncations_clear_what_is_finer(rt: HostRuntime) -> Result<(), Fail> {
    let shown = time(15, 30, 45, 123_456_789)?;
    for (truncated, minute, second, nanosecond) in [
        (shown.truncate_to_hour(), 0, 0, 0),
        (shown.truncate_to_minute(), 30, 0, 0),
        (shown.truncate_to_second(), 30, 45, 0),
        (shown.truncate_to_millisecond(), 30, 45, 123_000_000),
        (shown.truncate_to_microsecond(), 30, 45, 123_456_000),
    ] {
        is(&rt, truncated, time(15, minute, second, nanosecond)?);
    }
    Ok(())
}

#[test]
fn sums_wrap_around_midnight(rt: HostRuntime) -> Result<(), Fail> {
    let (late, start) = (time(23, 30, 0, 0)?, time(1, 2, 3, 4)?);
    let less = SignedDuration::nanoseconds(-1);
    for (time, duration, adjustment, wanted) in [
        (late, SignedDuration::hours(27), Next, (2, 30, 0, 0)),
        (late, SignedDuration::hours(-27), Same, (20, 30, 0, 0)),
        (Time::MIDNIGHT, less, Previous, (23, 59, 59, 999_999_999)),
        (start, SignedDuration::MIN, Previous, (9, 31, 54, 5)),
        (start, SignedDuration::MAX, Same, (16, 32, 11, 3)),
    ] {
        let (moved, sum) = time.adjusting_add(duration);
        is(&rt, (moved, sum.as_hms_nano()), (adjustment, wanted));
    }
    Ok(())
}

#[test]
fn differences_wrap_around_midnight(rt: HostRuntime) -> Result<(), Fail> {
    let (late, start) = (time(23, 30, 0, 0)?, time(1, 2, 3, 4)?);
    let less = SignedDuration::nanoseconds(-1);
    for (time, duration, adjustment, wanted) in [
        (late, SignedDuration::hours(27), Same, (20, 30, 0, 0)),
        (late, SignedDuration::hours(-27), Next, (2, 30, 0, 0)),
        (Time::MIDNIGHT, less, Same, (0, 0, 0, 1)),
        (start, SignedDuration::MIN, Same, (16, 32, 12, 3)),
        (start, SignedDuration::MAX, Previous, (9, 31, 55, 5)),
    ] {
        let (moved, difference) = time.adjusting_sub(duration);
        is(&rt, (moved, difference.as_hms_nano()), (adjustment, wanted));
    }
    Ok(())
}

#[test]
fn unsigned_durations_wrap_around_midnight(rt: HostRuntime) -> Result<(), Fail> {
    for (start, is_next, sum, is_previous, difference) in [
        (Time::MIDNIGHT, false, 999_999_999, true, 1),
        (Time::MAX, true, 999_999_998, false, 0),
    ] {
        let (sum, difference) = (time(7, 0, 15, sum)?, time(16, 59, 44, difference)?);
        is(&rt, start.adjusting_add_std(Duration::MAX), (is_next, sum));
        is(
            &rt,
            start.adjusting_sub_std(Duration::MAX),
            (is_previous, difference),
        );
    }
    Ok(())
}

#[test]
fn order_is_that_of_the_clock(rt: HostRuntime) -> Result<(), Fail> {
    let (first, start, last) = (Time::MIDNIGHT, time(1, 2, 3, 4)?, Time::MAX);
    assert!(rt; first < start && start < last);
    is(
        &rt,
        first - last,
        SignedDuration::nanoseconds(-86_399_999_999_999),
    );
    is(&rt, hash_of(start), hash_of(time(1, 2, 3, 4)?));
    assert_ne!(rt; hash_of(start), hash_of(first));
    Ok(())
}

fn hash_of(time: Time) -> u64 {
    let mut hasher = DefaultHasher::new();
    time.hash(&mut hasher);
    hasher.finish()
}
