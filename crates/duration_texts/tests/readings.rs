//! Texts of durations: the numbers are those of Python's `fractions`, in nanoseconds.
use super::is;
use duration_texts::parse_duration;
use std::process::Abort;
use std::test::Fail;

// Ends the test unless the text has this number of nanoseconds.
fn reads(rt: &impl Abort, text: &str, nanoseconds: i128) -> Result<(), Fail> {
    is(
        rt,
        parse_duration(text.as_bytes())?.whole_nanoseconds(),
        nanoseconds,
    );
    Ok(())
}

#[test]
fn terms_by_name(rt: HostRuntime) -> Result<(), Fail> {
    for (text, nanoseconds) in [
        ("90 minutes", 5_400_000_000_000),
        ("1 day 2 hours -1 nanosecond", 93_599_999_999_999),
        ("+1 Day", 86_400_000_000_000),
        ("0.5 days", 43_200_000_000_000),
        ("1day2hours", 93_600_000_000_000),
        ("1 day -0.5 seconds", 86_399_500_000_000),
        ("2 HOURS 1 DAY", 93_600_000_000_000),
        ("-1 hour 30 minutes", -1_800_000_000_000),
        ("0.0000152587890625 days", 1_318_359_375),
    ] {
        reads(&rt, text, nanoseconds)?;
    }
    Ok(())
}

#[test]
fn terms_in_short(rt: HostRuntime) -> Result<(), Fail> {
    for (text, nanoseconds) in [
        ("36h", 129_600_000_000_000),
        ("1h30m", 5_400_000_000_000),
        ("1d", 86_400_000_000_000),
        ("90s", 90_000_000_000),
        ("0s", 0),
        ("-1h30m", -5_400_000_000_000),
        ("1h-30m", 1_800_000_000_000),
        ("-1h +30m", -1_800_000_000_000),
        ("250ms", 250_000_000),
        ("7us", 7_000),
        ("7µs", 7_000),
        ("9ns", 9),
        ("1.5h30m", 7_200_000_000_000),
    ] {
        reads(&rt, text, nanoseconds)?;
    }
    Ok(())
}

#[test]
fn forms_of_iso_8601(rt: HostRuntime) -> Result<(), Fail> {
    for (text, nanoseconds) in [
        ("PT36H", 129_600_000_000_000),
        ("P1DT2H", 93_600_000_000_000),
        ("-PT1M0.5S", -60_500_000_000),
        (" +P1.5D ", 129_600_000_000_000),
        ("PT0S", 0),
        ("PT1H1S", 3_601_000_000_000),
    ] {
        reads(&rt, text, nanoseconds)?;
    }
    Ok(())
}

#[test]
fn seconds_alone(rt: HostRuntime) -> Result<(), Fail> {
    for (text, nanoseconds) in [
        ("90", 90_000_000_000),
        (" -1 ", -1_000_000_000),
        ("1.5", 1_500_000_000),
        ("0.000000001", 1),
        ("00000000000000000000000000000000000000001", 1_000_000_000),
        ("0.50000000000000000000000000000000000000000", 500_000_000),
        (
            "9223372036854775807.999999999",
            9_223_372_036_854_775_807_999_999_999,
        ),
        (
            "-9223372036854775808.999999999",
            -9_223_372_036_854_775_808_999_999_999,
        ),
    ] {
        reads(&rt, text, nanoseconds)?;
    }
    Ok(())
}
