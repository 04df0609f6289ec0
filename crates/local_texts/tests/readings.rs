//! Texts without an offset: the seconds are those of Python's `datetime`.
use super::is;
use calendar_values::UtcOffset;
use local_texts::{parse_date_time, parse_date_time_at, parse_time};
use offset_times::Assume;
use rfc3339::{Component, TextRefusal};
use std::test::Fail;

#[test]
fn date_times_that_are_read(rt: HostRuntime) -> Result<(), Fail> {
    for (text, second, nanosecond) in [
        ("2024-02-29T12:34:56.5", 1_709_210_096, 500_000_000),
        ("1996-12-19 16:39:57", 851_013_597, 0),
        ("2000-02-29t00:00:00", 951_782_400, 0),
        ("1937-01-01T12:00:27.87", -1_041_335_973, 870_000_000),
        ("0001-01-01T00:00:00", -62_135_596_800, 0),
        (
            "9999-12-31T23:59:59.9999999999",
            253_402_300_799,
            999_999_999,
        ),
        ("2024-02-29T12:34:56.123456789", 1_709_210_096, 123_456_789),
        (
            "2024-02-29T12:34:56.12345678912345678",
            1_709_210_096,
            123_456_789,
        ),
    ] {
        let at = parse_date_time(text.as_bytes())?.assume_utc();
        is(&rt, at.unix_timestamp(), second);
        is(&rt, at.nanosecond(), nanosecond);
    }
    Ok(())
}

#[test]
fn date_times_that_are_refused(rt: HostRuntime) {
    for (text, refusal) in [
        (
            "2023-02-29T12:34:56",
            TextRefusal::OutOfRange(Component::Day),
        ),
        (
            "2024-13-01T24:00:00",
            TextRefusal::OutOfRange(Component::Month),
        ),
        (
            "2024-06-30T23:59:60",
            TextRefusal::OutOfRange(Component::Second),
        ),
        (
            "2024-06-30T23:59:60.9999999999",
            TextRefusal::OutOfRange(Component::Second),
        ),
        ("2024-02-29T12:34:56Z", TextRefusal::Syntax),
        ("2024-02-29T12:34:56+01:00", TextRefusal::Syntax),
        ("2024-02-29T12:34:56.", TextRefusal::Syntax),
        ("2024-02-29T12:34", TextRefusal::Syntax),
        ("2024-02-29T12:34:56.1234567890Z", TextRefusal::Syntax),
        ("2024-02-29", TextRefusal::Syntax),
        ("", TextRefusal::Syntax),
    ] {
        is(&rt, parse_date_time(text.as_bytes()).err(), Some(refusal));
    }
}

#[test]
fn times_that_are_read(rt: HostRuntime) -> Result<(), Fail> {
    for (text, parts) in [
        ("12:34:56", (12, 34, 56, 0)),
        ("23:20:50.52", (23, 20, 50, 520_000_000)),
        ("00:00:00.0000000019", (0, 0, 0, 1)),
    ] {
        is(&rt, parse_time(text.as_bytes())?.as_hms_nano(), parts);
    }
    Ok(())
}

#[test]
fn times_that_are_refused(rt: HostRuntime) {
    for (text, refusal) in [
        ("24:00:00", TextRefusal::OutOfRange(Component::Hour)),
        ("23:60:00", TextRefusal::OutOfRange(Component::Minute)),
        ("23:59:60", TextRefusal::OutOfRange(Component::Second)),
        ("23:59", TextRefusal::Syntax),
        ("23:59:59Z", TextRefusal::Syntax),
        ("23:59:59.123456789x", TextRefusal::Syntax),
        ("", TextRefusal::Syntax),
    ] {
        is(&rt, parse_time(text.as_bytes()).err(), Some(refusal));
    }
}

#[test]
fn offsets_that_are_assumed(rt: HostRuntime) -> Result<(), Fail> {
    let assumed = UtcOffset::from_hms(5, 30, 0)?;
    for (text, second, offset) in [
        ("1970-01-01T05:30:00", 0, 19_800),
        ("1970-01-01T05:30:00Z", 19_800, 0),
        ("1970-01-01T05:30:00+01:00", 16_200, 3_600),
    ] {
        let at = parse_date_time_at(text.as_bytes(), assumed)?;
        is(&rt, at.unix_timestamp(), second);
        is(&rt, at.offset().whole_seconds(), offset);
    }
    for (text, refusal) in [
        (
            "1970-01-01T05:30:00+24:00",
            TextRefusal::OutOfRange(Component::OffsetHour),
        ),
        (
            "1970-01-01T24:30:00",
            TextRefusal::OutOfRange(Component::Hour),
        ),
        ("1970-01-01", TextRefusal::Syntax),
    ] {
        is(
            &rt,
            parse_date_time_at(text.as_bytes(), assumed).err(),
            Some(refusal),
        );
    }
    Ok(())
}
