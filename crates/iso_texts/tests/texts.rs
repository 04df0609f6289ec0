//! Texts of every year. The seconds are those of Python's `date`, for a year that is a multiple of
//! 400 away and has the same days.
use super::is;
use iso_texts::{date_time_from_iso, date_time_to_iso};
use rfc3339::{Component, TextRefusal};
use std::test::Fail;

#[test]
fn date_times_that_are_read(rt: HostRuntime) -> Result<(), Fail> {
    for (text, second, nanosecond, offset) in [
        ("2024-02-29T12:34:56Z", 1_709_210_096, 0, 0),
        ("+002024-02-29T12:34:56+01:19:32", 1_709_205_324, 0, 4_772),
        ("0000-02-29t00:00:00z", -62_162_121_600, 0, 0),
        ("+000000-02-29 00:00:00-00:00", -62_162_121_600, 0, 0),
        ("-000000-02-29T00:00:00Z", -62_162_121_600, 0, 0),
        (
            "-000001-12-31T23:59:59.999999999Z",
            -62_167_219_201,
            999_999_999,
            0,
        ),
        ("-000004-02-29T00:00:00-00:00:30", -62_288_351_970, 0, -30),
        ("-004712-11-24T12:00:00+00:00:01", -210_835_137_601, 0, 1),
        ("+010000-01-01T00:00:00Z", 253_402_300_800, 0, 0),
        ("+100000-02-29T06:30:00+05:45", 3_093_533_081_100, 0, 20_700),
        (
            "+294276-12-31T23:59:59.999999Z",
            9_224_318_015_999,
            999_999_000,
            0,
        ),
    ] {
        let at = date_time_from_iso(text.as_bytes())?;
        is(&rt, at.unix_timestamp(), second);
        is(&rt, at.nanosecond(), nanosecond);
        is(&rt, at.offset().whole_seconds(), offset);
    }
    Ok(())
}

#[test]
fn ends_of_the_range(rt: HostRuntime) -> Result<(), Fail> {
    for (text, year, second, offset) in [
        (
            "+999999-12-31T23:59:59.999999999-25:59:59",
            999_999,
            31_494_784_874_398,
            -93_599,
        ),
        (
            "-999999-01-01T00:00:00+25:59:59",
            -999_999,
            -31_619_087_690_399,
            93_599,
        ),
    ] {
        let at = date_time_from_iso(text.as_bytes())?;
        is(&rt, at.year(), year);
        is(&rt, at.unix_timestamp(), second);
        is(&rt, at.offset().whole_seconds(), offset);
        is(&rt, date_time_to_iso(at).as_str(), text);
    }
    Ok(())
}

#[test]
fn texts_that_are_no_date_times(rt: HostRuntime) -> Result<(), Fail> {
    for text in [
        "",
        "+",
        "-4712-01-01T00:00:00Z",
        "10000-01-01T00:00:00Z",
        "+10000-01-01T00:00:00Z",
        "+0010000-01-01T00:00:00Z",
        "2024-02-29T12:34:56",
        "2024-02-29T12:34:56Z:00",
        "2024-02-29T12:34:56z:00",
        "2024-02-29T12:34:56+01",
        "2024-02-29T12:34:56+01:19:3",
        "2024-02-29T12:34:56+01:19:60",
        "2024-02-29T12:34:56+01:19:32Z",
        "2024-02-29T12:34:56+01:19:32:00",
        "2024-02-29T12:34:56+01:19.32",
        "2024-02-29T12:34:56.+01:19:32",
        "*02024-02-29T12:34:56Z",
    ] {
        is(
            &rt,
            date_time_from_iso(text.as_bytes()),
            Err(TextRefusal::Syntax),
        );
    }
    Ok(())
}

#[test]
fn parts_out_of_range(rt: HostRuntime) -> Result<(), Fail> {
    for (text, component) in [
        ("-000001-13-01T00:00:00Z", Component::Month),
        ("-000001-02-29T00:00:00Z", Component::Day),
        ("+100100-02-29T00:00:00Z", Component::Day),
        ("+100000-02-30T24:00:00Z", Component::Day),
        ("+100000-01-01T24:60:60Z", Component::Hour),
        ("+100000-01-01T23:60:60Z", Component::Minute),
        ("+100000-01-01T23:59:60Z", Component::Second),
        ("+100000-01-01T23:59:59+26:60:59", Component::OffsetHour),
        ("+100000-01-01T23:59:59-25:60:59", Component::OffsetMinute),
    ] {
        is(
            &rt,
            date_time_from_iso(text.as_bytes()),
            Err(TextRefusal::OutOfRange(component)),
        );
    }
    Ok(())
}

#[test]
fn texts_that_are_written(rt: HostRuntime) -> Result<(), Fail> {
    for (text, written) in [
        ("2024-02-29 12:34:56.500z", "2024-02-29T12:34:56.5Z"),
        ("+002024-02-29T12:34:56-00:00:00", "2024-02-29T12:34:56Z"),
        (
            "-000000-01-01T00:00:00-00:00:01",
            "0000-01-01T00:00:00-00:00:01",
        ),
        ("+009999-12-31T23:59:59+24:00", "9999-12-31T23:59:59+24:00"),
        (
            "+010000-01-01T00:00:00.000000001+00:01",
            "+010000-01-01T00:00:00.000000001+00:01",
        ),
        (
            "-000001-01-01T00:00:00-01:19:32",
            "-000001-01-01T00:00:00-01:19:32",
        ),
    ] {
        let at = date_time_from_iso(text.as_bytes())?;
        is(&rt, date_time_to_iso(at).as_str(), written);
    }
    Ok(())
}
