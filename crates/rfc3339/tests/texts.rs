//! Texts and their values: the examples of RFC 3339, both ends, each error, and every byte at every
//! place. Python's `re` and `datetime` give the expected ones (`gate/shared/rfc3339.py`).
use super::is;
use calendar_values::{Date, Month, Text, Time, UtcOffset};
use offset_times::OffsetDateTime;
use rfc3339::{Component, Rfc3339, TextRefusal, parse_rfc3339, to_rfc3339_nanos};
use stamp_times::Timestamp;
use std::test::Fail;
use utc_times::UtcDateTime;

// Whether this text was written.
fn is_text(written: Option<Text>, expected: &str) -> bool {
    match written {
        Some(text) => text.as_str() == expected,
        None => false,
    }
}

#[test]
fn texts_that_are_read(rt: HostRuntime) -> Result<(), Fail> {
    for (text, expected, rewritten) in [
        (
            "1985-04-12T23:20:50.52Z",
            (482_196_050, 520_000_000, 0),
            "1985-04-12T23:20:50.52Z",
        ),
        (
            "1996-12-19T16:39:57-08:00",
            (851_042_397, 0, -28_800),
            "1996-12-19T16:39:57-08:00",
        ),
        (
            "1937-01-01T12:00:27.87+00:20",
            (-1_041_337_173, 870_000_000, 1_200),
            "1937-01-01T12:00:27.87+00:20",
        ),
        (
            "1996-12-19 16:39:57.000-08:00",
            (851_042_397, 0, -28_800),
            "1996-12-19T16:39:57-08:00",
        ),
        (
            "2024-02-29t00:00:00z",
            (1_709_164_800, 0, 0),
            "2024-02-29T00:00:00Z",
        ),
        (
            "2000-02-29T12:00:00-00:30",
            (951_827_400, 0, -1_800),
            "2000-02-29T12:00:00-00:30",
        ),
        (
            "0000-01-01T00:00:00-00:00",
            (-62_167_219_200, 0, 0),
            "0000-01-01T00:00:00Z",
        ),
        (
            "0000-01-01T00:00:00+23:59",
            (-62_167_305_540, 0, 86_340),
            "0000-01-01T00:00:00+23:59",
        ),
        (
            "9999-12-31T23:59:59.999999999-23:59",
            (253_402_387_139, 999_999_999, -86_340),
            "9999-12-31T23:59:59.999999999-23:59",
        ),
        (
            "2000-01-01T00:00:00.1234567899+23:59",
            (946_598_460, 123_456_789, 86_340),
            "2000-01-01T00:00:00.123456789+23:59",
        ),
        (
            "1970-01-01T00:00:00.000000001Z",
            (0, 1, 0),
            "1970-01-01T00:00:00.000000001Z",
        ),
    ] {
        let at = parse_rfc3339(text.as_bytes())?;
        let second = at.unix_timestamp();
        let numbers = (second, at.nanosecond(), at.offset().whole_seconds());
        is(&rt, numbers, expected);
        assert!(rt; is_text(at.to_rfc3339(), rewritten), "{text}");
        let in_utc = UtcDateTime::from_rfc3339(text.as_bytes())?;
        is(&rt, in_utc.unix_timestamp(), second);
        is(&rt, in_utc.nanosecond(), expected.1);
        let stamp = Timestamp::from_rfc3339(text.as_bytes())?;
        is(&rt, stamp, Timestamp::new(expected.0, expected.1)?);
        is(&rt, OffsetDateTime::from_rfc3339(text.as_bytes()), Ok(at));
    }
    Ok(())
}

#[test]
fn texts_that_are_refused(rt: HostRuntime) -> Result<(), Fail> {
    for (text, component) in [
        ("1990-12-31T23:59:60Z", Component::Second),
        ("1990-12-31T15:59:60-08:00", Component::Second),
        ("2023-02-29T00:00:00Z", Component::Day),
        ("1900-02-29T00:00:00Z", Component::Day),
        ("2023-00-01T00:00:00Z", Component::Month),
        ("2023-04-31T00:00:00Z", Component::Day),
        ("2023-12-31T24:00:00Z", Component::Hour),
        ("2023-13-32T24:60:60+24:60", Component::Month),
        ("2023-12-32T24:60:60+24:60", Component::Day),
        ("2023-12-31T24:60:60+24:60", Component::Hour),
        ("2023-12-31T23:60:60+24:60", Component::Minute),
        ("2023-12-31T23:59:60+24:60", Component::Second),
        ("2023-12-31T23:59:59+24:60", Component::OffsetHour),
        ("2023-12-31T23:59:59+23:60", Component::OffsetMinute),
    ] {
        let refusal = Some(TextRefusal::OutOfRange(component));
        is(&rt, parse_rfc3339(text.as_bytes()).err(), refusal);
        is(
            &rt,
            UtcDateTime::from_rfc3339(text.as_bytes()).err(),
            refusal,
        );
    }
    for text in [
        "",
        "2023-12-31",
        "2023-12-31T23:59:59",
        "2023-12-31T23:59:59.5",
        "2023-12-31T23:59Z",
        "2023-12-31T23:59:59.Z",
        "2023-12-31T23:59:59,5Z",
        "2023-12-31T23:59:59+0100",
        "2023-12-31T23:59:59+01",
        "2023-12-31T23:59:59ZZ",
        "2023-12-31T23:59:59Z ",
        " 2023-12-31T23:59:59Z",
        "2023-12-31_23:59:59Z",
        "2023-1-31T23:59:59Z",
        "+2023-12-31T23:59:59Z",
        "-2023-12-31T23:59:59Z",
        "12023-12-31T23:59:59Z",
    ] {
        is(
            &rt,
            parse_rfc3339(text.as_bytes()).err(),
            Some(TextRefusal::Syntax),
        );
        is(
            &rt,
            Timestamp::from_rfc3339(text.as_bytes()).err(),
            Some(TextRefusal::Syntax),
        );
    }
    Ok(())
}

#[test]
fn refusals_print(rt: HostRuntime) -> Result<(), Fail> {
    for (text, printed) in [
        ("2023-00-01T00:00:00Z", "month is out of range"),
        ("2023-01-00T00:00:00Z", "day is out of range"),
        ("2023-01-01T24:00:00Z", "hour is out of range"),
        ("2023-01-01T00:60:00Z", "minute is out of range"),
        ("2023-01-01T00:00:60Z", "second is out of range"),
        ("2023-01-01T00:00:00+24:00", "offset hour is out of range"),
        ("2023-01-01T00:00:00+00:60", "offset minute is out of range"),
        ("now", "no date-time of RFC 3339"),
    ] {
        match parse_rfc3339(text.as_bytes()) {
            Ok(_) => assert!(rt; false, "{text}"),
            Err(refusal) => {
                let shown = format!(in rt.alloc(); "{refusal}")?;
                assert!(rt; shown.as_str() == printed, "{text}");
            }
        }
    }
    Ok(())
}

#[test]
fn values_without_a_text(rt: HostRuntime) -> Result<(), Fail> {
    for (year, offset) in [
        (-1, 0),
        (10_000, 0),
        (2000, 1),
        (2000, -59),
        (2000, 86_400),
        (2000, -86_400),
    ] {
        let date = Date::from_calendar_date(year, Month::June, 1)?;
        let offset = UtcOffset::from_whole_seconds(offset)?;
        let at = OffsetDateTime::new_in_offset(date, Time::MIDNIGHT, offset);
        assert!(rt; at.to_rfc3339().is_none());
    }
    // an instant whose year in UTC is 10000, though clocks at its offset show 9999
    let at = UtcDateTime::from_rfc3339(b"9999-12-31T23:59:59-00:01")?;
    assert!(rt; at.to_rfc3339().is_none());
    assert!(rt; to_rfc3339_nanos(at).is_none());
    Ok(())
}

#[test]
fn texts_of_instants(rt: HostRuntime) -> Result<(), Fail> {
    for (nanosecond, shortest, fixed) in [
        (0, "1970-01-01T00:00:00Z", "1970-01-01T00:00:00.000000000Z"),
        (
            -1,
            "1969-12-31T23:59:59.999999999Z",
            "1969-12-31T23:59:59.999999999Z",
        ),
        (
            482_196_050_520_000_000,
            "1985-04-12T23:20:50.52Z",
            "1985-04-12T23:20:50.520000000Z",
        ),
        (
            -62_167_219_200_000_000_000,
            "0000-01-01T00:00:00Z",
            "0000-01-01T00:00:00.000000000Z",
        ),
        (
            253_402_300_799_999_999_999,
            "9999-12-31T23:59:59.999999999Z",
            "9999-12-31T23:59:59.999999999Z",
        ),
    ] {
        let at = UtcDateTime::from_unix_timestamp_nanos(nanosecond)?;
        let stamp = Timestamp::from_nanoseconds(nanosecond)?;
        let shown = OffsetDateTime::from(at);
        assert!(rt; is_text(at.to_rfc3339(), shortest), "{shortest}");
        assert!(rt; is_text(stamp.to_rfc3339(), shortest), "{shortest}");
        assert!(rt; is_text(shown.to_rfc3339(), shortest), "{shortest}");
        assert!(rt; is_text(to_rfc3339_nanos(at), fixed), "{fixed}");
        assert!(rt; is_text(to_rfc3339_nanos(stamp), fixed), "{fixed}");
        is(&rt, Timestamp::from_rfc3339(shortest.as_bytes()), Ok(stamp));
        is(&rt, UtcDateTime::from_rfc3339(fixed.as_bytes()), Ok(at));
    }
    Ok(())
}
