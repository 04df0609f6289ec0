//! Texts at the front of others, offsets alone, and instants at fixed width:
//! `gate/shared/stamp_lines.py` gives the expected ones.
use super::is;
use calendar_values::UtcOffset;
use offset_times::ToOffset;
use rfc3339::{
    Component, TextRefusal, parse_rfc3339_front, parse_rfc3339_offset, to_rfc3339_nanos_at,
    to_unix_nanos,
};
use std::test::Fail;
use utc_times::UtcDateTime;

#[test]
fn fronts_that_are_read(rt: HostRuntime) -> Result<(), Fail> {
    for (text, second, nanosecond, offset, length) in [
        (
            "1985-04-12T23:20:50.52Z done",
            482_196_050,
            520_000_000,
            0,
            23,
        ),
        ("1996-12-19 16:39:57-08:00:00", 851_042_397, 0, -28_800, 25),
        ("2024-02-29t00:00:00zZ", 1_709_164_800, 0, 0, 20),
        ("2000-02-29T12:00:00-00:301", 951_827_400, 0, -1_800, 25),
        (
            "2024-06-30T12:00:00.1234567899Z",
            1_719_748_800,
            123_456_789,
            0,
            31,
        ),
    ] {
        let (at, count) = parse_rfc3339_front(text.as_bytes())?;
        is(&rt, count, length);
        is(&rt, at.unix_timestamp(), second);
        is(&rt, at.nanosecond(), nanosecond);
        is(&rt, at.offset().whole_seconds(), offset);
    }
    Ok(())
}

#[test]
fn fronts_that_are_refused(rt: HostRuntime) -> Result<(), Fail> {
    for (text, refusal) in [
        (
            "2024-02-30T00:00:00Z x",
            TextRefusal::OutOfRange(Component::Day),
        ),
        (
            "2024-06-30T23:59:60Z x",
            TextRefusal::OutOfRange(Component::Second),
        ),
        (
            "2024-06-30T12:00:00+24:00 x",
            TextRefusal::OutOfRange(Component::OffsetHour),
        ),
        ("2024-06-30T12:00:00 x", TextRefusal::Syntax),
        (" 2024-06-30T12:00:00Z", TextRefusal::Syntax),
        ("", TextRefusal::Syntax),
    ] {
        is(
            &rt,
            parse_rfc3339_front(text.as_bytes()).err(),
            Some(refusal),
        );
    }
    Ok(())
}

#[test]
fn offsets_alone(rt: HostRuntime) -> Result<(), Fail> {
    for (text, seconds) in [
        ("Z", 0),
        ("z", 0),
        ("+05:30", 19_800),
        ("-00:30", -1_800),
        ("-23:59", -86_340),
    ] {
        is(
            &rt,
            parse_rfc3339_offset(text.as_bytes())?.whole_seconds(),
            seconds,
        );
    }
    for (text, refusal) in [
        ("+24:00", TextRefusal::OutOfRange(Component::OffsetHour)),
        ("+05:60", TextRefusal::OutOfRange(Component::OffsetMinute)),
        ("05:30", TextRefusal::Syntax),
        ("+0530", TextRefusal::Syntax),
        ("+05:30 ", TextRefusal::Syntax),
        ("ZZ", TextRefusal::Syntax),
        ("", TextRefusal::Syntax),
    ] {
        is(
            &rt,
            parse_rfc3339_offset(text.as_bytes()).err(),
            Some(refusal),
        );
    }
    Ok(())
}

#[test]
fn fixed_widths_at_offsets(rt: HostRuntime) -> Result<(), Fail> {
    let at = UtcDateTime::from_unix_timestamp_nanos(482_196_050_520_000_000)?;
    for (seconds, expected) in [
        (19_800, "1985-04-13T04:50:50.520000000+05:30"),
        (-28_800, "1985-04-12T15:20:50.520000000-08:00"),
        (0, "1985-04-12T23:20:50.520000000Z"),
    ] {
        let offset = UtcOffset::from_whole_seconds(seconds)?;
        let Some(shown) = at.checked_to_offset(offset) else {
            return Err(Fail::from("not in the range"));
        };
        let Some(text) = to_rfc3339_nanos_at(shown) else {
            return Err(Fail::from("no text"));
        };
        is(&rt, text.as_str(), expected);
    }
    Ok(())
}

#[test]
fn unix_seconds(rt: HostRuntime) -> Result<(), Fail> {
    for (nanoseconds, expected) in [
        (0, "0.000000000"),
        (-1, "-0.000000001"),
        (-500_000_000, "-0.500000000"),
        (-1_000_000_000, "-1.000000000"),
        (1_722_500_000_000_000_000, "1722500000.000000000"),
        (-62_167_219_260_000_000_000, "-62167219260.000000000"),
    ] {
        let at = UtcDateTime::from_unix_timestamp_nanos(nanoseconds)?;
        is(&rt, to_unix_nanos(at).as_str(), expected);
    }
    Ok(())
}
