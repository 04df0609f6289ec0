//! Times of day with an offset: the numbers are those of Python's `datetime.time.fromisoformat`,
//! and the texts of another form we found by hand in RFC 3339.
use super::is;
use local_texts::parse_time_with_offset;
use rfc3339::{Component, TextRefusal, syntax_fault};
use std::test::Fail;

#[test]
fn times_with_an_offset_that_are_read(rt: HostRuntime) -> Result<(), Fail> {
    for (text, parts, seconds) in [
        ("16:39:57-08:00", (16, 39, 57, 0), -28_800),
        ("12:00:27.87+00:20", (12, 0, 27, 870_000_000), 1_200),
        ("23:20:50.52Z", (23, 20, 50, 520_000_000), 0),
        ("00:00:00z", (0, 0, 0, 0), 0),
        (
            "23:59:59.999999999+23:59",
            (23, 59, 59, 999_999_999),
            86_340,
        ),
        ("00:00:00.0000000019-23:59", (0, 0, 0, 1), -86_340),
        (
            "12:34:56.12345678912345678-00:00",
            (12, 34, 56, 123_456_789),
            0,
        ),
    ] {
        let (time, offset) = parse_time_with_offset(text.as_bytes())?;
        is(&rt, time.as_hms_nano(), parts);
        is(&rt, offset.whole_seconds(), seconds);
    }
    Ok(())
}

#[test]
fn times_with_an_offset_out_of_range(rt: HostRuntime) {
    for (text, component) in [
        ("24:00:00Z", Component::Hour),
        ("23:60:00+01:00", Component::Minute),
        ("23:59:60.5+01:00", Component::Second),
        ("12:00:00+24:00", Component::OffsetHour),
        ("12:00:00-23:60", Component::OffsetMinute),
        ("24:00:00+24:60", Component::Hour),
        ("12:00:00+99:99", Component::OffsetHour),
    ] {
        is(
            &rt,
            parse_time_with_offset(text.as_bytes()).err(),
            Some(TextRefusal::OutOfRange(component)),
        );
    }
}

#[test]
fn times_with_an_offset_of_another_form(rt: HostRuntime) {
    for text in [
        "",
        "Z",
        "12:00:00",
        "12:00Z",
        "12:00:00.Z",
        "12:00:00,5Z",
        "12:00:00 +01:00",
        "12:00:00+0100",
        "12:00:00+1:00",
        "12:00:00.5+01:00x",
        "24:00:00+1:00",
        "T12:00:00Z",
        "1970-01-01T12:00:00Z",
    ] {
        is(
            &rt,
            parse_time_with_offset(text.as_bytes()).err(),
            Some(TextRefusal::Syntax),
        );
    }
}

// The place in the text is that after a date, less the 11 bytes of the date and the `T`.
#[test]
fn faults_of_times_with_an_offset(rt: HostRuntime) {
    for (text, place) in [
        ("1970-01-01T12:00:00", 19),
        ("1970-01-01T12:00Z", 16),
        ("1970-01-01T12:00:00.Z", 20),
        ("1970-01-01T12:00:00+0100", 22),
    ] {
        is(&rt, syntax_fault(text.as_bytes()), place);
    }
}
