//! Texts of RFC 3339 without an offset, of a time of day and of an offset. The numbers are those of Python's `datetime`.

use muxandu::local_texts::{date_time_fault, parse_date_time_at, time_fault};
use muxandu::macros::{datetime, offset, time};
use muxandu::proved::Component;
use muxandu::{OffsetDateTime, PlainDateTime, TextRefusal, Time, UtcOffset};

const SYNTAX: TextRefusal = TextRefusal::Syntax;

const fn out_of_range(component: Component) -> TextRefusal {
    TextRefusal::OutOfRange(component)
}

#[test]
fn date_times_without_an_offset() {
    let read = |text: &str| PlainDateTime::from_rfc3339(text.as_bytes());
    for text in
        ["2024-02-29T12:34:56.5", "2024-02-29 12:34:56.50", "2024-02-29t12:34:56.5000000000"]
    {
        assert_eq!(read(text), Ok(datetime!(2024-02-29 12:34:56.5)), "{text}");
    }
    for (text, refusal) in [
        ("2023-02-29T12:34:56", out_of_range(Component::Day)),
        ("2024-13-01T24:00:00", out_of_range(Component::Month)),
        ("2024-06-30T23:59:60", out_of_range(Component::Second)),
        ("2024-02-29T12:34:56Z", SYNTAX),
        ("2024-02-29T12:34", SYNTAX),
        ("2024-02-29", SYNTAX),
    ] {
        assert_eq!(read(text), Err(refusal), "{text}");
    }
    assert_eq!(date_time_fault(b"1985-04-12T23:20:50Z"), 19);
}

#[test]
fn offsets_that_are_assumed() {
    let at = |text: &[u8]| OffsetDateTime::from_rfc3339_at(text, offset!(+5:30));
    for (text, second, offset) in [
        ("1970-01-01T05:30:00", 0, 19_800),
        ("1970-01-01 05:30:00Z", 19_800, 0),
        ("1970-01-01T05:30:00+01:00", 16_200, 3_600),
    ] {
        let read = at(text.as_bytes()).unwrap();
        assert_eq!(
            (read.unix_timestamp(), read.offset().whole_seconds()),
            (second, offset),
            "{text}"
        );
        assert_eq!(parse_date_time_at(text.as_bytes(), offset!(+5:30)), Ok(read));
    }
    assert_eq!(at(b"1970-01-01T05:30:00+24:00"), Err(out_of_range(Component::OffsetHour)));
}

#[test]
fn times_of_day() {
    assert_eq!(Time::from_rfc3339(b"23:20:50.52"), Ok(time!(23:20:50.52)));
    assert_eq!(Time::from_rfc3339(b"24:00:00"), Err(out_of_range(Component::Hour)));
    assert_eq!(Time::from_rfc3339(b"23:20"), Err(SYNTAX));
    assert_eq!(time_fault(b"23:20Z"), 5);
}

#[test]
fn times_of_day_with_an_offset() {
    let read = |text: &str| Time::from_rfc3339_with_offset(text.as_bytes());
    assert_eq!(read("16:39:57-08:00"), Ok((time!(16:39:57), offset!(-8))));
    assert_eq!(read("12:00:27.87+00:20"), Ok((time!(12:00:27.87), offset!(+0:20))));
    assert_eq!(read("23:20:50.1234567899Z"), Ok((time!(23:20:50.123456789), offset!(UTC))));
    for (text, refusal) in [
        ("24:00:00+24:00", out_of_range(Component::Hour)),
        ("12:00:00+24:00", out_of_range(Component::OffsetHour)),
        ("12:00:00-23:60", out_of_range(Component::OffsetMinute)),
        ("24:00:00+1:00", SYNTAX),
        ("12:00:00", SYNTAX),
        ("12:00:00.Z", SYNTAX),
        ("1970-01-01T12:00:00Z", SYNTAX),
    ] {
        assert_eq!(read(text), Err(refusal), "{text}");
    }
}

#[test]
fn offsets_alone() {
    for (text, seconds) in [("+05:30", 19_800), ("-23:59", -86_340), ("Z", 0), ("z", 0)] {
        let offset = UtcOffset::from_rfc3339(text.as_bytes()).unwrap();
        assert_eq!(offset.whole_seconds(), seconds, "{text}");
    }
    assert_eq!(UtcOffset::from_rfc3339(b"+24:00"), Err(out_of_range(Component::OffsetHour)));
    assert_eq!(UtcOffset::from_rfc3339(b"+0530"), Err(SYNTAX));
}

/// Each text of a date-time that is read has its parts read alone, and so have texts a byte from it.
#[test]
fn parts_of_a_date_time_are_read_as_the_whole() {
    let whole = b"1970-01-01T12:34:56.123456789012-07:30";
    let (with_date, offset_at) = (11, whole.len() - 6);
    for place in with_date..whole.len() {
        for byte in [b'0', b'6', b'9', b':', b'.', b'Z', b'+', b' '] {
            let mut text = *whole;
            text[place] = byte;
            let parts = OffsetDateTime::from_rfc3339(&text).map(|at| (at.time(), at.offset()));
            assert_eq!(Time::from_rfc3339_with_offset(&text[with_date..]), parts);
            if place < offset_at {
                let mut in_utc = text[..offset_at].to_vec();
                in_utc.push(b'Z');
                let time = OffsetDateTime::from_rfc3339(&in_utc).map(|at| at.time());
                assert_eq!(Time::from_rfc3339(&text[with_date..offset_at]), time);
            }
        }
    }
}
