//! RFC 2822: the rows are those of the RFC (appendix A, 3.3), of RFC 9110 (5.6.7), and of
//! `format_datetime` and `parsedate_to_datetime` of Python.
use super::is;
use calendar_values::{Date, Month, Time, UtcOffset};
use format_descriptions::{
    Field, MailRefusal, Parts, format_rfc2822, parse_iso8601, parse_rfc2822,
    parse_rfc2822_front_into,
};
use offset_times::OffsetDateTime;
use std::process::Abort;
use std::test::Fail;

#[test]
fn texts_of_rfc_2822(rt: HostRuntime) -> Result<(), Fail> {
    for (second, hours, minutes, text) in [
        (784_111_777, 0, 0, "Sun, 06 Nov 1994 08:49:37 +0000"),
        (880_127_706, -6, 0, "Fri, 21 Nov 1997 09:55:06 -0600"),
        (1_057_049_557, 2, 0, "Tue, 01 Jul 2003 10:52:37 +0200"),
        (-2_208_988_800, 0, 0, "Mon, 01 Jan 1900 00:00:00 +0000"),
        (1_709_188_200, 5, 30, "Thu, 29 Feb 2024 12:00:00 +0530"),
    ] {
        let offset = UtcOffset::from_hms(hours, minutes, 0)?;
        let utc = OffsetDateTime::from_unix_timestamp(second)?;
        let at = utc.checked_to_offset(offset).unwrap_or(utc);
        let written = format_rfc2822(at);
        is(
            &rt,
            written.map(|it| it.as_bytes() == text.as_bytes()),
            Some(true),
        );
        match parse_rfc2822(text.as_bytes()) {
            Ok(parts) => {
                is(&rt, parts.offset().ok(), Some(offset));
                is(&rt, parts.date().ok(), Some(at.date()));
                is(&rt, parts.time().ok(), Some(at.time()));
            }
            Err(place) => is(&rt, place, 99),
        }
    }
    Ok(())
}

#[test]
fn date_times_without_a_text(rt: HostRuntime) -> Result<(), Fail> {
    let first = OffsetDateTime::from_unix_timestamp(-2_208_988_801)?;
    is(&rt, format_rfc2822(first).is_none(), true);
    let east = UtcOffset::from_hms(0, 0, 1)?;
    let at = OffsetDateTime::from_unix_timestamp(0)?.to_offset(east);
    is(&rt, format_rfc2822(at).is_none(), true);
    Ok(())
}

// The offset in hours, or the place of the fault. The rows are those of the RFC (appendix A.6, 4.3)
// and of `parsedate_to_datetime` of Python, which reads no letter but Z, and years of one digit.
#[test]
fn other_texts_of_rfc_2822(rt: HostRuntime) {
    for (text, hours, place) in [
        ("6 Nov 1994 08:49 GMT", 0, 99),
        ("sun, 6 nov 1994 08:49:37 utc", 0, 99),
        ("06 Nov 1994 08:49:37 z", 0, 99),
        ("Sun, 06 Nov 94 08:49:37 UT", 0, 99),
        ("Sun, 06 Nov 1994 08:49:37 EST", -5, 99),
        ("06 Nov 94 08:49 pdt (Pacific (summer) time)", -7, 99),
        (" Sun\t,\r\n 06  Nov  1994 08 : 49 :37  -0600 ", -6, 99),
        ("Sun, 06 Nov 1994 08:49:37", 99, 25),
        ("Sun, 06 Nov 1994 08:49:37 J", 99, 26),
        ("Sun, 06 Nov 1994 08:49:37 (GMT)", 99, 26),
        ("Sun, 06 Nov 1994 08:49:37 GMT (a", 99, 29),
        ("Sun 06 Nov 1994 08:49:37 GMT", 99, 3),
        ("Sun, 06 Nov +1994 08:49:37 GMT", 99, 12),
        ("Sun, 06 Nov 1894 08:49:37 GMT", 99, 12),
        ("Sun, 06 Nov 0094 08:49:37 GMT", 99, 12),
    ] {
        match parse_rfc2822(text.as_bytes()) {
            Ok(parts) => {
                is(&rt, (parts.year, parts.day), (Some(1994), Some(6)));
                let seconds = parts.offset().ok().map(|it| it.whole_seconds());
                is(&rt, seconds, Some(hours * 3_600));
            }
            Err(at) => is(&rt, at, place),
        }
    }
}

// RFC 2822, 4.3: two digits are of 1950 to 2049, as Python's `parsedate_to_datetime` has 69 to 99 and 00 to 68.
#[test]
fn fronts_of_rfc_2822(rt: HostRuntime) {
    let mut parts = Parts::none();
    let rest = parse_rfc2822_front_into(b"7 Sep 02 00:00 GMT, then", &mut parts);
    is(&rt, rest.map(|rest| rest.len()), Ok(6));
    is(&rt, (parts.year, parts.offset_hour), (Some(2002), Some(0)));
    let mut other = Parts::none();
    other.month = Some(8);
    let rest = parse_rfc2822_front_into(b"7 Sep 02 00:00 GMT", &mut other);
    let refusal = MailRefusal {
        place: 2,
        part: Some(Field::Month),
    };
    is(&rt, rest.err(), Some(refusal));
    is(&rt, other.day, None);
}

// The rows are those that `fromisoformat` of Python reads, and days of the year, which ISO 8601 has besides.
#[test]
fn texts_of_iso_8601(rt: HostRuntime) -> Result<(), Fail> {
    let date = Date::from_calendar_date(2024, Month::February, 29)?;
    for (text, second, nanosecond, seconds_east) in [
        ("2024-02-29T12:30:45.5+05:30", 45, 500_000_000, 19_800),
        ("20240229T123045,25Z", 45, 250_000_000, 0),
        ("2024-W09-4T12:30:00", 0, 0, 1),
        ("2024W094T1230-0300", 0, 0, -10_800),
        ("2024-060T12:30+02", 0, 0, 7_200),
        ("2024060T1230", 0, 0, 1),
        ("+002024-02-29T12:30Z", 0, 0, 0),
    ] {
        match parse_iso8601(text.as_bytes()) {
            Ok(parts) => {
                is(&rt, parts.date(), Ok(date));
                let time = Time::from_hms_nano(12, 30, second, nanosecond)?;
                is(&rt, parts.time(), Ok(time));
                let offset = parts.offset().ok().map(|it| it.whole_seconds());
                is(&rt, offset.unwrap_or(1), seconds_east);
            }
            Err(place) => is(&rt, place, 99),
        }
    }
    Ok(())
}

#[test]
fn texts_that_are_not_of_iso_8601(rt: HostRuntime) {
    for (text, place) in [
        ("2024-02-29", 10),
        ("2024-02-29 12:30", 10),
        ("2024-2-29T12:30", 5),
        ("2024-02-29T12:30:", 16),
        ("2024-02-29T12:30:45.", 19),
        ("2024-02-29T12:30+5", 16),
        ("2024-02-29T12:30z", 16),
        ("", 0),
    ] {
        is(&rt, parse_iso8601(text.as_bytes()).err(), Some(place));
    }
}
