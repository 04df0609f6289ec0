//! A second of 60: the rows are leap seconds of the IERS (Bulletin C 52, and the one at the end of
//! June 1997), and times at which none was.
use super::is;
use calendar_values::{Date, Month, Time, UtcOffset};
use format_descriptions::{Field, ValueRefusal, parse_iso8601, parse_rfc2822};
use std::process::Abort;
use std::test::Fail;

#[test]
fn leap_seconds_are_read(rt: HostRuntime) -> Result<(), Fail> {
    for (text, day, hour, minute) in [
        ("31 Dec 2016 23:59:60 +0000", 31, 23, 59),
        ("Sat, 31 Dec 2016 23:59:60 GMT", 31, 23, 59),
        ("31 Dec 2016 18:59:60 -0500", 31, 18, 59),
        ("30 Jun 1997 23:59:60 +0000", 30, 23, 59),
        ("1 Jan 2017 05:29:60 +0530", 1, 5, 29),
    ] {
        match parse_rfc2822(text.as_bytes()) {
            Ok(parts) => match parts.leap_date_time() {
                Ok((at, is_leap)) => {
                    is(&rt, is_leap, true);
                    is(&rt, at.day(), day);
                    is(
                        &rt,
                        at.time(),
                        Time::from_hms_nano(hour, minute, 59, 999_999_999)?,
                    );
                    is(&rt, parts.offset_date_time().is_err(), true);
                }
                Err(refusal) => is(&rt, Some(refusal), None),
            },
            Err(place) => is(&rt, place, 99),
        }
    }
    Ok(())
}

#[test]
fn other_seconds_above_59(rt: HostRuntime) {
    let second = Some(ValueRefusal::Wrong(Field::Second));
    for (text, wanted) in [
        ("30 Dec 2016 23:59:60 +0000", second),
        ("31 Dec 2016 22:59:60 +0000", second),
        ("31 Dec 2016 23:59:60 +0100", second),
        ("31 Dec 2016 23:59:61 +0000", second),
        (
            "31 Dec 2016 24:59:60 +0000",
            Some(ValueRefusal::Wrong(Field::Hour)),
        ),
        (
            "32 Dec 2016 23:59:60 +0000",
            Some(ValueRefusal::Wrong(Field::Day)),
        ),
        (
            "31 Dec 2016 23:59:60 +2660",
            Some(ValueRefusal::Wrong(Field::OffsetHour)),
        ),
        ("31 Dec 2016 23:59:59 +0000", None),
    ] {
        match parse_rfc2822(text.as_bytes()) {
            Ok(parts) => is(&rt, parts.leap_date_time().err(), wanted),
            Err(place) => is(&rt, place, 99),
        }
    }
}

// The last second of the range, and the second before the first month of it.
#[test]
fn leap_seconds_at_the_ends(rt: HostRuntime) {
    for (text, is_read) in [
        ("+999999-12-31T23:59:60Z", true),
        ("+999999-12-31T23:59:60-01:00", false),
        ("-999999-01-01T00:59:60+01:00", false),
        ("-999999-01-31T23:59:60Z", true),
    ] {
        match parse_iso8601(text.as_bytes()) {
            Ok(parts) => is(&rt, parts.leap_date_time().is_ok(), is_read),
            Err(place) => is(&rt, place, 99),
        }
    }
}

#[test]
fn date_times_of_parts(rt: HostRuntime) -> Result<(), Fail> {
    let date = Date::from_calendar_date(1994, Month::November, 6)?;
    let time = Time::from_hms(8, 49, 37)?;
    match parse_rfc2822(b"Sun, 06 Nov 1994 08:49:37 -0600") {
        Ok(parts) => {
            let wall = parts.plain_date_time().ok();
            is(&rt, wall.map(|it| it.date()), Some(date));
            is(&rt, wall.map(|it| it.time()), Some(time));
            let at = parts.offset_date_time().ok();
            is(
                &rt,
                at.map(|it| it.offset()),
                Some(UtcOffset::from_hms(-6, 0, 0)?),
            );
            is(&rt, at.map(|it| it.unix_timestamp()), Some(784_133_377));
            let read = parts.leap_date_time().ok();
            is(&rt, read.map(|it| (it.0, it.1)), at.map(|it| (it, false)));
        }
        Err(place) => is(&rt, place, 99),
    }
    Ok(())
}
