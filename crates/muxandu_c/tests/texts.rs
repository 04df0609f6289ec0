use super::{at, is, midnight};
use crate::digit_texts::muxandu_date_time_to_rfc3339_digits;
use crate::exchange::{
    muxandu_date_time_from_rfc3339, muxandu_date_time_to_rfc3339, muxandu_timestamp_from_rfc3339,
    muxandu_timestamp_to_rfc3339, muxandu_timestamp_to_rfc3339_nanos,
};
use crate::fronts::{muxandu_date_time_from_rfc3339_front, muxandu_rfc3339_fault};
use crate::iso_exchange::{
    muxandu_date_time_from_iso, muxandu_date_time_to_iso, muxandu_iso_fault,
};
use crate::leap_texts::muxandu_date_time_from_rfc3339_leap;
use crate::mail_texts::muxandu_date_time_from_rfc2822;
use crate::texts::{muxandu_date_time_text, muxandu_timestamp_text};

// The status of a call that writes a text, and the length that it tells.
macro_rules! told {
    ($call:ident($($argument:expr),*), $buffer:expr) => {{
        let mut size = 7;
        let status = $call($($argument,)* $buffer, &mut size);
        (status, size)
    }};
}

#[test]
fn texts(rt: HostRuntime) {
    let mut buffer = [0; 42];
    for (told, expected) in [
        (
            told!(
                muxandu_date_time_text(midnight(1996, 12, 19, -28_800)),
                &mut buffer
            ),
            (0, 30),
        ),
        (
            told!(muxandu_date_time_text(midnight(1, 0, 1, 0)), &mut buffer),
            (2, 7),
        ),
        (
            told!(muxandu_timestamp_text(at(-1, 500_000_000)), &mut buffer),
            (0, 4),
        ),
    ] {
        is(&rt, told, expected);
    }
    // What follows the last text is of the one before.
    is(
        &rt,
        (buffer[0], buffer[3], buffer[4], buffer[29]),
        (b'-', b'5', b'-', b'0'),
    );
}

#[test]
fn texts_of_date_times(rt: HostRuntime) {
    let west = midnight(1996, 12, 19, -28_800);
    for (shown, room, expected) in [
        (west, 35, (0, 25)),
        (west, 24, (20, 25)),
        (midnight(1996, 12, 19, 1), 35, (25, 7)),
    ] {
        let mut buffer = [0; 35];
        let told = told!(muxandu_date_time_to_rfc3339(shown), &mut buffer[..room]);
        is(&rt, told, expected);
    }
    let mut buffer = [0; 35];
    for (digits, length) in [(0, 25), (3, 29), (9, 35), (256, 35), (u32::MAX, 35)] {
        let told = told!(
            muxandu_date_time_to_rfc3339_digits(west, digits),
            &mut buffer
        );
        is(&rt, told, (0, length));
    }
}

#[test]
fn texts_of_every_year(rt: HostRuntime) {
    for (shown, room, expected) in [
        (midnight(1996, 12, 19, -28_800), 41, (0, 25)),
        (midnight(1996, 12, 19, 1), 41, (0, 28)),
        (midnight(-4712, 11, 24, 0), 41, (0, 23)),
        (midnight(-4712, 11, 24, 0), 22, (20, 23)),
        (midnight(-4712, 11, 31, 0), 41, (4, 7)),
    ] {
        let mut buffer = [0; 41];
        let told = told!(muxandu_date_time_to_iso(shown), &mut buffer[..room]);
        is(&rt, told, expected);
    }
    let mut out = midnight(1970, 1, 1, 0);
    let status = muxandu_date_time_from_iso(b"-004712-11-24T00:00:00+00:00:01", &mut out);
    is(&rt, (status, out.year, out.offset_seconds), (0, -4712, 1));
    let status = muxandu_date_time_from_iso(b"+010000-02-30T00:00:00Z", &mut out);
    is(&rt, (status, out.year, out.offset_seconds), (4, -4712, 1));
    is(&rt, muxandu_iso_fault(b"-004712"), 7);
}

#[test]
fn texts_of_timestamps(rt: HostRuntime) {
    let half = at(-1, 500_000_000);
    let mut buffer = [0; 35];
    let told = told!(muxandu_timestamp_to_rfc3339(half), &mut buffer);
    is(&rt, told, (0, 22));
    let told = told!(muxandu_timestamp_to_rfc3339_nanos(half), &mut buffer);
    is(&rt, told, (0, 30));
}

#[test]
fn texts_read(rt: HostRuntime) {
    for (text, expected) in [
        ("1996-12-19T16:39:57-08:00", (0, 1996, 16, -28_800)),
        ("1996-12-19t16:39:57-08:00", (0, 1996, 16, -28_800)),
        ("1996-12-19T16:39:57", (22, 7, 0, 7)),
        ("1996-02-30T16:39:57Z", (4, 7, 0, 7)),
        ("1996-02-32T16:39:57Z", (3, 7, 0, 7)),
        ("1996-12-19T16:39:57+24:00", (23, 7, 0, 7)),
        ("1996-12-19T16:39:57+23:60", (24, 7, 0, 7)),
    ] {
        let (status, out) = called!(
            muxandu_date_time_from_rfc3339(text.as_bytes()),
            midnight(7, 7, 7, 7)
        );
        is(
            &rt,
            (status, out.year, out.hour, out.offset_seconds),
            expected,
        );
    }
}

#[test]
fn timestamps_read(rt: HostRuntime) {
    let (status, out) = called!(
        muxandu_timestamp_from_rfc3339(b"1985-04-12T23:20:50.52Z"),
        at(7, 7)
    );
    is(
        &rt,
        (status, out.seconds, out.nanoseconds),
        (0, 482_196_050, 520_000_000),
    );
    for text in [
        "1996-12-20T00:39:57Z",
        "1996-12-19T16:39:57-08:00",
        "1996-12-19t16:39:57-08:00",
    ] {
        let (status, out) = called!(muxandu_timestamp_from_rfc3339(text.as_bytes()), at(7, 7));
        is(
            &rt,
            (status, out.seconds, out.nanoseconds),
            (0, 851_042_397, 0),
        );
    }
}

#[test]
fn texts_at_the_front(rt: HostRuntime) {
    for (line, expected) in [
        ("1985-02-29T23:20:50Z ", (4, 7, 0, 7)),
        ("1985-04-12T23:20:50.52Z done", (0, 1985, 520_000_000, 23)),
    ] {
        let (mut out, mut size) = (midnight(7, 7, 7, 7), 7);
        let status = muxandu_date_time_from_rfc3339_front(line.as_bytes(), &mut out, &mut size);
        is(&rt, (status, out.year, out.nanosecond, size), expected);
    }
    is(&rt, muxandu_rfc3339_fault(b"1985-04-12_23:20:50Z"), 10);
}

#[test]
fn texts_with_leap_seconds(rt: HostRuntime) {
    for (text, expected) in [
        ("1990-12-31T23:59:61Z", (12, 0, 0, 7)),
        ("1990-12-31T23:59:60Z", (0, 59, 999_999_999, 1)),
        ("1990-12-31T23:59:60-08:00", (12, 0, 0, 7)),
    ] {
        let (mut out, mut is_leap) = (midnight(7, 7, 7, 7), 7);
        let status = muxandu_date_time_from_rfc3339_leap(text.as_bytes(), &mut out, &mut is_leap);
        is(&rt, (status, out.second, out.nanosecond, is_leap), expected);
    }
}

// The instants are those of `parsedate_to_datetime` of Python.
#[test]
fn texts_of_mail(rt: HostRuntime) {
    for (text, expected) in [
        ("Fri, 21 Nov 1997 09:55:06 -0600", (0, 1997, 6, -21_600)),
        ("7 Sep 02 00:00 EST (New York)", (0, 2002, 0, -18_000)),
        ("Mon, 07 Sep 2002 00:00:01 GMT", (19, 7, 0, 7)),
        ("07 Sep +2002 00:00:01 GMT", (22, 7, 0, 7)),
    ] {
        let mut out = midnight(7, 7, 7, 7);
        let status = muxandu_date_time_from_rfc2822(text.as_bytes(), &mut out);
        let shown = (status, out.year, out.second, out.offset_seconds);
        is(&rt, shown, expected);
    }
}
