//! Texts written from their numbers, and numbers read. The expected ones are an example of RFC
//! 3339, section 5.8, with other fractions and offsets.
ghost use Rattle.std.specs.Prelude.{◌≡◌, ◌≤◌};
ghost use Rattle.rfc3339.specs.Meaning.{AreInRange};

use super::is;
use rfc3339::{Parts, TEXT_ROOM, parts_after_second, write_rfc3339_parts};
use std::process::Abort;

// The numbers of the first example, with this fraction and this offset.
fn parts(nanosecond: u32, is_west: bool, offset_hour: u8, offset_minute: u8) -> Parts
    requires nanosecond { nanosecond ≤ 999_999_999 }
    requires offset_hour { offset_hour ≤ 23 }
    requires offset_minute { offset_minute ≤ 59 }
    ensures in_range { AreInRange result }
    ensures year { result.year ≤ 9_999 }
    ensures nanosecond { result.nanosecond ≤ 999_999_999 }
{
    Parts {
        year: 1985,
        month: 4,
        day: 12,
        hour: 23,
        minute: 20,
        second: 50,
        nanosecond,
        is_west,
        offset_hour,
        offset_minute,
    }
}

// Whether this text is written, and the bytes after it stay.
fn is_text(rt: &impl Abort, parts: Parts, text: &str)
    requires in_range { AreInRange parts }
    requires year { parts.year ≤ 9_999 }
    requires nanosecond { parts.nanosecond ≤ 999_999_999 }
{
    let mut bytes = [b'.'; TEXT_ROOM + 1];
    let length = write_rfc3339_parts(parts, &mut bytes);
    is(rt, &bytes[..length] == text.as_bytes(), true);
    is(rt, bytes[length], b'.');
}

#[test]
fn texts_of_parts(rt: HostRuntime) {
    is_text(
        &rt,
        parts(520_000_000, false, 0, 0),
        "1985-04-12T23:20:50.52Z",
    );
    is_text(&rt, parts(0, true, 0, 0), "1985-04-12T23:20:50Z");
    is_text(
        &rt,
        parts(7_000_000, false, 0, 0),
        "1985-04-12T23:20:50.007Z",
    );
    is_text(
        &rt,
        parts(500_008_000, false, 0, 0),
        "1985-04-12T23:20:50.500008Z",
    );
    is_text(
        &rt,
        parts(1, true, 8, 0),
        "1985-04-12T23:20:50.000000001-08:00",
    );
    is_text(&rt, parts(0, false, 0, 20), "1985-04-12T23:20:50+00:20");
}

// Whether this is read after a second of the first example: the nanosecond and the offset, or nothing.
fn is_read(rt: &impl Abort, text: &str, expected: Option<(u32, bool, u8, u8)>) {
    let read = parts_after_second(parts(0, false, 0, 0), text.as_bytes());
    let found = read.map(|it| (it.nanosecond, it.is_west, it.offset_hour, it.offset_minute));
    is(rt, found, expected);
    is(
        rt,
        read.map(|it| (it.year, it.month, it.second)),
        expected.map(|_| (1985, 4, 50)),
    );
}

#[test]
fn parts_behind_a_second(rt: HostRuntime) {
    is_read(&rt, "Z", Some((0, false, 0, 0)));
    is_read(&rt, ".52-08:30", Some((520_000_000, true, 8, 30)));
    for text in ["", ".52", "Z ", "+08"] {
        is_read(&rt, text, None);
    }
}
