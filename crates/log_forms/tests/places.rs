//! Places in a line.
use super::stamp;
use log_forms::{FormName, Place, StampRefusal};
use std::process::Abort;

// 2024-02-29T12:00:00 in UTC.
const NOON: i128 = 1_709_208_000_000_000_000;

// Ends the test unless a stamp of RFC 3339 is in the line from this byte on.
fn is_found(rt: &impl Abort, place: Place, text: &[u8], line: &[u8], start: usize) {
    assert_eq!(rt;
        stamp(FormName::Rfc3339, place, text, line),
        Ok((NOON, start, 20))
    );
}

// Ends the test unless there is none.
fn is_nowhere(rt: &impl Abort, place: Place, text: &[u8], line: &[u8]) {
    assert_eq!(rt;
        stamp(FormName::Rfc3339, place, text, line),
        Err(StampRefusal::Absent)
    );
}

#[test]
fn fields(rt: HostRuntime) {
    is_found(&rt, Place::Field(1), b"", b"2024-02-29T12:00:00Z a", 0);
    is_found(&rt, Place::Field(1), b"", b"  2024-02-29T12:00:00Z a", 2);
    is_found(&rt, Place::Field(3), b"", b"a \tb  2024-02-29T12:00:00Z", 6);
    is_nowhere(&rt, Place::Field(2), b"", b"2024-02-29T12:00:00Z");
    is_nowhere(&rt, Place::Field(0), b"", b"2024-02-29T12:00:00Z");
}

#[test]
fn behind_texts(rt: HostRuntime) {
    is_found(&rt, Place::After, b"[", b"a [2024-02-29T12:00:00Z] [b]", 3);
    is_found(
        &rt,
        Place::After,
        b"at=",
        b"a=at at=2024-02-29T12:00:00Z",
        8,
    );
    is_found(&rt, Place::After, b"aab", b"aaab2024-02-29T12:00:00Z", 4);
    is_nowhere(&rt, Place::After, b"[", b"[a] [2024-02-29T12:00:00Z]");
}

#[test]
fn members(rt: HostRuntime) {
    is_found(
        &rt,
        Place::Json,
        b"time",
        b"{\"time\":\"2024-02-29T12:00:00Z\"}",
        9,
    );
    is_found(
        &rt,
        Place::Json,
        b"t",
        b"{\"a\":{\"t\":1},\"t\" : \"2024-02-29T12:00:00Z\"}",
        20,
    );
    is_found(
        &rt,
        Place::Json,
        b"t",
        b"{\"t\"\t:\r \"2024-02-29T12:00:00Z\"}",
        9,
    );
    is_found(
        &rt,
        Place::Json,
        b"t",
        b"{\"a\":\"\\\"t\\\":5}\",\"t\":\"2024-02-29T12:00:00Z\"}",
        21,
    );
    is_nowhere(
        &rt,
        Place::Json,
        b"t",
        b"{\"a\":{\"t\":\"2024-02-29T12:00:00Z\"}}",
    );
    is_nowhere(
        &rt,
        Place::Json,
        b"time",
        b"\"time\":\"2024-02-29T12:00:00Z\"",
    );
}

#[test]
fn last_brackets(rt: HostRuntime) {
    let line = b"a - [2000-01-01T00:00:00Z] [2024-02-29T12:00:00Z] \"b [2000-01-01T00:00:00Z]\"";
    is_found(&rt, Place::Access, b"", line, 28);
    is_nowhere(&rt, Place::Access, b"", b"[2024-02-29T12:00:00Z] a");
    is_nowhere(&rt, Place::Access, b"", b"a \"b\" [2024-02-29T12:00:00Z]");
}

#[test]
fn colours(rt: HostRuntime) {
    is_found(
        &rt,
        Place::Coloured,
        b"",
        b"\x1b[2m2024-02-29T12:00:00Z\x1b[0m a",
        4,
    );
    is_found(
        &rt,
        Place::Coloured,
        b"",
        b"\x1b[0m\x1b[38;5;1m2024-02-29T12:00:00Z",
        13,
    );
    is_nowhere(&rt, Place::Coloured, b"", b"2024-02-29T12:00:00Z a");
    is_nowhere(&rt, Place::Coloured, b"", b"\x1b[2K2024-02-29T12:00:00Z a");
}

#[test]
fn paths(rt: HostRuntime) {
    let line = b"{\"log\":{\"x\":{\"time\":1},\"time\":\"2024-02-29T12:00:00Z\"}}";
    is_found(&rt, Place::Json, b"log.time", line, 31);
    is_found(
        &rt,
        Place::Json,
        b"log.time",
        b"{\"log.time\":\"2024-02-29T12:00:00Z\"}",
        13,
    );
    is_found(
        &rt,
        Place::Json,
        b"a.b.c",
        b"{\"a\":{\"b\":{\"c\":\"2024-02-29T12:00:00Z\"}}}",
        16,
    );
    is_nowhere(
        &rt,
        Place::Json,
        b"log.time",
        b"{\"log\":{\"x\":1},\"y\":{\"time\":\"2024-02-29T12:00:00Z\"}}",
    );
    is_nowhere(
        &rt,
        Place::Json,
        b"log.time",
        b"{\"log\":1,\"y\":{\"time\":\"2024-02-29T12:00:00Z\"}}",
    );
}

#[test]
fn members_of_long_records(rt: HostRuntime) {
    let mut line = [b'x'; 65_540];
    line[..8].copy_from_slice(b"{\"msg\":\"");
    line[65_471..65_503].copy_from_slice(b"\",\"time\":\"2024-02-29T12:00:00Z\"}");
    is_nowhere(&rt, Place::Json, b"time", &line);
    line[65_470..65_502].copy_from_slice(b"\",\"time\":\"2024-02-29T12:00:00Z\"}");
    is_found(&rt, Place::Json, b"time", &line, 65_480);
    line[60_000..60_032].copy_from_slice(b"\",\"time\":\"2024-02-29T12:00:00Z\",");
    is_found(&rt, Place::Json, b"time", &line, 60_010);
}

#[test]
fn far_places(rt: HostRuntime) {
    let mut line = [b'x'; 60_030];
    line[60_000..60_023].copy_from_slice(b"  [2024-02-29T12:00:00Z");
    line[60_023] = b']';
    is_found(&rt, Place::After, b" [", &line, 60_003);
    is_found(&rt, Place::Access, b"", &line, 60_003);
    line[60_002] = b' ';
    is_found(&rt, Place::Field(2), b"", &line, 60_003);
}
