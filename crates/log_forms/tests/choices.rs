//! The choice of a reader.
use log_forms::{FormName, Place, choose, is_read_by_any, reader_form, reader_key, reader_place};
use std::process::Abort;

// Ends the test unless this form is chosen for the lines, at this place.
fn is_chosen(rt: &impl Abort, lines: &[&[u8]], form: FormName, place: Place, key: &str) {
    match choose(lines) {
        Some(reader) => {
            assert_eq!(rt; reader_form(reader), form);
            assert_eq!(rt; reader_place(reader), place);
            assert_eq!(rt; reader_key(reader) == key, true);
        }
        None => assert!(rt; false, "no reader is chosen"),
    }
}

#[test]
fn front_of_two_lines(rt: HostRuntime) {
    let lines: [&[u8]; 2] = [
        b"Feb  6 12:12:56 a [06/Feb/2009:12:12:51.443]",
        b"Feb  6 12:12:57 b",
    ];
    is_chosen(&rt, &lines, FormName::Syslog, Place::Front, "");
}

#[test]
fn most_lines(rt: HostRuntime) {
    let lines: [&[u8]; 4] = [
        b"# 2024-02-29T12:00:00Z",
        b"[2024-02-29 12:00:00,123] a",
        b"  at b",
        b"[2024-02-29 12:00:01,123] c",
    ];
    is_chosen(&rt, &lines, FormName::LocalComma, Place::After, "[");
}

#[test]
fn member_of_json(rt: HostRuntime) {
    let lines: [&[u8]; 1] = [b"{\"level\":30,\"time\":1709188200123}"];
    is_chosen(&rt, &lines, FormName::UnixMs, Place::Json, "time");
}

#[test]
fn no_stamp(rt: HostRuntime) {
    let lines: [&[u8]; 2] = [b"no", b"stamp"];
    assert_eq!(rt; choose(&lines), None);
    assert_eq!(rt; choose(&[]), None);
}

#[test]
fn lines_that_a_reader_reads(rt: HostRuntime) {
    assert_eq!(rt; is_read_by_any(b"2024-02-29T12:00:00Z a"), true);
    assert_eq!(rt;
        is_read_by_any(b"10.0.0.1 [29/Feb/2024:12:00:00 +0530] a"),
        true
    );
    assert_eq!(rt; is_read_by_any(b"    at main"), false);
    assert_eq!(rt; is_read_by_any(b""), false);
}

#[test]
fn rfc3339_is_the_first_reader(rt: HostRuntime) {
    let lines: [&[u8]; 3] = [
        b"2024-02-29T00:00:00Z log opened",
        b"10.0.0.1 - - [29/Feb/2024:13:00:00 +0000] \"GET / HTTP/1.1\" 200 1",
        b"10.0.0.1 - - [29/Feb/2024:13:00:01 +0000] \"GET / HTTP/1.1\" 200 1",
    ];
    assert_eq!(rt; choose(&lines[..1]), Some(0));
    is_chosen(&rt, &lines, FormName::Clf, Place::Access, "");
}

#[test]
fn bare_counts(rt: HostRuntime) {
    assert_eq!(rt; choose(&[b"1234567890 order shipped"]), None);
    assert_eq!(rt;
        choose(&[b"4006381333931 sold", b"4006381333948 sold"]),
        None
    );
    assert_eq!(rt; choose(&[b"call 4155550123 answered"]), None);
    assert_eq!(rt;
        choose(&[
            b"paid invoice 1700000001 eur",
            b"paid invoice 1600000001 eur"
        ]),
        None
    );
    is_chosen(
        &rt,
        &[b"1700000001 a", b"1700000002 b"],
        FormName::Unix,
        Place::Front,
        "",
    );
    is_chosen(
        &rt,
        &[b"1286536308.779 180 192.168.0.224"],
        FormName::Unix,
        Place::Front,
        "",
    );
    is_chosen(
        &rt,
        &[b"{\"ts\":1709188200}"],
        FormName::Unix,
        Place::Json,
        "ts",
    );
    is_chosen(
        &rt,
        &[b"type=A msg=audit(1364481363.243:24287): a"],
        FormName::Unix,
        Place::After,
        "audit(",
    );
    assert_eq!(rt; is_read_by_any(b"1700000001 a"), true);
    assert_eq!(rt; is_read_by_any(b"4155550123 a"), false);
}

#[test]
fn access_logs(rt: HostRuntime) {
    let hidden: &[u8] =
        b"10.0.0.1 - [01/Jan/2000:00:00:00 +0000] [29/Feb/2024:06:30:00 +0000] \"GET / [x]\"";
    is_chosen(&rt, &[hidden], FormName::Clf, Place::Access, "");
}

#[test]
fn more_places(rt: HostRuntime) {
    is_chosen(
        &rt,
        &[b"\x1b[2m2024-02-29T06:30:00Z\x1b[0m INFO"],
        FormName::Rfc3339,
        Place::Coloured,
        "",
    );
    is_chosen(
        &rt,
        &[b"ts=2024-02-29T06:30:00Z caller=x"],
        FormName::Rfc3339,
        Place::After,
        "ts=",
    );
    is_chosen(
        &rt,
        &[b"logger=host t=2024-02-29T06:30:00Z"],
        FormName::Rfc3339,
        Place::After,
        " t=",
    );
    is_chosen(
        &rt,
        &[b"{\"@t\":\"2024-02-29T06:30:00Z\"}"],
        FormName::Rfc3339,
        Place::Json,
        "@t",
    );
    is_chosen(
        &rt,
        &[b"  2024-02-29T06:30:00Z a"],
        FormName::Rfc3339,
        Place::Field(1),
        "",
    );
    is_chosen(
        &rt,
        &[b"\"2024-02-29T06:30:00Z\",\"a\""],
        FormName::Rfc3339,
        Place::After,
        "\"",
    );
    is_chosen(
        &rt,
        &[b"eth0,2024-02-29T06:30:00Z"],
        FormName::Rfc3339,
        Place::After,
        ",",
    );
    is_chosen(
        &rt,
        &[b"Feb 28 12:00:00 2019 : root : a"],
        FormName::SyslogYear,
        Place::Front,
        "",
    );
    is_chosen(
        &rt,
        &[b"[29-Feb-2024 06:30:00 UTC] PHP Warning"],
        FormName::Php,
        Place::After,
        "[",
    );
}

#[test]
fn digits_behind_a_comma(rt: HostRuntime) {
    let alike: [&[u8]; 2] = [b"2024-02-29 12:00:00,200 a", b"2024-02-29 12:00:01,404 b"];
    is_chosen(&rt, &alike, FormName::LocalComma, Place::Front, "");
    let unlike: [&[u8]; 2] = [
        b"2024-02-29 12:00:00,200 a",
        b"2024-02-29 12:00:01,404000 b",
    ];
    assert_eq!(rt; choose(&unlike), None);
    let with_offsets: [&[u8]; 2] = [
        b"2024-02-29 12:00:00,5 +0530 a",
        b"2024-02-29 12:00:01,25 +0530 b",
    ];
    is_chosen(&rt, &with_offsets, FormName::Git, Place::Front, "");
}

#[test]
fn lines_without_places(rt: HostRuntime) {
    assert_eq!(rt; is_read_by_any(b"{\"a\":1,\"time\":1709188200123}"), true);
    assert_eq!(rt; is_read_by_any(b"a b 2024-02-29 12:00:00"), true);
    assert_eq!(rt; is_read_by_any(b"call 12 of 300 at 9 took 15:30"), false);
}
