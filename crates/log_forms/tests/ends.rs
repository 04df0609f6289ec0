//! Where a stamp ends: an offset or a word for a zone that a form does not read is never left out.
use super::{is_absent, is_read, stamp};
use log_forms::{FormName, Place, opens_bracket, runs_on};
use std::process::Abort;

// 2024-02-29T12:00:00 one hour ahead of UTC.
const NOON: i128 = 1_709_204_400_000_000_000;

#[test]
fn words_of_zones(rt: HostRuntime) {
    is_absent(&rt, FormName::Local, b"2024-02-29 12:00:00 CET [123] LOG");
    is_absent(&rt, FormName::Local, b"2024-02-29 12:00:00.123 AEST");
    is_absent(&rt, FormName::Local, b"2024-02-29 12:00:00 PM");
    is_read(
        &rt,
        FormName::Local,
        b"2024-02-29 12:00:00 CETERA",
        0,
        19,
        NOON,
    );
    is_read(
        &rt,
        FormName::Local,
        b"2024-02-29 12:00:00 INFO root",
        0,
        19,
        NOON,
    );
}

#[test]
fn offsets(rt: HostRuntime) {
    is_absent(&rt, FormName::Local, b"2024-02-29 12:00:00+05");
    is_absent(&rt, FormName::Local, b"2024-02-29 12:00:00 +0530");
    is_absent(&rt, FormName::Local, b"2024-02-29 12:00:00.5 -08");
    is_absent(&rt, FormName::Local, b"2024-02-29 12:00:00Z");
    is_read(
        &rt,
        FormName::Local,
        b"2024-02-29 12:00:00 - x",
        0,
        19,
        NOON,
    );
    is_read(&rt, FormName::Local, b"2024-02-29 12:00:00 -5", 0, 19, NOON);
}

// Ends the test unless `local` reads a stamp of 19 bytes, and what follows it is no part of it.
fn is_local(rt: &impl Abort, line: &[u8]) {
    is_read(rt, FormName::Local, line, 0, 19, NOON);
}

// Ends the test unless `local` finds no stamp.
fn is_no_local(rt: &impl Abort, line: &[u8]) {
    is_absent(rt, FormName::Local, line);
}

#[test]
fn fractions(rt: HostRuntime) {
    is_no_local(&rt, b"2024-02-29 12:00:00,123");
    is_no_local(&rt, b"2024-02-29 12:00:00,123456 a");
    is_local(&rt, b"2024-02-29 12:00:00, Info");
    is_local(&rt, b"2024-02-29 12:00:00,42,eth0");
    is_local(&rt, b"2024-02-29 12:00:00,200,GET /");
    is_local(&rt, b"2024-02-29 12:00:00,5");
    is_no_local(&rt, b"2024-02-29 12:00:00,123, INFO");
    is_read(
        &rt,
        FormName::Local,
        b"2024-02-29 12:00:00.0,5",
        0,
        21,
        NOON,
    );
    is_read(
        &rt,
        FormName::Rfc3339,
        b"2024-02-29T12:00:00+01:00,5",
        0,
        25,
        NOON,
    );
}

#[test]
fn fractions_behind_commas(rt: HostRuntime) {
    let form = FormName::LocalComma;
    is_read(&rt, form, b"2024-02-29 12:00:00,000 a", 0, 23, NOON);
    is_read(&rt, form, b"2024-02-29 12:00:00,000000 a", 0, 26, NOON);
    is_read(&rt, form, b"2024-02-29 12:00:00,000000000 a", 0, 29, NOON);
    is_absent(&rt, form, b"2024-02-29 12:00:00.5");
    is_absent(&rt, form, b"2024-02-29 12:00:00,42,eth0");
    is_absent(&rt, form, b"2024-02-29 12:00:00,0000 a");
    is_absent(&rt, form, b"2024-02-29 12:00:00,200,GET /");
    is_read(
        &rt,
        FormName::NginxError,
        b"2024/02/29 12:00:00,42,a",
        0,
        19,
        NOON,
    );
    is_read(
        &rt,
        FormName::NginxError,
        b"2024/02/29 12:00:00,200,a",
        0,
        19,
        NOON,
    );
    is_absent(&rt, FormName::NginxError, b"2024/02/29 12:00:00,200 a");
    is_read(&rt, form, b"2024/02/29 12:00:00,000 a", 0, 23, NOON);
}

#[test]
fn letters_and_digits(rt: HostRuntime) {
    is_absent(&rt, FormName::Syslog, b"Feb 29 12:00:001 host");
    is_absent(&rt, FormName::Hdfs, b"240229 120000x");
    is_absent(&rt, FormName::Unix, b"17091882000");
    is_absent(&rt, FormName::Unix, b"170918820");
    is_read(&rt, FormName::Unix, b"1709204400[x]", 0, 10, NOON);
}

#[test]
fn points_and_colons(rt: HostRuntime) {
    is_local(&rt, b"2024-02-29 12:00:00: INFO/Main]");
    is_local(&rt, b"2024-02-29 12:00:00. Done");
    is_no_local(&rt, b"2024-02-29 12:00:00:5");
    is_no_local(&rt, b"2024-02-29 12:00:00.x");
    is_read(
        &rt,
        FormName::Syslog,
        b"Feb 29 12:00:00.000: %LINK",
        0,
        19,
        NOON,
    );
    is_read(
        &rt,
        FormName::Journald,
        b"2024-02-29T12:00:00.000+0100: 0.1: [GC",
        0,
        28,
        NOON,
    );
    is_read(&rt, FormName::Unix, b"1709204400:24287)", 0, 10, NOON);
    is_absent(&rt, FormName::UnixMs, b"1709204400000.5");
}

#[test]
fn underscores(rt: HostRuntime) {
    is_no_local(&rt, b"2024-02-29 12:00:00_123Z x");
    is_no_local(&rt, b"2024-02-29T12:00:00_123");
    is_no_local(&rt, b"2024-02-29 12:00:00.5_ x");
    is_local(&rt, b"2024-02-29 12:00:00:_ x");
    is_absent(&rt, FormName::Rfc3339, b"2024-02-29T12:00:00+01:00_x");
    is_absent(&rt, FormName::Unix, b"1709204400_5");
    is_read(
        &rt,
        FormName::Syslog,
        b"Feb 29 12:00:00 2019_x",
        0,
        15,
        NOON,
    );
}

#[test]
fn years(rt: HostRuntime) {
    let form = FormName::Syslog;
    is_absent(&rt, form, b"Feb 29 12:00:00 2019 : root");
    is_absent(&rt, form, b"Feb 29 12:00:00.123 2019  router");
    is_absent(&rt, form, b"Feb 29 12:00:00 1999");
    is_read(&rt, form, b"Feb 29 12:00:00 2001:db8::1 sshd", 0, 15, NOON);
    is_read(&rt, form, b"Feb 29 12:00:00 20190 x", 0, 15, NOON);
    is_read(&rt, form, b"Feb 29 12:00:00 2100 x", 0, 15, NOON);
    is_local(&rt, b"2024-02-29 12:00:00 2019 x");
}

#[test]
fn zones_behind_blanks_and_brackets(rt: HostRuntime) {
    is_no_local(&rt, b"2024-02-29 12:00:00 Europe/Paris x");
    is_no_local(&rt, b"2024-02-29T12:00:00[America/Sao_Paulo]");
    is_no_local(&rt, b"2024-02-29 12:00:00 (CET) x");
    is_no_local(&rt, b"2024-02-29 12:00:00 \t[+05] x");
    is_no_local(&rt, b"2024-02-29 12:00:00  CLT x");
    is_no_local(&rt, b"2024-02-29 12:00:00 ACWST");
    is_no_local(&rt, b"2024-02-29 12:00:00 AoE");
    is_no_local(&rt, b"2024-02-29 12:00:00 utc");
    is_no_local(&rt, b"2024-02-29 12:00:00 Gmt+1");
    is_local(&rt, b"2024-02-29 12:00:00 Main/Worker x");
    is_local(&rt, b"2024-02-29 12:00:00 Europe x");
    is_local(&rt, b"2024-02-29 12:00:00 (COTTON)");
    is_local(&rt, b"2024-02-29 12:00:00 GET /");
    is_local(&rt, b"2024-02-29 12:00:00 cet");
}

#[test]
fn zones_in_the_next_column(rt: HostRuntime) {
    is_no_local(&rt, b"2024-02-29 12:00:00,UTC,5");
    is_no_local(&rt, b"2024-02-29 12:00:00\",\"CET\"");
    is_no_local(&rt, b"2024-02-29 12:00:00 | IST | x");
    is_no_local(&rt, b"2024-02-29 12:00:00;Europe/Paris;x");
    is_local(&rt, b"2024-02-29 12:00:00,-12,5");
    is_local(&rt, b"2024-02-29 12:00:00,eth0,UTC");
    is_local(&rt, b"2024-02-29 12:00:00|INFO|UTC");
    is_local(&rt, b"2024-02-29 12:00:00\", \"tz\": \"CET\"");
}

// Whether a form finds a stamp in the field of this number.
fn has_stamp(form: FormName, number: usize, line: &[u8]) -> bool {
    stamp(form, Place::Field(number), b"", line).is_ok()
}

#[test]
fn zones_before_stamps(rt: HostRuntime) {
    let form = FormName::Local;
    assert_eq!(rt;
        has_stamp(FormName::Syslog, 2, b"[IST Feb 29 12:00:00] info"),
        false
    );
    assert_eq!(rt; has_stamp(form, 2, b"CET  2024-02-29 12:00:00 x"), false);
    assert_eq!(rt;
        has_stamp(form, 3, b"a (Europe/Paris)\t2024-02-29 12:00:00"),
        false
    );
    assert_eq!(rt; has_stamp(form, 2, b"[utc] 2024-02-29 12:00:00 x"), false);
    assert_eq!(rt; has_stamp(form, 2, b"[INFO] 2024-02-29 12:00:00 x"), true);
    assert_eq!(rt; has_stamp(form, 3, b"IST web 2024-02-29 12:00:00 x"), true);
    assert_eq!(rt; has_stamp(form, 2, b"PSTN 2024-02-29 12:00:00 x"), true);
    assert_eq!(rt; has_stamp(form, 2, b"-08 2024-02-29 12:00:00 x"), true);
    assert_eq!(rt;
        has_stamp(FormName::Rfc3339, 2, b"IST 2024-02-29T12:00:00Z"),
        true
    );
}

#[test]
fn halves_of_the_day(rt: HostRuntime) {
    is_no_local(&rt, b"2024-02-29 12:00:00 p.m. x");
    is_no_local(&rt, b"2024-02-29 12:00:00 P.M.");
    is_no_local(&rt, b"2024-02-29 12:00:00 Pm x");
    is_no_local(&rt, b"2024-02-29 12:00:00\tPM x");
    is_no_local(&rt, b"2024-02-29 12:00:00  am");
    is_local(&rt, b"2024-02-29 12:00:00 PM2 x");
    is_local(&rt, b"2024-02-29 12:00:00 Amber");
    is_local(&rt, b"2024-02-29 12:00:00 p. 5");
}

#[test]
fn bytes_that_continue(rt: HostRuntime) {
    assert_eq!(rt; opens_bracket(b"[UTC]"), true);
    assert_eq!(rt; opens_bracket(b" [UTC]"), false);
    assert_eq!(rt; runs_on(false, b"Z"), true);
    assert_eq!(rt; runs_on(false, b"_"), true);
    assert_eq!(rt; runs_on(false, b":5"), true);
    assert_eq!(rt; runs_on(true, b":5"), false);
    assert_eq!(rt; runs_on(false, b": x"), false);
    assert_eq!(rt; runs_on(true, b".5"), true);
    assert_eq!(rt; runs_on(false, b""), false);
}

#[test]
fn signs(rt: HostRuntime) {
    is_absent(&rt, FormName::Local, b"-2024-02-29 12:00:00");
    is_absent(&rt, FormName::Haproxy, b"29/Feb/+2024:12:00:00");
    is_absent(&rt, FormName::ApacheError, b"Thu Feb 29 12:00:00 -2024");
    is_absent(&rt, FormName::Rfc2822, b"Thu, 29 Feb +2024 12:00:00 +0100");
    is_absent(&rt, FormName::Unix, b"+1709188200");
}
