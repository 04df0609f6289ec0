//! Texts of another form: we counted the place of the wrong byte by hand.
use super::is;
use rfc3339::{full_time_fault, parse_rfc3339, syntax_fault};
use std::test::Fail;

#[test]
fn faults(rt: HostRuntime) -> Result<(), Fail> {
    for (text, place) in [
        ("", 0),
        ("198", 3),
        ("1985-04-12", 10),
        ("1985-04-12_23:20:50Z", 10),
        ("1985-4-12T23:20:50Z", 6),
        ("1985-04-12T23:20:50", 19),
        ("1985-04-12T23:20:50,5Z", 19),
        ("1985-04-12T23:20:50.Z", 20),
        ("1985-04-12T23:20:50.52", 22),
        ("1985-04-12T23:20:50.52+0800", 25),
        ("1985-04-12T23:20:50+08:0", 24),
        ("1985-04-12T23:20:50Z ", 20),
    ] {
        is(&rt, syntax_fault(text.as_bytes()), place);
        is(&rt, parse_rfc3339(text.as_bytes()).is_err(), true);
    }
    Ok(())
}

#[test]
fn texts_of_the_form(rt: HostRuntime) -> Result<(), Fail> {
    for text in [
        "1985-04-12T23:20:50Z",
        "1985-04-12t23:20:50.52z",
        "9999-99-99 99:99:99.0123456789-99:99",
    ] {
        is(&rt, syntax_fault(text.as_bytes()), text.len());
    }
    Ok(())
}

#[test]
fn faults_of_times_with_an_offset(rt: HostRuntime) {
    for (text, place) in [
        ("", 0),
        ("23:20Z", 5),
        ("23:20:50", 8),
        ("23:20:50.Z", 9),
        ("23:20:50ZZ", 9),
        ("23:20:50+1:00", 10),
        ("23:20:50+0800", 11),
        ("23:20:50.5+08:0x", 15),
        ("24:00:00-99:99", 14),
    ] {
        is(&rt, full_time_fault(text.as_bytes()), place);
    }
}
