//! Texts that are no durations: we found the place and the fault by hand.
use super::is;
use duration_texts::DurationFault::{self, Alone, Calendar, Digit, Fraction, Range, Unit};
use duration_texts::{DurationRefusal, parse_duration};
use std::process::Abort;

#[test]
fn texts_of_another_form(rt: HostRuntime) {
    for (text, fault, place) in [
        ("", Digit, 0),
        ("2024-02-29", Alone, 4),
        ("1 000", Alone, 1),
        ("1 - 2", Alone, 1),
        ("1 day 2", Alone, 7),
        ("1.", Digit, 2),
        ("--1", Digit, 1),
        ("1 day 2 weeks", Unit, 8),
        ("1 month", Calendar, 2),
        ("5 days 1 Year", Calendar, 9),
        ("0.5 nanoseconds", Fraction, 0),
    ] {
        refuses(&rt, text, fault, place);
    }
}

#[test]
fn forms_of_iso_8601_that_are_none(rt: HostRuntime) {
    for (text, fault, place) in [
        ("P", Digit, 1),
        ("P ", Digit, 2),
        ("PT", Digit, 2),
        ("PT ", Digit, 3),
        ("P1DT", Digit, 4),
        ("P1M", Unit, 1),
        ("PT1S1H", Unit, 4),
        ("P1D x", Digit, 4),
        ("pt1s", Digit, 0),
    ] {
        refuses(&rt, text, fault, place);
    }
}

#[test]
fn durations_out_of_range(rt: HostRuntime) {
    for (text, place) in [
        ("9223372036854775808", 0),
        ("-9223372036854775809", 0),
        ("106751991167301 days", 0),
        ("9223372036854775807s 1s", 21),
        ("99999999999999999999999999999999999999999", 0),
        ("PT9223372036854775808S", 2),
    ] {
        refuses(&rt, text, Range, place);
    }
}

#[test]
fn texts_of_refusals(rt: HostRuntime) {
    for (text, wanted) in [
        ("1 000", "no unit after the number at byte 1"),
        ("1 month", "no fixed length at byte 2"),
    ] {
        let refusal = parse_duration(text.as_bytes()).unwrap_err();
        is(&rt, refusal.text().as_str() == wanted, true);
    }
}

// Ends the test unless the text has this fault at this place.
fn refuses(rt: &impl Abort, text: &str, fault: DurationFault, place: usize) {
    let refusal = DurationRefusal { fault, place };
    is(rt, parse_duration(text.as_bytes()).err(), Some(refusal));
}
