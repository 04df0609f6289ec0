//! Days as texts: the days are those of Python's `datetime`.
use super::is;
use calendar_values::Date;
use rfc3339::{Component, TextRefusal, date_from_rfc3339, date_to_rfc3339};
use std::process::Abort;

// Ends the test unless the date is written as this text.
fn is_written(rt: &impl Abort, date: Date, text: &str) {
    match date_to_rfc3339(date) {
        Some(written) => is(rt, written.as_str(), text),
        None => is(rt, "no text", text),
    }
}

#[test]
fn dates_are_written_and_read(rt: HostRuntime) {
    for (text, day) in [
        ("0001-01-01", -719_162),
        ("1582-10-15", -141_427),
        ("1969-12-31", -1),
        ("1970-01-01", 0),
        ("2000-02-29", 11_016),
        ("2023-02-28", 19_416),
        ("2024-02-29", 19_782),
        ("9999-12-31", 2_932_896),
    ] {
        match Date::from_days_since_epoch(day) {
            Some(date) => {
                is_written(&rt, date, text);
                is(&rt, date_from_rfc3339(text.as_bytes()), Ok(date));
            }
            None => is(&rt, "no date", text),
        }
    }
}

#[test]
fn other_texts_are_no_dates(rt: HostRuntime) {
    for (text, refusal) in [
        ("", TextRefusal::Syntax),
        ("2024-02-2", TextRefusal::Syntax),
        ("2024-02-29Z", TextRefusal::Syntax),
        ("2024-02-29T00:00:00Z", TextRefusal::Syntax),
        ("+024-02-29", TextRefusal::Syntax),
        ("2024/02/29", TextRefusal::Syntax),
        ("20240229", TextRefusal::Syntax),
        ("2024-00-29", TextRefusal::OutOfRange(Component::Month)),
        ("2024-13-99", TextRefusal::OutOfRange(Component::Month)),
        ("2023-02-29", TextRefusal::OutOfRange(Component::Day)),
        ("1900-02-29", TextRefusal::OutOfRange(Component::Day)),
        ("2024-02-00", TextRefusal::OutOfRange(Component::Day)),
        ("2024-06-31", TextRefusal::OutOfRange(Component::Day)),
    ] {
        is(&rt, date_from_rfc3339(text.as_bytes()), Err(refusal));
    }
}

#[test]
fn far_dates_have_no_text(rt: HostRuntime) {
    for day in [-719_529, 2_932_897] {
        match Date::from_days_since_epoch(day) {
            Some(date) => is(&rt, date_to_rfc3339(date).is_none(), true),
            None => is(&rt, "no date", ""),
        }
    }
    match Date::from_days_since_epoch(-719_528) {
        Some(date) => is_written(&rt, date, "0000-01-01"),
        None => is(&rt, "no date", ""),
    }
}
