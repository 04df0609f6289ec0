//! The tests, and how they compare.
use calendar_values::UtcOffset;
use format_descriptions::{Field, ValueRefusal};
use log_forms::{
    Assumed, Form, FormName, Place, StampRefusal, form_name, name_of, named_form, sample_of,
    stamp_at,
};
use std::process::Abort;

mod choices;
mod ends;
mod forms;
mod instants;
mod places;
mod words;

// What is assumed: one hour ahead of UTC, and the year 2024.
fn assumed() -> Assumed {
    Assumed {
        offset: UtcOffset::from_whole_seconds(3_600).ok(),
        year: Some(2_024),
        month: 0,
    }
}

// The stamp of a line in a form at a place: its nanoseconds, its place and its length, or the refusal.
fn stamp(
    name: FormName,
    place: Place,
    text: &[u8],
    line: &[u8],
) -> Result<(i128, usize, usize), StampRefusal> {
    read(&named_form(name), place, text, &assumed(), line)
}

// The same of any form, and of what is assumed.
fn read(
    form: &Form,
    place: Place,
    text: &[u8],
    assumed: &Assumed,
    line: &[u8],
) -> Result<(i128, usize, usize), StampRefusal> {
    match stamp_at(form, place, text, assumed, line) {
        Ok(stamp) => Ok((
            stamp.instant.unix_timestamp_nanos(),
            stamp.start,
            stamp.length,
        )),
        Err(refusal) => Err(refusal),
    }
}

// Ends the test unless a form reads a line at its front, from a place on and for a length, as this many nanoseconds.
fn is_read(
    rt: &impl Abort,
    name: FormName,
    line: &[u8],
    start: usize,
    length: usize,
    nanoseconds: i128,
) {
    assert_eq!(rt;
        stamp(name, Place::Front, b"", line),
        Ok((nanoseconds, start, length))
    );
}

// Ends the test unless a form finds no stamp at the front of a line.
fn is_absent(rt: &impl Abort, name: FormName, line: &[u8]) {
    assert_eq!(rt;
        stamp(name, Place::Front, b"", line),
        Err(StampRefusal::Absent)
    );
}

// Ends the test unless a form refuses a part of the stamp at the front of a line.
fn is_wrong(rt: &impl Abort, name: FormName, line: &[u8], field: Field) {
    let refusal = StampRefusal::Part(ValueRefusal::Wrong(field));
    assert_eq!(rt; stamp(name, Place::Front, b"", line), Err(refusal));
}

// Ends the test unless a form has this name and this sample, and is found by its name.
fn is_named(rt: &impl Abort, form: FormName, name: &str, sample: &str) {
    assert_eq!(rt; form_name(form) == name, true);
    assert_eq!(rt; sample_of(form) == sample, true);
    assert_eq!(rt; name_of(name.as_bytes()), Some(form));
}
