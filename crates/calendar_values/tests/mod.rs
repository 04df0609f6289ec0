//! The tests, and how they compare.
use std::fmt::Debug;
use std::process::Abort;

mod calendar;
mod component_range;
mod constants;
mod date;
mod laws;
mod month;
mod signed_duration;
mod time;
mod utc_offset;
mod weekday;

// Ends the test unless the two values are equal.
fn is<T: Copy + PartialEq + Debug>(rt: &impl Abort, shown: T, wanted: T) {
    assert_eq!(rt; shown, wanted);
}
