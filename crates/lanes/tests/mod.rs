//! The tests, and how they compare.
use std::fmt::Debug;
use std::process::Abort;

mod calendar;
mod date_times;
mod dates;
mod minute_texts;
mod seconds;

// Ends the test unless the two values are equal.
fn is<T: Copy + PartialEq + Debug>(rt: &impl Abort, shown: T, wanted: T) {
    assert_eq!(rt; shown, wanted);
}
