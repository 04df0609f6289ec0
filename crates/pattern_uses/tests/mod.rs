//! The tests, and how they compare.
use std::fmt::Debug;
use std::process::Abort;

mod log_lines;
mod log_words;
mod patterns;
mod sorted_logs;

// Ends the test unless the two values are equal.
fn is<T: Copy + PartialEq + Debug>(rt: &impl Abort, shown: T, wanted: T) {
    assert_eq!(rt; shown, wanted);
}
