//! The tests, and how they compare.
use std::fmt::Debug;
use std::process::Abort;

mod dates;
mod digits;
mod faults;
mod fronts;
mod leap;
mod parts;
mod places;
mod shortest;
mod texts;

// Ends the test unless the two values are equal.
fn is<T: Copy + PartialEq + Debug>(rt: &impl Abort, shown: T, wanted: T) {
    assert_eq!(rt; shown, wanted);
}
