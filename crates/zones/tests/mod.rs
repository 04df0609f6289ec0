//! The tests, and how they compare.
use std::fmt::Debug;
use std::process::Abort;

mod cycle;
mod interval;
mod laws;
mod local_instants;
mod rule_day;
mod slots;
mod zone;

// Ends the test unless the two values are equal.
fn is<T: Copy + PartialEq + Debug>(rt: &impl Abort, shown: T, wanted: T) {
    assert_eq!(rt; shown, wanted);
}
