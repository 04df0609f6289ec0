//! The tests, and how they compare.
use std::fmt::Debug;
use std::process::Abort;

mod clocks;
mod components;
mod dates;
mod descriptions;
mod group_texts;
mod groups;
mod iso8601;
mod kinds;
mod leap_seconds;
mod logs;
mod offsets;
mod part_places;
mod parts;
mod texts;
mod unix;
mod weeks;
mod well_known;
mod written_descriptions;

// Ends the test unless the two values are equal.
fn is<T: Copy + PartialEq + Debug>(rt: &impl Abort, shown: T, wanted: T) {
    assert_eq!(rt; shown, wanted);
}
