// Made by make/erase of crates/calendar_values/src/date_adjustment.rt. Do not edit.
//! How far a sum of a time of day and a duration moves the date.

/// The date that a time of day falls on, once less than a day is added to it or taken from it.
#[derive(Clone, Copy, Debug, PartialEq, Eq)]
pub enum DateAdjustment {
    /// The day before.
    Previous,
    /// The same day.
    Same,
    /// The day after.
    Next,
}
