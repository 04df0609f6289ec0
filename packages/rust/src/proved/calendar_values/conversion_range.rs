// Made by make/erase of crates/calendar_values/src/conversion_range.rt. Do not edit.
//! The refusal of conversions.

/// The error of a conversion between [`SignedDuration`](crate::proved::calendar_values::SignedDuration) and std's
/// `Duration`, if the target lacks the value.
#[derive(Clone, Copy, Debug, PartialEq, Eq)]
pub struct ConversionRange;
