// Made by make/erase of crates/format_descriptions/src/format_refusal.rt. Do not edit.
//! Why a value is not written.
use crate::proved::format_descriptions::Component;

/// Why a value is not written by a description.
#[derive(Clone, Copy, Debug, PartialEq, Eq)]
pub enum FormatRefusal {
    /// The value has no part for this component, the first such of the description.
    Lacks(Component),
    /// The text has more than 64 bytes, or one that is not ASCII.
    NoText,
}
