// Made by make/erase of crates/stamp_times/src/chains/steps.rt. Do not edit.
//! The steps of a chain of conversions, and what it holds.
use crate::proved::stamp_times::Timestamp;
use crate::proved::calendar_values::UtcOffset;
use crate::proved::offset_times::OffsetDateTime;
use crate::proved::utc_times::UtcDateTime;

/// An instant in one of the three types. There is no `==`, since it would drop the offset.
#[derive(Clone, Copy, Debug)]
pub enum Held {
    Stamp(Timestamp),
    Utc(UtcDateTime),
    Offset(OffsetDateTime),
}

/// A conversion to one of the three types.
#[derive(Clone, Copy, Debug, PartialEq, Eq)]
pub enum Step {
    ToStamp,
    ToUtc,
    ToOffset(UtcOffset),
}

/// The step at which a chain of conversions stopped, from 0, and the value before it.
#[derive(Clone, Copy, Debug)]
pub struct StoppedAt {
    pub index: usize,
    pub held: Held,
}
