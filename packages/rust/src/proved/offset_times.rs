// Made by make/erase of crates/offset_times/src/lib.rt. Do not edit.
//! Dates with a time of day at an offset from UTC.
mod assume;
pub mod carries;
mod offset_date_time;
mod to_offset;

pub use assume::Assume;
pub use offset_date_time::OffsetDateTime;
pub use to_offset::ToOffset;
