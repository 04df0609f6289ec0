// Made by make/erase of crates/local_texts/src/lib.rt. Do not edit.
//! Texts of RFC 3339 that are no whole date-time: wall clocks, and times of day with an offset or
//! without.
mod faults;
mod full_times;
mod in_utc;
mod readings;

pub use faults::{date_time_fault, time_fault, time_with_offset_fault};
pub use full_times::parse_time_with_offset;
pub use in_utc::{UTC_ROOM, write_date_time_in_utc, write_time_in_utc};
pub use readings::{parse_date_time, parse_date_time_at, parse_time};
