// Made by make/erase of crates/plain_times/src/lib.rt. Do not edit.
//! Dates with a time of day.
mod plain_date_time;

pub use plain_date_time::{PlainDateTime, packed_number};
