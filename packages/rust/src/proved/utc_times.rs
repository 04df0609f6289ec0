// Made by make/erase of crates/utc_times/src/lib.rt. Do not edit.
//! Dates with a time of day in UTC.
mod as_utc;
mod utc_date_time;

pub use as_utc::AsUtc;
pub use utc_date_time::UtcDateTime;
