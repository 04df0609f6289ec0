// Made by make/erase of crates/rfc3339/src/lib.rt. Do not edit.
//! Texts of exchange: date-times as RFC 3339 writes them, written and read.
mod fault;
mod front;
mod full_dates;
mod leap;
mod pairs;
mod parse;
mod parts;
mod reading;
mod refusal;
mod texts;
mod write;
mod write_fixed;
mod write_into;
mod write_unix;

pub use fault::{full_time_fault, syntax_fault};
pub use front::{parse_rfc3339_front, parse_rfc3339_offset};
pub use full_dates::{date_from_rfc3339, date_to_rfc3339};
pub use leap::parse_rfc3339_leap;
pub(in crate::proved) use parse::{parts_after_second};
pub use parse::{parse_rfc3339};
pub use parts::Parts;
pub use refusal::{Component, TextRefusal};
pub use texts::Rfc3339;
pub use write_fixed::{to_rfc3339_digits, to_rfc3339_nanos, to_rfc3339_nanos_at};
pub(in crate::proved) use write_into::{write_rfc3339_parts};
pub use write_into::{TEXT_ROOM};
pub use write_unix::to_unix_nanos;
