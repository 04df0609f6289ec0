// Made by make/erase of crates/calendar_values/src/range.rt. Do not edit.
//! The range of the library. Limits elsewhere are computed from the numbers here, or proved to
//! agree with them.

// The first year and the last.
pub(crate) const FIRST_YEAR: i32 = -999_999;

pub(crate) const LAST_YEAR: i32 = 999_999;

// The day numbers of 1 January of the first year and of 31 December of the last, counted from
// 1 January 1970.
pub(crate) const FIRST_DAY: i32 = -365_961_662;

pub(crate) const LAST_DAY: i32 = 364_522_971;
