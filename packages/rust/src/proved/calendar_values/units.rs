// Made by make/erase of crates/calendar_values/src/units.rt. Do not edit.
//! How many of one unit of time another has, and the day from which days are counted. There are no
//! leap seconds.

/// The seconds of a minute.
pub const SECONDS_PER_MINUTE: i64 = 60;

/// The seconds of an hour.
pub const SECONDS_PER_HOUR: i32 = 3_600;

/// The seconds of a day.
pub const SECONDS_PER_DAY: i64 = 86_400;

/// The seconds of a week.
pub const SECONDS_PER_WEEK: i64 = 604_800;

/// The nanoseconds of a second.
pub const NANOS_PER_SECOND: i32 = 1_000_000_000;

/// The nanoseconds of a day.
pub const NANOS_PER_DAY: i64 = 86_400_000_000_000;

/// The Julian day of 1970-01-01.
pub const EPOCH_JULIAN_DAY: i32 = 2_440_588;
