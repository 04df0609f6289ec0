// Made by make/erase of crates/calendar_values/src/lib.rt. Do not edit.
//! Dates, times of day, offsets from UTC and durations: the values that date-times are made of.
mod calendar;
mod component_range;
mod conversion_range;
mod date;
mod date_adjustment;
mod month;
mod range;
mod signed_duration;
mod text;
mod time;
pub mod units;
mod utc_offset;
mod weekday;

pub(in crate::proved) use calendar::{day_and_second, leap_ordinal_to_month_day};
pub use calendar::{days_in_month, days_in_year, is_leap_year};
pub use component_range::{ComponentRange, Part};
pub use conversion_range::ConversionRange;
pub use date::Date;
pub use date_adjustment::DateAdjustment;
pub use month::Month;
pub use signed_duration::SignedDuration;
pub use text::Text;
pub use time::Time;
pub use utc_offset::UtcOffset;
pub use weekday::Weekday;
