//! Lengths of months and years, by the names that `time` has for them.

use crate::{Date, Month, Weekday};

pub use crate::{days_in_year, is_leap_year};

/// Returns the number of days of a month.
///
/// ```
/// use muxandu::{Month, util};
///
/// assert_eq!(util::days_in_month(Month::February, 2024), 29);
/// ```
#[must_use]
pub const fn days_in_month(month: Month, year: i32) -> u8 {
    crate::days_in_month(year, month)
}

/// Returns the number of days of a month.
///
/// ```
/// # #![allow(deprecated)]
/// use muxandu::{Month, util};
///
/// assert_eq!(util::days_in_year_month(2024, Month::February), 29);
/// ```
#[must_use]
#[deprecated(note = "use `days_in_month`, or `Month::length`")]
pub const fn days_in_year_month(year: i32, month: Month) -> u8 {
    crate::days_in_month(year, month)
}

/// Returns the number of weeks of a year by ISO 8601, 52 or 53. It is 52 for a year out of range.
///
/// ```
/// use muxandu::util::weeks_in_year;
///
/// assert_eq!((weeks_in_year(2019), weeks_in_year(2020)), (52, 53));
/// ```
#[must_use]
pub const fn weeks_in_year(year: i32) -> u8 {
    match Date::from_iso_week_date(year, 53, Weekday::Monday) {
        Ok(_) => 53,
        Err(_) => 52,
    }
}
