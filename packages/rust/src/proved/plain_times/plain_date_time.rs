// Made by make/erase of crates/plain_times/src/plain_date_time.rt. Do not edit.
//! A date with a time of day, and no offset from UTC.
use crate::proved::calendar_values::{Date, Time};
mod comparisons;
mod operators;
mod reads;
mod replacements;
mod sums;
mod texts;

pub use comparisons::packed_number;

/// A date with a time of day, from the first midnight of the range to its last nanosecond. A
/// contract sees the wall clock: the day number times the 86,400 * 10^9 nanoseconds of a day, plus
/// the nanosecond of the day. Equality, order and hash go by it; which bytes a hasher is fed is no
/// promise.
///
/// ```
/// # use muxandu::proved::*;
/// # fn main() -> Result<(), Box<dyn std::error::Error>> {
/// let noon = PlainDateTime::new(Date::UNIX_EPOCH, Time::from_hms(12, 0, 0)?);
/// assert_eq!(noon.truncate_to_day(), PlainDateTime::UNIX_EPOCH);
/// assert_eq!(noon - PlainDateTime::UNIX_EPOCH, SignedDuration::hours(12));
/// # Ok(())
/// # }
/// ```
#[derive(Clone, Copy, PartialEq)]
pub struct PlainDateTime {
    date: Date,
    time: Time,
}

impl PlainDateTime {
    /// The first: midnight of [`Date::MIN`].
    pub const MIN: PlainDateTime = PlainDateTime {
        date: Date::MIN,
        time: Time::MIDNIGHT,
    };

    /// The last: the last nanosecond of [`Date::MAX`].
    pub const MAX: PlainDateTime = PlainDateTime {
        date: Date::MAX,
        time: Time::MAX,
    };

    /// 1970-01-01 0:00:00.0, from which wall clocks are counted.
    pub const UNIX_EPOCH: PlainDateTime = PlainDateTime {
        date: Date::UNIX_EPOCH,
        time: Time::MIDNIGHT,
    };

    /// The date with the time of day.
    ///
    /// ```
    /// # use muxandu::proved::*;
    /// # fn main() -> Result<(), Box<dyn std::error::Error>> {
    /// let date = Date::from_calendar_date(2024, Month::February, 29)?;
    /// let at = PlainDateTime::new(date, Time::from_hms(18, 45, 0)?);
    /// assert_eq!(at.date(), Date::from_calendar_date(2024, Month::February, 29)?);
    /// assert_eq!(at.as_hms(), (18, 45, 0));
    /// # Ok(())
    /// # }
    /// ```
    ///
    /// # Contract
    ///
    /// ```text
    /// ensures { result ≡ wall_clock date time }
    /// ```
    ///
    /// [docs/proofs/STATEMENT.md](crate::proved#contracts) explains the words.
    #[inline]
    pub const fn new(date: Date, time: Time) -> PlainDateTime {
        // For the proof alone: what is read lies in its range.
        let _in_range = date.year();
        PlainDateTime { date, time }
    }
}
