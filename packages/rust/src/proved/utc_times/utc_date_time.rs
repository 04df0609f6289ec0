// Made by make/erase of crates/utc_times/src/utc_date_time.rt. Do not edit.
//! A date and a time of day in UTC.
use crate::proved::calendar_values::{Date, Month, Time};
use crate::proved::plain_times::PlainDateTime;
mod comparisons;
mod operators;
mod reads;
mod replacements;
mod sums;
mod texts;
mod unix_time;

/// A date with a time of day in UTC, from the first midnight of the range to its last nanosecond. A
/// contract sees the instant: the nanoseconds from 1970-01-01 0:00 UTC, with no leap seconds.
/// Equality, order and hash go by it; which bytes a hasher is fed is no promise.
///
/// ```
/// # use muxandu::proved::*;
/// # fn main() -> Result<(), Box<dyn std::error::Error>> {
/// let issued = UtcDateTime::from_unix_timestamp(1_709_164_800)?;
/// assert_eq!(
///     issued.date(),
///     Date::from_calendar_date(2024, Month::February, 29)?
/// );
/// assert_eq!(UtcDateTime::MAX.checked_add(SignedDuration::days(1)), None);
/// # Ok(())
/// # }
/// ```
#[derive(Clone, Copy, PartialEq)]
pub struct UtcDateTime {
    date: Date,
    time: Time,
}

impl UtcDateTime {
    /// The first: midnight of [`Date::MIN`] in UTC.
    pub const MIN: UtcDateTime = UtcDateTime {
        date: Date::MIN,
        time: Time::MIDNIGHT,
    };

    /// The last: the last nanosecond of [`Date::MAX`] in UTC.
    pub const MAX: UtcDateTime = UtcDateTime {
        date: Date::MAX,
        time: Time::MAX,
    };

    /// 1970-01-01 0:00:00.0 in UTC, from which instants are counted.
    pub const UNIX_EPOCH: UtcDateTime = UtcDateTime {
        date: Date::UNIX_EPOCH,
        time: Time::MIDNIGHT,
    };

    /// The date with the time of day, in UTC.
    ///
    /// ```
    /// # use muxandu::proved::*;
    /// # fn main() -> Result<(), Box<dyn std::error::Error>> {
    /// let date = Date::from_calendar_date(2024, Month::February, 29)?;
    /// let at = UtcDateTime::new(date, Time::from_hms(18, 45, 0)?);
    /// assert_eq!(at.unix_timestamp(), 1_709_232_300);
    /// # Ok(())
    /// # }
    /// ```
    ///
    /// # Contract
    ///
    /// ```text
    /// ensures { result ≡ wall_clock date time }
    /// ```
    ///
    /// [docs/proofs/STATEMENT.md](crate::proved#contracts) explains the words.
    #[inline]
    pub const fn new(date: Date, time: Time) -> UtcDateTime {
        // For the proof alone: what is read lies in its range.
        let _in_range = date.year();
        UtcDateTime { date, time }
    }

    /// The date with the time of day, without UTC.
    ///
    /// ```
    /// # use muxandu::proved::*;
    /// # fn main() -> Result<(), Box<dyn std::error::Error>> {
    /// assert_eq!(UtcDateTime::UNIX_EPOCH.as_plain(), PlainDateTime::UNIX_EPOCH);
    /// # Ok(())
    /// # }
    /// ```
    ///
    /// # Contract
    ///
    /// ```text
    /// ensures { result ≡ self }
    /// ```
    ///
    /// [docs/proofs/STATEMENT.md](crate::proved#contracts) explains the words.
    #[inline]
    pub const fn as_plain(self) -> PlainDateTime {
        PlainDateTime::new(self.date, self.time)
    }

    // The date and the time of day, read as UTC.
    /// # Contract
    ///
    /// ```text
    /// ensures { result ≡ plain }
    /// ```
    ///
    /// [docs/proofs/STATEMENT.md](crate::proved#contracts) explains the words.
    #[inline]
    pub(crate) const fn from_plain(plain: PlainDateTime) -> UtcDateTime {
        UtcDateTime::new(plain.date(), plain.time())
    }
}
