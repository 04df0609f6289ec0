// Made by make/erase of crates/offset_times/src/offset_date_time.rt. Do not edit.
//! A date and a time of day at an offset from UTC.
use crate::proved::calendar_values::{Date, Time, UtcOffset};
use crate::proved::plain_times::PlainDateTime;
mod comparisons;
mod conversions;
mod operators;
mod reads;
mod replacements;
mod sums;
mod texts;
mod unix_time;
mod with_utc;

pub(crate) use conversions::date_time_if_any;

/// A date and a time of day, from those of [`PlainDateTime::MIN`] to those of
/// [`PlainDateTime::MAX`], that clocks at an offset from UTC show. Its instant may lie outside that
/// range, in UTC: such a value compares, feeds a hasher and converts like any other. A contract
/// sees the wall clock, in nanoseconds, and the offset, in seconds; the instant is the wall clock
/// less the nanoseconds of the offset.
///
/// ```
/// # use muxandu::proved::*;
/// # fn main() -> Result<(), Box<dyn std::error::Error>> {
/// let east = UtcOffset::from_hms(1, 0, 0)?;
/// let shown = OffsetDateTime::UNIX_EPOCH
///     .checked_to_offset(east)
///     .ok_or("no date")?;
/// assert_eq!(shown.hour(), 1);
/// assert_eq!(shown, OffsetDateTime::UNIX_EPOCH);
/// # Ok(())
/// # }
/// ```
#[derive(Clone, Copy)]
pub struct OffsetDateTime {
    date: Date,
    time: Time,
    offset: UtcOffset,
}

impl OffsetDateTime {
    /// 1970-01-01 0:00:00.0 in UTC, from which Unix time is counted.
    pub const UNIX_EPOCH: OffsetDateTime = OffsetDateTime {
        date: Date::UNIX_EPOCH,
        time: Time::MIDNIGHT,
        offset: UtcOffset::UTC,
    };

    /// The date and the time of day that clocks at the offset show.
    ///
    /// ```
    /// # use muxandu::proved::*;
    /// # fn main() -> Result<(), Box<dyn std::error::Error>> {
    /// let time = Time::from_hms(12, 0, 0)?;
    /// let east = UtcOffset::from_hms(5, 30, 0)?;
    /// let date = Date::from_calendar_date(2024, Month::February, 29)?;
    /// let at = OffsetDateTime::new_in_offset(date, time, east);
    /// assert_eq!(at.to_hms(), (12, 0, 0));
    /// assert_eq!(at.unix_timestamp(), 1_709_188_200);
    /// # Ok(())
    /// # }
    /// ```
    ///
    /// # Contract
    ///
    /// ```text
    /// ensures value { result ≡ wall_at (wall_clock date time) offset }
    /// ensures instant { instant_of result ≡ wall_clock date time -ℤ offset_nanos offset }
    /// ```
    ///
    /// [docs/proofs/STATEMENT.md](crate::proved#contracts) explains the words.
    #[inline]
    pub const fn new_in_offset(date: Date, time: Time, offset: UtcOffset) -> OffsetDateTime {
        // For the proof alone: what is read lies in its range.
        let _in_range = (date.year(), offset.whole_seconds());
        OffsetDateTime { date, time, offset }
    }

    /// The date and the time of day, in UTC.
    ///
    /// ```
    /// # use muxandu::proved::*;
    /// # fn main() -> Result<(), Box<dyn std::error::Error>> {
    /// let date = Date::from_calendar_date(2024, Month::February, 29)?;
    /// let at = OffsetDateTime::new_utc(date, Time::MIDNIGHT);
    /// assert_eq!(at.offset(), UtcOffset::UTC);
    /// assert_eq!(at.unix_timestamp(), 1_709_164_800);
    /// # Ok(())
    /// # }
    /// ```
    ///
    /// # Contract
    ///
    /// ```text
    /// ensures value { result ≡ wall_at (wall_clock date time) (pos 0) }
    /// ensures instant { instant_of result ≡ wall_clock date time }
    /// ```
    ///
    /// [docs/proofs/STATEMENT.md](crate::proved#contracts) explains the words.
    #[inline]
    pub const fn new_utc(date: Date, time: Time) -> OffsetDateTime {
        OffsetDateTime::new_in_offset(date, time, UtcOffset::UTC)
    }

    /// The offset.
    ///
    /// ```
    /// # use muxandu::proved::*;
    /// # fn main() -> Result<(), Box<dyn std::error::Error>> {
    /// let east = UtcOffset::from_hms(10, 30, 0)?;
    /// let at = PlainDateTime::UNIX_EPOCH.assume_offset(east);
    /// assert_eq!(at.offset(), east);
    /// # Ok(())
    /// # }
    /// ```
    ///
    /// # Contract
    ///
    /// ```text
    /// ensures value { result ≡ self.offset }
    /// ensures self_in_range { IsLocal self }
    /// ```
    ///
    /// [docs/proofs/STATEMENT.md](crate::proved#contracts) explains the words.
    #[inline]
    pub const fn offset(self) -> UtcOffset {
        self.offset
    }

    /// The date and the time of day, without the offset.
    ///
    /// ```
    /// # use muxandu::proved::*;
    /// # fn main() -> Result<(), Box<dyn std::error::Error>> {
    /// let east = UtcOffset::from_hms(10, 30, 0)?;
    /// let at = PlainDateTime::UNIX_EPOCH.assume_offset(east);
    /// assert_eq!(at.date_time(), PlainDateTime::UNIX_EPOCH);
    /// # Ok(())
    /// # }
    /// ```
    ///
    /// # Contract
    ///
    /// ```text
    /// ensures value { result ≡ self.wall }
    /// ensures self_in_range { IsLocal self }
    /// ```
    ///
    /// [docs/proofs/STATEMENT.md](crate::proved#contracts) explains the words.
    #[inline]
    pub const fn date_time(self) -> PlainDateTime {
        PlainDateTime::new(self.date, self.time)
    }

    /// The date and the time of day that clocks at the offset show, and the offset.
    ///
    /// ```
    /// # use muxandu::proved::*;
    /// # fn main() -> Result<(), Box<dyn std::error::Error>> {
    /// let east = UtcOffset::from_hms(10, 30, 0)?;
    /// let at = PlainDateTime::UNIX_EPOCH.assume_offset(east);
    /// assert_eq!(at.parts(), (Date::UNIX_EPOCH, Time::MIDNIGHT, east));
    /// # Ok(())
    /// # }
    /// ```
    ///
    /// # Contract
    ///
    /// ```text
    /// ensures date { result.0 ≡ wall_day self.wall }
    /// ensures time { result.1 ≡ wall_time self.wall }
    /// ensures offset { result.2 ≡ self.offset }
    /// ensures self_in_range { IsLocal self }
    /// ```
    ///
    /// [docs/proofs/STATEMENT.md](crate::proved#contracts) explains the words.
    #[inline]
    pub const fn parts(self) -> (Date, Time, UtcOffset) {
        let shown = self.date_time();
        (shown.date(), shown.time(), self.offset())
    }
}
