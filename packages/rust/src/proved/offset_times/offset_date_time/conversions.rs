// Made by make/erase of crates/offset_times/src/offset_date_time/conversions.rt. Do not edit.
//! Conversions to another offset, and to UTC.
use crate::proved::offset_times::carries::{to_offset_raw, to_utc_raw};
use crate::proved::offset_times::{Assume, OffsetDateTime};
use crate::proved::calendar_values::{Date, Time, UtcOffset};
use crate::proved::plain_times::PlainDateTime;
use crate::proved::utc_times::{AsUtc, UtcDateTime};

impl OffsetDateTime {
    /// The same instant at another offset, where its date must be in range.
    ///
    /// ```
    /// # use muxandu::proved::*;
    /// # fn main() -> Result<(), Box<dyn std::error::Error>> {
    /// let west = UtcOffset::from_hms(-8, 0, 0)?;
    /// let shown = OffsetDateTime::UNIX_EPOCH.to_offset(west);
    /// assert_eq!(shown.hour(), 16);
    /// assert_eq!(shown.day(), 31);
    /// # Ok(())
    /// # }
    /// ```
    ///
    /// # Panics
    ///
    /// The call breaks a `requires` of the contract.
    /// [`OffsetDateTime::checked_to_offset`] returns `None` there.
    ///
    /// # Contract
    ///
    /// ```text
    /// requires { IsWallClock (shown_at (instant_of self) offset) }
    /// ensures value { result ≡ local_at (instant_of self) offset }
    /// ensures instant { instant_of result ≡ instant_of self }
    /// ```
    ///
    /// [docs/proofs/STATEMENT.md](crate::proved#contracts) explains the words.
    #[inline]
    #[track_caller]
    pub const fn to_offset(self, offset: UtcOffset) -> OffsetDateTime {
        self.checked_to_offset(offset).unwrap()
    }

    /// The same instant at another offset. None if its date there is out of range. Its date in UTC
    /// may be out of range.
    ///
    /// ```
    /// # use muxandu::proved::*;
    /// # fn main() -> Result<(), Box<dyn std::error::Error>> {
    /// let west = UtcOffset::from_hms(-8, 0, 0)?;
    /// assert_eq!(
    ///     OffsetDateTime::UNIX_EPOCH.checked_to_offset(west).map(|shown| shown.hour()),
    ///     Some(16)
    /// );
    /// assert_eq!(PlainDateTime::MIN.assume_utc().checked_to_offset(west), None);
    /// # Ok(())
    /// # }
    /// ```
    ///
    /// # Contract
    ///
    /// ```text
    /// ensures value { ShownAt result (instant_of self) offset }
    /// ensures instant { IfSome result (λ at. instant_of at ≡ instant_of self) }
    /// ```
    ///
    /// [docs/proofs/STATEMENT.md](crate::proved#contracts) explains the words.
    #[inline]
    pub const fn checked_to_offset(self, offset: UtcOffset) -> Option<OffsetDateTime> {
        let (from, to) = (self.offset().whole_seconds(), offset.whole_seconds());
        if from == to {
            return Some(self);
        }
        let (year, ordinal, time) = to_offset_raw(self, offset);
        match date_time_if_any(year, ordinal, time) {
            Some(shown) => Some(shown.assume_offset(offset)),
            None => None,
        }
    }

    /// The same instant in UTC, which must be in range.
    ///
    /// ```
    /// # use muxandu::proved::*;
    /// # fn main() -> Result<(), Box<dyn std::error::Error>> {
    /// let west = UtcOffset::from_hms(-8, 0, 0)?;
    /// let at = PlainDateTime::UNIX_EPOCH.assume_offset(west);
    /// assert_eq!(at.to_utc().unix_timestamp(), 28_800);
    /// # Ok(())
    /// # }
    /// ```
    ///
    /// # Panics
    ///
    /// The call breaks a `requires` of the contract.
    /// [`OffsetDateTime::checked_to_utc`] returns `None` there.
    ///
    /// # Contract
    ///
    /// ```text
    /// requires { IsInstant (instant_of self) }
    /// ensures { result ≡ instant_of self }
    /// ```
    ///
    /// [docs/proofs/STATEMENT.md](crate::proved#contracts) explains the words.
    #[inline]
    #[track_caller]
    pub const fn to_utc(self) -> UtcDateTime {
        self.checked_to_utc().unwrap()
    }

    /// The same instant in UTC. None outside the range.
    ///
    /// ```
    /// # use muxandu::proved::*;
    /// # fn main() -> Result<(), Box<dyn std::error::Error>> {
    /// let west = UtcOffset::from_hms(-8, 0, 0)?;
    /// let at = PlainDateTime::MAX.assume_offset(west);
    /// assert_eq!(at.checked_to_utc(), None);
    /// assert_eq!(OffsetDateTime::UNIX_EPOCH.checked_to_utc(), Some(UtcDateTime::UNIX_EPOCH));
    /// # Ok(())
    /// # }
    /// ```
    ///
    /// # Contract
    ///
    /// ```text
    /// ensures { SomeInRange result (instant_of self) }
    /// ```
    ///
    /// [docs/proofs/STATEMENT.md](crate::proved#contracts) explains the words.
    #[inline]
    pub const fn checked_to_utc(self) -> Option<UtcDateTime> {
        if self.offset().is_utc() {
            return Some(self.date_time().as_utc());
        }
        let (year, ordinal, time) = to_utc_raw(self);
        match date_time_if_any(year, ordinal, time) {
            Some(shown) => Some(shown.as_utc()),
            None => None,
        }
    }
}

// The day of the year and the time of day, if the range has them.
/// # Contract
///
/// ```text
/// requires date { IsOrdinalDate year ordinal }
/// requires clock { IsClock time }
/// ensures { SomeInRange result (wall_clock (day_of_ordinal_date year ordinal) time) }
/// ```
///
/// [docs/proofs/STATEMENT.md](crate::proved#contracts) explains the words.
#[inline]
pub(crate) const fn date_time_if_any(year: i32, ordinal: u16, time: Time) -> Option<PlainDateTime> {
    match Date::from_ordinal_date(year, ordinal) {
        Ok(date) => Some(PlainDateTime::new(date, time)),
        Err(_) => None,
    }
}
