// Made by make/erase of crates/offset_times/src/to_offset.rt. Do not edit.
//! Conversions from UTC to an offset.
use crate::proved::offset_times::carries::utc_to_offset_raw;
use crate::proved::offset_times::offset_date_time::date_time_if_any;
use crate::proved::offset_times::{Assume, OffsetDateTime};
use crate::proved::calendar_values::UtcOffset;
use crate::proved::utc_times::UtcDateTime;

/// A type with an instant that converts to an offset.
///
/// # Contract
///
/// ```text
/// ghost instant_shown: { Self → ℤ };
/// ```
///
/// [docs/proofs/STATEMENT.md](crate::proved#contracts) explains the words.
pub trait ToOffset {
    /// The same instant at an offset, where its date must be in range.
    ///
    /// ```
    /// # use muxandu::proved::*;
    /// # fn main() -> Result<(), Box<dyn std::error::Error>> {
    /// let west = UtcOffset::from_hms(-8, 0, 0)?;
    /// let shown = UtcDateTime::UNIX_EPOCH.to_offset(west);
    /// assert_eq!(shown.hour(), 16);
    /// assert_eq!(shown.day(), 31);
    /// # Ok(())
    /// # }
    /// ```
    ///
    /// # Panics
    ///
    /// The call breaks a `requires` of the contract.
    /// [`ToOffset::checked_to_offset`] returns `None` there.
    ///
    /// # Contract
    ///
    /// ```text
    /// requires { IsWallClock (shown_at (instant_shown self) offset) }
    /// ensures value { result ≡ local_at (instant_shown self) offset }
    /// ensures instant { instant_of result ≡ instant_shown self }
    /// ```
    ///
    /// [docs/proofs/STATEMENT.md](crate::proved#contracts) explains the words.
    #[track_caller]
    fn to_offset(self, offset: UtcOffset) -> OffsetDateTime;

    /// The same instant at an offset. None if its date there is out of range.
    ///
    /// ```
    /// # use muxandu::proved::*;
    /// # fn main() -> Result<(), Box<dyn std::error::Error>> {
    /// let west = UtcOffset::from_hms(-8, 0, 0)?;
    /// assert_eq!(
    ///     UtcDateTime::UNIX_EPOCH.checked_to_offset(west).map(|shown| shown.hour()),
    ///     Some(16)
    /// );
    /// assert_eq!(UtcDateTime::MIN.checked_to_offset(west), None);
    /// # Ok(())
    /// # }
    /// ```
    ///
    /// # Contract
    ///
    /// ```text
    /// ensures value { ShownAt result (instant_shown self) offset }
    /// ensures instant { IfSome result (λ at. instant_of at ≡ instant_shown self) }
    /// ```
    ///
    /// [docs/proofs/STATEMENT.md](crate::proved#contracts) explains the words.
    fn checked_to_offset(self, offset: UtcOffset) -> Option<OffsetDateTime>;
}

/// # Contract
///
/// ```text
/// ghost instant_shown = { λ instant. instant };
/// ```
///
/// [docs/proofs/STATEMENT.md](crate::proved#contracts) explains the words.
impl ToOffset for UtcDateTime {
    #[inline]
    #[track_caller]
    fn to_offset(self, offset: UtcOffset) -> OffsetDateTime {
        self.checked_to_offset(offset).unwrap()
    }

    #[inline]
    fn checked_to_offset(self, offset: UtcOffset) -> Option<OffsetDateTime> {
        if offset.is_utc() {
            return Some(OffsetDateTime::from_utc(self));
        }
        let (year, ordinal, time) = utc_to_offset_raw(self, offset);
        match date_time_if_any(year, ordinal, time) {
            Some(shown) => Some(shown.assume_offset(offset)),
            None => None,
        }
    }
}

impl UtcDateTime {
    /// As [`ToOffset::to_offset`], which has the contract.
    ///
    /// # Panics
    ///
    /// The call breaks a `requires` of the contract.
    #[inline]
    #[track_caller]
    pub const fn to_offset(self, offset: UtcOffset) -> OffsetDateTime {
        self.checked_to_offset(offset).unwrap()
    }

    /// As [`ToOffset::checked_to_offset`], which has the contract.
    #[inline]
    pub const fn checked_to_offset(self, offset: UtcOffset) -> Option<OffsetDateTime> {
        if offset.is_utc() {
            return Some(OffsetDateTime::from_utc(self));
        }
        let (year, ordinal, time) = utc_to_offset_raw(self, offset);
        match date_time_if_any(year, ordinal, time) {
            Some(shown) => Some(shown.assume_offset(offset)),
            None => None,
        }
    }
}
