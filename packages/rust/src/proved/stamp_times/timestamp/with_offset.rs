// Made by make/erase of crates/stamp_times/src/timestamp/with_offset.rt. Do not edit.
//! Timestamps and date-times at offsets from UTC: the same instants.
use crate::proved::stamp_times::Timestamp;
use crate::proved::calendar_values::{SignedDuration, UtcOffset};
use crate::proved::offset_times::{OffsetDateTime, ToOffset};
use std::cmp::Ordering;
use std::ops::Sub;

impl Timestamp {
    /// The same instant at an offset, where its date must be in range.
    ///
    /// ```
    /// # use muxandu::proved::*;
    /// # fn main() -> Result<(), Box<dyn std::error::Error>> {
    /// let west = UtcOffset::from_hms(-8, 0, 0)?;
    /// let shown = Timestamp::UNIX_EPOCH.to_offset(west);
    /// assert_eq!(shown.hour(), 16);
    /// assert_eq!(shown.day(), 31);
    /// # Ok(())
    /// # }
    /// ```
    ///
    /// # Panics
    ///
    /// The call breaks a `requires` of the contract.
    /// [`Timestamp::checked_to_offset`] returns `None` there.
    ///
    /// # Contract
    ///
    /// ```text
    /// requires { IsWallClock (shown_at self offset) }
    /// ensures value { result ≡ local_at self offset }
    /// ensures instant { instant_of result ≡ self }
    /// ```
    ///
    /// [docs/proofs/STATEMENT.md](crate::proved#contracts) explains the words.
    #[inline]
    #[track_caller]
    pub const fn to_offset(self, offset: UtcOffset) -> OffsetDateTime {
        self.to_utc().to_offset(offset)
    }

    /// The same instant at an offset. None if its date there is out of range.
    ///
    /// ```
    /// # use muxandu::proved::*;
    /// # fn main() -> Result<(), Box<dyn std::error::Error>> {
    /// let west = UtcOffset::from_hms(-8, 0, 0)?;
    /// assert_eq!(
    ///     Timestamp::UNIX_EPOCH.checked_to_offset(west).map(|shown| shown.hour()),
    ///     Some(16)
    /// );
    /// assert_eq!(Timestamp::MIN.checked_to_offset(west), None);
    /// # Ok(())
    /// # }
    /// ```
    ///
    /// # Contract
    ///
    /// ```text
    /// ensures value { ShownAt result self offset }
    /// ensures instant { IfSome result (λ at. instant_of at ≡ self) }
    /// ```
    ///
    /// [docs/proofs/STATEMENT.md](crate::proved#contracts) explains the words.
    #[inline]
    pub const fn checked_to_offset(self, offset: UtcOffset) -> Option<OffsetDateTime> {
        self.to_utc().checked_to_offset(offset)
    }

    /// Whether both are one instant.
    ///
    /// ```
    /// # use muxandu::proved::*;
    /// # fn main() -> Result<(), Box<dyn std::error::Error>> {
    /// assert_eq!(Timestamp::UNIX_EPOCH.eq_offset(OffsetDateTime::UNIX_EPOCH), true);
    /// assert_eq!(Timestamp::MAX.eq_offset(OffsetDateTime::UNIX_EPOCH), false);
    /// # Ok(())
    /// # }
    /// ```
    ///
    /// # Contract
    ///
    /// ```text
    /// ensures { result ≡ int_eq self (instant_of other) }
    /// ```
    ///
    /// [docs/proofs/STATEMENT.md](crate::proved#contracts) explains the words.
    #[inline]
    pub fn eq_offset(self, other: OffsetDateTime) -> bool {
        OffsetDateTime::from(self) == other
    }

    /// Which instant comes first.
    ///
    /// ```
    /// # use muxandu::proved::*;
    /// # fn main() -> Result<(), Box<dyn std::error::Error>> {
    /// let earlier = PlainDateTime::UNIX_EPOCH.assume_offset(UtcOffset::from_hms(1, 0, 0)?);
    /// assert_eq!(Timestamp::UNIX_EPOCH.cmp_offset(earlier), std::cmp::Ordering::Greater);
    /// # Ok(())
    /// # }
    /// ```
    ///
    /// # Contract
    ///
    /// ```text
    /// ensures { result ≡ int_cmp self (instant_of other) }
    /// ```
    ///
    /// [docs/proofs/STATEMENT.md](crate::proved#contracts) explains the words.
    #[inline]
    pub fn cmp_offset(self, other: OffsetDateTime) -> Ordering {
        OffsetDateTime::from(self).cmp(&other)
    }
}

/// # Contract
///
/// ```text
/// ghost from_gives = { λ stamp at. (at ≡ local_in_utc stamp) × (instant_of at ≡ stamp) };
/// ```
///
/// [docs/proofs/STATEMENT.md](crate::proved#contracts) explains the words.
impl From<Timestamp> for OffsetDateTime {
    #[inline]
    fn from(stamp: Timestamp) -> OffsetDateTime {
        OffsetDateTime::from(stamp.to_utc())
    }
}

/// # Contract
///
/// ```text
/// ghost sub_gives = { λ stamp at difference. difference ≡ stamp -ℤ instant_of at };
/// ```
///
/// [docs/proofs/STATEMENT.md](crate::proved#contracts) explains the words.
impl Sub<OffsetDateTime> for Timestamp {
    type Output = SignedDuration;
    #[inline]
    fn sub(self, other: OffsetDateTime) -> SignedDuration {
        OffsetDateTime::from(self) - other
    }
}

/// # Contract
///
/// ```text
/// ghost sub_gives = { λ at stamp difference. difference ≡ instant_of at -ℤ stamp };
/// ```
///
/// [docs/proofs/STATEMENT.md](crate::proved#contracts) explains the words.
impl Sub<Timestamp> for OffsetDateTime {
    type Output = SignedDuration;
    #[inline]
    fn sub(self, other: Timestamp) -> SignedDuration {
        self - OffsetDateTime::from(other)
    }
}
