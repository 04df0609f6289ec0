// Made by make/erase of crates/stamp_times/src/to_timestamp.rt. Do not edit.
//! Date-times at an offset as timestamps.
use crate::proved::stamp_times::Timestamp;
use crate::proved::offset_times::OffsetDateTime;

/// A type with an instant that may be a timestamp.
///
/// # Contract
///
/// ```text
/// ghost instant_told: { Self → ℤ };
/// ```
///
/// [docs/proofs/STATEMENT.md](crate::proved#contracts) explains the words.
pub trait ToTimestamp {
    /// The timestamp of the instant, which must be in range.
    ///
    /// ```
    /// # use muxandu::proved::*;
    /// # fn main() -> Result<(), Box<dyn std::error::Error>> {
    /// let at = OffsetDateTime::from_unix_timestamp(1_000_000_000)?;
    /// assert_eq!(at.to_timestamp(), Timestamp::from_seconds(1_000_000_000)?);
    /// # Ok(())
    /// # }
    /// ```
    ///
    /// # Panics
    ///
    /// The call breaks a `requires` of the contract.
    /// [`ToTimestamp::checked_to_timestamp`] returns `None` there.
    ///
    /// # Contract
    ///
    /// ```text
    /// requires { IsInstant (instant_told self) }
    /// ensures { result ≡ instant_told self }
    /// ```
    ///
    /// [docs/proofs/STATEMENT.md](crate::proved#contracts) explains the words.
    #[track_caller]
    fn to_timestamp(self) -> Timestamp;

    /// The timestamp of the instant. None outside the range.
    ///
    /// ```
    /// # use muxandu::proved::*;
    /// # fn main() -> Result<(), Box<dyn std::error::Error>> {
    /// assert_eq!(
    ///     OffsetDateTime::UNIX_EPOCH.checked_to_timestamp(),
    ///     Some(Timestamp::UNIX_EPOCH)
    /// );
    /// let late = PlainDateTime::MAX.assume_offset(UtcOffset::from_hms(-1, 0, 0)?);
    /// assert_eq!(late.checked_to_timestamp(), None);
    /// # Ok(())
    /// # }
    /// ```
    ///
    /// # Contract
    ///
    /// ```text
    /// ensures { SomeInRange result (instant_told self) }
    /// ```
    ///
    /// [docs/proofs/STATEMENT.md](crate::proved#contracts) explains the words.
    fn checked_to_timestamp(self) -> Option<Timestamp>;
}

/// # Contract
///
/// ```text
/// ghost instant_told = { λ at. instant_of at };
/// ```
///
/// [docs/proofs/STATEMENT.md](crate::proved#contracts) explains the words.
impl ToTimestamp for OffsetDateTime {
    #[inline]
    #[track_caller]
    fn to_timestamp(self) -> Timestamp {
        self.checked_to_timestamp().unwrap()
    }

    #[inline]
    fn checked_to_timestamp(self) -> Option<Timestamp> {
        match self.checked_to_utc() {
            Some(at) => Some(Timestamp::from_utc(at)),
            None => None,
        }
    }
}

impl OffsetDateTime {
    /// As [`ToTimestamp::to_timestamp`], which has the contract.
    ///
    /// # Panics
    ///
    /// The call breaks a `requires` of the contract.
    #[inline]
    #[track_caller]
    pub const fn to_timestamp(self) -> Timestamp {
        self.checked_to_timestamp().unwrap()
    }

    /// As [`ToTimestamp::checked_to_timestamp`], which has the contract.
    #[inline]
    pub const fn checked_to_timestamp(self) -> Option<Timestamp> {
        match self.checked_to_utc() {
            Some(at) => Some(Timestamp::from_utc(at)),
            None => None,
        }
    }
}
