// Made by make/erase of crates/stamp_times/src/timestamp/with_utc.rt. Do not edit.
//! Timestamps and date-times in UTC: the same instants.
use crate::proved::stamp_times::Timestamp;
use crate::proved::calendar_values::SignedDuration;
use std::cmp::Ordering;
use std::ops::Sub;
use crate::proved::utc_times::UtcDateTime;

impl Timestamp {
    /// The same instant as a date with a time of day in UTC.
    ///
    /// ```
    /// # use muxandu::proved::*;
    /// # fn main() -> Result<(), Box<dyn std::error::Error>> {
    /// assert_eq!(Timestamp::UNIX_EPOCH.to_utc(), UtcDateTime::UNIX_EPOCH);
    /// # Ok(())
    /// # }
    /// ```
    ///
    /// # Contract
    ///
    /// ```text
    /// ensures { result ≡ self }
    /// ```
    ///
    /// [docs/proofs/STATEMENT.md](crate::proved#contracts) explains the words.
    #[inline]
    pub const fn to_utc(self) -> UtcDateTime {
        UtcDateTime::new(self.date(), self.time())
    }

    /// Whether both are one instant.
    ///
    /// ```
    /// # use muxandu::proved::*;
    /// # fn main() -> Result<(), Box<dyn std::error::Error>> {
    /// assert_eq!(Timestamp::UNIX_EPOCH.eq_utc(UtcDateTime::UNIX_EPOCH), true);
    /// assert_eq!(Timestamp::UNIX_EPOCH.eq_utc(UtcDateTime::MIN), false);
    /// # Ok(())
    /// # }
    /// ```
    ///
    /// # Contract
    ///
    /// ```text
    /// ensures { result ≡ int_eq self other }
    /// ```
    ///
    /// [docs/proofs/STATEMENT.md](crate::proved#contracts) explains the words.
    #[inline]
    pub fn eq_utc(self, other: UtcDateTime) -> bool {
        self == Timestamp::from(other)
    }

    /// Which instant comes first.
    ///
    /// ```
    /// # use muxandu::proved::*;
    /// # fn main() -> Result<(), Box<dyn std::error::Error>> {
    /// assert_eq!(
    ///     Timestamp::UNIX_EPOCH.cmp_utc(UtcDateTime::MIN),
    ///     std::cmp::Ordering::Greater
    /// );
    /// # Ok(())
    /// # }
    /// ```
    ///
    /// # Contract
    ///
    /// ```text
    /// ensures { result ≡ int_cmp self other }
    /// ```
    ///
    /// [docs/proofs/STATEMENT.md](crate::proved#contracts) explains the words.
    #[inline]
    pub fn cmp_utc(self, other: UtcDateTime) -> Ordering {
        self.cmp(&Timestamp::from(other))
    }

    // The instant, by its Unix second.
    /// # Contract
    ///
    /// ```text
    /// ensures { result ≡ at }
    /// ```
    ///
    /// [docs/proofs/STATEMENT.md](crate::proved#contracts) explains the words.
    #[inline]
    pub(crate) const fn from_utc(at: UtcDateTime) -> Timestamp {
        Timestamp {
            niche: crate::proved::memory::Niche::Here,
            seconds: at.unix_timestamp(),
            nanosecond: at.nanosecond(),
        }
    }
}

/// # Contract
///
/// ```text
/// ghost from_gives = { λ at stamp. stamp ≡ at };
/// ```
///
/// [docs/proofs/STATEMENT.md](crate::proved#contracts) explains the words.
impl From<UtcDateTime> for Timestamp {
    #[inline]
    fn from(at: UtcDateTime) -> Timestamp {
        Timestamp::from_utc(at)
    }
}

/// # Contract
///
/// ```text
/// ghost from_gives = { λ stamp at. at ≡ stamp };
/// ```
///
/// [docs/proofs/STATEMENT.md](crate::proved#contracts) explains the words.
impl From<Timestamp> for UtcDateTime {
    #[inline]
    fn from(stamp: Timestamp) -> UtcDateTime {
        stamp.to_utc()
    }
}

/// # Contract
///
/// ```text
/// ghost sub_gives = { λ stamp at difference. difference ≡ stamp -ℤ at };
/// ```
///
/// [docs/proofs/STATEMENT.md](crate::proved#contracts) explains the words.
impl Sub<UtcDateTime> for Timestamp {
    type Output = SignedDuration;

    #[inline]
    fn sub(self, other: UtcDateTime) -> SignedDuration {
        self - Timestamp::from(other)
    }
}

/// # Contract
///
/// ```text
/// ghost sub_gives = { λ at stamp difference. difference ≡ at -ℤ stamp };
/// ```
///
/// [docs/proofs/STATEMENT.md](crate::proved#contracts) explains the words.
impl Sub<Timestamp> for UtcDateTime {
    type Output = SignedDuration;

    #[inline]
    fn sub(self, other: Timestamp) -> SignedDuration {
        Timestamp::from(self) - other
    }
}
