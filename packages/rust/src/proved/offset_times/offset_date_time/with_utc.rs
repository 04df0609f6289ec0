// Made by make/erase of crates/offset_times/src/offset_date_time/with_utc.rt. Do not edit.
//! Date-times with an offset together with those in UTC.
use crate::proved::offset_times::OffsetDateTime;
use crate::proved::calendar_values::SignedDuration;
use std::cmp::Ordering;
use std::ops::Sub;
use crate::proved::utc_times::UtcDateTime;

impl OffsetDateTime {
    /// Whether the instant is that of a date-time in UTC, also where its date in UTC does not
    /// exist.
    ///
    /// ```
    /// # use muxandu::proved::*;
    /// # fn main() -> Result<(), Box<dyn std::error::Error>> {
    /// let east = UtcOffset::from_hms(1, 0, 0)?;
    /// let shown = OffsetDateTime::UNIX_EPOCH.checked_to_offset(east).ok_or("no date")?;
    /// assert_eq!(shown.eq_utc(UtcDateTime::UNIX_EPOCH), true);
    /// assert_eq!(shown.eq_utc(UtcDateTime::MAX), false);
    /// # Ok(())
    /// # }
    /// ```
    ///
    /// # Contract
    ///
    /// ```text
    /// ensures { result ≡ int_eq (instant_of self) other }
    /// ```
    ///
    /// [docs/proofs/STATEMENT.md](crate::proved#contracts) explains the words.
    #[inline]
    pub fn eq_utc(self, other: UtcDateTime) -> bool {
        self == OffsetDateTime::from(other)
    }

    /// The order of the instant and that of a date-time in UTC.
    ///
    /// ```
    /// # use muxandu::proved::*;
    /// # fn main() -> Result<(), Box<dyn std::error::Error>> {
    /// let earlier = PlainDateTime::UNIX_EPOCH.assume_offset(UtcOffset::from_hms(1, 0, 0)?);
    /// assert_eq!(earlier.cmp_utc(UtcDateTime::UNIX_EPOCH), std::cmp::Ordering::Less);
    /// # Ok(())
    /// # }
    /// ```
    ///
    /// # Contract
    ///
    /// ```text
    /// ensures { result ≡ int_cmp (instant_of self) other }
    /// ```
    ///
    /// [docs/proofs/STATEMENT.md](crate::proved#contracts) explains the words.
    #[inline]
    pub fn cmp_utc(self, other: UtcDateTime) -> Ordering {
        self.cmp(&OffsetDateTime::from(other))
    }

    // The instant, as clocks in UTC show it.
    /// # Contract
    ///
    /// ```text
    /// ensures value { result ≡ local_in_utc at }
    /// ensures instant { instant_of result ≡ at }
    /// ```
    ///
    /// [docs/proofs/STATEMENT.md](crate::proved#contracts) explains the words.
    #[inline]
    pub(crate) const fn from_utc(at: UtcDateTime) -> OffsetDateTime {
        OffsetDateTime::new_utc(at.date(), at.time())
    }
}

/// # Contract
///
/// ```text
/// ghost from_gives = { λ instant at. (at ≡ local_in_utc instant) × (instant_of at ≡ instant) };
/// ```
///
/// [docs/proofs/STATEMENT.md](crate::proved#contracts) explains the words.
impl From<UtcDateTime> for OffsetDateTime {
    #[inline]
    fn from(at: UtcDateTime) -> OffsetDateTime {
        OffsetDateTime::from_utc(at)
    }
}

/// # Contract
///
/// ```text
/// ghost sub_gives = { λ at other difference. difference ≡ instant_of at -ℤ other };
/// ```
///
/// [docs/proofs/STATEMENT.md](crate::proved#contracts) explains the words.
impl Sub<UtcDateTime> for OffsetDateTime {
    type Output = SignedDuration;
    #[inline]
    fn sub(self, other: UtcDateTime) -> SignedDuration {
        self - OffsetDateTime::from(other)
    }
}

/// # Contract
///
/// ```text
/// ghost sub_gives = { λ at other difference. difference ≡ at -ℤ instant_of other };
/// ```
///
/// [docs/proofs/STATEMENT.md](crate::proved#contracts) explains the words.
impl Sub<OffsetDateTime> for UtcDateTime {
    type Output = SignedDuration;
    #[inline]
    fn sub(self, other: OffsetDateTime) -> SignedDuration {
        OffsetDateTime::from(self) - other
    }
}
