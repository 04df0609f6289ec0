// Made by make/erase of crates/offset_times/src/assume.rt. Do not edit.
//! Wall clocks read at an offset.
use crate::proved::offset_times::OffsetDateTime;
use crate::proved::calendar_values::UtcOffset;
use crate::proved::plain_times::PlainDateTime;

/// A type that has a wall clock, which an offset makes a date-time.
///
/// # Contract
///
/// ```text
/// ghost wall_clock_shown: { Self → ℤ };
/// ```
///
/// [docs/proofs/STATEMENT.md](crate::proved#contracts) explains the words.
pub trait Assume {
    /// The date-time of this wall clock at the offset.
    ///
    /// ```
    /// # use muxandu::proved::*;
    /// # fn main() -> Result<(), Box<dyn std::error::Error>> {
    /// let east = UtcOffset::from_hms(2, 0, 0)?;
    /// let at = PlainDateTime::UNIX_EPOCH.assume_offset(east);
    /// assert_eq!(at.hour(), 0);
    /// assert_eq!(at.unix_timestamp(), -7_200);
    /// # Ok(())
    /// # }
    /// ```
    ///
    /// # Contract
    ///
    /// ```text
    /// ensures value { result ≡ wall_at (wall_clock_shown self) offset }
    /// ensures instant { instant_of result ≡ wall_clock_shown self -ℤ offset_nanos offset }
    /// ```
    ///
    /// [docs/proofs/STATEMENT.md](crate::proved#contracts) explains the words.
    fn assume_offset(self, offset: UtcOffset) -> OffsetDateTime;

    /// The date-time of this wall clock in UTC.
    ///
    /// ```
    /// # use muxandu::proved::*;
    /// # fn main() -> Result<(), Box<dyn std::error::Error>> {
    /// assert_eq!(PlainDateTime::UNIX_EPOCH.assume_utc(), OffsetDateTime::UNIX_EPOCH);
    /// # Ok(())
    /// # }
    /// ```
    ///
    /// # Contract
    ///
    /// ```text
    /// ensures value { result ≡ wall_at (wall_clock_shown self) (pos 0) }
    /// ensures instant { instant_of result ≡ wall_clock_shown self }
    /// ```
    ///
    /// [docs/proofs/STATEMENT.md](crate::proved#contracts) explains the words.
    fn assume_utc(self) -> OffsetDateTime;
}

/// # Contract
///
/// ```text
/// ghost wall_clock_shown = { λ w. w };
/// ```
///
/// [docs/proofs/STATEMENT.md](crate::proved#contracts) explains the words.
impl Assume for PlainDateTime {
    #[inline]
    fn assume_offset(self, offset: UtcOffset) -> OffsetDateTime {
        OffsetDateTime::new_in_offset(self.date(), self.time(), offset)
    }
    #[inline]
    fn assume_utc(self) -> OffsetDateTime {
        OffsetDateTime::new_utc(self.date(), self.time())
    }
}

impl PlainDateTime {
    /// As [`Assume::assume_offset`], which has the contract.
    #[inline]
    pub const fn assume_offset(self, offset: UtcOffset) -> OffsetDateTime {
        OffsetDateTime::new_in_offset(self.date(), self.time(), offset)
    }

    /// As [`Assume::assume_utc`], which has the contract.
    #[inline]
    pub const fn assume_utc(self) -> OffsetDateTime {
        OffsetDateTime::new_utc(self.date(), self.time())
    }
}
