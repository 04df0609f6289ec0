// Made by make/erase of crates/zoned_times/src/local_times.rt. Do not edit.
//! The date-times of a wall clock in a zone.
use crate::proved::zoned_times::{Gap, LocalRefusal};
use crate::proved::offset_times::OffsetDateTime;

/// The date-times of a zone with one wall clock.
#[derive(Clone, Copy, Debug)]
pub enum LocalTimes {
    /// One date-time.
    Single(OffsetDateTime),
    /// None, since clocks are put forward past it. The offset after the gap makes an earlier
    /// instant of the wall clock, and the offset before it a later one. The zone shows them in this
    /// order, or not where their dates are out of range.
    Gap(Gap, Option<OffsetDateTime>, Option<OffsetDateTime>),
    /// Two date-times in their order, since clocks are put back over it.
    Fold(OffsetDateTime, OffsetDateTime),
}

impl LocalTimes {
    /// The earlier date-time. In a gap it is earlier than the wall clock by the length of the gap:
    /// the instant that the offset after it makes. Fails with `OutOfRange` if the date of that is
    /// out of range.
    ///
    /// # Contract
    ///
    /// ```text
    /// ensures { result ≡ earlier_of self }
    /// ```
    ///
    /// [docs/proofs/STATEMENT.md](crate::proved#contracts) explains the words.
    #[inline]
    pub const fn earlier(self) -> Result<OffsetDateTime, LocalRefusal> {
        match self {
            LocalTimes::Single(at) => Ok(at),
            LocalTimes::Gap(_, earlier, _) => answer(earlier),
            LocalTimes::Fold(earlier, _) => Ok(earlier),
        }
    }

    /// The later date-time. In a gap it is later than the wall clock by the length of the gap: the
    /// instant that the offset before it makes. Fails with `OutOfRange` if the date of that is out
    /// of range.
    ///
    /// # Contract
    ///
    /// ```text
    /// ensures { result ≡ later_of self }
    /// ```
    ///
    /// [docs/proofs/STATEMENT.md](crate::proved#contracts) explains the words.
    #[inline]
    pub const fn later(self) -> Result<OffsetDateTime, LocalRefusal> {
        match self {
            LocalTimes::Single(at) => Ok(at),
            LocalTimes::Gap(_, _, later) => answer(later),
            LocalTimes::Fold(_, later) => Ok(later),
        }
    }

    /// The earlier date-time in a fold and the later one in a gap: both by the offset before the
    /// transition. So RFC 5545 reads a wall clock. Fails with `OutOfRange` if the date of that is
    /// out of range.
    ///
    /// # Contract
    ///
    /// ```text
    /// ensures { result ≡ compatible_of self }
    /// ```
    ///
    /// [docs/proofs/STATEMENT.md](crate::proved#contracts) explains the words.
    #[inline]
    pub const fn compatible(self) -> Result<OffsetDateTime, LocalRefusal> {
        match self {
            LocalTimes::Single(at) => Ok(at),
            LocalTimes::Gap(_, _, later) => answer(later),
            LocalTimes::Fold(earlier, _) => Ok(earlier),
        }
    }

    /// The date-time, if it is the only one. Fails with `Gap` where there is none, and with `Fold`
    /// where there are two.
    ///
    /// # Contract
    ///
    /// ```text
    /// ensures { result ≡ only_of self }
    /// ```
    ///
    /// [docs/proofs/STATEMENT.md](crate::proved#contracts) explains the words.
    #[inline]
    pub const fn reject(self) -> Result<OffsetDateTime, LocalRefusal> {
        match self {
            LocalTimes::Single(at) => Ok(at),
            LocalTimes::Gap(gap, _, _) => Err(LocalRefusal::Gap(gap)),
            LocalTimes::Fold(_, _) => Err(LocalRefusal::Fold),
        }
    }
}

// The date-time, if its date is in range.
/// # Contract
///
/// ```text
/// ensures { result ≡ answer_of at }
/// ```
///
/// [docs/proofs/STATEMENT.md](crate::proved#contracts) explains the words.
#[inline]
const fn answer(at: Option<OffsetDateTime>) -> Result<OffsetDateTime, LocalRefusal> {
    match at {
        Some(at) => Ok(at),
        None => Err(LocalRefusal::OutOfRange),
    }
}
