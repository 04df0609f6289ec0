// Made by make/erase of crates/utc_times/src/as_utc.rt. Do not edit.
//! Wall clocks read as UTC.
use crate::proved::utc_times::UtcDateTime;
use crate::proved::plain_times::PlainDateTime;

/// A type with a date and a time of day in UTC.
///
/// # Contract
///
/// ```text
/// ghost instant_in_utc: { Self → ℤ };
/// ```
///
/// [docs/proofs/STATEMENT.md](crate::proved#contracts) explains the words.
pub trait AsUtc {
    /// The instant at which clocks in UTC show it.
    ///
    /// ```
    /// # use muxandu::proved::*;
    /// # fn main() -> Result<(), Box<dyn std::error::Error>> {
    /// assert_eq!(PlainDateTime::UNIX_EPOCH.as_utc(), UtcDateTime::UNIX_EPOCH);
    /// # Ok(())
    /// # }
    /// ```
    ///
    /// # Contract
    ///
    /// ```text
    /// ensures { result ≡ instant_in_utc self }
    /// ```
    ///
    /// [docs/proofs/STATEMENT.md](crate::proved#contracts) explains the words.
    fn as_utc(self) -> UtcDateTime;
}

/// # Contract
///
/// ```text
/// ghost instant_in_utc = { λ w. w };
/// ```
///
/// [docs/proofs/STATEMENT.md](crate::proved#contracts) explains the words.
impl AsUtc for PlainDateTime {
    #[inline]
    fn as_utc(self) -> UtcDateTime {
        UtcDateTime::from_plain(self)
    }
}

impl PlainDateTime {
    /// As [`AsUtc::as_utc`], which has the contract.
    #[inline]
    pub const fn as_utc(self) -> UtcDateTime {
        UtcDateTime::from_plain(self)
    }
}
