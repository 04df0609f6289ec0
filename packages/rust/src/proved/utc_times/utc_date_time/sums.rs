// Made by make/erase of crates/utc_times/src/utc_date_time/sums.rt. Do not edit.
//! Sums of a date-time in UTC and a duration.
use crate::proved::utc_times::UtcDateTime;
use crate::proved::calendar_values::SignedDuration;
use std::time::Duration;

impl UtcDateTime {
    /// The instant later by the duration, or earlier for a negative duration. None out of range.
    ///
    /// ```
    /// # use muxandu::proved::*;
    /// # fn main() -> Result<(), Box<dyn std::error::Error>> {
    /// assert_eq!(
    ///     UtcDateTime::UNIX_EPOCH.checked_add(SignedDuration::hours(30)),
    ///     Some(UtcDateTime::from_unix_timestamp(108_000)?)
    /// );
    /// assert_eq!(UtcDateTime::MAX.checked_add(SignedDuration::NANOSECOND), None);
    /// # Ok(())
    /// # }
    /// ```
    ///
    /// # Contract
    ///
    /// ```text
    /// ensures { SomeInRange result (self +ℤ duration) }
    /// ```
    ///
    /// [docs/proofs/STATEMENT.md](crate::proved#contracts) explains the words.
    #[inline]
    pub const fn checked_add(self, duration: SignedDuration) -> Option<UtcDateTime> {
        match self.as_plain().checked_add(duration) {
            Some(plain) => Some(UtcDateTime::from_plain(plain)),
            None => None,
        }
    }

    /// The instant earlier by the duration, or later for a negative duration. None out of range.
    ///
    /// ```
    /// # use muxandu::proved::*;
    /// # fn main() -> Result<(), Box<dyn std::error::Error>> {
    /// assert_eq!(
    ///     UtcDateTime::UNIX_EPOCH.checked_sub(SignedDuration::hours(30)),
    ///     Some(UtcDateTime::from_unix_timestamp(-108_000)?)
    /// );
    /// assert_eq!(UtcDateTime::MIN.checked_sub(SignedDuration::NANOSECOND), None);
    /// # Ok(())
    /// # }
    /// ```
    ///
    /// # Contract
    ///
    /// ```text
    /// ensures { SomeInRange result (self -ℤ duration) }
    /// ```
    ///
    /// [docs/proofs/STATEMENT.md](crate::proved#contracts) explains the words.
    #[inline]
    pub const fn checked_sub(self, duration: SignedDuration) -> Option<UtcDateTime> {
        match self.as_plain().checked_sub(duration) {
            Some(plain) => Some(UtcDateTime::from_plain(plain)),
            None => None,
        }
    }

    /// The instant later by the duration. None out of range.
    ///
    /// ```
    /// # use muxandu::proved::*;
    /// # fn main() -> Result<(), Box<dyn std::error::Error>> {
    /// let day = std::time::Duration::from_secs(86_400);
    /// assert_eq!(
    ///     UtcDateTime::UNIX_EPOCH.checked_add_std(day),
    ///     Some(UtcDateTime::from_unix_timestamp(86_400)?)
    /// );
    /// assert_eq!(UtcDateTime::MAX.checked_add_std(day), None);
    /// # Ok(())
    /// # }
    /// ```
    ///
    /// # Contract
    ///
    /// ```text
    /// ensures { SomeInRange result (self +ℤ pos (as_nanos duration)) }
    /// ```
    ///
    /// [docs/proofs/STATEMENT.md](crate::proved#contracts) explains the words.
    #[inline]
    pub const fn checked_add_std(self, duration: Duration) -> Option<UtcDateTime> {
        match self.as_plain().checked_add_std(duration) {
            Some(plain) => Some(UtcDateTime::from_plain(plain)),
            None => None,
        }
    }

    /// The instant earlier by the duration. None out of range.
    ///
    /// ```
    /// # use muxandu::proved::*;
    /// # fn main() -> Result<(), Box<dyn std::error::Error>> {
    /// let day = std::time::Duration::from_secs(86_400);
    /// assert_eq!(
    ///     UtcDateTime::UNIX_EPOCH.checked_sub_std(day),
    ///     Some(UtcDateTime::from_unix_timestamp(-86_400)?)
    /// );
    /// assert_eq!(UtcDateTime::MIN.checked_sub_std(day), None);
    /// # Ok(())
    /// # }
    /// ```
    ///
    /// # Contract
    ///
    /// ```text
    /// ensures { SomeInRange result (self -ℤ pos (as_nanos duration)) }
    /// ```
    ///
    /// [docs/proofs/STATEMENT.md](crate::proved#contracts) explains the words.
    #[inline]
    pub const fn checked_sub_std(self, duration: Duration) -> Option<UtcDateTime> {
        match self.as_plain().checked_sub_std(duration) {
            Some(plain) => Some(UtcDateTime::from_plain(plain)),
            None => None,
        }
    }

    /// The instant later by the duration, or earlier for a negative duration. If that is out of
    /// range, the nearest end of the range.
    ///
    /// ```
    /// # use muxandu::proved::*;
    /// # fn main() -> Result<(), Box<dyn std::error::Error>> {
    /// assert_eq!(
    ///     UtcDateTime::UNIX_EPOCH.saturating_add(SignedDuration::hours(30)),
    ///     UtcDateTime::from_unix_timestamp(108_000)?
    /// );
    /// assert_eq!(UtcDateTime::MAX.saturating_add(SignedDuration::DAY), UtcDateTime::MAX);
    /// # Ok(())
    /// # }
    /// ```
    ///
    /// # Contract
    ///
    /// ```text
    /// ensures { IsSaturatingSum self duration result }
    /// ```
    ///
    /// [docs/proofs/STATEMENT.md](crate::proved#contracts) explains the words.
    #[inline]
    pub const fn saturating_add(self, duration: SignedDuration) -> UtcDateTime {
        UtcDateTime::from_plain(self.as_plain().saturating_add(duration))
    }

    /// The instant earlier by the duration, or later for a negative duration. If that is out of
    /// range, the nearest end of the range.
    ///
    /// ```
    /// # use muxandu::proved::*;
    /// # fn main() -> Result<(), Box<dyn std::error::Error>> {
    /// assert_eq!(
    ///     UtcDateTime::UNIX_EPOCH.saturating_sub(SignedDuration::hours(30)),
    ///     UtcDateTime::from_unix_timestamp(-108_000)?
    /// );
    /// assert_eq!(UtcDateTime::MIN.saturating_sub(SignedDuration::DAY), UtcDateTime::MIN);
    /// # Ok(())
    /// # }
    /// ```
    ///
    /// # Contract
    ///
    /// ```text
    /// ensures { IsSaturatingDifference self duration result }
    /// ```
    ///
    /// [docs/proofs/STATEMENT.md](crate::proved#contracts) explains the words.
    #[inline]
    pub const fn saturating_sub(self, duration: SignedDuration) -> UtcDateTime {
        UtcDateTime::from_plain(self.as_plain().saturating_sub(duration))
    }
}
