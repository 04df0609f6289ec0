// Made by make/erase of crates/offset_times/src/offset_date_time/sums.rt. Do not edit.
//! Sums of a date-time and a duration: the wall clock moves, and the offset stays.
use crate::proved::offset_times::OffsetDateTime;
use crate::proved::calendar_values::SignedDuration;
use std::time::Duration;

impl OffsetDateTime {
    /// The wall clock later by the duration at the same offset, or earlier for a negative duration.
    /// None if the wall clock is out of range; the instant may be.
    ///
    /// ```
    /// # use muxandu::proved::*;
    /// # fn main() -> Result<(), Box<dyn std::error::Error>> {
    /// assert_eq!(
    ///     OffsetDateTime::UNIX_EPOCH.checked_add(SignedDuration::hours(30)),
    ///     Some(OffsetDateTime::from_unix_timestamp(108_000)?)
    /// );
    /// assert_eq!(
    ///     PlainDateTime::MAX.assume_utc().checked_add(SignedDuration::NANOSECOND),
    ///     None
    /// );
    /// # Ok(())
    /// # }
    /// ```
    ///
    /// # Contract
    ///
    /// ```text
    /// ensures value { let wall = self.wall +ℤ duration in
    ///     SomeIff result (IsWallClock wall) (wall_at wall self.offset) }
    /// ensures instant { IfSome result (λ at. instant_of at ≡ instant_of self +ℤ duration) }
    /// ```
    ///
    /// [docs/proofs/STATEMENT.md](crate::proved#contracts) explains the words.
    #[inline]
    pub const fn checked_add(self, duration: SignedDuration) -> Option<OffsetDateTime> {
        match self.date_time().checked_add(duration) {
            Some(date_time) => Some(self.replace_date_time(date_time)),
            None => None,
        }
    }

    /// The wall clock earlier by the duration at the same offset, or later for a negative duration.
    /// None if the wall clock is out of range; the instant may be.
    ///
    /// ```
    /// # use muxandu::proved::*;
    /// # fn main() -> Result<(), Box<dyn std::error::Error>> {
    /// assert_eq!(
    ///     OffsetDateTime::UNIX_EPOCH.checked_sub(SignedDuration::hours(30)),
    ///     Some(OffsetDateTime::from_unix_timestamp(-108_000)?)
    /// );
    /// assert_eq!(
    ///     PlainDateTime::MIN.assume_utc().checked_sub(SignedDuration::NANOSECOND),
    ///     None
    /// );
    /// # Ok(())
    /// # }
    /// ```
    ///
    /// # Contract
    ///
    /// ```text
    /// ensures value { let wall = self.wall -ℤ duration in
    ///     SomeIff result (IsWallClock wall) (wall_at wall self.offset) }
    /// ensures instant { IfSome result (λ at. instant_of at ≡ instant_of self -ℤ duration) }
    /// ```
    ///
    /// [docs/proofs/STATEMENT.md](crate::proved#contracts) explains the words.
    #[inline]
    pub const fn checked_sub(self, duration: SignedDuration) -> Option<OffsetDateTime> {
        match self.date_time().checked_sub(duration) {
            Some(date_time) => Some(self.replace_date_time(date_time)),
            None => None,
        }
    }

    /// The wall clock later by the duration at the same offset. None if the wall clock is out of
    /// range; the instant may be.
    ///
    /// ```
    /// # use muxandu::proved::*;
    /// # fn main() -> Result<(), Box<dyn std::error::Error>> {
    /// let day = std::time::Duration::from_secs(86_400);
    /// assert_eq!(
    ///     OffsetDateTime::UNIX_EPOCH.checked_add_std(day),
    ///     Some(OffsetDateTime::from_unix_timestamp(86_400)?)
    /// );
    /// assert_eq!(PlainDateTime::MAX.assume_utc().checked_add_std(day), None);
    /// # Ok(())
    /// # }
    /// ```
    ///
    /// # Contract
    ///
    /// ```text
    /// ensures value { let wall = self.wall +ℤ pos (as_nanos duration) in
    ///     SomeIff result (IsWallClock wall) (wall_at wall self.offset) }
    /// ensures instant { IfSome result (λ at.
    ///     instant_of at ≡ instant_of self +ℤ pos (as_nanos duration)) }
    /// ```
    ///
    /// [docs/proofs/STATEMENT.md](crate::proved#contracts) explains the words.
    #[inline]
    pub const fn checked_add_std(self, duration: Duration) -> Option<OffsetDateTime> {
        match self.date_time().checked_add_std(duration) {
            Some(date_time) => Some(self.replace_date_time(date_time)),
            None => None,
        }
    }

    /// The wall clock earlier by the duration at the same offset. None if the wall clock is out of
    /// range; the instant may be.
    ///
    /// ```
    /// # use muxandu::proved::*;
    /// # fn main() -> Result<(), Box<dyn std::error::Error>> {
    /// let day = std::time::Duration::from_secs(86_400);
    /// assert_eq!(
    ///     OffsetDateTime::UNIX_EPOCH.checked_sub_std(day),
    ///     Some(OffsetDateTime::from_unix_timestamp(-86_400)?)
    /// );
    /// assert_eq!(PlainDateTime::MIN.assume_utc().checked_sub_std(day), None);
    /// # Ok(())
    /// # }
    /// ```
    ///
    /// # Contract
    ///
    /// ```text
    /// ensures value { let wall = self.wall -ℤ pos (as_nanos duration) in
    ///     SomeIff result (IsWallClock wall) (wall_at wall self.offset) }
    /// ensures instant { IfSome result (λ at.
    ///     instant_of at ≡ instant_of self -ℤ pos (as_nanos duration)) }
    /// ```
    ///
    /// [docs/proofs/STATEMENT.md](crate::proved#contracts) explains the words.
    #[inline]
    pub const fn checked_sub_std(self, duration: Duration) -> Option<OffsetDateTime> {
        match self.date_time().checked_sub_std(duration) {
            Some(date_time) => Some(self.replace_date_time(date_time)),
            None => None,
        }
    }

    /// The wall clock later by the duration at the same offset, or earlier for a negative duration.
    /// If that is out of range, the nearest end of the range.
    ///
    /// ```
    /// # use muxandu::proved::*;
    /// # fn main() -> Result<(), Box<dyn std::error::Error>> {
    /// assert_eq!(
    ///     OffsetDateTime::UNIX_EPOCH.saturating_add(SignedDuration::hours(30)),
    ///     OffsetDateTime::from_unix_timestamp(108_000)?
    /// );
    /// assert_eq!(
    ///     PlainDateTime::MAX.assume_utc().saturating_add(SignedDuration::DAY),
    ///     PlainDateTime::MAX.assume_utc()
    /// );
    /// # Ok(())
    /// # }
    /// ```
    ///
    /// # Contract
    ///
    /// ```text
    /// ensures value { result ≡ wall_at (nearest_wall_clock (self.wall +ℤ duration)) self.offset }
    /// ensures wall { IsSaturatingSum self.wall duration result.wall }
    /// ensures instant { SameOffset self result }
    /// ```
    ///
    /// [docs/proofs/STATEMENT.md](crate::proved#contracts) explains the words.
    #[inline]
    pub const fn saturating_add(self, duration: SignedDuration) -> OffsetDateTime {
        self.replace_date_time(self.date_time().saturating_add(duration))
    }

    /// The wall clock earlier by the duration at the same offset, or later for a negative duration.
    /// If that is out of range, the nearest end of the range.
    ///
    /// ```
    /// # use muxandu::proved::*;
    /// # fn main() -> Result<(), Box<dyn std::error::Error>> {
    /// assert_eq!(
    ///     OffsetDateTime::UNIX_EPOCH.saturating_sub(SignedDuration::hours(30)),
    ///     OffsetDateTime::from_unix_timestamp(-108_000)?
    /// );
    /// assert_eq!(
    ///     PlainDateTime::MIN.assume_utc().saturating_sub(SignedDuration::DAY),
    ///     PlainDateTime::MIN.assume_utc()
    /// );
    /// # Ok(())
    /// # }
    /// ```
    ///
    /// # Contract
    ///
    /// ```text
    /// ensures value { result ≡ wall_at (nearest_wall_clock (self.wall -ℤ duration)) self.offset }
    /// ensures wall { IsSaturatingDifference self.wall duration result.wall }
    /// ensures instant { SameOffset self result }
    /// ```
    ///
    /// [docs/proofs/STATEMENT.md](crate::proved#contracts) explains the words.
    #[inline]
    pub const fn saturating_sub(self, duration: SignedDuration) -> OffsetDateTime {
        self.replace_date_time(self.date_time().saturating_sub(duration))
    }
}
