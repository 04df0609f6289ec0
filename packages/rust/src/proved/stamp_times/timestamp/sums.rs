// Made by make/erase of crates/stamp_times/src/timestamp/sums.rt. Do not edit.
//! Sums of a timestamp and a duration, in seconds and nanoseconds.
use super::{FIRST_SECOND, LAST_SECOND};
use crate::proved::stamp_times::Timestamp;
use crate::proved::calendar_values::SignedDuration;
use crate::proved::calendar_values::units::NANOS_PER_SECOND;
use std::time::Duration;

impl Timestamp {
    /// The instant later by the duration, or earlier for a negative duration. None out of range.
    ///
    /// ```
    /// # use muxandu::proved::*;
    /// # fn main() -> Result<(), Box<dyn std::error::Error>> {
    /// assert_eq!(
    ///     Timestamp::UNIX_EPOCH.checked_add(SignedDuration::hours(30)),
    ///     Some(Timestamp::from_seconds(108_000)?)
    /// );
    /// assert_eq!(Timestamp::MAX.checked_add(SignedDuration::NANOSECOND), None);
    /// # Ok(())
    /// # }
    /// ```
    ///
    /// # Contract
    ///
    /// ```text
    /// ensures { SomeInRange result (self +ℤ duration) }
    /// ```
    ///
    /// [docs/proofs/STATEMENT.md](crate::proved#contracts) explains the words.
    #[inline]
    pub const fn checked_add(self, duration: SignedDuration) -> Option<Timestamp> {
        match self.as_seconds().checked_add(duration.whole_seconds()) {
            Some(seconds) => carry(seconds, self.nanosecond(), duration.subsec_nanoseconds()),
            None => None,
        }
    }

    /// The instant earlier by the duration, or later for a negative duration. None out of range.
    ///
    /// ```
    /// # use muxandu::proved::*;
    /// # fn main() -> Result<(), Box<dyn std::error::Error>> {
    /// assert_eq!(
    ///     Timestamp::UNIX_EPOCH.checked_sub(SignedDuration::hours(30)),
    ///     Some(Timestamp::from_seconds(-108_000)?)
    /// );
    /// assert_eq!(Timestamp::MIN.checked_sub(SignedDuration::NANOSECOND), None);
    /// # Ok(())
    /// # }
    /// ```
    ///
    /// # Contract
    ///
    /// ```text
    /// ensures { SomeInRange result (self -ℤ duration) }
    /// ```
    ///
    /// [docs/proofs/STATEMENT.md](crate::proved#contracts) explains the words.
    #[inline]
    pub const fn checked_sub(self, duration: SignedDuration) -> Option<Timestamp> {
        match self.as_seconds().checked_sub(duration.whole_seconds()) {
            Some(seconds) => carry(seconds, self.nanosecond(), -duration.subsec_nanoseconds()),
            None => None,
        }
    }

    /// The instant later by the duration. None out of range.
    ///
    /// ```
    /// # use muxandu::proved::*;
    /// # fn main() -> Result<(), Box<dyn std::error::Error>> {
    /// let day = std::time::Duration::from_secs(86_400);
    /// assert_eq!(
    ///     Timestamp::UNIX_EPOCH.checked_add_std(day),
    ///     Some(Timestamp::from_seconds(86_400)?)
    /// );
    /// assert_eq!(Timestamp::MAX.checked_add_std(day), None);
    /// # Ok(())
    /// # }
    /// ```
    ///
    /// # Contract
    ///
    /// ```text
    /// ensures { SomeInRange result (self +ℤ pos (as_nanos duration)) }
    /// ```
    ///
    /// [docs/proofs/STATEMENT.md](crate::proved#contracts) explains the words.
    #[inline]
    pub const fn checked_add_std(self, duration: Duration) -> Option<Timestamp> {
        match self.as_seconds().checked_add_unsigned(duration.as_secs()) {
            Some(seconds) => carry(seconds, self.nanosecond(), duration.subsec_nanos() as i32),
            None => None,
        }
    }

    /// The instant earlier by the duration. None out of range.
    ///
    /// ```
    /// # use muxandu::proved::*;
    /// # fn main() -> Result<(), Box<dyn std::error::Error>> {
    /// let day = std::time::Duration::from_secs(86_400);
    /// assert_eq!(
    ///     Timestamp::UNIX_EPOCH.checked_sub_std(day),
    ///     Some(Timestamp::from_seconds(-86_400)?)
    /// );
    /// assert_eq!(Timestamp::MIN.checked_sub_std(day), None);
    /// # Ok(())
    /// # }
    /// ```
    ///
    /// # Contract
    ///
    /// ```text
    /// ensures { SomeInRange result (self -ℤ pos (as_nanos duration)) }
    /// ```
    ///
    /// [docs/proofs/STATEMENT.md](crate::proved#contracts) explains the words.
    #[inline]
    pub const fn checked_sub_std(self, duration: Duration) -> Option<Timestamp> {
        match self.as_seconds().checked_sub_unsigned(duration.as_secs()) {
            Some(seconds) => carry(
                seconds,
                self.nanosecond(),
                -(duration.subsec_nanos() as i32),
            ),
            None => None,
        }
    }

    /// The instant later by the duration, or earlier for a negative duration. If that is out of
    /// range, the nearest end of the range.
    ///
    /// ```
    /// # use muxandu::proved::*;
    /// # fn main() -> Result<(), Box<dyn std::error::Error>> {
    /// assert_eq!(
    ///     Timestamp::UNIX_EPOCH.saturating_add(SignedDuration::hours(30)),
    ///     Timestamp::from_seconds(108_000)?
    /// );
    /// assert_eq!(Timestamp::MAX.saturating_add(SignedDuration::DAY), Timestamp::MAX);
    /// # Ok(())
    /// # }
    /// ```
    ///
    /// # Contract
    ///
    /// ```text
    /// ensures { IsSaturatingSum self duration result }
    /// ```
    ///
    /// [docs/proofs/STATEMENT.md](crate::proved#contracts) explains the words.
    #[inline]
    pub const fn saturating_add(self, duration: SignedDuration) -> Timestamp {
        // For the proof alone: what is read lies in its range.
        let _in_range = self.as_seconds();
        match self.checked_add(duration) {
            Some(sum) => sum,
            None if duration.is_negative() => Timestamp::MIN,
            None => Timestamp::MAX,
        }
    }

    /// The instant earlier by the duration, or later for a negative duration. If that is out of
    /// range, the nearest end of the range.
    ///
    /// ```
    /// # use muxandu::proved::*;
    /// # fn main() -> Result<(), Box<dyn std::error::Error>> {
    /// assert_eq!(
    ///     Timestamp::UNIX_EPOCH.saturating_sub(SignedDuration::hours(30)),
    ///     Timestamp::from_seconds(-108_000)?
    /// );
    /// assert_eq!(Timestamp::MIN.saturating_sub(SignedDuration::DAY), Timestamp::MIN);
    /// # Ok(())
    /// # }
    /// ```
    ///
    /// # Contract
    ///
    /// ```text
    /// ensures { IsSaturatingDifference self duration result }
    /// ```
    ///
    /// [docs/proofs/STATEMENT.md](crate::proved#contracts) explains the words.
    #[inline]
    pub const fn saturating_sub(self, duration: SignedDuration) -> Timestamp {
        // For the proof alone: what is read lies in its range.
        let _in_range = self.as_seconds();
        match self.checked_sub(duration) {
            Some(difference) => difference,
            None if duration.is_negative() => Timestamp::MAX,
            None => Timestamp::MIN,
        }
    }
}

// The instant of a second and a nanosecond of that second, less than a second later or earlier, if the
// range has it.
/// # Contract
///
/// ```text
/// requires nanosecond { nanosecond < nanos_per_second }
/// requires change { unsigned_abs change < nanos_per_second }
/// ensures { SomeInRange result (instant_of_parts seconds nanosecond +ℤ change) }
/// ```
///
/// [docs/proofs/STATEMENT.md](crate::proved#contracts) explains the words.
#[inline]
const fn carry(seconds: i64, nanosecond: u32, change: i32) -> Option<Timestamp> {
    let nanoseconds = nanosecond as i32 + change;
    if nanoseconds < 0 {
        match seconds.checked_sub(1) {
            Some(seconds) => from_parts(seconds, (nanoseconds + NANOS_PER_SECOND) as u32),
            None => None,
        }
    } else if nanoseconds < NANOS_PER_SECOND {
        from_parts(seconds, nanoseconds as u32)
    } else {
        match seconds.checked_add(1) {
            Some(seconds) => from_parts(seconds, (nanoseconds - NANOS_PER_SECOND) as u32),
            None => None,
        }
    }
}

// The instant of a second and a nanosecond of that second, if the range has it.
/// # Contract
///
/// ```text
/// requires { nanosecond < nanos_per_second }
/// ensures { SomeInRange result (instant_of_parts seconds nanosecond) }
/// ```
///
/// [docs/proofs/STATEMENT.md](crate::proved#contracts) explains the words.
#[inline]
const fn from_parts(seconds: i64, nanosecond: u32) -> Option<Timestamp> {
    if seconds < FIRST_SECOND || seconds > LAST_SECOND {
        return None;
    }
    Some(Timestamp {
        niche: crate::proved::memory::Niche::Here,
        seconds,
        nanosecond,
    })
}
