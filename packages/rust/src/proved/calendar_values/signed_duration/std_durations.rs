// Made by make/erase of crates/calendar_values/src/signed_duration/std_durations.rt. Do not edit.
//! Conversions, comparisons, sums and differences with std's `Duration`, which has no sign.
use crate::proved::calendar_values::{ConversionRange, SignedDuration};
use std::cmp::Ordering;
use std::ops::{Add, AddAssign, Sub, SubAssign};
use std::time::Duration;

/// # Contract
///
/// ```text
/// ghost try_from_gives = { λ duration result.
///     OkIff result (IsDuration (pos (as_nanos duration))) (pos (as_nanos duration)) };
/// ```
///
/// [docs/proofs/STATEMENT.md](crate::proved#contracts) explains the words.
impl TryFrom<Duration> for SignedDuration {
    type Error = ConversionRange;

    #[inline]
    fn try_from(duration: Duration) -> Result<SignedDuration, ConversionRange> {
        match SignedDuration::from_whole_nanoseconds(duration.as_nanos() as i128) {
            Some(duration) => Ok(duration),
            None => Err(ConversionRange),
        }
    }
}

/// # Contract
///
/// ```text
/// ghost try_from_gives = { λ duration result. MatchResult result
///     (λ value. pos (as_nanos value) ≡ duration) (λ _. duration <ℤ pos 0) };
/// ```
///
/// [docs/proofs/STATEMENT.md](crate::proved#contracts) explains the words.
impl TryFrom<SignedDuration> for Duration {
    type Error = ConversionRange;

    #[inline]
    fn try_from(duration: SignedDuration) -> Result<Duration, ConversionRange> {
        if duration.is_negative() {
            return Err(ConversionRange);
        }
        Ok(duration.unsigned_abs())
    }
}

impl SignedDuration {
    /// How the duration compares with one of std.
    ///
    /// ```
    /// # use muxandu::proved::*;
    /// # fn main() -> Result<(), Box<dyn std::error::Error>> {
    /// let second = std::time::Duration::from_secs(1);
    /// assert_eq!(SignedDuration::MINUTE.cmp_std(second), std::cmp::Ordering::Greater);
    /// assert_eq!(SignedDuration::MIN.cmp_std(second), std::cmp::Ordering::Less);
    /// # Ok(())
    /// # }
    /// ```
    ///
    /// # Contract
    ///
    /// ```text
    /// ensures { result ≡ int_cmp self (pos (as_nanos other)) }
    /// ```
    ///
    /// [docs/proofs/STATEMENT.md](crate::proved#contracts) explains the words.
    #[inline]
    pub fn cmp_std(self, other: Duration) -> Ordering {
        self.whole_nanoseconds().cmp(&(other.as_nanos() as i128))
    }

    // The sum with a duration of std, if it is a duration.
    /// # Contract
    ///
    /// ```text
    /// ensures { SomeDuration result (self +ℤ pos (as_nanos other)) }
    /// ```
    ///
    /// [docs/proofs/STATEMENT.md](crate::proved#contracts) explains the words.
    #[inline]
    const fn plus_std(self, other: Duration) -> Option<SignedDuration> {
        SignedDuration::from_whole_nanoseconds(self.whole_nanoseconds() + other.as_nanos() as i128)
    }

    // The difference from a duration of std, if it is a duration.
    /// # Contract
    ///
    /// ```text
    /// ensures { SomeDuration result (self -ℤ pos (as_nanos other)) }
    /// ```
    ///
    /// [docs/proofs/STATEMENT.md](crate::proved#contracts) explains the words.
    #[inline]
    const fn minus_std(self, other: Duration) -> Option<SignedDuration> {
        SignedDuration::from_whole_nanoseconds(self.whole_nanoseconds() - other.as_nanos() as i128)
    }

    // What makes it a duration of std, if that is a duration.
    /// # Contract
    ///
    /// ```text
    /// ensures { SomeDuration result (pos (as_nanos other) -ℤ self) }
    /// ```
    ///
    /// [docs/proofs/STATEMENT.md](crate::proved#contracts) explains the words.
    #[inline]
    const fn until_std(self, other: Duration) -> Option<SignedDuration> {
        SignedDuration::from_whole_nanoseconds(other.as_nanos() as i128 - self.whole_nanoseconds())
    }
}

/// # Contract
///
/// ```text
/// ghost can_add = { λ a b. IsDuration (a +ℤ pos (as_nanos b)) };
/// ghost add_gives = { λ a b sum. sum ≡ a +ℤ pos (as_nanos b) };
/// ```
///
/// [docs/proofs/STATEMENT.md](crate::proved#contracts) explains the words.
impl Add<Duration> for SignedDuration {
    type Output = SignedDuration;

    #[inline]
    #[track_caller]
    fn add(self, other: Duration) -> SignedDuration {
        self.plus_std(other).unwrap()
    }
}

/// # Contract
///
/// ```text
/// ghost can_add_assign = { λ a b. IsDuration (a +ℤ pos (as_nanos b)) };
/// ghost add_assign_gives = { λ a b sum. sum ≡ a +ℤ pos (as_nanos b) };
/// ```
///
/// [docs/proofs/STATEMENT.md](crate::proved#contracts) explains the words.
impl AddAssign<Duration> for SignedDuration {
    #[inline]
    #[track_caller]
    fn add_assign(&mut self, other: Duration) {
        *self = *self + other;
    }
}

/// # Contract
///
/// ```text
/// ghost can_add = { λ a b. IsDuration (b +ℤ pos (as_nanos a)) };
/// ghost add_gives = { λ a b sum. sum ≡ b +ℤ pos (as_nanos a) };
/// ```
///
/// [docs/proofs/STATEMENT.md](crate::proved#contracts) explains the words.
impl Add<SignedDuration> for Duration {
    type Output = SignedDuration;

    #[inline]
    #[track_caller]
    fn add(self, other: SignedDuration) -> SignedDuration {
        other + self
    }
}

/// # Contract
///
/// ```text
/// ghost can_add_assign = { λ a b. IsDuration (b +ℤ pos (as_nanos a))
///     × (pos 0 ≤ℤ (b +ℤ pos (as_nanos a))) };
/// ghost add_assign_gives = { λ a b sum. pos (as_nanos sum) ≡ b +ℤ pos (as_nanos a) };
/// ```
///
/// [docs/proofs/STATEMENT.md](crate::proved#contracts) explains the words.
impl AddAssign<SignedDuration> for Duration {
    #[inline]
    #[track_caller]
    fn add_assign(&mut self, other: SignedDuration) {
        *self = Duration::try_from(*self + other).unwrap();
    }
}

/// # Contract
///
/// ```text
/// ghost can_sub = { λ a b. IsDuration (a -ℤ pos (as_nanos b)) };
/// ghost sub_gives = { λ a b difference. difference ≡ a -ℤ pos (as_nanos b) };
/// ```
///
/// [docs/proofs/STATEMENT.md](crate::proved#contracts) explains the words.
impl Sub<Duration> for SignedDuration {
    type Output = SignedDuration;

    #[inline]
    #[track_caller]
    fn sub(self, other: Duration) -> SignedDuration {
        self.minus_std(other).unwrap()
    }
}

/// # Contract
///
/// ```text
/// ghost can_sub_assign = { λ a b. IsDuration (a -ℤ pos (as_nanos b)) };
/// ghost sub_assign_gives = { λ a b difference. difference ≡ a -ℤ pos (as_nanos b) };
/// ```
///
/// [docs/proofs/STATEMENT.md](crate::proved#contracts) explains the words.
impl SubAssign<Duration> for SignedDuration {
    #[inline]
    #[track_caller]
    fn sub_assign(&mut self, other: Duration) {
        *self = *self - other;
    }
}

/// # Contract
///
/// ```text
/// ghost can_sub = { λ a b. IsDuration (pos (as_nanos a) -ℤ b) };
/// ghost sub_gives = { λ a b difference. difference ≡ pos (as_nanos a) -ℤ b };
/// ```
///
/// [docs/proofs/STATEMENT.md](crate::proved#contracts) explains the words.
impl Sub<SignedDuration> for Duration {
    type Output = SignedDuration;

    #[inline]
    #[track_caller]
    fn sub(self, other: SignedDuration) -> SignedDuration {
        other.until_std(self).unwrap()
    }
}

/// # Contract
///
/// ```text
/// ghost can_sub_assign = { λ a b. IsDuration (pos (as_nanos a) -ℤ b)
///     × (pos 0 ≤ℤ (pos (as_nanos a) -ℤ b)) };
/// ghost sub_assign_gives = { λ a b after. pos (as_nanos after) ≡ pos (as_nanos a) -ℤ b };
/// ```
///
/// [docs/proofs/STATEMENT.md](crate::proved#contracts) explains the words.
impl SubAssign<SignedDuration> for Duration {
    #[inline]
    #[track_caller]
    fn sub_assign(&mut self, other: SignedDuration) {
        *self = Duration::try_from(*self - other).unwrap();
    }
}
