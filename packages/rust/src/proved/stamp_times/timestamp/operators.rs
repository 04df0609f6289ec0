// Made by make/erase of crates/stamp_times/src/timestamp/operators.rt. Do not edit.
//! Sums and differences by operators.
use crate::proved::stamp_times::Timestamp;
use crate::proved::calendar_values::SignedDuration;
use std::ops::{Add, AddAssign, Sub, SubAssign};
use std::time::Duration;

/// # Contract
///
/// ```text
/// ghost can_add = { λ at duration. IsInstant (at +ℤ duration) };
/// ghost add_gives = { λ at duration sum. sum ≡ at +ℤ duration };
/// ```
///
/// [docs/proofs/STATEMENT.md](crate::proved#contracts) explains the words.
impl Add<SignedDuration> for Timestamp {
    type Output = Timestamp;

    #[inline]
    #[track_caller]
    fn add(self, duration: SignedDuration) -> Timestamp {
        self.checked_add(duration).unwrap()
    }
}

/// # Contract
///
/// ```text
/// ghost can_add_assign = { λ at duration. IsInstant (at +ℤ duration) };
/// ghost add_assign_gives = { λ at duration sum. sum ≡ at +ℤ duration };
/// ```
///
/// [docs/proofs/STATEMENT.md](crate::proved#contracts) explains the words.
impl AddAssign<SignedDuration> for Timestamp {
    #[inline]
    #[track_caller]
    fn add_assign(&mut self, duration: SignedDuration) {
        *self = *self + duration;
    }
}

/// # Contract
///
/// ```text
/// ghost can_add = { λ at duration. IsInstant (at +ℤ pos (as_nanos duration)) };
/// ghost add_gives = { λ at duration sum. sum ≡ at +ℤ pos (as_nanos duration) };
/// ```
///
/// [docs/proofs/STATEMENT.md](crate::proved#contracts) explains the words.
impl Add<Duration> for Timestamp {
    type Output = Timestamp;

    #[inline]
    #[track_caller]
    fn add(self, duration: Duration) -> Timestamp {
        self.checked_add_std(duration).unwrap()
    }
}

/// # Contract
///
/// ```text
/// ghost can_add_assign = { λ at duration. IsInstant (at +ℤ pos (as_nanos duration)) };
/// ghost add_assign_gives = { λ at duration sum. sum ≡ at +ℤ pos (as_nanos duration) };
/// ```
///
/// [docs/proofs/STATEMENT.md](crate::proved#contracts) explains the words.
impl AddAssign<Duration> for Timestamp {
    #[inline]
    #[track_caller]
    fn add_assign(&mut self, duration: Duration) {
        *self = *self + duration;
    }
}

/// # Contract
///
/// ```text
/// ghost can_sub = { λ at duration. IsInstant (at -ℤ duration) };
/// ghost sub_gives = { λ at duration difference. difference ≡ at -ℤ duration };
/// ```
///
/// [docs/proofs/STATEMENT.md](crate::proved#contracts) explains the words.
impl Sub<SignedDuration> for Timestamp {
    type Output = Timestamp;

    #[inline]
    #[track_caller]
    fn sub(self, duration: SignedDuration) -> Timestamp {
        self.checked_sub(duration).unwrap()
    }
}

/// # Contract
///
/// ```text
/// ghost can_sub_assign = { λ at duration. IsInstant (at -ℤ duration) };
/// ghost sub_assign_gives = { λ at duration difference. difference ≡ at -ℤ duration };
/// ```
///
/// [docs/proofs/STATEMENT.md](crate::proved#contracts) explains the words.
impl SubAssign<SignedDuration> for Timestamp {
    #[inline]
    #[track_caller]
    fn sub_assign(&mut self, duration: SignedDuration) {
        *self = *self - duration;
    }
}

/// # Contract
///
/// ```text
/// ghost can_sub = { λ at duration. IsInstant (at -ℤ pos (as_nanos duration)) };
/// ghost sub_gives = { λ at duration difference. difference ≡ at -ℤ pos (as_nanos duration) };
/// ```
///
/// [docs/proofs/STATEMENT.md](crate::proved#contracts) explains the words.
impl Sub<Duration> for Timestamp {
    type Output = Timestamp;

    #[inline]
    #[track_caller]
    fn sub(self, duration: Duration) -> Timestamp {
        self.checked_sub_std(duration).unwrap()
    }
}

/// # Contract
///
/// ```text
/// ghost can_sub_assign = { λ at duration. IsInstant (at -ℤ pos (as_nanos duration)) };
/// ghost sub_assign_gives = { λ at duration difference.
///     difference ≡ at -ℤ pos (as_nanos duration) };
/// ```
///
/// [docs/proofs/STATEMENT.md](crate::proved#contracts) explains the words.
impl SubAssign<Duration> for Timestamp {
    #[inline]
    #[track_caller]
    fn sub_assign(&mut self, duration: Duration) {
        *self = *self - duration;
    }
}

/// # Contract
///
/// ```text
/// ghost sub_gives = { λ at other difference. difference ≡ at -ℤ other };
/// ```
///
/// [docs/proofs/STATEMENT.md](crate::proved#contracts) explains the words.
impl Sub for Timestamp {
    type Output = SignedDuration;

    #[inline]
    fn sub(self, other: Timestamp) -> SignedDuration {
        let nanoseconds = self.nanosecond() as i32 - other.nanosecond() as i32;
        SignedDuration::new(self.as_seconds() - other.as_seconds(), nanoseconds)
    }
}
