// Made by make/erase of crates/plain_times/src/plain_date_time/operators.rt. Do not edit.
//! Sums and differences by operators.
use crate::proved::plain_times::PlainDateTime;
use crate::proved::calendar_values::SignedDuration;
use std::ops::{Add, AddAssign, Sub, SubAssign};
use std::time::Duration;

/// # Contract
///
/// ```text
/// ghost can_add = { λ at duration. IsWallClock (at +ℤ duration) };
/// ghost add_gives = { λ at duration sum. sum ≡ at +ℤ duration };
/// ```
///
/// [docs/proofs/STATEMENT.md](crate::proved#contracts) explains the words.
impl Add<SignedDuration> for PlainDateTime {
    type Output = PlainDateTime;

    #[inline]
    #[track_caller]
    fn add(self, duration: SignedDuration) -> PlainDateTime {
        self.checked_add(duration).unwrap()
    }
}

/// # Contract
///
/// ```text
/// ghost can_add_assign = { λ at duration. IsWallClock (at +ℤ duration) };
/// ghost add_assign_gives = { λ at duration sum. sum ≡ at +ℤ duration };
/// ```
///
/// [docs/proofs/STATEMENT.md](crate::proved#contracts) explains the words.
impl AddAssign<SignedDuration> for PlainDateTime {
    #[inline]
    #[track_caller]
    fn add_assign(&mut self, duration: SignedDuration) {
        *self = *self + duration;
    }
}

/// # Contract
///
/// ```text
/// ghost can_add = { λ at duration. IsWallClock (at +ℤ pos (as_nanos duration)) };
/// ghost add_gives = { λ at duration sum. sum ≡ at +ℤ pos (as_nanos duration) };
/// ```
///
/// [docs/proofs/STATEMENT.md](crate::proved#contracts) explains the words.
impl Add<Duration> for PlainDateTime {
    type Output = PlainDateTime;

    #[inline]
    #[track_caller]
    fn add(self, duration: Duration) -> PlainDateTime {
        self.checked_add_std(duration).unwrap()
    }
}

/// # Contract
///
/// ```text
/// ghost can_add_assign = { λ at duration. IsWallClock (at +ℤ pos (as_nanos duration)) };
/// ghost add_assign_gives = { λ at duration sum. sum ≡ at +ℤ pos (as_nanos duration) };
/// ```
///
/// [docs/proofs/STATEMENT.md](crate::proved#contracts) explains the words.
impl AddAssign<Duration> for PlainDateTime {
    #[inline]
    #[track_caller]
    fn add_assign(&mut self, duration: Duration) {
        *self = *self + duration;
    }
}

/// # Contract
///
/// ```text
/// ghost can_sub = { λ at duration. IsWallClock (at -ℤ duration) };
/// ghost sub_gives = { λ at duration difference. difference ≡ at -ℤ duration };
/// ```
///
/// [docs/proofs/STATEMENT.md](crate::proved#contracts) explains the words.
impl Sub<SignedDuration> for PlainDateTime {
    type Output = PlainDateTime;

    #[inline]
    #[track_caller]
    fn sub(self, duration: SignedDuration) -> PlainDateTime {
        self.checked_sub(duration).unwrap()
    }
}

/// # Contract
///
/// ```text
/// ghost can_sub_assign = { λ at duration. IsWallClock (at -ℤ duration) };
/// ghost sub_assign_gives = { λ at duration difference. difference ≡ at -ℤ duration };
/// ```
///
/// [docs/proofs/STATEMENT.md](crate::proved#contracts) explains the words.
impl SubAssign<SignedDuration> for PlainDateTime {
    #[inline]
    #[track_caller]
    fn sub_assign(&mut self, duration: SignedDuration) {
        *self = *self - duration;
    }
}

/// # Contract
///
/// ```text
/// ghost can_sub = { λ at duration. IsWallClock (at -ℤ pos (as_nanos duration)) };
/// ghost sub_gives = { λ at duration difference. difference ≡ at -ℤ pos (as_nanos duration) };
/// ```
///
/// [docs/proofs/STATEMENT.md](crate::proved#contracts) explains the words.
impl Sub<Duration> for PlainDateTime {
    type Output = PlainDateTime;

    #[inline]
    #[track_caller]
    fn sub(self, duration: Duration) -> PlainDateTime {
        self.checked_sub_std(duration).unwrap()
    }
}

/// # Contract
///
/// ```text
/// ghost can_sub_assign = { λ at duration. IsWallClock (at -ℤ pos (as_nanos duration)) };
/// ghost sub_assign_gives = { λ at duration difference.
///     difference ≡ at -ℤ pos (as_nanos duration) };
/// ```
///
/// [docs/proofs/STATEMENT.md](crate::proved#contracts) explains the words.
impl SubAssign<Duration> for PlainDateTime {
    #[inline]
    #[track_caller]
    fn sub_assign(&mut self, duration: Duration) {
        *self = *self - duration;
    }
}

/// # Contract
///
/// ```text
/// ghost sub_gives = { λ at other difference. difference ≡ at -ℤ other };
/// ```
///
/// [docs/proofs/STATEMENT.md](crate::proved#contracts) explains the words.
impl Sub for PlainDateTime {
    type Output = SignedDuration;

    #[inline]
    fn sub(self, other: PlainDateTime) -> SignedDuration {
        (self.date() - other.date()) + (self.time() - other.time())
    }
}
