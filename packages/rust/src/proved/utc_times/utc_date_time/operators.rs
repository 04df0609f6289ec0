// Made by make/erase of crates/utc_times/src/utc_date_time/operators.rt. Do not edit.
//! Sums and differences by operators.
use crate::proved::utc_times::UtcDateTime;
use crate::proved::calendar_values::SignedDuration;
use std::ops::{Add, AddAssign, Sub, SubAssign};
use std::time::Duration;

/// # Contract
///
/// ```text
/// ghost can_add = { λ at duration. IsInstant (at +ℤ duration) };
/// ghost add_gives = { λ at duration sum. sum ≡ at +ℤ duration };
/// ```
///
/// [docs/proofs/STATEMENT.md](crate::proved#contracts) explains the words.
impl Add<SignedDuration> for UtcDateTime {
    type Output = UtcDateTime;

    #[inline]
    #[track_caller]
    fn add(self, duration: SignedDuration) -> UtcDateTime {
        UtcDateTime::from_plain(self.as_plain() + duration)
    }
}

/// # Contract
///
/// ```text
/// ghost can_add_assign = { λ at duration. IsInstant (at +ℤ duration) };
/// ghost add_assign_gives = { λ at duration sum. sum ≡ at +ℤ duration };
/// ```
///
/// [docs/proofs/STATEMENT.md](crate::proved#contracts) explains the words.
impl AddAssign<SignedDuration> for UtcDateTime {
    #[inline]
    #[track_caller]
    fn add_assign(&mut self, duration: SignedDuration) {
        *self = *self + duration;
    }
}

/// # Contract
///
/// ```text
/// ghost can_add = { λ at duration. IsInstant (at +ℤ pos (as_nanos duration)) };
/// ghost add_gives = { λ at duration sum. sum ≡ at +ℤ pos (as_nanos duration) };
/// ```
///
/// [docs/proofs/STATEMENT.md](crate::proved#contracts) explains the words.
impl Add<Duration> for UtcDateTime {
    type Output = UtcDateTime;

    #[inline]
    #[track_caller]
    fn add(self, duration: Duration) -> UtcDateTime {
        UtcDateTime::from_plain(self.as_plain() + duration)
    }
}

/// # Contract
///
/// ```text
/// ghost can_add_assign = { λ at duration. IsInstant (at +ℤ pos (as_nanos duration)) };
/// ghost add_assign_gives = { λ at duration sum. sum ≡ at +ℤ pos (as_nanos duration) };
/// ```
///
/// [docs/proofs/STATEMENT.md](crate::proved#contracts) explains the words.
impl AddAssign<Duration> for UtcDateTime {
    #[inline]
    #[track_caller]
    fn add_assign(&mut self, duration: Duration) {
        *self = *self + duration;
    }
}

/// # Contract
///
/// ```text
/// ghost can_sub = { λ at duration. IsInstant (at -ℤ duration) };
/// ghost sub_gives = { λ at duration difference. difference ≡ at -ℤ duration };
/// ```
///
/// [docs/proofs/STATEMENT.md](crate::proved#contracts) explains the words.
impl Sub<SignedDuration> for UtcDateTime {
    type Output = UtcDateTime;

    #[inline]
    #[track_caller]
    fn sub(self, duration: SignedDuration) -> UtcDateTime {
        UtcDateTime::from_plain(self.as_plain() - duration)
    }
}

/// # Contract
///
/// ```text
/// ghost can_sub_assign = { λ at duration. IsInstant (at -ℤ duration) };
/// ghost sub_assign_gives = { λ at duration difference. difference ≡ at -ℤ duration };
/// ```
///
/// [docs/proofs/STATEMENT.md](crate::proved#contracts) explains the words.
impl SubAssign<SignedDuration> for UtcDateTime {
    #[inline]
    #[track_caller]
    fn sub_assign(&mut self, duration: SignedDuration) {
        *self = *self - duration;
    }
}

/// # Contract
///
/// ```text
/// ghost can_sub = { λ at duration. IsInstant (at -ℤ pos (as_nanos duration)) };
/// ghost sub_gives = { λ at duration difference. difference ≡ at -ℤ pos (as_nanos duration) };
/// ```
///
/// [docs/proofs/STATEMENT.md](crate::proved#contracts) explains the words.
impl Sub<Duration> for UtcDateTime {
    type Output = UtcDateTime;

    #[inline]
    #[track_caller]
    fn sub(self, duration: Duration) -> UtcDateTime {
        UtcDateTime::from_plain(self.as_plain() - duration)
    }
}

/// # Contract
///
/// ```text
/// ghost can_sub_assign = { λ at duration. IsInstant (at -ℤ pos (as_nanos duration)) };
/// ghost sub_assign_gives = { λ at duration difference.
///     difference ≡ at -ℤ pos (as_nanos duration) };
/// ```
///
/// [docs/proofs/STATEMENT.md](crate::proved#contracts) explains the words.
impl SubAssign<Duration> for UtcDateTime {
    #[inline]
    #[track_caller]
    fn sub_assign(&mut self, duration: Duration) {
        *self = *self - duration;
    }
}

/// # Contract
///
/// ```text
/// ghost sub_gives = { λ at other difference. difference ≡ at -ℤ other };
/// ```
///
/// [docs/proofs/STATEMENT.md](crate::proved#contracts) explains the words.
impl Sub for UtcDateTime {
    type Output = SignedDuration;

    #[inline]
    fn sub(self, other: UtcDateTime) -> SignedDuration {
        self.as_plain() - other.as_plain()
    }
}
