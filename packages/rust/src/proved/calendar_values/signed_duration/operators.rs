// Made by make/erase of crates/calendar_values/src/signed_duration/operators.rt. Do not edit.
//! Sums and differences of durations, and negation.
use crate::proved::calendar_values::SignedDuration;
use std::ops::{Add, AddAssign, Neg, Sub, SubAssign};

/// # Contract
///
/// ```text
/// ghost can_add = { λ a b. IsDuration (a +ℤ b) };
/// ghost add_gives = { λ a b sum. sum ≡ a +ℤ b };
/// ```
///
/// [docs/proofs/STATEMENT.md](crate::proved#contracts) explains the words.
impl Add for SignedDuration {
    type Output = SignedDuration;

    #[inline]
    #[track_caller]
    fn add(self, other: SignedDuration) -> SignedDuration {
        self.checked_add(other).unwrap()
    }
}

/// # Contract
///
/// ```text
/// ghost can_add_assign = { λ a b. IsDuration (a +ℤ b) };
/// ghost add_assign_gives = { λ a b sum. sum ≡ a +ℤ b };
/// ```
///
/// [docs/proofs/STATEMENT.md](crate::proved#contracts) explains the words.
impl AddAssign for SignedDuration {
    #[inline]
    #[track_caller]
    fn add_assign(&mut self, other: SignedDuration) {
        *self = *self + other;
    }
}

/// # Contract
///
/// ```text
/// ghost can_sub = { λ a b. IsDuration (a -ℤ b) };
/// ghost sub_gives = { λ a b difference. difference ≡ a -ℤ b };
/// ```
///
/// [docs/proofs/STATEMENT.md](crate::proved#contracts) explains the words.
impl Sub for SignedDuration {
    type Output = SignedDuration;

    #[inline]
    #[track_caller]
    fn sub(self, other: SignedDuration) -> SignedDuration {
        self.checked_sub(other).unwrap()
    }
}

/// # Contract
///
/// ```text
/// ghost can_sub_assign = { λ a b. IsDuration (a -ℤ b) };
/// ghost sub_assign_gives = { λ a b difference. difference ≡ a -ℤ b };
/// ```
///
/// [docs/proofs/STATEMENT.md](crate::proved#contracts) explains the words.
impl SubAssign for SignedDuration {
    #[inline]
    #[track_caller]
    fn sub_assign(&mut self, other: SignedDuration) {
        *self = *self - other;
    }
}

/// # Contract
///
/// ```text
/// ghost can_neg = { λ a. IsDuration (neg_ℤ a) };
/// ghost neg_gives = { λ a negative. negative ≡ neg_ℤ a };
/// ```
///
/// [docs/proofs/STATEMENT.md](crate::proved#contracts) explains the words.
impl Neg for SignedDuration {
    type Output = SignedDuration;

    #[inline]
    #[track_caller]
    fn neg(self) -> SignedDuration {
        self.checked_neg().unwrap()
    }
}
