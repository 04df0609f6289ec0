// Made by make/erase of crates/calendar_values/src/signed_duration/totals.rt. Do not edit.
//! Sums of the durations that an iterator gives.
use crate::proved::calendar_values::SignedDuration;
use std::iter::Sum;

/// # Contract
///
/// ```text
/// ghost can_sum = { λ durations. IsDuration (fold ◌+ℤ◌ (pos 0) durations) };
/// ghost sum_gives = { λ durations sum. sum ≡ fold ◌+ℤ◌ (pos 0) durations };
/// ```
///
/// [docs/proofs/STATEMENT.md](crate::proved#contracts) explains the words.
impl Sum<SignedDuration> for SignedDuration {
    #[inline]
    #[track_caller]
    fn sum<I: Iterator<Item = SignedDuration>>(durations: I) -> SignedDuration {
        total(durations)
    }
}

/// # Contract
///
/// ```text
/// ghost can_sum = { λ durations. IsDuration (fold (λ sum x. sum +ℤ x.now) (pos 0) durations) };
/// ghost sum_gives = { λ durations sum.
///     sum ≡ fold (λ sum x. sum +ℤ x.now) (pos 0) durations };
/// ```
///
/// [docs/proofs/STATEMENT.md](crate::proved#contracts) explains the words.
impl<'a> Sum<&'a SignedDuration> for SignedDuration {
    #[inline]
    #[track_caller]
    fn sum<I: Iterator<Item = &'a SignedDuration>>(durations: I) -> SignedDuration {
        total_of_references(durations)
    }
}

// The sum of durations, each partial sum in range.
/// # Contract
///
/// ```text
/// requires can { I.can_next durations }
/// requires finite { IsFinite (I.remaining durations) }
/// requires fits { HoldsAlong I.next_gives durations (λ xs.
///     IsDuration (fold ◌+ℤ◌ (pos 0) xs)) }
/// ensures { (xs : List _) × (⊤ → Drains I.next_gives durations xs)
///     × (result ≡ fold ◌+ℤ◌ (pos 0) xs) }
/// ```
///
/// [docs/proofs/STATEMENT.md](crate::proved#contracts) explains the words.
#[inline]
fn total<I: Iterator<Item = SignedDuration>>(mut durations: I) -> SignedDuration {
    let mut sum = SignedDuration::ZERO;
    while let Some(duration) = durations.next() {
        sum = sum + duration;
    }
    sum
}

// The same of references to durations.
/// # Contract
///
/// ```text
/// requires can { I.can_next durations }
/// requires finite { IsFinite (I.remaining durations) }
/// requires fits { HoldsAlong I.next_gives durations (λ xs.
///     IsDuration (fold (λ sum x. sum +ℤ x.now) (pos 0) xs)) }
/// ensures { (xs : List _) × (⊤ → Drains I.next_gives durations xs)
///     × (result ≡ fold (λ sum x. sum +ℤ x.now) (pos 0) xs) }
/// ```
///
/// [docs/proofs/STATEMENT.md](crate::proved#contracts) explains the words.
#[inline]
fn total_of_references<'a, I: Iterator<Item = &'a SignedDuration>>(
    mut durations: I,
) -> SignedDuration {
    let mut sum = SignedDuration::ZERO;
    while let Some(duration) = durations.next() {
        sum = sum + *duration;
    }
    sum
}
