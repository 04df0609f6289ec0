// Made by make/erase of crates/calendar_values/src/signed_duration/comparisons.rt. Do not edit.
//! Durations compare, and feed a hasher, by their nanoseconds.
use crate::proved::calendar_values::SignedDuration;
use std::cmp::Ordering;
use std::hash::{Hash, Hasher};

/// # Contract
///
/// ```text
/// ghost eq = { int_eq };
/// ```
///
/// [docs/proofs/STATEMENT.md](crate::proved#contracts) explains the words.
impl Eq for SignedDuration {}

/// # Contract
///
/// ```text
/// ghost cmp = { int_cmp };
/// ```
///
/// [docs/proofs/STATEMENT.md](crate::proved#contracts) explains the words.
impl Ord for SignedDuration {
    #[inline]
    fn cmp(&self, other: &SignedDuration) -> Ordering {
        self.seconds
            .cmp(&other.seconds)
            .then(self.nanoseconds.cmp(&other.nanoseconds))
    }
}

/// # Contract
///
/// ```text
/// ghost partial_cmp = { as_partial_cmp int_cmp };
/// ```
///
/// [docs/proofs/STATEMENT.md](crate::proved#contracts) explains the words.
impl PartialOrd for SignedDuration {
    #[inline]
    fn partial_cmp(&self, other: &SignedDuration) -> Option<Ordering> {
        Some(self.cmp(other))
    }
}

/// # Contract
///
/// ```text
/// ghost hash_input = { fed.i128 };
/// ```
///
/// [docs/proofs/STATEMENT.md](crate::proved#contracts) explains the words.
impl Hash for SignedDuration {
    #[inline]
    fn hash<H: Hasher>(&self, state: &mut H) {
        self.whole_nanoseconds().hash(state);
    }
}
