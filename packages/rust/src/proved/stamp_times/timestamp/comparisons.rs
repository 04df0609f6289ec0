// Made by make/erase of crates/stamp_times/src/timestamp/comparisons.rt. Do not edit.
//! Timestamps compare, and feed a hasher, by their instants.
use crate::proved::stamp_times::Timestamp;
use std::cmp::Ordering;
use std::hash::{Hash, Hasher};

/// # Contract
///
/// ```text
/// ghost eq = { int_eq };
/// ```
///
/// [docs/proofs/STATEMENT.md](crate::proved#contracts) explains the words.
impl Eq for Timestamp {}

/// # Contract
///
/// ```text
/// ghost cmp = { int_cmp };
/// ```
///
/// [docs/proofs/STATEMENT.md](crate::proved#contracts) explains the words.
impl Ord for Timestamp {
    #[inline]
    fn cmp(&self, other: &Timestamp) -> Ordering {
        self.seconds
            .cmp(&other.seconds)
            .then(self.nanosecond.cmp(&other.nanosecond))
    }
}

/// # Contract
///
/// ```text
/// ghost partial_cmp = { as_partial_cmp int_cmp };
/// ```
///
/// [docs/proofs/STATEMENT.md](crate::proved#contracts) explains the words.
impl PartialOrd for Timestamp {
    #[inline]
    fn partial_cmp(&self, other: &Timestamp) -> Option<Ordering> {
        Some(self.cmp(other))
    }
}

// The second and the nanosecond are what a hasher is fed today. They are no promise to callers.
/// # Contract
///
/// ```text
/// ghost hash_input = { hashed_instant };
/// ```
///
/// [docs/proofs/STATEMENT.md](crate::proved#contracts) explains the words.
impl Hash for Timestamp {
    #[inline]
    fn hash<H: Hasher>(&self, state: &mut H) {
        self.as_seconds().hash(state);
        self.nanosecond().hash(state);
    }
}
