// Made by make/erase of crates/calendar_values/src/time/comparisons.rt. Do not edit.
//! Times of day compare, and feed a hasher, by their nanoseconds since midnight.
use crate::proved::calendar_values::Time;
use std::cmp::Ordering;
use std::hash::{Hash, Hasher};

/// # Contract
///
/// ```text
/// ghost eq = { ◌==◌ };
/// ```
///
/// [docs/proofs/STATEMENT.md](crate::proved#contracts) explains the words.
impl Eq for Time {}

/// # Contract
///
/// ```text
/// ghost cmp = { nat_cmp };
/// ```
///
/// [docs/proofs/STATEMENT.md](crate::proved#contracts) explains the words.
impl Ord for Time {
    #[inline]
    fn cmp(&self, other: &Time) -> Ordering {
        self.nanosecond_of_day().cmp(&other.nanosecond_of_day())
    }
}

/// # Contract
///
/// ```text
/// ghost partial_cmp = { as_partial_cmp nat_cmp };
/// ```
///
/// [docs/proofs/STATEMENT.md](crate::proved#contracts) explains the words.
impl PartialOrd for Time {
    #[inline]
    fn partial_cmp(&self, other: &Time) -> Option<Ordering> {
        Some(self.cmp(other))
    }
}

/// # Contract
///
/// ```text
/// ghost hash_input = { fed.u64 };
/// ```
///
/// [docs/proofs/STATEMENT.md](crate::proved#contracts) explains the words.
impl Hash for Time {
    #[inline]
    fn hash<H: Hasher>(&self, state: &mut H) {
        self.nanosecond_of_day().hash(state);
    }
}
