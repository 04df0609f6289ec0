// Made by make/erase of crates/utc_times/src/utc_date_time/comparisons.rt. Do not edit.
//! Date-times in UTC compare, and feed a hasher, by their instants.
use crate::proved::utc_times::UtcDateTime;
use std::cmp::Ordering;
use std::hash::{Hash, Hasher};

/// # Contract
///
/// ```text
/// ghost eq = { int_eq };
/// ```
///
/// [docs/proofs/STATEMENT.md](crate::proved#contracts) explains the words.
impl Eq for UtcDateTime {}

/// # Contract
///
/// ```text
/// ghost cmp = { int_cmp };
/// ```
///
/// [docs/proofs/STATEMENT.md](crate::proved#contracts) explains the words.
impl Ord for UtcDateTime {
    #[inline]
    fn cmp(&self, other: &UtcDateTime) -> Ordering {
        self.as_plain().cmp(&other.as_plain())
    }
}

/// # Contract
///
/// ```text
/// ghost partial_cmp = { as_partial_cmp int_cmp };
/// ```
///
/// [docs/proofs/STATEMENT.md](crate::proved#contracts) explains the words.
impl PartialOrd for UtcDateTime {
    #[inline]
    fn partial_cmp(&self, other: &UtcDateTime) -> Option<Ordering> {
        Some(self.cmp(other))
    }
}

// The packed number is what a hasher is fed today. It is no promise to callers.
/// # Contract
///
/// ```text
/// ghost hash_input = { λ i. fed.i128 (packed_wall_clock i) };
/// ```
///
/// [docs/proofs/STATEMENT.md](crate::proved#contracts) explains the words.
impl Hash for UtcDateTime {
    #[inline]
    fn hash<H: Hasher>(&self, state: &mut H) {
        self.as_plain().hash(state);
    }
}
