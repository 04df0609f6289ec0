// Made by make/erase of crates/calendar_values/src/date/comparisons.rt. Do not edit.
//! Dates compare, and feed a hasher, by their day numbers.
use crate::proved::calendar_values::Date;
use std::cmp::Ordering;
use std::hash::{Hash, Hasher};

/// # Contract
///
/// ```text
/// ghost eq = { int_eq };
/// ```
///
/// [docs/proofs/STATEMENT.md](crate::proved#contracts) explains the words.
impl Eq for Date {}

/// # Contract
///
/// ```text
/// ghost cmp = { int_cmp };
/// ```
///
/// [docs/proofs/STATEMENT.md](crate::proved#contracts) explains the words.
impl Ord for Date {
    #[inline]
    fn cmp(&self, other: &Date) -> Ordering {
        let by_year = self.year.cmp(&other.year);
        by_year.then(self.ordinal.cmp(&other.ordinal))
    }
}

/// # Contract
///
/// ```text
/// ghost partial_cmp = { as_partial_cmp int_cmp };
/// ```
///
/// [docs/proofs/STATEMENT.md](crate::proved#contracts) explains the words.
impl PartialOrd for Date {
    #[inline]
    fn partial_cmp(&self, other: &Date) -> Option<Ordering> {
        Some(self.cmp(other))
    }
}

/// # Contract
///
/// ```text
/// ghost hash_input = { λ n. fed.i32 (n +ℤ epoch_julian_day) };
/// ```
///
/// [docs/proofs/STATEMENT.md](crate::proved#contracts) explains the words.
impl Hash for Date {
    #[inline]
    fn hash<H: Hasher>(&self, state: &mut H) {
        self.to_julian_day().hash(state);
    }
}
