// Made by make/erase of crates/plain_times/src/plain_date_time/comparisons.rt. Do not edit.
//! Date-times compare, and feed a hasher, by their wall clocks.
use crate::proved::plain_times::PlainDateTime;
use crate::proved::calendar_values::Time;
use std::cmp::Ordering;
use std::hash::{Hash, Hasher};

// What one day of the year adds to a packed number, and what one year adds.
const ORDINAL_PLACE: i128 = 1 << 64;

const YEAR_PLACE: i128 = 1 << 74;

impl PlainDateTime {
    // The parts in one number, which is in the order of the wall clock.
    /// # Contract
    ///
    /// ```text
    /// ensures { result ≡ packed_wall_clock self }
    /// ```
    ///
    /// [docs/proofs/STATEMENT.md](crate::proved#contracts) explains the words.
    #[inline]
    const fn packed_number(self) -> i128 {
        let (year, ordinal) = self.date().to_ordinal_date();
        packed_number(year, ordinal, self.time())
    }
}

/// The year, the day of the year and the time of day in one number: of two dates of the calendar
/// that of the earlier wall clock is less.
///
/// # Contract
///
/// ```text
/// ensures { result ≡ packed_parts year ordinal time }
/// ```
///
/// [docs/proofs/STATEMENT.md](crate::proved#contracts) explains the words.
#[inline]
pub const fn packed_number(year: i32, ordinal: u16, time: Time) -> i128 {
    let nanosecond = time.nanosecond_of_day();
    year as i128 * YEAR_PLACE + ordinal as i128 * ORDINAL_PLACE + nanosecond as i128
}

/// # Contract
///
/// ```text
/// ghost eq = { int_eq };
/// ```
///
/// [docs/proofs/STATEMENT.md](crate::proved#contracts) explains the words.
impl Eq for PlainDateTime {}

/// # Contract
///
/// ```text
/// ghost cmp = { int_cmp };
/// ```
///
/// [docs/proofs/STATEMENT.md](crate::proved#contracts) explains the words.
impl Ord for PlainDateTime {
    #[inline]
    fn cmp(&self, other: &PlainDateTime) -> Ordering {
        self.packed_number().cmp(&other.packed_number())
    }
}

/// # Contract
///
/// ```text
/// ghost partial_cmp = { as_partial_cmp int_cmp };
/// ```
///
/// [docs/proofs/STATEMENT.md](crate::proved#contracts) explains the words.
impl PartialOrd for PlainDateTime {
    #[inline]
    fn partial_cmp(&self, other: &PlainDateTime) -> Option<Ordering> {
        Some(self.cmp(other))
    }
}

// The packed number is what a hasher is fed today. It is no promise to callers.
/// # Contract
///
/// ```text
/// ghost hash_input = { λ w. fed.i128 (packed_wall_clock w) };
/// ```
///
/// [docs/proofs/STATEMENT.md](crate::proved#contracts) explains the words.
impl Hash for PlainDateTime {
    #[inline]
    fn hash<H: Hasher>(&self, state: &mut H) {
        self.packed_number().hash(state);
    }
}
