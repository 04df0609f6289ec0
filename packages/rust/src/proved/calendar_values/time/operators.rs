// Made by make/erase of crates/calendar_values/src/time/operators.rt. Do not edit.
//! The difference of two times of day.
use crate::proved::calendar_values::{SignedDuration, Time};
use std::ops::Sub;

/// # Contract
///
/// ```text
/// ghost sub_gives = { λ a b difference. IsTimeDifference a b difference };
/// ```
///
/// [docs/proofs/STATEMENT.md](crate::proved#contracts) explains the words.
impl Sub for Time {
    type Output = SignedDuration;

    #[inline]
    fn sub(self, other: Time) -> SignedDuration {
        SignedDuration::nanoseconds(
            self.nanosecond_of_day() as i64 - other.nanosecond_of_day() as i64,
        )
    }
}
