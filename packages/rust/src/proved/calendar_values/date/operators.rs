// Made by make/erase of crates/calendar_values/src/date/operators.rt. Do not edit.
//! The difference of two dates.
use crate::proved::calendar_values::{Date, SignedDuration};
use std::ops::Sub;

/// # Contract
///
/// ```text
/// ghost sub_gives = { λ a b difference. difference ≡ (a -ℤ b) *ℤ pos nanos_per_day };
/// ```
///
/// [docs/proofs/STATEMENT.md](crate::proved#contracts) explains the words.
impl Sub for Date {
    type Output = SignedDuration;

    #[inline]
    fn sub(self, other: Date) -> SignedDuration {
        SignedDuration::days(self.days_since_epoch() as i64 - other.days_since_epoch() as i64)
    }
}
