// Made by make/erase of crates/calendar_values/src/utc_offset/comparisons.rt. Do not edit.
//! Offsets compare by their seconds.
use crate::proved::calendar_values::UtcOffset;

/// # Contract
///
/// ```text
/// ghost eq = { int_eq };
/// ```
///
/// [docs/proofs/STATEMENT.md](crate::proved#contracts) explains the words.
impl Eq for UtcOffset {}
