// Made by make/erase of crates/zones/src/tail.rt. Do not edit.
//! The part of a cycle that follows a table.
use crate::proved::zones::Cycle;

/// A cycle that follows a table.
///
/// # Contract
///
/// ```text
/// ghost moment_in: { IsTailMoment moment },
/// ghost from_in: { IsTailSecond from },
/// ghost from_local_in: { IsTailSecond from_local },
/// ```
///
/// [docs/proofs/STATEMENT.md](crate::proved#contracts) explains the words.
#[derive(Clone, Copy)]
pub struct Tail {
    pub cycle: Cycle,
    /// Its first moment after the table.
    pub moment: i64,
    /// The Unix second of that moment.
    pub from: i64,
    /// The wall clock at which the gap or the fold of that moment starts.
    pub from_local: i64,
}
