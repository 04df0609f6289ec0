// Made by make/erase of crates/zones/src/interval.rt. Do not edit.
//! Stretches of time with one kind of local time.
use crate::proved::zones::TimeType;

/// The seconds from one transition of a zone up to the next one, in which it has one kind of local
/// time. A caller keeps it to ask no zone about seconds that lie in it.
///
/// # Contract
///
/// ```text
/// ghost from_in: { IsTailSecond from },
/// ghost until_in: { IsTailSecond until },
/// ```
///
/// [docs/proofs/STATEMENT.md](crate::proved#contracts) explains the words.
#[derive(Clone, Copy)]
pub struct Interval {
    /// The Unix second of the transition before it, or the first second that zones know.
    pub from: i64,
    /// The Unix second of the next transition, or the second after the last one that zones know.
    pub until: i64,
    pub kind: TimeType,
}

impl Interval {
    /// Returns whether the second lies in it: at or after its start, and before its end.
    ///
    /// # Contract
    ///
    /// ```text
    /// ensures { IsTrue result ↔ IsWithin self second }
    /// ```
    ///
    /// [docs/proofs/STATEMENT.md](crate::proved#contracts) explains the words.
    #[inline]
    pub const fn contains(self, second: i64) -> bool {
        if second < self.from {
            return false;
        }
        second < self.until
    }
}
