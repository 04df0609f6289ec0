// Made by make/erase of crates/zones/src/transition.rt. Do not edit.
//! A transition.
use crate::proved::zones::TimeType;

/// A second at which the clocks of a zone go from one kind of local time to another.
///
/// # Contract
///
/// ```text
/// ghost second_in: { IsTailSecond second },
/// ```
///
/// [docs/proofs/STATEMENT.md](crate::proved#contracts) explains the words.
#[derive(Clone, Copy)]
pub struct Transition {
    /// The Unix second from which on the kind after it holds.
    pub second: i64,
    pub before: TimeType,
    pub after: TimeType,
}

impl Transition {
    /// Returns the wall clock at which its gap or its fold starts, in seconds from 1970-01-01 0:00
    /// on that clock.
    ///
    /// # Contract
    ///
    /// ```text
    /// ensures { result ≡ row_start self }
    /// ```
    ///
    /// [docs/proofs/STATEMENT.md](crate::proved#contracts) explains the words.
    #[inline]
    pub fn start(self) -> i64 {
        self.second + self.before.offset.min(self.after.offset) as i64
    }

    /// Returns the wall clock at which its gap or its fold has ended.
    ///
    /// # Contract
    ///
    /// ```text
    /// ensures { result ≡ row_end self }
    /// ```
    ///
    /// [docs/proofs/STATEMENT.md](crate::proved#contracts) explains the words.
    #[inline]
    pub fn end(self) -> i64 {
        self.second + self.before.offset.max(self.after.offset) as i64
    }
}
