// Made by make/erase of crates/zoned_times/src/gap.rt. Do not edit.
//! A gap in the wall clocks of a zone.
use crate::proved::zoned_times::seconds::wall_clock_at;
use crate::proved::calendar_values::UtcOffset;
use crate::proved::plain_times::PlainDateTime;

/// The wall clocks that a zone skips, since its clocks are put forward.
///
/// # Contract
///
/// ```text
/// ghost second_in: { IsTailSecond second },
/// ```
///
/// [docs/proofs/STATEMENT.md](crate::proved#contracts) explains the words.
#[derive(Clone, Copy, Debug, PartialEq, Eq)]
pub struct Gap {
    /// The Unix second at which clocks are put forward.
    pub second: i64,
    /// The offset until then.
    pub before: UtcOffset,
    /// The offset from then on.
    pub after: UtcOffset,
}

impl Gap {
    /// The first wall clock that is skipped. None if it is out of range.
    ///
    /// # Contract
    ///
    /// ```text
    /// ensures { SomeInRange result (gap_start self) }
    /// ```
    ///
    /// [docs/proofs/STATEMENT.md](crate::proved#contracts) explains the words.
    #[inline]
    pub const fn start(self) -> Option<PlainDateTime> {
        wall_clock_at(self.second, self.before)
    }

    /// The first wall clock after those that are skipped. None if it is out of range.
    ///
    /// # Contract
    ///
    /// ```text
    /// ensures { SomeInRange result (gap_end self) }
    /// ```
    ///
    /// [docs/proofs/STATEMENT.md](crate::proved#contracts) explains the words.
    #[inline]
    pub const fn end(self) -> Option<PlainDateTime> {
        wall_clock_at(self.second, self.after)
    }
}
