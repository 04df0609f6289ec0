// Made by make/erase of crates/zones/src/slot.rt. Do not edit.
//! Offsets of 97 days.
use crate::proved::zones::{Interval, TimeType};
use crate::proved::calendar_values::UtcOffset;

// The offsets of a zone in a slot, which is 2^23 seconds long, about 97 days: one up to the turn,
// and one from it on. Where clocks change twice in a slot, it has the offsets up to the second
// change alone.
#[derive(Clone, Copy)]
pub(crate) struct Slot {
    turn: i64,
    until: i64,
    before: UtcOffset,
    after: UtcOffset,
}

// The offset of a kind of local time.
/// # Contract
///
/// ```text
/// ensures { result ≡ kind.offset }
/// ```
///
/// [docs/proofs/STATEMENT.md](crate::proved#contracts) explains the words.
#[inline]
pub(crate) fn offset_of(kind: TimeType) -> UtcOffset {
    UtcOffset::from_whole_seconds(kind.offset).unwrap()
}

impl Slot {
    // The slot that begins in the one interval, and ends in the other, or in the same one.
    /// # Contract
    ///
    /// ```text
    /// ensures turn { result.turn ≡ first.until }
    /// ensures until { result.until ≡ until_of first last }
    /// ensures before { result.before ≡ first.kind.offset }
    /// ensures after { result.after ≡ last.kind.offset }
    /// ```
    ///
    /// [docs/proofs/STATEMENT.md](crate::proved#contracts) explains the words.
    #[inline]
    pub(crate) fn new(first: Interval, last: Interval) -> Slot {
        Slot {
            turn: first.until,
            until: until_of(first, last),
            before: offset_of(first.kind),
            after: offset_of(last.kind),
        }
    }

    // The offset that it has at a second, if it has one.
    /// # Contract
    ///
    /// ```text
    /// ensures { result ≡ slot_offset self second }
    /// ```
    ///
    /// [docs/proofs/STATEMENT.md](crate::proved#contracts) explains the words.
    #[inline]
    pub(crate) const fn offset_at(self, second: i64) -> Option<UtcOffset> {
        if second < self.until {
            Some(if second < self.turn {
                self.before
            } else {
                self.after
            })
        } else {
            None
        }
    }
}

// The second up to which two intervals follow one another.
/// # Contract
///
/// ```text
/// ensures { result ≡ until_of first last }
/// ```
///
/// [docs/proofs/STATEMENT.md](crate::proved#contracts) explains the words.
#[inline]
const fn until_of(first: Interval, last: Interval) -> i64 {
    if last.from <= first.until {
        last.until
    } else {
        first.until
    }
}
