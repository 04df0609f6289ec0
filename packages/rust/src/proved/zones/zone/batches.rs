// Made by make/erase of crates/zones/src/zone/batches.rt. Do not edit.
//! Offsets at many seconds.
use crate::proved::zones::{Interval, Zone};

impl<'a> Zone<'a> {
    // The interval that is kept if the second lies in it, and else that of the second.
    /// # Contract
    ///
    /// ```text
    /// requires second { IsSecond second }
    /// requires kept { Holds self.now kept }
    /// ensures holds { Holds self.now result }
    /// ensures within { IsWithin result second }
    /// ```
    ///
    /// [docs/proofs/STATEMENT.md](crate::proved#contracts) explains the words.
    #[inline]
    pub(super) fn interval_for(&self, kept: Interval, second: i64) -> Interval {
        if kept.contains(second) {
            return kept;
        }
        self.interval_at(second)
    }

    /// Writes the offsets at the seconds to the front of `room`, in their order. Returns how many:
    /// all of them, or as many as `room` holds. Of seconds between the same two transitions it
    /// looks up the first alone, so seconds in order take the least time.
    ///
    /// # Contract
    ///
    /// ```text
    /// requires { All IsSecond seconds.now }
    /// ensures offsets { AreOffsets self.now seconds.now room.old room.new result }
    /// ensures length { length room.new ≡ length room.old }
    /// ```
    ///
    /// [docs/proofs/STATEMENT.md](crate::proved#contracts) explains the words.
    #[inline]
    pub(in crate::proved) fn offsets_at(&self, seconds: &[i64], room: &mut [i32]) -> usize {
        let mut kept = self.interval_at(0);
        let mut count = 0;
        'seconds: while count < room.len() {
            if count == seconds.len() {
                return count;
            }
            let second = second_in(seconds, count);
            kept = self.interval_for(kept, second);
            room[count] = kept.kind.offset;
            count += 1;
        }
        count
    }
}

// The second at a place.
/// # Contract
///
/// ```text
/// requires seconds { All IsSecond seconds.now }
/// requires inside { place < length seconds.now }
/// ensures value { result ≡ get_or seconds.now place (pos 0) }
/// ensures in_range { IsSecond result }
/// ```
///
/// [docs/proofs/STATEMENT.md](crate::proved#contracts) explains the words.
#[inline]
const fn second_in(seconds: &[i64], place: usize) -> i64 {
    seconds[place]
}
