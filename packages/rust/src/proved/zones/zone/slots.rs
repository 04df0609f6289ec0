// Made by make/erase of crates/zones/src/zone/slots.rt. Do not edit.
//! The offset at a second, as a value of its own.
use crate::proved::zones::Zone;
use crate::proved::zones::slot::{Slot, offset_of};
use crate::proved::calendar_values::UtcOffset;
use crate::proved::memory::{AllocError, Global};

// The seconds of a slot.
const SLOT_SECONDS: i64 = 8_388_608;

// The slots of 1970 to 18 January 2038.
const SLOTS: usize = 256;

impl<'a> Zone<'a> {
    /// Returns the offset at the second: that after the last transition at or before it. The zone
    /// of an [`OwnedZone`](crate::proved::zones::OwnedZone) has the offsets from 1970 to 2037 at hand.
    ///
    /// # Contract
    ///
    /// ```text
    /// requires { IsSecond second }
    /// ensures { IsZoneOffset self.now second result }
    /// ```
    ///
    /// [docs/proofs/STATEMENT.md](crate::proved#contracts) explains the words.
    #[inline]
    pub(crate) fn utc_offset_at(&self, second: i64) -> UtcOffset {
        match self.kept_offset(second) {
            Some(offset) => offset,
            None => offset_of(self.type_at(second)),
        }
    }

    // The offset at the second, if a slot has it.
    /// # Contract
    ///
    /// ```text
    /// requires { IsSecond second }
    /// ensures { IfSome result (IsZoneOffset self.now second) }
    /// ```
    ///
    /// [docs/proofs/STATEMENT.md](crate::proved#contracts) explains the words.
    #[inline]
    const fn kept_offset(&self, second: i64) -> Option<UtcOffset> {
        if second < 0 {
            return None;
        }
        let place = (second / SLOT_SECONDS) as usize;
        if place >= self.slots.len() {
            return None;
        }
        self.slots[place].offset_at(second)
    }

    // How many slots the zone needs: none if its clocks never change.
    /// # Contract
    ///
    /// ```text
    /// ensures { result ≤ 256 }
    /// ```
    ///
    /// [docs/proofs/STATEMENT.md](crate::proved#contracts) explains the words.
    #[inline]
    const fn slot_count(&self) -> usize {
        if self.rows.is_empty() && self.tail.is_none() {
            0
        } else {
            SLOTS
        }
    }

    // The slots of the zone.
    /// # Contract
    ///
    /// ```text
    /// ensures { IfOk result (λ slots. AreSlots self.now slots.items) }
    /// ```
    ///
    /// [docs/proofs/STATEMENT.md](crate::proved#contracts) explains the words.
    #[inline]
    pub(super) fn make_slots(
        &self,
        alloc: Global,
    ) -> Result<crate::proved::memory::Vec<Slot>, AllocError> {
        let count = self.slot_count();
        let mut slots = crate::proved::memory::Vec::with_capacity(alloc, count)?;
        let mut kept = self.interval_at(0);
        'each: for place in 0..count {
            let begin = slot_start(place);
            let first = self.interval_for(kept, begin);
            kept = self.interval_for(first, slot_start(place + 1));
            slots.push(Slot::new(first, kept))?;
        }
        Ok(slots)
    }
}

// The first second of a slot.
/// # Contract
///
/// ```text
/// requires { place ≤ 256 }
/// ensures value { result ≡ pos (8_388_608 * place) }
/// ensures in_range { IsSecond result }
/// ```
///
/// [docs/proofs/STATEMENT.md](crate::proved#contracts) explains the words.
#[inline]
const fn slot_start(place: usize) -> i64 {
    place as i64 * SLOT_SECONDS
}
