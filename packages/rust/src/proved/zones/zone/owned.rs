// Made by make/erase of crates/zones/src/zone/owned.rt. Do not edit.
//! Zones that keep their transitions.
use crate::proved::zones::slot::Slot;
use crate::proved::zones::{Tail, TimeType, Transition, Zone};
use crate::proved::memory::{AllocError, Global};
/// A time zone that keeps its transitions itself. A contract sees the parts that it sees of a
/// [`Zone`].
pub struct OwnedZone {
    first: TimeType,
    rows: crate::proved::memory::Vec<Transition>,
    tail: Option<Tail>,
    slots: crate::proved::memory::Vec<Slot>,
}

impl OwnedZone {
    /// Copies the transitions of a zone, and has its offsets from 1970 to 2037 at hand. Fails if
    /// there is no memory for them.
    ///
    /// # Contract
    ///
    /// ```text
    /// ensures { IfOk result (λ z. z ≡ zone.now) }
    /// ```
    ///
    /// [docs/proofs/STATEMENT.md](crate::proved#contracts) explains the words.
    #[inline]
    pub fn new(alloc: Global, zone: &Zone<'_>) -> Result<OwnedZone, AllocError> {
        let mut rows = crate::proved::memory::Vec::with_capacity(alloc, zone.rows.len())?;
        rows.extend_from_slice(zone.rows)?;
        let slots = zone.make_slots(alloc)?;
        Ok(OwnedZone {
            first: zone.first,
            rows,
            tail: zone.tail,
            slots,
        })
    }

    /// Returns the zone, which borrows the transitions.
    ///
    /// # Contract
    ///
    /// ```text
    /// ensures { result ≡ self.now }
    /// ```
    ///
    /// [docs/proofs/STATEMENT.md](crate::proved#contracts) explains the words.
    #[inline]
    pub fn zone(&self) -> Zone<'_> {
        Zone {
            first: self.first,
            rows: &self.rows,
            tail: self.tail,
            slots: &self.slots,
        }
    }
}
