// Made by make/erase of crates/zones/src/zone/parts.rt. Do not edit.
//! The parts of a zone.
use crate::proved::zones::{Cycle, TimeType, Transition, Zone};

impl<'a> Zone<'a> {
    /// Returns the kind of local time before the first transition.
    ///
    /// # Contract
    ///
    /// ```text
    /// ensures value { result ≡ self.now.first }
    /// ensures zone { IsZone self.now }
    /// ```
    ///
    /// [docs/proofs/STATEMENT.md](crate::proved#contracts) explains the words.
    #[inline]
    pub const fn first_type(&self) -> TimeType {
        self.first
    }

    /// Returns the transitions of its table, which the caller keeps.
    ///
    /// # Contract
    ///
    /// ```text
    /// ensures { result.now ≡ self.now.rows }
    /// ```
    ///
    /// [docs/proofs/STATEMENT.md](crate::proved#contracts) explains the words.
    #[inline]
    pub const fn table(&self) -> &'a [Transition] {
        self.rows
    }

    /// Returns the rule of each year after the table, if it has one.
    ///
    /// # Contract
    ///
    /// ```text
    /// ensures { result ≡ option_map (λ (t : Tail). t.cycle) self.now.tail }
    /// ```
    ///
    /// [docs/proofs/STATEMENT.md](crate::proved#contracts) explains the words.
    #[inline]
    pub const fn rule(&self) -> Option<Cycle> {
        match self.tail {
            Some(tail) => Some(tail.cycle),
            None => None,
        }
    }
}
