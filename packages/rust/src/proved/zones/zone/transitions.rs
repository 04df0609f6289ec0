// Made by make/erase of crates/zones/src/zone/transitions.rt. Do not edit.
//! Transitions next to a second.
use crate::proved::zones::{Transition, Zone, joined, tables};

impl<'a> Zone<'a> {
    /// Returns the first transition after the second, or `None` if there is none.
    ///
    /// # Contract
    ///
    /// ```text
    /// requires { IsSecond second }
    /// ensures { IsNextTransition self.now second result }
    /// ```
    ///
    /// [docs/proofs/STATEMENT.md](crate::proved#contracts) explains the words.
    #[inline]
    pub(crate) fn next_transition(&self, second: i64) -> Option<Transition> {
        match self.tail {
            Some(tail) => joined::next(self.first, self.rows, tail, second),
            None => tables::next(self.first, self.rows, second),
        }
    }

    /// Returns the last transition before the second, or `None` if there is none.
    ///
    /// # Contract
    ///
    /// ```text
    /// requires { IsSecond second }
    /// ensures { IsLastTransition self.now (second -ℤ pos 1) result }
    /// ```
    ///
    /// [docs/proofs/STATEMENT.md](crate::proved#contracts) explains the words.
    #[inline]
    pub(crate) fn previous_transition(&self, second: i64) -> Option<Transition> {
        self.last_transition(second - 1)
    }

    // The last transition at or before the second.
    /// # Contract
    ///
    /// ```text
    /// requires { IsCycleSecond second }
    /// ensures { IsLastTransition self.now second result }
    /// ```
    ///
    /// [docs/proofs/STATEMENT.md](crate::proved#contracts) explains the words.
    #[inline]
    pub(super) fn last_transition(&self, second: i64) -> Option<Transition> {
        match self.tail {
            Some(tail) => joined::last(self.first, self.rows, tail, second),
            None => tables::last(self.first, self.rows, second),
        }
    }

    /// Writes the transitions after the first second, up to and including the other, to the front
    /// of `room`, in their order. Returns how many: all of them, or as many as `room` holds.
    ///
    /// # Contract
    ///
    /// ```text
    /// requires from { IsSecond from }
    /// requires until { IsSecond until }
    /// ensures between { AreBetween self.now from until room.old room.new result }
    /// ensures length { length room.new ≡ length room.old }
    /// ```
    ///
    /// [docs/proofs/STATEMENT.md](crate::proved#contracts) explains the words.
    #[inline]
    pub(in crate::proved) fn transitions_between(
        &self,
        from: i64,
        until: i64,
        room: &mut [Transition],
    ) -> usize {
        let _ = &self.first;
        let mut next = self.next_transition(from);
        let mut count = 0;
        'rows: while count < room.len() {
            let Some(row) = next else {
                return count;
            };
            if row.second > until {
                return count;
            }
            room[count] = row;
            count += 1;
            next = self.next_transition(row.second);
        }
        count
    }
}
