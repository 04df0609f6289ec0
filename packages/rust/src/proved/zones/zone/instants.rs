// Made by make/erase of crates/zones/src/zone/instants.rt. Do not edit.
//! The kind of local time at a second, and the seconds of a wall clock.
use crate::proved::zones::{LocalInstants, TimeType, Transition, Zone, joined, tables};

impl<'a> Zone<'a> {
    /// Returns the kind of local time at the second: that after the last transition at or before
    /// it.
    ///
    /// # Contract
    ///
    /// ```text
    /// requires { IsSecond second }
    /// ensures { IsZoneType self.now second result }
    /// ```
    ///
    /// [docs/proofs/STATEMENT.md](crate::proved#contracts) explains the words.
    #[inline]
    pub(crate) fn type_at(&self, second: i64) -> TimeType {
        match self.tail {
            Some(tail) => joined::type_at(self.first, self.rows, tail, second),
            None => tables::type_at(self.first, self.rows, second),
        }
    }

    /// Returns the offset at the second, in seconds east of UTC: that after the last transition at
    /// or before it.
    ///
    /// # Contract
    ///
    /// ```text
    /// requires { IsSecond second }
    /// ensures offset { IsZoneOffset self.now second result }
    /// ensures in_range { IsOffset result }
    /// ```
    ///
    /// [docs/proofs/STATEMENT.md](crate::proved#contracts) explains the words.
    #[inline]
    pub(in crate::proved) fn offset_at(&self, second: i64) -> i32 {
        self.type_at(second).offset
    }

    // The last transition whose gap or fold starts at or before the wall clock.
    /// # Contract
    ///
    /// ```text
    /// requires { IsSecond local }
    /// ensures { IsStartedTransition self.now local result }
    /// ```
    ///
    /// [docs/proofs/STATEMENT.md](crate::proved#contracts) explains the words.
    #[inline]
    pub(super) fn last_started(&self, local: i64) -> Option<Transition> {
        match self.tail {
            Some(tail) => joined::last_started(self.first, self.rows, tail, local),
            None => tables::last_started(self.first, self.rows, local),
        }
    }

    // The kind of local time at the wall clock, if the rule has it, and no gap or fold lies near.
    /// # Contract
    ///
    /// ```text
    /// requires { IsSecond local }
    /// ensures { IfSome result (λ kind. IsZoneSettled self.now local kind) }
    /// ```
    ///
    /// [docs/proofs/STATEMENT.md](crate::proved#contracts) explains the words.
    #[inline]
    fn settled_type(&self, local: i64) -> Option<TimeType> {
        match self.tail {
            Some(tail) => joined::settled_type(self.first, self.rows, tail, local),
            None => None,
        }
    }

    /// Returns the seconds at which the clocks show the wall clock: all of them.
    ///
    /// # Contract
    ///
    /// ```text
    /// requires { IsSecond local }
    /// ensures { IsZoneInstants self.now local result }
    /// ```
    ///
    /// [docs/proofs/STATEMENT.md](crate::proved#contracts) explains the words.
    #[inline]
    pub(in crate::proved) fn instants_of(&self, local: i64) -> LocalInstants {
        match self.settled_type(local) {
            Some(kind) => LocalInstants::Single(local - kind.offset as i64),
            None => self.instants_near(local),
        }
    }

    // The seconds at which the clocks show the wall clock, by the transitions near it.
    /// # Contract
    ///
    /// ```text
    /// requires { IsSecond local }
    /// ensures { IsZoneInstants self.now local result }
    /// ```
    ///
    /// [docs/proofs/STATEMENT.md](crate::proved#contracts) explains the words.
    #[inline]
    fn instants_near(&self, local: i64) -> LocalInstants {
        match self.last_started(local) {
            None => LocalInstants::Single(local - self.first.offset as i64),
            Some(row) => instants_by(row, local),
        }
    }
}

// The first second at which clocks show the wall clock or a later one, by that transition.
/// # Contract
///
/// ```text
/// requires { IsSecond local }
/// ensures first { FirstBy row local result }
/// ensures low { neg_ℤ (pos 40_000_000_200_000) ≤ℤ result }
/// ensures high { result ≤ℤ pos 40_000_000_200_000 }
/// ```
///
/// [docs/proofs/STATEMENT.md](crate::proved#contracts) explains the words.
#[inline]
pub(super) fn first_by(row: Transition, local: i64) -> i64 {
    instants_by(row, local).first()
}

// What the last transition whose gap or fold has started makes of a wall clock.
/// # Contract
///
/// ```text
/// requires { IsSecond local }
/// ensures { IsBy row.second row.before.offset row.after.offset local result }
/// ```
///
/// [docs/proofs/STATEMENT.md](crate::proved#contracts) explains the words.
#[inline]
fn instants_by(row: Transition, local: i64) -> LocalInstants {
    let before = row.before.offset as i64;
    let after = row.after.offset as i64;
    if local >= row.second + before.max(after) {
        return LocalInstants::Single(local - after);
    }
    if before < after {
        return LocalInstants::Gap(local - after, local - before, row.second);
    }
    LocalInstants::Fold(local - before, local - after)
}
