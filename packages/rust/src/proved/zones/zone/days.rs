// Made by make/erase of crates/zones/src/zone/days.rt. Do not edit.
//! Days on the clocks of a zone.
use super::instants::first_by;
use crate::proved::zones::Zone;

const SECONDS_PER_DAY: i64 = 86_400;

impl<'a> Zone<'a> {
    /// Returns the first second at which the clocks show the wall clock or a later one.
    ///
    /// # Contract
    ///
    /// ```text
    /// requires { IsSecond local }
    /// ensures first { IsZoneFirst self.now local result }
    /// ensures near { IsNear local result }
    /// ensures low { neg_ℤ (pos 40_000_000_200_000) ≤ℤ result }
    /// ensures high { result ≤ℤ pos 40_000_000_200_000 }
    /// ```
    ///
    /// [docs/proofs/STATEMENT.md](crate::proved#contracts) explains the words.
    #[inline]
    pub(in crate::proved) fn first_at(&self, local: i64) -> i64 {
        match self.last_started(local) {
            None => local - self.first.offset as i64,
            Some(row) => first_by(row, local),
        }
    }

    /// Returns the first second of a day, which is counted from 1970-01-01, from -400000000 to
    /// 400000000. It is no midnight if clocks are put forward past that. Of a day that the clocks
    /// skip, it is that of the next day.
    ///
    /// # Contract
    ///
    /// ```text
    /// requires { IsZoneDay day }
    /// ensures start { IsDayStart self.now day result }
    /// ensures near { IsNear (day *ℤ pos 86_400) result }
    /// ensures low { neg_ℤ (pos 40_000_000_200_000) ≤ℤ result }
    /// ensures high { result ≤ℤ pos 40_000_000_200_000 }
    /// ```
    ///
    /// [docs/proofs/STATEMENT.md](crate::proved#contracts) explains the words.
    #[inline]
    pub(in crate::proved) fn start_of_day(&self, day: i64) -> i64 {
        self.first_at(day * SECONDS_PER_DAY)
    }

    /// Returns the seconds from the start of a day to that of the next one: 86400 on most days,
    /// 82800 or 90000 where clocks are put forward or back by an hour, 0 on a day that they skip.
    ///
    /// # Contract
    ///
    /// ```text
    /// requires day { IsZoneDay day }
    /// requires next { IsZoneDay (day +ℤ pos 1) }
    /// ensures { IsDayLength self.now day result }
    /// ```
    ///
    /// [docs/proofs/STATEMENT.md](crate::proved#contracts) explains the words.
    #[inline]
    pub(in crate::proved) fn length_of_day(&self, day: i64) -> i64 {
        self.start_of_day(day + 1) - self.start_of_day(day)
    }
}
