// Made by make/erase of crates/zones/src/moment.rt. Do not edit.
//! A moment of each year.
use crate::proved::zones::RuleDay;

const SECONDS_PER_DAY: i64 = 86_400;

/// A moment of each year, by the clocks up to it.
///
/// # Contract
///
/// ```text
/// ghost day_in: { IsTrue (is_rule_day day) },
/// ghost time_in: { IsRuleTime time },
/// ```
///
/// [docs/proofs/STATEMENT.md](crate::proved#contracts) explains the words.
#[derive(Clone, Copy)]
pub struct Moment {
    pub day: RuleDay,
    /// Seconds after the midnight that begins the day, from -604799 to 604799.
    pub time: i32,
}

impl Moment {
    // The second on the clocks up to it.
    /// # Contract
    ///
    /// ```text
    /// requires { IsRuleYear year }
    /// ensures value { result ≡ local_second self year }
    /// ensures low { neg_ℤ (pos 40_000_000_000_000) ≤ℤ result }
    /// ensures high { result ≤ℤ pos 40_000_000_000_000 }
    /// ```
    ///
    /// [docs/proofs/STATEMENT.md](crate::proved#contracts) explains the words.
    #[inline]
    pub(crate) const fn local_in_year(self, year: i64) -> i64 {
        self.day.in_year(year) * SECONDS_PER_DAY + self.time as i64
    }

    // A second that is counted from the start of a year: on the clocks up to it the moment of each
    // year comes at it, or up to 21 days later.
    /// # Contract
    ///
    /// ```text
    /// ensures near { ComesNear (local_second self) result }
    /// ensures low { neg_ℤ (pos 700_000) ≤ℤ result }
    /// ensures high { result ≤ℤ pos 35_000_000 }
    /// ```
    ///
    /// [docs/proofs/STATEMENT.md](crate::proved#contracts) explains the words.
    #[inline]
    pub(crate) fn earliest(self) -> i64 {
        self.day.earliest() * SECONDS_PER_DAY + self.time as i64
    }
}
