// Made by make/erase of crates/zones/src/rule_day.rt. Do not edit.
//! Days of each year.
use crate::proved::calendar_values::{Month, days_in_month, is_leap_year};

// 5,000 cycles of 400 years, so that no year that is counted from there is negative.
const YEARS_BEFORE_0: i64 = 2_000_000;

// The days from there to 1 January 1970.
const DAYS_BEFORE_1970: i64 = 731_204_528;

/// A day of each year.
#[derive(Clone, Copy)]
pub enum RuleDay {
    /// `Mm.w.d`: the weekday, 0 for Sunday, in the week of the month, or the last of the month for
    /// week 5.
    Weekday(Month, u8, u8),
    /// `Jn`: a day from 1 to 365, which does not count 29 February.
    Common(u16),
    /// `n`: a day from 0 to 365, which counts it.
    Counted(u16),
}

// The day number of 1 January.
/// # Contract
///
/// ```text
/// requires { IsRuleYear year }
/// ensures value { result ≡ year_start year }
/// ensures low { neg_ℤ (pos 450_000_000) ≤ℤ result }
/// ensures high { result ≤ℤ pos 450_000_000 }
/// ```
///
/// [docs/proofs/STATEMENT.md](crate::proved#contracts) explains the words.
#[inline]
pub(crate) const fn year_start(year: i64) -> i64 {
    let n = (year + YEARS_BEFORE_0) as u64;
    (365 * n + (n + 3) / 4 + (n + 399) / 400 - (n + 99) / 100) as i64 - DAYS_BEFORE_1970
}

// The days of a common year before the month.
/// # Contract
///
/// ```text
/// ensures value { result ≡ days_before_month false (month_number month) }
/// ensures in_range { result ≤ 334 }
/// ```
///
/// [docs/proofs/STATEMENT.md](crate::proved#contracts) explains the words.
#[inline]
const fn common_days_before(month: Month) -> u16 {
    match month {
        Month::January => 0,
        Month::February => 31,
        Month::March => 59,
        Month::April => 90,
        Month::May => 120,
        Month::June => 151,
        Month::July => 181,
        Month::August => 212,
        Month::September => 243,
        Month::October => 273,
        Month::November => 304,
        Month::December => 334,
    }
}

// The days of the year before the month.
/// # Contract
///
/// ```text
/// ensures value { result ≡ days_before_month is_leap (month_number month) }
/// ensures in_range { result ≤ 335 }
/// ```
///
/// [docs/proofs/STATEMENT.md](crate::proved#contracts) explains the words.
#[inline]
const fn days_before(is_leap: bool, month: Month) -> u16 {
    let days = common_days_before(month);
    if is_leap & (month as u8 > 2) {
        days + 1
    } else {
        days
    }
}

// How many days after the first of a month the weekday comes in the week of the month.
/// # Contract
///
/// ```text
/// requires ahead_low { pos 0 ≤ℤ ahead }
/// requires ahead_high { ahead ≤ℤ pos 6 }
/// requires length_low { 28 ≤ length }
/// requires length_high { length ≤ 31 }
/// requires week_in { (1 ≤ week) × (week ≤ 5) }
/// ensures value { result ≡ days_to_week ahead length week }
/// ensures low { pos 0 ≤ℤ result }
/// ensures high { result <ℤ pos length }
/// ```
///
/// [docs/proofs/STATEMENT.md](crate::proved#contracts) explains the words.
#[inline]
const fn days_to_week(ahead: i64, length: u8, week: u8) -> i64 {
    let day = ahead + 7 * (week as i64 - 1);
    if day < length as i64 { day } else { day - 7 }
}

// The day with the weekday in the week of a month of that many days, which begins on this day.
/// # Contract
///
/// ```text
/// requires first_low { neg_ℤ (pos 460_000_000) ≤ℤ first }
/// requires first_high { first ≤ℤ pos 460_000_000 }
/// requires length_low { 28 ≤ length }
/// requires length_high { length ≤ 31 }
/// requires week_in { (1 ≤ week) × (week ≤ 5) }
/// requires weekday_in { weekday ≤ 6 }
/// ensures value { result ≡ nth_weekday first length week weekday }
/// ensures place { IsNthWeekday first length week weekday result }
/// ```
///
/// [docs/proofs/STATEMENT.md](crate::proved#contracts) explains the words.
#[inline]
const fn nth_weekday(first: i64, length: u8, week: u8, weekday: u8) -> i64 {
    let ahead = (weekday as i64 - first - 4).rem_euclid(7);
    first + days_to_week(ahead, length, week)
}

// The day number of the first day of the month.
/// # Contract
///
/// ```text
/// requires { IsRuleYear year }
/// ensures value { result ≡ month_start year (month_number month) }
/// ensures low { year_start year ≤ℤ result }
/// ensures first_low { neg_ℤ (pos 450_000_000) ≤ℤ result }
/// ensures first_high { result ≤ℤ pos 450_000_335 }
/// ```
///
/// [docs/proofs/STATEMENT.md](crate::proved#contracts) explains the words.
#[inline]
const fn month_start(year: i64, month: Month) -> i64 {
    let days = days_before(is_leap_year(year as i32), month);
    year_start(year) + days as i64
}

// The day number of the weekday in the week of the month.
/// # Contract
///
/// ```text
/// requires year_in { IsRuleYear year }
/// requires week_in { (1 ≤ week) × (week ≤ 5) }
/// requires weekday_in { weekday ≤ 6 }
/// ensures value { result ≡ nth_weekday (month_start year (month_number month))
///     (days_in_month (is_leap_year year) (month_number month)) week weekday }
/// ensures low { year_start year ≤ℤ result }
/// ensures high { result ≤ℤ (year_start year +ℤ pos 365) }
/// ```
///
/// [docs/proofs/STATEMENT.md](crate::proved#contracts) explains the words.
#[inline]
const fn weekday_of_month(year: i64, month: Month, week: u8, weekday: u8) -> i64 {
    let length = days_in_month(year as i32, month);
    nth_weekday(month_start(year, month), length, week, weekday)
}

// A day that is counted from 1 January: the weekday comes on it in each year, or up to 21 days later.
// Each month begins after 30 to 31 days for each one before it, less one.
/// # Contract
///
/// ```text
/// requires month_in { (1 ≤ month) × (month ≤ 12) }
/// requires week_in { (1 ≤ week) × (week ≤ 5) }
/// ensures early { week ≤ 4 → result ≡ pos (30 * month + 7 * week) -ℤ pos 38 }
/// ensures last { week ≡ 5 → result ≡ pos (30 * month) -ℤ pos 10 }
/// ensures least { neg_ℤ (pos 1) ≤ℤ result }
/// ensures most { result ≤ℤ pos 365 }
/// ```
///
/// [docs/proofs/STATEMENT.md](crate::proved#contracts) explains the words.
#[inline]
const fn earliest_in_month(month: u8, week: u8) -> i64 {
    let weeks = if week < 5 { week } else { 4 };
    30 * month as i64 + 7 * weeks as i64 - 38
}

// The day number of a day that does not count 29 February.
/// # Contract
///
/// ```text
/// requires year_in { IsRuleYear year }
/// requires day_in { (1 ≤ n) × (n ≤ 365) }
/// ensures value { result ≡ rule_day (Common n) year }
/// ensures low { year_start year ≤ℤ result }
/// ensures high { result ≤ℤ (year_start year +ℤ pos 365) }
/// ```
///
/// [docs/proofs/STATEMENT.md](crate::proved#contracts) explains the words.
#[inline]
const fn common_day(year: i64, n: u16) -> i64 {
    let start = year_start(year);
    if n >= 60 && is_leap_year(year as i32) {
        start + n as i64
    } else {
        start + n as i64 - 1
    }
}

impl RuleDay {
    /// Returns the day number in this year, counted from 1970-01-01: a day of the year, or the day
    /// after it for day 365 of a common year.
    ///
    /// # Contract
    ///
    /// ```text
    /// requires year_in { IsRuleYear year }
    /// requires day_in { IsRuleDay self }
    /// ensures value { result ≡ rule_day self year }
    /// ensures low { year_start year ≤ℤ result }
    /// ensures high { result ≤ℤ (year_start year +ℤ pos 365) }
    /// ```
    ///
    /// [docs/proofs/STATEMENT.md](crate::proved#contracts) explains the words.
    #[inline]
    pub(in crate::proved) const fn in_year(self, year: i64) -> i64 {
        match self {
            RuleDay::Weekday(month, week, weekday) => weekday_of_month(year, month, week, weekday),
            RuleDay::Common(n) => common_day(year, n),
            RuleDay::Counted(n) => year_start(year) + n as i64,
        }
    }

    // A day that is counted from 1 January: the day of each year comes on it, or up to 21 days
    // later.
    /// # Contract
    ///
    /// ```text
    /// requires { IsRuleDay self }
    /// ensures low { (y : ℤ) → (year_start y +ℤ result) ≤ℤ rule_day self y }
    /// ensures high { (y : ℤ) → rule_day self y ≤ℤ (year_start y +ℤ result +ℤ pos 21) }
    /// ensures least { neg_ℤ (pos 1) ≤ℤ result }
    /// ensures most { result ≤ℤ pos 365 }
    /// ```
    ///
    /// [docs/proofs/STATEMENT.md](crate::proved#contracts) explains the words.
    #[inline]
    pub(crate) fn earliest(self) -> i64 {
        match self {
            RuleDay::Weekday(month, week, _) => earliest_in_month(u8::from(month), week),
            RuleDay::Common(n) => n as i64 - 1,
            RuleDay::Counted(n) => n as i64,
        }
    }
}
