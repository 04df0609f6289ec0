// Made by make/erase of crates/calendar_values/src/calendar.rt. Do not edit.
//! The rules of the proleptic Gregorian calendar.
use crate::proved::calendar_values::Month;
use crate::proved::calendar_values::range::FIRST_YEAR;
use crate::proved::calendar_values::units::SECONDS_PER_DAY;

// 400 * 2^40 / 146,097, rounded up: the years that a day has, with 40 binary places.
const YEARS_PER_DAY: u64 = 3_010_360_590;

// Whole cycles of 400 years, counted back from the year 0, so that the first of them begins before the
// range does.
const CYCLES_BEFORE_0: i32 = 1 - FIRST_YEAR / 400;

const YEARS_BEFORE_0: i32 = 400 * CYCLES_BEFORE_0;

// From 1 January of the year 0 to 1 January 1970 there are 719,528 days.
const DAYS_BEFORE_1970: i32 = 146_097 * CYCLES_BEFORE_0 + 719_528;

// A day before the range, by its distance to 1970, and its seconds: from there no second of the range is
// negative, so that its day is found by a division of unsigned numbers.
const DAYS_BEFORE_EPOCH: i32 = 400_000_000;

const SECONDS_BEFORE_EPOCH: i64 = DAYS_BEFORE_EPOCH as i64 * SECONDS_PER_DAY;

/// Whether the year has a 29 February: it divides by 4 and not by 100, or it divides by 400
/// (Gregorian calendar). Year 0 is a leap year.
///
/// ```
/// # use muxandu::proved::*;
/// # fn main() -> Result<(), Box<dyn std::error::Error>> {
/// assert_eq!(is_leap_year(2000), true);
/// assert_eq!(is_leap_year(1900), false);
/// # Ok(())
/// # }
/// ```
///
/// # Contract
///
/// ```text
/// ensures { result ≡ is_leap_year year }
/// ```
///
/// [docs/proofs/STATEMENT.md](crate::proved#contracts) explains the words.
#[inline(always)]
pub const fn is_leap_year(year: i32) -> bool {
    // Of the years that 25 divides, 100 divides those that 4 divides, and 400 those that 16 divides. No test
    // is a division.
    if year % 25 != 0 {
        year % 4 == 0
    } else {
        year % 16 == 0
    }
}

/// The number of days of the year: 366 in a leap year, else 365 (Gregorian calendar).
///
/// ```
/// # use muxandu::proved::*;
/// # fn main() -> Result<(), Box<dyn std::error::Error>> {
/// assert_eq!(days_in_year(2020), 366);
/// assert_eq!(days_in_year(2021), 365);
/// # Ok(())
/// # }
/// ```
///
/// # Contract
///
/// ```text
/// ensures { result ≡ days_in_year year }
/// ```
///
/// [docs/proofs/STATEMENT.md](crate::proved#contracts) explains the words.
#[inline]
pub const fn days_in_year(year: i32) -> u16 {
    if is_leap_year(year) { 366 } else { 365 }
}

/// The number of days of the month in the year: 28 to 31 (Gregorian calendar).
///
/// ```
/// # use muxandu::proved::*;
/// # fn main() -> Result<(), Box<dyn std::error::Error>> {
/// assert_eq!(days_in_month(2020, Month::February), 29);
/// assert_eq!(days_in_month(2021, Month::February), 28);
/// # Ok(())
/// # }
/// ```
///
/// # Contract
///
/// ```text
/// ensures value { result ≡ days_in_month (is_leap_year year) (month_number month) }
/// ensures in_range { IsInRange 28 31 result }
/// ```
///
/// [docs/proofs/STATEMENT.md](crate::proved#contracts) explains the words.
#[inline(always)]
pub const fn days_in_month(year: i32, month: Month) -> u8 {
    let leap_day = is_leap_year(year) & matches!(month, Month::February);
    common_month_length(month) + leap_day as u8
}

// The number of days of the month in a common year: a table, with no branch.
/// # Contract
///
/// ```text
/// ensures value { result ≡ days_in_month false (month_number month) }
/// ensures in_range { IsInRange 28 31 result }
/// ```
///
/// [docs/proofs/STATEMENT.md](crate::proved#contracts) explains the words.
#[inline(always)]
const fn common_month_length(month: Month) -> u8 {
    match month {
        Month::January => 31,
        Month::February => 28,
        Month::March => 31,
        Month::April => 30,
        Month::May => 31,
        Month::June => 30,
        Month::July => 31,
        Month::August => 31,
        Month::September => 30,
        Month::October => 31,
        Month::November => 30,
        Month::December => 31,
    }
}

// The number of days of the year before the month.
/// # Contract
///
/// ```text
/// ensures value { result ≡ days_before_month is_leap (month_number month) }
/// ensures in_range { result ≤ 335 }
/// ```
///
/// [docs/proofs/STATEMENT.md](crate::proved#contracts) explains the words.
#[inline(always)]
pub(crate) const fn days_before_month(is_leap: bool, month: Month) -> u16 {
    let days = common_days_before_month(month);
    if is_leap & (month as u8 > 2) {
        days + 1
    } else {
        days
    }
}

// The number of days of a common year before the month.
/// # Contract
///
/// ```text
/// ensures value { result ≡ days_before_month false (month_number month) }
/// ensures in_range { result ≤ 334 }
/// ```
///
/// [docs/proofs/STATEMENT.md](crate::proved#contracts) explains the words.
#[inline(always)]
const fn common_days_before_month(month: Month) -> u16 {
    match month {
        Month::January => 0,
        Month::February => 31,
        Month::March => 59,
        Month::April => 90,
        Month::May => 120,
        Month::June => 151,
        Month::July => 181,
        Month::August => 212,
        Month::September => 243,
        Month::October => 273,
        Month::November => 304,
        Month::December => 334,
    }
}

/// The month and the day of the month of a day of the year, in a leap year or in a common one
/// (Gregorian calendar). It asks that the ordinal is 1 to 365, or 366 in a leap year.
///
/// # Contract
///
/// ```text
/// requires first { 1 ≤ ordinal }
/// requires last { ordinal ≤ year_length is_leap_year }
/// ensures month { month_number result.0 ≡ month_of_ordinal is_leap_year ordinal }
/// ensures day { result.1 ≡ day_of_ordinal is_leap_year ordinal }
/// ensures in_range { IsInRange 1 31 result.1 }
/// ```
///
/// [docs/proofs/STATEMENT.md](crate::proved#contracts) explains the words.
#[inline]
pub(in crate::proved) const fn leap_ordinal_to_month_day(
    is_leap_year: bool,
    ordinal: u16,
) -> (Month, u8) {
    let until_march = 59 + is_leap_year as u16;
    let is_later = ordinal > until_march;
    let (month, day) = month_and_day_by_product(ordinal - is_later as u16 * until_march);
    (Month::of_number(month + 2 * is_later as u8), day)
}

// The same for a day counted from 1 January, or from 1 March: from there on months of 31 and of 30
// days alternate so that one multiplication gives the month, and another the days before it.
/// # Contract
///
/// ```text
/// requires first { 1 ≤ day }
/// requires last { day ≤ 306 }
/// ensures month { result.0 ≡ (day * 268 + 8031) / 8192 }
/// ensures day { result.1 ≡ day - (result.0 * 3917 - 3866) / 128 }
/// ensures month_in_range { (1 ≤ result.0) × (result.0 ≤ 10) }
/// ensures day_in_range { result.1 ≤ 31 }
/// ```
///
/// [docs/proofs/STATEMENT.md](crate::proved#contracts) explains the words.
#[inline]
const fn month_and_day_by_product(day: u16) -> (u8, u8) {
    let day = day as u32;
    let month = (day * 268 + 8031) / 8192;
    (month as u8, (day - (month * 3917 - 3866) / 128) as u8)
}

/// The day number of a Unix second, and the second of that day, counted from 0. It asks that the
/// second lies at most 400,000,000 days from 1970, as each of the range does.
///
/// # Contract
///
/// ```text
/// requires low { neg_ℤ (pos 34_560_000_000_000) ≤ℤ second }
/// requires high { second ≤ℤ pos 34_560_000_000_000 }
/// ensures day { result.0 ≡ int_div_euclid second (pos 86_400) }
/// ensures second { pos result.1 ≡ int_rem_euclid second (pos 86_400) }
/// ensures second_in_range { result.1 < 86_400 }
/// ```
///
/// [docs/proofs/STATEMENT.md](crate::proved#contracts) explains the words.
#[inline(always)]
pub(in crate::proved) const fn day_and_second(second: i64) -> (i32, u32) {
    let seconds = (second + SECONDS_BEFORE_EPOCH) as u64;
    let days = (seconds / SECONDS_PER_DAY as u64) as i32;
    (
        days - DAYS_BEFORE_EPOCH,
        (seconds % SECONDS_PER_DAY as u64) as u32,
    )
}

// The day number of 1 January.
/// # Contract
///
/// ```text
/// requires { IsYear year }
/// ensures value { result ≡ year_start year }
/// ensures low { first_day ≤ℤ result }
/// ensures high { (result +ℤ pos 364) ≤ℤ last_day }
/// ```
///
/// [docs/proofs/STATEMENT.md](crate::proved#contracts) explains the words.
#[inline(always)]
pub(crate) const fn year_start(year: i32) -> i32 {
    days_before_year(years_from_first_cycle(year)) as i32 - DAYS_BEFORE_1970
}

// The days of a number of years from the first cycle of 400 years on. Centuries begin with the years that 100
// divides, so that one division gives their number and that of the cycles.
/// # Contract
///
/// ```text
/// requires { years ≤ 2_000_000 }
/// ensures { result ≡ days_from_0 years }
/// ```
///
/// [docs/proofs/STATEMENT.md](crate::proved#contracts) explains the words.
#[inline(always)]
const fn days_before_year(years: u32) -> u32 {
    let centuries = (years + 99) / 100;
    (1_461 * years + 3) / 4 + (centuries + 3) / 4 - centuries
}

// How many years the year comes after the first cycle of 400 years began.
/// # Contract
///
/// ```text
/// requires { IsYear year }
/// ensures value { year +ℤ pos 1_000_000 ≡ pos result }
/// ensures in_range { result ≤ 1_999_999 }
/// ```
///
/// [docs/proofs/STATEMENT.md](crate::proved#contracts) explains the words.
#[inline(always)]
const fn years_from_first_cycle(year: i32) -> u32 {
    (year + YEARS_BEFORE_0) as u32
}

// The year of a day number, and the day of that year, counted from 1.
/// # Contract
///
/// ```text
/// requires { IsDay day }
/// ensures day { day_of_ordinal_date result.0 result.1 ≡ day }
/// ensures date { IsOrdinalDate result.0 result.1 }
/// ensures year_in_range { IsYear result.0 }
/// ```
///
/// [docs/proofs/STATEMENT.md](crate::proved#contracts) explains the words.
#[inline(always)]
pub(crate) const fn year_and_ordinal(day: i32) -> (i32, u16) {
    let (years, ordinal) = years_and_ordinal(days_from_first_cycle(day));
    (year_from_first_cycle(years), ordinal)
}

// How many days the day comes after the first cycle of 400 years began.
/// # Contract
///
/// ```text
/// requires { IsDay day }
/// ensures value { day +ℤ pos 365_962_028 ≡ pos result }
/// ensures low { 366 ≤ result }
/// ensures high { result < 730_485_000 }
/// ```
///
/// [docs/proofs/STATEMENT.md](crate::proved#contracts) explains the words.
#[inline]
const fn days_from_first_cycle(day: i32) -> u32 {
    (day + DAYS_BEFORE_1970) as u32
}

// The year that is this number of years after the beginning of the first cycle of 400 years.
/// # Contract
///
/// ```text
/// requires { years < 2_000_000 }
/// ensures { result +ℤ pos 1_000_000 ≡ pos years }
/// ```
///
/// [docs/proofs/STATEMENT.md](crate::proved#contracts) explains the words.
#[inline]
const fn year_from_first_cycle(years: u32) -> i32 {
    years as i32 - YEARS_BEFORE_0
}

// The same for a day and a year that are counted from the first cycle. The year that a product gives is
// that of the day or the next one: it is the next one if it begins after the day.
/// # Contract
///
/// ```text
/// requires first { 366 ≤ day }
/// requires last { day < 730_485_000 }
/// ensures day { days_from_0 result.0 + result.1 ≡ day + 1 }
/// ensures first { 1 ≤ result.1 }
/// ensures last { result.1 ≤ days_in_year (pos result.0) }
/// ensures in_range { result.0 < 2_000_000 }
/// ```
///
/// [docs/proofs/STATEMENT.md](crate::proved#contracts) explains the words.
#[inline(always)]
const fn years_and_ordinal(day: u32) -> (u32, u16) {
    let years = years_by_product(day);
    let start = days_before_year(years);
    if start <= day {
        (years, (day - start + 1) as u16)
    } else {
        let start = days_before_year(years - 1);
        (years - 1, (day - start + 1) as u16)
    }
}

// The year of a day or the year after it, by the mean length of a year.
/// # Contract
///
/// ```text
/// requires first { 366 ≤ day }
/// requires last { day < 730_485_000 }
/// ensures low { 1 ≤ result }
/// ensures high { result ≤ 2_000_000 }
/// ensures begun { days_from_0 (result - 1) ≤ day }
/// ensures not_ended { day < days_from_0 (result + 1) }
/// ```
///
/// [docs/proofs/STATEMENT.md](crate::proved#contracts) explains the words.
#[inline(always)]
const fn years_by_product(day: u32) -> u32 {
    ((day as u64 + 1) * YEARS_PER_DAY >> 40) as u32
}
