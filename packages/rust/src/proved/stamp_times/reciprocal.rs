// Made by make/erase of crates/stamp_times/src/reciprocal.rt. Do not edit.
//! The calendar by two multiplications: a year, its kind and the day of the year with no division.
//!
//! A day is counted from 1 January of a year that 400 divides, so that it is not negative. The
//! first product gives its century, and with it how many leap days the rule on centuries has left
//! out. The second gives the year and the day of the year, as in a calendar without that rule. Each
//! product has two words: the quotient, and the fraction of the quotient.
// Days and years are counted from the year 0 by this number of spans of 400 years, and from there to 1970.
const ERAS: i32 = 5_949;

const DAY_SHIFT: i32 = 146_097 * ERAS + 719_528;

const YEAR_SHIFT: i32 = 400 * ERAS;

// 2^49 / 146,097, rounded down.
const CENTURY_MULTIPLIER: u64 = 3_853_261_555;

// 2^42 / 1,461, rounded up.
const YEAR_MULTIPLIER: u64 = 3_010_298_776;

// 365 * 2^32 / 36,525, rounded down: the fraction of a century up to the end of its first 365 days.
const FIRST_YEAR_CUT: u32 = 42_920_275;

/// The whole centuries up to a day, on the first day of each 400 years one too few, and the
/// fraction of a century, times 2^32. They are the high and the low 32 bits of the day times 4 /
/// 146,097. The day is counted from 1 January of the year -2379600, and must be from 503,888,919 to
/// 1,234,373,552.
///
/// # Contract
///
/// ```text
/// requires { IsShiftedDay day }
/// ensures century { result.0 ≡ century_of day }
/// ensures fraction { result.1 ≡ century_fraction_of day }
/// ensures above { 146_097 * day * 3_853_261_555 < 4 * day * 2 ^ 47 }
/// ensures below { 4 * day * 2 ^ 47 < 146_097 * day * 3_853_261_555 + 2 ^ 47 }
/// ```
///
/// [docs/proofs/STATEMENT.md](crate::proved#contracts) explains the words.
#[inline]
pub(in crate::proved) const fn century(day: u32) -> (u32, u32) {
    whole_and_fraction(day as u64 * CENTURY_MULTIPLIER >> 15)
}

/// The whole years up to a day of a calendar without the rule on centuries, and the fraction of a
/// year, times 2^32. They are the high and the low 32 bits of the day times 4 / 1,461. The day is
/// counted from 1 January of the year -2379600 in that calendar, and must be from 503,899,266 to
/// 1,234,398,899.
///
/// # Contract
///
/// ```text
/// requires { IsJulianCount julian_day }
/// ensures year { result.0 ≡ julian_year_of julian_day }
/// ensures fraction { result.1 ≡ julian_year_fraction_of julian_day }
/// ensures above { 4 * julian_day * 2 ^ 40 < 1_461 * julian_day * 3_010_298_776 }
/// ensures below { 1_461 * julian_day * 3_010_298_776 < 4 * julian_day * 2 ^ 40 + 2 ^ 40 }
/// ```
///
/// [docs/proofs/STATEMENT.md](crate::proved#contracts) explains the words.
#[inline]
pub(in crate::proved) const fn julian_year(julian_day: u32) -> (u32, u32) {
    whole_and_fraction(julian_day as u64 * YEAR_MULTIPLIER >> 8)
}

// The high and the low 32 bits.
/// # Contract
///
/// ```text
/// ensures high { result.0 ≡ scaled / 2 ^ 32 }
/// ensures low { result.1 ≡ scaled % 2 ^ 32 }
/// ```
///
/// [docs/proofs/STATEMENT.md](crate::proved#contracts) explains the words.
#[inline]
const fn whole_and_fraction(scaled: u64) -> (u32, u32) {
    ((scaled >> 32) as u32, (scaled & 0xffff_ffff) as u32)
}

/// The year of a day, whether it is a leap year, and the day of the year, counted from 1 (Gregorian
/// calendar). The day is counted from 1970-01-01, and must be one of the range: the days that
/// `Date` has.
///
/// # Contract
///
/// ```text
/// requires { IsDay day }
/// ensures year { result.0 ≡ year_of day }
/// ensures leap { result.1 ≡ is_leap_year (year_of day) }
/// ensures ordinal { result.2 ≡ ordinal_of day }
/// ensures date { IsOrdinalDateOfRange result.0 result.2 }
/// ensures day { day_of_ordinal_date result.0 result.2 ≡ day }
/// ensures ordinal_in_range { IsInRange 1 366 result.2 }
/// ensures year_by_steps { result.0 ≡ step_year (shifted_day day) }
/// ensures leap_by_steps { result.1 ≡ step_leap (shifted_day day) }
/// ensures ordinal_by_steps { result.2 ≡ step_ordinal (shifted_day day) }
/// ```
///
/// [docs/proofs/STATEMENT.md](crate::proved#contracts) explains the words.
#[inline]
pub(in crate::proved) const fn year_leap_ordinal(day: i32) -> (i32, bool, u16) {
    let (years, is_leap, ordinal) = years_leap_ordinal(shifted_day(day));
    (year_of_shift(years), is_leap, ordinal)
}

// The same for a day counted from the year -2379600, and the year counted from there.
/// # Contract
///
/// ```text
/// requires { IsShiftedDay day }
/// ensures years { result.0 ≡ years_of day }
/// ensures leap { result.1 ≡ step_leap day }
/// ensures ordinal { result.2 ≡ step_ordinal day }
/// ```
///
/// [docs/proofs/STATEMENT.md](crate::proved#contracts) explains the words.
#[inline]
const fn years_leap_ordinal(day: u32) -> (u32, bool, u16) {
    let (century, century_fraction) = century(day);
    let is_julian = (century_fraction > FIRST_YEAR_CUT) | (century % 4 == 0);
    let (years, year_fraction) = julian_year(day - century / 4 + century);
    let ordinal = (year_fraction as u64 * 1_461 >> 34) as u16 + is_julian as u16;
    (years, (years % 4 == 0) & is_julian, ordinal)
}

// The day, counted from the year -2379600.
/// # Contract
///
/// ```text
/// requires { IsDay day }
/// ensures { result ≡ shifted_day day }
/// ```
///
/// [docs/proofs/STATEMENT.md](crate::proved#contracts) explains the words.
#[inline]
const fn shifted_day(day: i32) -> u32 {
    (day + DAY_SHIFT) as u32
}

// The year this number of years after the year -2379600.
/// # Contract
///
/// ```text
/// requires { years < 2 ^ 31 }
/// ensures { result ≡ pos years -ℤ pos 2_379_600 }
/// ```
///
/// [docs/proofs/STATEMENT.md](crate::proved#contracts) explains the words.
#[inline]
const fn year_of_shift(years: u32) -> i32 {
    years as i32 - YEAR_SHIFT
}
