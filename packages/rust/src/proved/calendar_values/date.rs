// Made by make/erase of crates/calendar_values/src/date.rt. Do not edit.
//! The days of the calendar.
use crate::proved::calendar_values::calendar::{
    days_before_month, leap_ordinal_to_month_day, year_and_ordinal,
};
use crate::proved::calendar_values::range::{FIRST_DAY, FIRST_YEAR, LAST_DAY, LAST_YEAR};
use crate::proved::calendar_values::units::EPOCH_JULIAN_DAY;
use crate::proved::calendar_values::{
    ComponentRange, Month, Part, Weekday, days_in_month, days_in_year, is_leap_year,
};
mod comparisons;
mod months;
mod occurrences;
mod operators;
mod reads;
mod replacements;
mod sums;
mod texts;

/// A date of the proleptic Gregorian calendar, from [`Date::MIN`] to [`Date::MAX`]. A contract sees
/// its day number, 0 for 1970-01-01.
///
/// ```
/// # use muxandu::proved::*;
/// # fn main() -> Result<(), Box<dyn std::error::Error>> {
/// let leap_day = Date::from_calendar_date(2024, Month::February, 29)?;
/// assert_eq!(leap_day.weekday(), Weekday::Thursday);
/// assert_eq!(
///     leap_day.next_day(),
///     Some(Date::from_ordinal_date(2024, 61)?)
/// );
/// # Ok(())
/// # }
/// ```
#[derive(Clone, Copy, PartialEq)]
pub struct Date {
    niche: crate::proved::memory::Niche,
    year: i32,
    ordinal: u16,
}

impl Date {
    /// The first date, -999999-01-01.
    pub const MIN: Date = Date {
        niche: crate::proved::memory::Niche::Here,
        year: FIRST_YEAR,
        ordinal: 1,
    };

    /// The last date, 999999-12-31.
    pub const MAX: Date = Date {
        niche: crate::proved::memory::Niche::Here,
        year: LAST_YEAR,
        ordinal: 365,
    };

    /// 1970-01-01, from which days are counted.
    pub const UNIX_EPOCH: Date = Date {
        niche: crate::proved::memory::Niche::Here,
        year: 1970,
        ordinal: 1,
    };

    /// The date of a year, a month and a day of the month. Fails with `year` before the first year
    /// or after the last, and with `day` at 0 or above 31. Fails conditionally with `day` past the
    /// end of the month (Gregorian calendar).
    ///
    /// ```
    /// # use muxandu::proved::*;
    /// # fn main() -> Result<(), Box<dyn std::error::Error>> {
    /// let moon = Date::from_calendar_date(1969, Month::July, 20)?;
    /// assert_eq!(moon.ordinal(), 201);
    /// assert_eq!(
    ///     Date::from_calendar_date(2021, Month::February, 29),
    ///     Err(ComponentRange::new("day", true))
    /// );
    /// # Ok(())
    /// # }
    /// ```
    ///
    /// # Contract
    ///
    /// ```text
    /// ensures value { Gives result (calendar_date_outcome year (month_number month) day) }
    /// ensures shown { IfOk result (ShowsDate year (month_number month) day) }
    /// ```
    ///
    /// [docs/proofs/STATEMENT.md](crate::proved#contracts) explains the words.
    #[inline(always)]
    pub const fn from_calendar_date(
        year: i32,
        month: Month,
        day: u8,
    ) -> Result<Date, ComponentRange> {
        if year < FIRST_YEAR || year > LAST_YEAR || day == 0 || day > days_in_month(year, month) {
            return Err(refused_date(year, day));
        }
        Ok(Date {
            niche: crate::proved::memory::Niche::Here,
            year,
            ordinal: days_before_month(is_leap_year(year), month) + day as u16,
        })
    }

    /// The date of a year and a day of the year, counted from 1. Fails with `year` before the first
    /// year or after the last, and with `ordinal` at 0 or above 366. Fails conditionally with
    /// `ordinal` at 366 in a common year.
    ///
    /// ```
    /// # use muxandu::proved::*;
    /// # fn main() -> Result<(), Box<dyn std::error::Error>> {
    /// assert_eq!(
    ///     Date::from_ordinal_date(1999, 365)?,
    ///     Date::from_calendar_date(1999, Month::December, 31)?
    /// );
    /// assert_eq!(
    ///     Date::from_ordinal_date(1999, 366),
    ///     Err(ComponentRange::new("ordinal", true))
    /// );
    /// # Ok(())
    /// # }
    /// ```
    ///
    /// # Contract
    ///
    /// ```text
    /// ensures value { Gives result (ordinal_date_outcome year ordinal) }
    /// ensures shown { IfOk result (ShowsOrdinalDate year ordinal) }
    /// ```
    ///
    /// [docs/proofs/STATEMENT.md](crate::proved#contracts) explains the words.
    #[inline]
    pub const fn from_ordinal_date(year: i32, ordinal: u16) -> Result<Date, ComponentRange> {
        if year < FIRST_YEAR || year > LAST_YEAR {
            return Err(ComponentRange::of_part(Part::Year, false));
        }
        if ordinal == 0 || ordinal > 366 {
            return Err(ComponentRange::of_part(Part::Ordinal, false));
        }
        if ordinal > days_in_year(year) {
            return Err(ComponentRange::of_part(Part::Ordinal, true));
        }
        Ok(Date {
            niche: crate::proved::memory::Niche::Here,
            year,
            ordinal,
        })
    }

    /// As [`Date::from_ordinal_date`], of a year in range and a day that it has. The caller proves
    /// both.
    ///
    /// # Contract
    ///
    /// ```text
    /// requires year { IsYear year }
    /// requires ordinal { IsOrdinalDate year ordinal }
    /// ensures { result ≡ day_of_ordinal_date year ordinal }
    /// ```
    ///
    /// [docs/proofs/STATEMENT.md](crate::proved#contracts) explains the words.
    #[inline(always)]
    pub(in crate::proved) const fn at_ordinal_date(year: i32, ordinal: u16) -> Date {
        Date {
            niche: crate::proved::memory::Niche::Here,
            year,
            ordinal,
        }
    }

    /// The date of an ISO year, an ISO week and a day of the week. [`Date::to_iso_week_date`] is
    /// the inverse. Fails with `year` before the first year or after the last, and with `week` at 0
    /// or above 53. Fails conditionally with `week` at 53 in a year of 52 weeks. Fails
    /// conditionally with `year` for the two days of the last week past the range.
    ///
    /// ```
    /// # use muxandu::proved::*;
    /// # fn main() -> Result<(), Box<dyn std::error::Error>> {
    /// assert_eq!(
    ///     Date::from_iso_week_date(2020, 1, Weekday::Monday)?,
    ///     Date::from_calendar_date(2019, Month::December, 30)?
    /// );
    /// assert_eq!(
    ///     Date::from_iso_week_date(2021, 53, Weekday::Monday),
    ///     Err(ComponentRange::new("week", true))
    /// );
    /// # Ok(())
    /// # }
    /// ```
    ///
    /// # Contract
    ///
    /// ```text
    /// ensures value { Gives result (iso_week_date_outcome year week (weekday_number weekday)) }
    /// ensures shown { IfOk result (ShowsIsoWeekDate year week (weekday_number weekday)) }
    /// ```
    ///
    /// [docs/proofs/STATEMENT.md](crate::proved#contracts) explains the words.
    #[inline]
    pub const fn from_iso_week_date(
        year: i32,
        week: u8,
        weekday: Weekday,
    ) -> Result<Date, ComponentRange> {
        if year < FIRST_YEAR || year > LAST_YEAR {
            return Err(ComponentRange::of_part(Part::Year, false));
        }
        if week == 0 || week > 53 {
            return Err(ComponentRange::of_part(Part::Week, false));
        }
        if week > weeks_in_year(year) {
            return Err(ComponentRange::of_part(Part::Week, true));
        }
        let january_4 = Date {
            niche: crate::proved::memory::Niche::Here,
            year,
            ordinal: 4,
        };
        match january_4.checked_add_days(days_to_week_day(january_4, week, weekday)) {
            Some(date) => Ok(date),
            None => Err(ComponentRange::of_part(Part::Year, true)),
        }
    }

    /// The date of a Julian day, which is 2,440,588 on 1970-01-01. Fails with `julian_day` before
    /// that of the first date or after that of the last.
    ///
    /// ```
    /// # use muxandu::proved::*;
    /// # fn main() -> Result<(), Box<dyn std::error::Error>> {
    /// assert_eq!(
    ///     Date::from_julian_day(2_451_545)?,
    ///     Date::from_calendar_date(2000, Month::January, 1)?
    /// );
    /// assert_eq!(
    ///     Date::from_julian_day(i32::MAX),
    ///     Err(ComponentRange::new("julian_day", false))
    /// );
    /// # Ok(())
    /// # }
    /// ```
    ///
    /// # Contract
    ///
    /// ```text
    /// ensures value { Gives result (julian_date_outcome julian_day) }
    /// ensures shown { IfOk result (λ date. julian_day_of date ≡ julian_day) }
    /// ```
    ///
    /// [docs/proofs/STATEMENT.md](crate::proved#contracts) explains the words.
    #[inline]
    pub const fn from_julian_day(julian_day: i32) -> Result<Date, ComponentRange> {
        if julian_day < FIRST_DAY + EPOCH_JULIAN_DAY || julian_day > LAST_DAY + EPOCH_JULIAN_DAY {
            return Err(ComponentRange::of_part(Part::JulianDay, false));
        }
        Ok(Date::from_day(julian_day - EPOCH_JULIAN_DAY))
    }

    /// The date a number of days after 1970-01-01, or before it for a negative number. None if out
    /// of range.
    ///
    /// ```
    /// # use muxandu::proved::*;
    /// # fn main() -> Result<(), Box<dyn std::error::Error>> {
    /// assert_eq!(
    ///     Date::from_days_since_epoch(10_957),
    ///     Some(Date::from_calendar_date(2000, Month::January, 1)?)
    /// );
    /// assert_eq!(Date::from_days_since_epoch(i32::MIN), None);
    /// # Ok(())
    /// # }
    /// ```
    ///
    /// # Contract
    ///
    /// ```text
    /// ensures { SomeDay result days }
    /// ```
    ///
    /// [docs/proofs/STATEMENT.md](crate::proved#contracts) explains the words.
    #[inline]
    pub const fn from_days_since_epoch(days: i32) -> Option<Date> {
        if days < FIRST_DAY || days > LAST_DAY {
            return None;
        }
        Some(Date::from_day(days))
    }

    // The date of a day number.
    /// # Contract
    ///
    /// ```text
    /// requires { IsDay day }
    /// ensures { result ≡ day }
    /// ```
    ///
    /// [docs/proofs/STATEMENT.md](crate::proved#contracts) explains the words.
    #[inline]
    const fn from_day(day: i32) -> Date {
        let (year, ordinal) = year_and_ordinal(day);
        Date {
            niche: crate::proved::memory::Niche::Here,
            year,
            ordinal,
        }
    }
    /// # Contract
    ///
    /// ```text
    /// ensures month { month_number result.0 ≡ month_of self }
    /// ensures day { result.1 ≡ day_of_month_of self }
    /// ensures in_range { IsInRange 1 31 result.1 }
    /// ```
    ///
    /// [docs/proofs/STATEMENT.md](crate::proved#contracts) explains the words.
    #[inline]
    const fn month_day(self) -> (Month, u8) {
        leap_ordinal_to_month_day(is_leap_year(self.year), self.ordinal)
    }
}

// The days from a date of week 1 to a day of a week.
/// # Contract
///
/// ```text
/// requires first { 1 ≤ week }
/// requires last { week ≤ 53 }
/// ensures { of_week_1 +ℤ result ≡ monday_of of_week_1 +ℤ pos ((week - 1) * 7) +ℤ
///     pos (weekday_number weekday) }
/// ```
///
/// [docs/proofs/STATEMENT.md](crate::proved#contracts) explains the words.
#[inline]
const fn days_to_week_day(of_week_1: Date, week: u8, weekday: Weekday) -> i64 {
    let days = (week - 1) as u16 * 7 + weekday.number_days_from_monday() as u16;
    days as i64 - of_week_1.weekday().number_days_from_monday() as i64
}

// How many ISO weeks the year has: 52 or 53, as many as Thursdays.
/// # Contract
///
/// ```text
/// requires { IsYear year }
/// ensures value { result ≡ weeks_in_year year }
/// ensures in_range { IsInRange 52 53 result }
/// ```
///
/// [docs/proofs/STATEMENT.md](crate::proved#contracts) explains the words.
#[inline]
const fn weeks_in_year(year: i32) -> u8 {
    let january_1 = Date {
        niche: crate::proved::memory::Niche::Here,
        year,
        ordinal: 1,
    };
    let from_thursday = (january_1.weekday().number_days_from_monday() as u16 + 10) % 7;
    ((days_in_year(year) + from_thursday) / 7) as u8
}

// What a year and a day of the month are refused by which no date of the range has: it is looked for only
// then.
/// # Contract
///
/// ```text
/// ensures { result ≡ date_refusal year day }
/// ```
///
/// [docs/proofs/STATEMENT.md](crate::proved#contracts) explains the words.
#[inline(never)]
const fn refused_date(year: i32, day: u8) -> ComponentRange {
    if year < FIRST_YEAR || year > LAST_YEAR {
        return ComponentRange::of_part(Part::Year, false);
    }
    if day == 0 || day > 31 {
        return ComponentRange::of_part(Part::Day, false);
    }
    ComponentRange::of_part(Part::Day, true)
}
