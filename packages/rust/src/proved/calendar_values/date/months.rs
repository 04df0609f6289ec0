// Made by make/erase of crates/calendar_values/src/date/months.rt. Do not edit.
//! The first and the last day of a date's month, and dates a number of months later.
use crate::proved::calendar_values::calendar::days_before_month;
use crate::proved::calendar_values::range::{FIRST_YEAR, LAST_YEAR};
use crate::proved::calendar_values::{Date, Month, days_in_month, is_leap_year};

impl Date {
    /// The first day of the date's month.
    ///
    /// ```
    /// # use muxandu::proved::*;
    /// # fn main() -> Result<(), Box<dyn std::error::Error>> {
    /// let date = Date::from_calendar_date(2024, Month::February, 29)?;
    /// assert_eq!(date.first_of_month(), Date::from_calendar_date(2024, Month::February, 1)?);
    /// # Ok(())
    /// # }
    /// ```
    ///
    /// # Contract
    ///
    /// ```text
    /// ensures value { result ≡ first_of_month self }
    /// ensures shown { ShowsDate (year_of self) (month_of self) 1 result }
    /// ensures not_after { result ≤ℤ self }
    /// ```
    ///
    /// [docs/proofs/STATEMENT.md](crate::proved#contracts) explains the words.
    #[inline]
    pub const fn first_of_month(self) -> Date {
        self.day_in_month(1)
    }

    /// The last day of the date's month.
    ///
    /// ```
    /// # use muxandu::proved::*;
    /// # fn main() -> Result<(), Box<dyn std::error::Error>> {
    /// let date = Date::from_calendar_date(2024, Month::February, 1)?;
    /// assert_eq!(date.last_of_month(), Date::from_calendar_date(2024, Month::February, 29)?);
    /// # Ok(())
    /// # }
    /// ```
    ///
    /// # Contract
    ///
    /// ```text
    /// ensures value { result ≡ last_of_month self }
    /// ensures shown { ShowsDate (year_of self) (month_of self)
    ///     (days_in_month (is_leap_year (year_of self)) (month_of self)) result }
    /// ensures not_before { self ≤ℤ result }
    /// ```
    ///
    /// [docs/proofs/STATEMENT.md](crate::proved#contracts) explains the words.
    #[inline]
    pub const fn last_of_month(self) -> Date {
        self.day_in_month(31)
    }

    /// The same day of the month a number of months later, or earlier for a negative number: the
    /// last day of a month that is shorter. None outside the range.
    ///
    /// ```
    /// # use muxandu::proved::*;
    /// # fn main() -> Result<(), Box<dyn std::error::Error>> {
    /// let date = Date::from_calendar_date(2024, Month::January, 31)?;
    /// assert_eq!(
    ///     date.checked_add_months(1),
    ///     Some(Date::from_calendar_date(2024, Month::February, 29)?)
    /// );
    /// assert_eq!(Date::MAX.checked_add_months(1), None);
    /// # Ok(())
    /// # }
    /// ```
    ///
    /// # Contract
    ///
    /// ```text
    /// ensures value { SomeDay result (months_later self months) }
    /// ensures month { IfSome result (λ later. month_index later ≡ month_index self +ℤ months) }
    /// ensures day { IfSome result (λ later. day_of_month_of later ≡ min (day_of_month_of self)
    ///     (days_in_month (is_leap_year (year_of later)) (month_of later))) }
    /// ```
    ///
    /// [docs/proofs/STATEMENT.md](crate::proved#contracts) explains the words.
    #[inline]
    pub const fn checked_add_months(self, months: i32) -> Option<Date> {
        Date::in_month(self.month_index() + months as i64, self.day())
    }

    // The number of the date's month, counted from January of the year 0.
    /// # Contract
    ///
    /// ```text
    /// ensures value { result ≡ month_index self }
    /// ensures in_range { unsigned_abs result ≤ 12_000_000 }
    /// ```
    ///
    /// [docs/proofs/STATEMENT.md](crate::proved#contracts) explains the words.
    #[inline]
    const fn month_index(self) -> i64 {
        self.year() as i64 * 12 + number_of_month(self.month()) as i64 - 1
    }

    // A day of the date's month, or the month's last day if the month is shorter.
    /// # Contract
    ///
    /// ```text
    /// requires { 1 ≤ day }
    /// ensures value { result ≡ day_or_last (year_of self) (month_of self) day }
    /// ensures shown { ShowsDate (year_of self) (month_of self)
    ///     (min day (days_in_month (is_leap_year (year_of self)) (month_of self))) result }
    /// ```
    ///
    /// [docs/proofs/STATEMENT.md](crate::proved#contracts) explains the words.
    #[inline]
    const fn day_in_month(self, day: u8) -> Date {
        Date::day_or_last(self.year(), self.month(), day)
    }

    // A day of the month of this number from January of the year 0, or the month's last day if the month is
    // shorter. None outside the range.
    /// # Contract
    ///
    /// ```text
    /// requires { 1 ≤ day }
    /// ensures value { let y = year_of_index index in
    ///     SomeIff result (IsYear y) (day_or_last y (month_of_index index) day) }
    /// ensures shown { let y = year_of_index index in let m = month_of_index index in
    ///     IfSome result (ShowsDate y m (min day (days_in_month (is_leap_year y) m))) }
    /// ```
    ///
    /// [docs/proofs/STATEMENT.md](crate::proved#contracts) explains the words.
    #[inline]
    const fn in_month(index: i64, day: u8) -> Option<Date> {
        let month = Month::of_number(number_of_index(index));
        match year_of_index(index) {
            Some(year) => Some(Date::day_or_last(year, month, day)),
            None => None,
        }
    }

    // A day of a month, or the month's last day if the month is shorter.
    /// # Contract
    ///
    /// ```text
    /// requires year { IsYear year }
    /// requires day { 1 ≤ day }
    /// ensures value { result ≡ day_or_last year (month_number month) day }
    /// ensures shown { ShowsDate year (month_number month)
    ///     (min day (days_in_month (is_leap_year year) (month_number month))) result }
    /// ```
    ///
    /// [docs/proofs/STATEMENT.md](crate::proved#contracts) explains the words.
    #[inline]
    const fn day_or_last(year: i32, month: Month, day: u8) -> Date {
        let day = at_most(day, days_in_month(year, month));
        Date {
            niche: crate::proved::memory::Niche::Here,
            year,
            ordinal: days_before_month(is_leap_year(year), month) + day as u16,
        }
    }
}

// The number of a month, 1 for January to 12 for December.
/// # Contract
///
/// ```text
/// ensures value { result ≡ month_number month }
/// ensures in_range { IsInRange 1 12 result }
/// ```
///
/// [docs/proofs/STATEMENT.md](crate::proved#contracts) explains the words.
#[inline]
const fn number_of_month(month: Month) -> u8 {
    month as u8
}

// The day, or the last one if that comes first.
/// # Contract
///
/// ```text
/// ensures { result ≡ min day last }
/// ```
///
/// [docs/proofs/STATEMENT.md](crate::proved#contracts) explains the words.
#[inline]
const fn at_most(day: u8, last: u8) -> u8 {
    if day > last { last } else { day }
}

// The year of the month of this number from January of the year 0. None outside the range.
/// # Contract
///
/// ```text
/// ensures { SomeIff result (IsYear (year_of_index index)) (year_of_index index) }
/// ```
///
/// [docs/proofs/STATEMENT.md](crate::proved#contracts) explains the words.
#[inline]
const fn year_of_index(index: i64) -> Option<i32> {
    let year = index.div_euclid(12);
    if year < FIRST_YEAR as i64 || year > LAST_YEAR as i64 {
        return None;
    }
    Some(year as i32)
}

// The number in its year of the month of this number from January of the year 0.
/// # Contract
///
/// ```text
/// ensures value { result ≡ month_of_index index }
/// ensures in_range { IsInRange 1 12 result }
/// ```
///
/// [docs/proofs/STATEMENT.md](crate::proved#contracts) explains the words.
#[inline]
const fn number_of_index(index: i64) -> u8 {
    index.rem_euclid(12) as u8 + 1
}
