// Made by make/erase of crates/calendar_values/src/date/replacements.rt. Do not edit.
//! Dates with a part replaced.
use crate::proved::calendar_values::{ComponentRange, Date, Month};

impl Date {
    /// The date with another year, and the month and the day of the month kept. Fails with `year`
    /// before the first year or after the last, and conditionally with `day` for 29 February in a
    /// common year.
    ///
    /// ```
    /// # use muxandu::proved::*;
    /// # fn main() -> Result<(), Box<dyn std::error::Error>> {
    /// let leap_day = Date::from_calendar_date(2024, Month::February, 29)?;
    /// assert_eq!(
    ///     leap_day.replace_year(2028)?,
    ///     Date::from_calendar_date(2028, Month::February, 29)?
    /// );
    /// assert_eq!(leap_day.replace_year(2023), Err(ComponentRange::new("day", true)));
    /// # Ok(())
    /// # }
    /// ```
    ///
    /// # Contract
    ///
    /// ```text
    /// ensures value { Gives result (year_outcome self year) }
    /// ensures shown { IfOk result (ShowsDate year (month_of self) (day_of_month_of self)) }
    /// ```
    ///
    /// [docs/proofs/STATEMENT.md](crate::proved#contracts) explains the words.
    #[inline]
    pub const fn replace_year(self, year: i32) -> Result<Date, ComponentRange> {
        let (month, day) = self.month_day();
        Date::from_calendar_date(year, month, day)
    }

    /// The date with another month, and the year and the day of the month kept. Fails conditionally
    /// with `day` if the month is too short.
    ///
    /// ```
    /// # use muxandu::proved::*;
    /// # fn main() -> Result<(), Box<dyn std::error::Error>> {
    /// let end = Date::from_calendar_date(2024, Month::January, 31)?;
    /// assert_eq!(
    ///     end.replace_month(Month::March)?,
    ///     Date::from_calendar_date(2024, Month::March, 31)?
    /// );
    /// assert_eq!(end.replace_month(Month::April), Err(ComponentRange::new("day", true)));
    /// # Ok(())
    /// # }
    /// ```
    ///
    /// # Contract
    ///
    /// ```text
    /// ensures value { Gives result (month_outcome self (month_number month)) }
    /// ensures shown { IfOk result
    ///     (ShowsDate (year_of self) (month_number month) (day_of_month_of self)) }
    /// ```
    ///
    /// [docs/proofs/STATEMENT.md](crate::proved#contracts) explains the words.
    #[inline]
    pub const fn replace_month(self, month: Month) -> Result<Date, ComponentRange> {
        Date::from_calendar_date(self.year(), month, self.day())
    }

    /// The date with another day of the month. Fails with `day` at 0 or above 31, and conditionally
    /// past the end of the month.
    ///
    /// ```
    /// # use muxandu::proved::*;
    /// # fn main() -> Result<(), Box<dyn std::error::Error>> {
    /// let leap_day = Date::from_calendar_date(2024, Month::February, 29)?;
    /// assert_eq!(
    ///     leap_day.replace_day(1)?,
    ///     Date::from_calendar_date(2024, Month::February, 1)?
    /// );
    /// assert_eq!(leap_day.replace_day(30), Err(ComponentRange::new("day", true)));
    /// # Ok(())
    /// # }
    /// ```
    ///
    /// # Contract
    ///
    /// ```text
    /// ensures value { Gives result (day_outcome self day) }
    /// ensures shown { IfOk result (ShowsDate (year_of self) (month_of self) day) }
    /// ```
    ///
    /// [docs/proofs/STATEMENT.md](crate::proved#contracts) explains the words.
    #[inline]
    pub const fn replace_day(self, day: u8) -> Result<Date, ComponentRange> {
        Date::from_calendar_date(self.year(), self.month(), day)
    }

    /// The date with another day of the year. Fails with `ordinal` at 0 or above 366, and
    /// conditionally at 366 in a common year.
    ///
    /// ```
    /// # use muxandu::proved::*;
    /// # fn main() -> Result<(), Box<dyn std::error::Error>> {
    /// let leap_day = Date::from_calendar_date(2024, Month::February, 29)?;
    /// assert_eq!(
    ///     leap_day.replace_ordinal(366)?,
    ///     Date::from_calendar_date(2024, Month::December, 31)?
    /// );
    /// assert_eq!(leap_day.replace_ordinal(367), Err(ComponentRange::new("ordinal", false)));
    /// # Ok(())
    /// # }
    /// ```
    ///
    /// # Contract
    ///
    /// ```text
    /// ensures value { Gives result (ordinal_outcome self ordinal) }
    /// ensures shown { IfOk result (ShowsOrdinalDate (year_of self) ordinal) }
    /// ```
    ///
    /// [docs/proofs/STATEMENT.md](crate::proved#contracts) explains the words.
    #[inline]
    pub const fn replace_ordinal(self, ordinal: u16) -> Result<Date, ComponentRange> {
        Date::from_ordinal_date(self.year(), ordinal)
    }
}
