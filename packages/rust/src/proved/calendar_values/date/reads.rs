// Made by make/erase of crates/calendar_values/src/date/reads.rt. Do not edit.
//! The parts of a date.
use crate::proved::calendar_values::calendar::year_start;
use crate::proved::calendar_values::units::EPOCH_JULIAN_DAY;
use crate::proved::calendar_values::{Date, Month, Weekday, days_in_year};

impl Date {
    /// The year, from that of [`Date::MIN`] to that of [`Date::MAX`].
    ///
    /// ```
    /// # use muxandu::proved::*;
    /// # fn main() -> Result<(), Box<dyn std::error::Error>> {
    /// let date = Date::from_calendar_date(2019, Month::December, 30)?;
    /// assert_eq!(date.year(), 2019);
    /// # Ok(())
    /// # }
    /// ```
    ///
    /// # Contract
    ///
    /// ```text
    /// ensures value { result ≡ year_of self }
    /// ensures in_range { IsYear result }
    /// ensures self_in_range { IsDay self }
    /// ```
    ///
    /// [docs/proofs/STATEMENT.md](crate::proved#contracts) explains the words.
    #[inline]
    pub const fn year(self) -> i32 {
        self.year
    }

    /// The month.
    ///
    /// ```
    /// # use muxandu::proved::*;
    /// # fn main() -> Result<(), Box<dyn std::error::Error>> {
    /// let date = Date::from_calendar_date(2019, Month::December, 30)?;
    /// assert_eq!(date.month(), Month::December);
    /// # Ok(())
    /// # }
    /// ```
    ///
    /// # Contract
    ///
    /// ```text
    /// ensures { month_number result ≡ month_of self }
    /// ```
    ///
    /// [docs/proofs/STATEMENT.md](crate::proved#contracts) explains the words.
    #[inline]
    pub const fn month(self) -> Month {
        self.month_day().0
    }

    /// The day of the month, 1 to 31.
    ///
    /// ```
    /// # use muxandu::proved::*;
    /// # fn main() -> Result<(), Box<dyn std::error::Error>> {
    /// let date = Date::from_calendar_date(2019, Month::December, 30)?;
    /// assert_eq!(date.day(), 30);
    /// # Ok(())
    /// # }
    /// ```
    ///
    /// # Contract
    ///
    /// ```text
    /// ensures value { result ≡ day_of_month_of self }
    /// ensures in_range { IsInRange 1 31 result }
    /// ```
    ///
    /// [docs/proofs/STATEMENT.md](crate::proved#contracts) explains the words.
    #[inline]
    pub const fn day(self) -> u8 {
        self.month_day().1
    }

    /// The day of the year, 1 to 366.
    ///
    /// ```
    /// # use muxandu::proved::*;
    /// # fn main() -> Result<(), Box<dyn std::error::Error>> {
    /// let date = Date::from_calendar_date(2019, Month::December, 30)?;
    /// assert_eq!(date.ordinal(), 364);
    /// # Ok(())
    /// # }
    /// ```
    ///
    /// # Contract
    ///
    /// ```text
    /// ensures value { result ≡ ordinal_of self }
    /// ensures in_range { IsInRange 1 366 result }
    /// ensures self_in_range { IsDay self }
    /// ```
    ///
    /// [docs/proofs/STATEMENT.md](crate::proved#contracts) explains the words.
    #[inline]
    pub const fn ordinal(self) -> u16 {
        self.ordinal
    }

    /// The ISO week, 1 to 53 (ISO 8601): it belongs to the year of its Thursday.
    ///
    /// ```
    /// # use muxandu::proved::*;
    /// # fn main() -> Result<(), Box<dyn std::error::Error>> {
    /// let date = Date::from_calendar_date(2019, Month::December, 30)?;
    /// assert_eq!(date.iso_week(), 1);
    /// # Ok(())
    /// # }
    /// ```
    ///
    /// # Contract
    ///
    /// ```text
    /// ensures value { result ≡ iso_week_of self }
    /// ensures in_range { IsInRange 1 53 result }
    /// ```
    ///
    /// [docs/proofs/STATEMENT.md](crate::proved#contracts) explains the words.
    #[inline]
    pub const fn iso_week(self) -> u8 {
        self.to_iso_week_date().1
    }

    /// The week counted by Sundays, 0 to 53: how many Sundays of the year lie on or before the
    /// date.
    ///
    /// ```
    /// # use muxandu::proved::*;
    /// # fn main() -> Result<(), Box<dyn std::error::Error>> {
    /// let date = Date::from_calendar_date(2019, Month::December, 30)?;
    /// assert_eq!(date.sunday_based_week(), 52);
    /// # Ok(())
    /// # }
    /// ```
    ///
    /// # Contract
    ///
    /// ```text
    /// ensures value { result ≡ sunday_week_of self }
    /// ensures in_range { result ≤ 53 }
    /// ```
    ///
    /// [docs/proofs/STATEMENT.md](crate::proved#contracts) explains the words.
    #[inline]
    pub const fn sunday_based_week(self) -> u8 {
        let days_from_sunday = (self.weekday().number_days_from_monday() + 1) % 7;
        ((self.ordinal() + 6 - days_from_sunday as u16) / 7) as u8
    }

    /// The week counted by Mondays, 0 to 53: how many Mondays of the year lie on or before the
    /// date.
    ///
    /// ```
    /// # use muxandu::proved::*;
    /// # fn main() -> Result<(), Box<dyn std::error::Error>> {
    /// let date = Date::from_calendar_date(2019, Month::December, 30)?;
    /// assert_eq!(date.monday_based_week(), 52);
    /// # Ok(())
    /// # }
    /// ```
    ///
    /// # Contract
    ///
    /// ```text
    /// ensures value { result ≡ monday_week_of self }
    /// ensures in_range { result ≤ 53 }
    /// ```
    ///
    /// [docs/proofs/STATEMENT.md](crate::proved#contracts) explains the words.
    #[inline]
    pub const fn monday_based_week(self) -> u8 {
        let days_from_monday = self.weekday().number_days_from_monday();
        ((self.ordinal() + 6 - days_from_monday as u16) / 7) as u8
    }

    /// The year, the month and the day of the month.
    ///
    /// ```
    /// # use muxandu::proved::*;
    /// # fn main() -> Result<(), Box<dyn std::error::Error>> {
    /// let date = Date::from_calendar_date(2019, Month::December, 30)?;
    /// assert_eq!(date.to_calendar_date(), (2019, Month::December, 30));
    /// # Ok(())
    /// # }
    /// ```
    ///
    /// # Contract
    ///
    /// ```text
    /// ensures { IsCalendarDateOf self result }
    /// ```
    ///
    /// [docs/proofs/STATEMENT.md](crate::proved#contracts) explains the words.
    #[inline]
    pub const fn to_calendar_date(self) -> (i32, Month, u8) {
        let (month, day) = self.month_day();
        (self.year(), month, day)
    }

    /// The year and the day of the year.
    ///
    /// ```
    /// # use muxandu::proved::*;
    /// # fn main() -> Result<(), Box<dyn std::error::Error>> {
    /// let date = Date::from_calendar_date(2019, Month::December, 30)?;
    /// assert_eq!(date.to_ordinal_date(), (2019, 364));
    /// # Ok(())
    /// # }
    /// ```
    ///
    /// # Contract
    ///
    /// ```text
    /// ensures { IsOrdinalDateOf self result }
    /// ```
    ///
    /// [docs/proofs/STATEMENT.md](crate::proved#contracts) explains the words.
    #[inline]
    pub const fn to_ordinal_date(self) -> (i32, u16) {
        (self.year(), self.ordinal())
    }

    /// The ISO year, the ISO week and the day of the week (ISO 8601).
    ///
    /// ```
    /// # use muxandu::proved::*;
    /// # fn main() -> Result<(), Box<dyn std::error::Error>> {
    /// let date = Date::from_calendar_date(2019, Month::December, 30)?;
    /// assert_eq!(date.to_iso_week_date(), (2020, 1, Weekday::Monday));
    /// # Ok(())
    /// # }
    /// ```
    ///
    /// # Contract
    ///
    /// ```text
    /// ensures { IsIsoWeekDateOf self result }
    /// ```
    ///
    /// [docs/proofs/STATEMENT.md](crate::proved#contracts) explains the words.
    #[inline]
    pub const fn to_iso_week_date(self) -> (i32, u8, Weekday) {
        let (year, ordinal) = self.thursday().to_ordinal_date();
        (year, ((ordinal + 6) / 7) as u8, self.weekday())
    }

    // The Thursday of the date's week. It lies in the range too, which begins on a Monday and ends on
    // a Friday.
    /// # Contract
    ///
    /// ```text
    /// ensures { result ≡ thursday_of self }
    /// ```
    ///
    /// [docs/proofs/STATEMENT.md](crate::proved#contracts) explains the words.
    #[inline]
    const fn thursday(self) -> Date {
        let days_from_monday = self.weekday().number_days_from_monday() as u16;
        let ordinal = self.ordinal + 3;
        if ordinal <= days_from_monday {
            let year = self.year - 1;
            return Date {
                niche: crate::proved::memory::Niche::Here,
                year,
                ordinal: days_in_year(year) + ordinal - days_from_monday,
            };
        }
        let ordinal = ordinal - days_from_monday;
        let length = days_in_year(self.year);
        if ordinal > length {
            return Date {
                niche: crate::proved::memory::Niche::Here,
                year: self.year + 1,
                ordinal: ordinal - length,
            };
        }
        Date {
            niche: crate::proved::memory::Niche::Here,
            year: self.year,
            ordinal,
        }
    }

    /// The day of the week.
    ///
    /// ```
    /// # use muxandu::proved::*;
    /// # fn main() -> Result<(), Box<dyn std::error::Error>> {
    /// let date = Date::from_calendar_date(2019, Month::December, 30)?;
    /// assert_eq!(date.weekday(), Weekday::Monday);
    /// # Ok(())
    /// # }
    /// ```
    ///
    /// # Contract
    ///
    /// ```text
    /// ensures { weekday_number result ≡ weekday_of self }
    /// ```
    ///
    /// [docs/proofs/STATEMENT.md](crate::proved#contracts) explains the words.
    #[inline]
    pub const fn weekday(self) -> Weekday {
        Weekday::of_number(days_from_monday(self.to_julian_day()))
    }

    /// The Julian day, which is 2,440,588 on 1970-01-01.
    ///
    /// ```
    /// # use muxandu::proved::*;
    /// # fn main() -> Result<(), Box<dyn std::error::Error>> {
    /// let date = Date::from_calendar_date(2019, Month::December, 30)?;
    /// assert_eq!(date.to_julian_day(), 2_458_848);
    /// # Ok(())
    /// # }
    /// ```
    ///
    /// # Contract
    ///
    /// ```text
    /// ensures value { result ≡ julian_day_of self }
    /// ensures self_in_range { IsDay self }
    /// ```
    ///
    /// [docs/proofs/STATEMENT.md](crate::proved#contracts) explains the words.
    #[inline(always)]
    pub const fn to_julian_day(self) -> i32 {
        self.days_since_epoch() + EPOCH_JULIAN_DAY
    }

    /// The day number: the days from 1970-01-01 to the date, negative before it.
    ///
    /// ```
    /// # use muxandu::proved::*;
    /// # fn main() -> Result<(), Box<dyn std::error::Error>> {
    /// let date = Date::from_calendar_date(2019, Month::December, 30)?;
    /// assert_eq!(date.days_since_epoch(), 18_260);
    /// assert_eq!(Date::UNIX_EPOCH.days_since_epoch(), 0);
    /// # Ok(())
    /// # }
    /// ```
    ///
    /// # Contract
    ///
    /// ```text
    /// ensures value { result ≡ self }
    /// ensures self_in_range { IsDay self }
    /// ```
    ///
    /// [docs/proofs/STATEMENT.md](crate::proved#contracts) explains the words.
    #[inline(always)]
    pub const fn days_since_epoch(self) -> i32 {
        year_start(self.year) + self.ordinal as i32 - 1
    }
}

// How many days a Julian day comes after a Monday: Julian day 0 is one.
/// # Contract
///
/// ```text
/// ensures value { result ≡ weekday_of (julian_day -ℤ epoch_julian_day) }
/// ensures in_range { result < 7 }
/// ```
///
/// [docs/proofs/STATEMENT.md](crate::proved#contracts) explains the words.
#[inline]
const fn days_from_monday(julian_day: i32) -> u8 {
    julian_day.rem_euclid(7) as u8
}
