// Made by make/erase of crates/calendar_values/src/date/sums.rt. Do not edit.
//! The dates before and after a date, and sums of a date and a duration.
use crate::proved::calendar_values::range::{FIRST_DAY, FIRST_YEAR, LAST_DAY, LAST_YEAR};
use crate::proved::calendar_values::units::SECONDS_PER_DAY;
use crate::proved::calendar_values::{Date, SignedDuration, days_in_year};
use std::time::Duration;

// The days from the first date to the last.
const DAYS_OF_RANGE: i64 = LAST_DAY as i64 - FIRST_DAY as i64;

impl Date {
    /// The next date, or None at the last.
    ///
    /// ```
    /// # use muxandu::proved::*;
    /// # fn main() -> Result<(), Box<dyn std::error::Error>> {
    /// let leap_day = Date::from_calendar_date(2024, Month::February, 29)?;
    /// assert_eq!(leap_day.next_day(), Some(Date::from_calendar_date(2024, Month::March, 1)?));
    /// assert_eq!(Date::MAX.next_day(), None);
    /// # Ok(())
    /// # }
    /// ```
    ///
    /// # Contract
    ///
    /// ```text
    /// ensures { SomeDay result (self +ℤ pos 1) }
    /// ```
    ///
    /// [docs/proofs/STATEMENT.md](crate::proved#contracts) explains the words.
    #[inline]
    pub const fn next_day(self) -> Option<Date> {
        if self.ordinal < days_in_year(self.year) {
            return Some(Date {
                niche: crate::proved::memory::Niche::Here,
                year: self.year,
                ordinal: self.ordinal + 1,
            });
        }
        if self.year >= LAST_YEAR {
            return None;
        }
        Some(Date {
            niche: crate::proved::memory::Niche::Here,
            year: self.year + 1,
            ordinal: 1,
        })
    }

    /// The date before, or None at the first.
    ///
    /// ```
    /// # use muxandu::proved::*;
    /// # fn main() -> Result<(), Box<dyn std::error::Error>> {
    /// let march = Date::from_calendar_date(2023, Month::March, 1)?;
    /// assert_eq!(
    ///     march.previous_day(),
    ///     Some(Date::from_calendar_date(2023, Month::February, 28)?)
    /// );
    /// assert_eq!(Date::MIN.previous_day(), None);
    /// # Ok(())
    /// # }
    /// ```
    ///
    /// # Contract
    ///
    /// ```text
    /// ensures { SomeDay result (self -ℤ pos 1) }
    /// ```
    ///
    /// [docs/proofs/STATEMENT.md](crate::proved#contracts) explains the words.
    #[inline]
    pub const fn previous_day(self) -> Option<Date> {
        if self.ordinal > 1 {
            return Some(Date {
                niche: crate::proved::memory::Niche::Here,
                year: self.year,
                ordinal: self.ordinal - 1,
            });
        }
        if self.year <= FIRST_YEAR {
            return None;
        }
        let year = self.year - 1;
        Some(Date {
            niche: crate::proved::memory::Niche::Here,
            year,
            ordinal: days_in_year(year),
        })
    }

    /// The date plus the whole days of a duration, rounded towards zero. None if out of range.
    ///
    /// ```
    /// # use muxandu::proved::*;
    /// # fn main() -> Result<(), Box<dyn std::error::Error>> {
    /// let date = Date::from_calendar_date(2023, Month::December, 31)?;
    /// assert_eq!(
    ///     date.checked_add(SignedDuration::hours(47)),
    ///     Some(Date::from_calendar_date(2024, Month::January, 1)?)
    /// );
    /// assert_eq!(Date::MAX.checked_add(SignedDuration::DAY), None);
    /// # Ok(())
    /// # }
    /// ```
    ///
    /// # Contract
    ///
    /// ```text
    /// ensures { SomeDay result (self +ℤ whole_days_of duration) }
    /// ```
    ///
    /// [docs/proofs/STATEMENT.md](crate::proved#contracts) explains the words.
    #[inline]
    pub const fn checked_add(self, duration: SignedDuration) -> Option<Date> {
        self.checked_add_days(duration.whole_days())
    }

    /// The date minus the whole days of a duration, rounded towards zero. None if out of range.
    ///
    /// ```
    /// # use muxandu::proved::*;
    /// # fn main() -> Result<(), Box<dyn std::error::Error>> {
    /// let date = Date::from_calendar_date(2023, Month::December, 31)?;
    /// assert_eq!(
    ///     date.checked_sub(SignedDuration::WEEK),
    ///     Some(Date::from_calendar_date(2023, Month::December, 24)?)
    /// );
    /// assert_eq!(Date::MIN.checked_sub(SignedDuration::DAY), None);
    /// # Ok(())
    /// # }
    /// ```
    ///
    /// # Contract
    ///
    /// ```text
    /// ensures { SomeDay result (self -ℤ whole_days_of duration) }
    /// ```
    ///
    /// [docs/proofs/STATEMENT.md](crate::proved#contracts) explains the words.
    #[inline]
    pub const fn checked_sub(self, duration: SignedDuration) -> Option<Date> {
        self.checked_add_days(-duration.whole_days())
    }

    /// The date plus the whole days of a duration. None if out of range.
    ///
    /// ```
    /// # use muxandu::proved::*;
    /// # fn main() -> Result<(), Box<dyn std::error::Error>> {
    /// let date = Date::from_calendar_date(2023, Month::December, 31)?;
    /// assert_eq!(
    ///     date.checked_add_std(std::time::Duration::from_secs(86_400)),
    ///     Some(Date::from_calendar_date(2024, Month::January, 1)?)
    /// );
    /// # Ok(())
    /// # }
    /// ```
    ///
    /// # Contract
    ///
    /// ```text
    /// ensures { SomeDay result (self +ℤ pos (as_nanos duration / nanos_per_day)) }
    /// ```
    ///
    /// [docs/proofs/STATEMENT.md](crate::proved#contracts) explains the words.
    #[inline]
    pub const fn checked_add_std(self, duration: Duration) -> Option<Date> {
        self.checked_add_days((duration.as_secs() / SECONDS_PER_DAY as u64) as i64)
    }

    /// The date minus the whole days of a duration. None if out of range.
    ///
    /// ```
    /// # use muxandu::proved::*;
    /// # fn main() -> Result<(), Box<dyn std::error::Error>> {
    /// let date = Date::from_calendar_date(2023, Month::December, 31)?;
    /// assert_eq!(
    ///     date.checked_sub_std(std::time::Duration::from_secs(86_400)),
    ///     Some(Date::from_calendar_date(2023, Month::December, 30)?)
    /// );
    /// # Ok(())
    /// # }
    /// ```
    ///
    /// # Contract
    ///
    /// ```text
    /// ensures { SomeDay result (self -ℤ pos (as_nanos duration / nanos_per_day)) }
    /// ```
    ///
    /// [docs/proofs/STATEMENT.md](crate::proved#contracts) explains the words.
    #[inline]
    pub const fn checked_sub_std(self, duration: Duration) -> Option<Date> {
        self.checked_add_days(-((duration.as_secs() / SECONDS_PER_DAY as u64) as i64))
    }

    /// The date a number of days later, or earlier for a negative number. None if out of range.
    ///
    /// ```
    /// # use muxandu::proved::*;
    /// # fn main() -> Result<(), Box<dyn std::error::Error>> {
    /// let date = Date::from_calendar_date(2023, Month::December, 31)?;
    /// assert_eq!(
    ///     date.checked_add_days(-365),
    ///     Some(Date::from_calendar_date(2022, Month::December, 31)?)
    /// );
    /// assert_eq!(Date::MAX.checked_add_days(1), None);
    /// # Ok(())
    /// # }
    /// ```
    ///
    /// # Contract
    ///
    /// ```text
    /// ensures { SomeDay result (self +ℤ days) }
    /// ```
    ///
    /// [docs/proofs/STATEMENT.md](crate::proved#contracts) explains the words.
    #[inline]
    pub const fn checked_add_days(self, days: i64) -> Option<Date> {
        let ordinal = self.ordinal as i64;
        if days < -DAYS_OF_RANGE || days > DAYS_OF_RANGE {
            return None;
        }
        // Most dates are of the same year.
        let ordinal = ordinal + days;
        if ordinal >= 1 && ordinal <= 365 {
            return Some(Date {
                niche: crate::proved::memory::Niche::Here,
                year: self.year,
                ordinal: ordinal as u16,
            });
        }
        Date::from_days_since_epoch(self.days_since_epoch() + days as i32)
    }
}
