// Made by make/erase of crates/plain_times/src/plain_date_time/reads.rt. Do not edit.
//! The parts of a plain date-time.
use crate::proved::plain_times::PlainDateTime;
use crate::proved::calendar_values::{Date, Month, Time, Weekday};

impl PlainDateTime {
    /// The date.
    ///
    /// ```
    /// # use muxandu::proved::*;
    /// # fn main() -> Result<(), Box<dyn std::error::Error>> {
    /// let date = Date::from_calendar_date(2019, Month::December, 30)?;
    /// let at = PlainDateTime::new(date, Time::MIDNIGHT);
    /// assert_eq!(at.date(), date);
    /// # Ok(())
    /// # }
    /// ```
    ///
    /// # Contract
    ///
    /// ```text
    /// ensures value { result ≡ wall_day self }
    /// ensures self_in_range { IsWallClock self }
    /// ```
    ///
    /// [docs/proofs/STATEMENT.md](crate::proved#contracts) explains the words.
    #[inline]
    pub const fn date(self) -> Date {
        self.date
    }

    /// The time of day.
    ///
    /// ```
    /// # use muxandu::proved::*;
    /// # fn main() -> Result<(), Box<dyn std::error::Error>> {
    /// let time = Time::from_hms_nano(13, 2, 59, 480_300_002)?;
    /// let at = PlainDateTime::new(Date::from_calendar_date(2019, Month::December, 30)?, time);
    /// assert_eq!(at.time(), time);
    /// # Ok(())
    /// # }
    /// ```
    ///
    /// # Contract
    ///
    /// ```text
    /// ensures value { result ≡ wall_time self }
    /// ensures self_in_range { IsWallClock self }
    /// ```
    ///
    /// [docs/proofs/STATEMENT.md](crate::proved#contracts) explains the words.
    #[inline]
    pub const fn time(self) -> Time {
        self.time
    }

    /// As [`Date::year`] of the date.
    ///
    /// ```
    /// # use muxandu::proved::*;
    /// # fn main() -> Result<(), Box<dyn std::error::Error>> {
    /// let date = Date::from_calendar_date(2019, Month::December, 30)?;
    /// let at = PlainDateTime::new(date, Time::MIDNIGHT);
    /// assert_eq!(at.year(), 2019);
    /// # Ok(())
    /// # }
    /// ```
    ///
    /// # Contract
    ///
    /// ```text
    /// ensures value { result ≡ year_of (wall_day self) }
    /// ensures in_range { IsYear result }
    /// ```
    ///
    /// [docs/proofs/STATEMENT.md](crate::proved#contracts) explains the words.
    #[inline]
    pub const fn year(self) -> i32 {
        self.date().year()
    }

    /// As [`Date::month`] of the date.
    ///
    /// ```
    /// # use muxandu::proved::*;
    /// # fn main() -> Result<(), Box<dyn std::error::Error>> {
    /// let date = Date::from_calendar_date(2019, Month::December, 30)?;
    /// let at = PlainDateTime::new(date, Time::MIDNIGHT);
    /// assert_eq!(at.month(), Month::December);
    /// # Ok(())
    /// # }
    /// ```
    ///
    /// # Contract
    ///
    /// ```text
    /// ensures { month_number result ≡ month_of (wall_day self) }
    /// ```
    ///
    /// [docs/proofs/STATEMENT.md](crate::proved#contracts) explains the words.
    #[inline]
    pub const fn month(self) -> Month {
        self.date().month()
    }

    /// As [`Date::day`] of the date.
    ///
    /// ```
    /// # use muxandu::proved::*;
    /// # fn main() -> Result<(), Box<dyn std::error::Error>> {
    /// let date = Date::from_calendar_date(2019, Month::December, 30)?;
    /// let at = PlainDateTime::new(date, Time::MIDNIGHT);
    /// assert_eq!(at.day(), 30);
    /// # Ok(())
    /// # }
    /// ```
    ///
    /// # Contract
    ///
    /// ```text
    /// ensures value { result ≡ day_of_month_of (wall_day self) }
    /// ensures in_range { IsInRange 1 31 result }
    /// ```
    ///
    /// [docs/proofs/STATEMENT.md](crate::proved#contracts) explains the words.
    #[inline]
    pub const fn day(self) -> u8 {
        self.date().day()
    }

    /// As [`Date::ordinal`] of the date.
    ///
    /// ```
    /// # use muxandu::proved::*;
    /// # fn main() -> Result<(), Box<dyn std::error::Error>> {
    /// let date = Date::from_calendar_date(2019, Month::December, 30)?;
    /// let at = PlainDateTime::new(date, Time::MIDNIGHT);
    /// assert_eq!(at.ordinal(), 364);
    /// # Ok(())
    /// # }
    /// ```
    ///
    /// # Contract
    ///
    /// ```text
    /// ensures value { result ≡ ordinal_of (wall_day self) }
    /// ensures in_range { IsInRange 1 366 result }
    /// ```
    ///
    /// [docs/proofs/STATEMENT.md](crate::proved#contracts) explains the words.
    #[inline]
    pub const fn ordinal(self) -> u16 {
        self.date().ordinal()
    }

    /// As [`Date::iso_week`] of the date.
    ///
    /// ```
    /// # use muxandu::proved::*;
    /// # fn main() -> Result<(), Box<dyn std::error::Error>> {
    /// let date = Date::from_calendar_date(2019, Month::December, 30)?;
    /// let at = PlainDateTime::new(date, Time::MIDNIGHT);
    /// assert_eq!(at.iso_week(), 1);
    /// # Ok(())
    /// # }
    /// ```
    ///
    /// # Contract
    ///
    /// ```text
    /// ensures value { result ≡ iso_week_of (wall_day self) }
    /// ensures in_range { IsInRange 1 53 result }
    /// ```
    ///
    /// [docs/proofs/STATEMENT.md](crate::proved#contracts) explains the words.
    #[inline]
    pub const fn iso_week(self) -> u8 {
        self.date().iso_week()
    }

    /// As [`Date::sunday_based_week`] of the date.
    ///
    /// ```
    /// # use muxandu::proved::*;
    /// # fn main() -> Result<(), Box<dyn std::error::Error>> {
    /// let date = Date::from_calendar_date(2019, Month::December, 30)?;
    /// let at = PlainDateTime::new(date, Time::MIDNIGHT);
    /// assert_eq!(at.sunday_based_week(), 52);
    /// # Ok(())
    /// # }
    /// ```
    ///
    /// # Contract
    ///
    /// ```text
    /// ensures value { result ≡ sunday_week_of (wall_day self) }
    /// ensures in_range { result ≤ 53 }
    /// ```
    ///
    /// [docs/proofs/STATEMENT.md](crate::proved#contracts) explains the words.
    #[inline]
    pub const fn sunday_based_week(self) -> u8 {
        self.date().sunday_based_week()
    }

    /// As [`Date::monday_based_week`] of the date.
    ///
    /// ```
    /// # use muxandu::proved::*;
    /// # fn main() -> Result<(), Box<dyn std::error::Error>> {
    /// let date = Date::from_calendar_date(2019, Month::December, 30)?;
    /// let at = PlainDateTime::new(date, Time::MIDNIGHT);
    /// assert_eq!(at.monday_based_week(), 52);
    /// # Ok(())
    /// # }
    /// ```
    ///
    /// # Contract
    ///
    /// ```text
    /// ensures value { result ≡ monday_week_of (wall_day self) }
    /// ensures in_range { result ≤ 53 }
    /// ```
    ///
    /// [docs/proofs/STATEMENT.md](crate::proved#contracts) explains the words.
    #[inline]
    pub const fn monday_based_week(self) -> u8 {
        self.date().monday_based_week()
    }

    /// As [`Date::to_calendar_date`] of the date.
    ///
    /// ```
    /// # use muxandu::proved::*;
    /// # fn main() -> Result<(), Box<dyn std::error::Error>> {
    /// let date = Date::from_calendar_date(2019, Month::December, 30)?;
    /// let at = PlainDateTime::new(date, Time::MIDNIGHT);
    /// assert_eq!(at.to_calendar_date(), (2019, Month::December, 30));
    /// # Ok(())
    /// # }
    /// ```
    ///
    /// # Contract
    ///
    /// ```text
    /// ensures { IsCalendarDateOf (wall_day self) result }
    /// ```
    ///
    /// [docs/proofs/STATEMENT.md](crate::proved#contracts) explains the words.
    #[inline]
    pub const fn to_calendar_date(self) -> (i32, Month, u8) {
        self.date().to_calendar_date()
    }

    /// As [`Date::to_ordinal_date`] of the date.
    ///
    /// ```
    /// # use muxandu::proved::*;
    /// # fn main() -> Result<(), Box<dyn std::error::Error>> {
    /// let date = Date::from_calendar_date(2019, Month::December, 30)?;
    /// let at = PlainDateTime::new(date, Time::MIDNIGHT);
    /// assert_eq!(at.to_ordinal_date(), (2019, 364));
    /// # Ok(())
    /// # }
    /// ```
    ///
    /// # Contract
    ///
    /// ```text
    /// ensures { IsOrdinalDateOf (wall_day self) result }
    /// ```
    ///
    /// [docs/proofs/STATEMENT.md](crate::proved#contracts) explains the words.
    #[inline]
    pub const fn to_ordinal_date(self) -> (i32, u16) {
        self.date().to_ordinal_date()
    }

    /// As [`Date::to_iso_week_date`] of the date.
    ///
    /// ```
    /// # use muxandu::proved::*;
    /// # fn main() -> Result<(), Box<dyn std::error::Error>> {
    /// let date = Date::from_calendar_date(2019, Month::December, 30)?;
    /// let at = PlainDateTime::new(date, Time::MIDNIGHT);
    /// assert_eq!(at.to_iso_week_date(), (2020, 1, Weekday::Monday));
    /// # Ok(())
    /// # }
    /// ```
    ///
    /// # Contract
    ///
    /// ```text
    /// ensures { IsIsoWeekDateOf (wall_day self) result }
    /// ```
    ///
    /// [docs/proofs/STATEMENT.md](crate::proved#contracts) explains the words.
    #[inline]
    pub const fn to_iso_week_date(self) -> (i32, u8, Weekday) {
        self.date().to_iso_week_date()
    }

    /// As [`Date::weekday`] of the date.
    ///
    /// ```
    /// # use muxandu::proved::*;
    /// # fn main() -> Result<(), Box<dyn std::error::Error>> {
    /// let date = Date::from_calendar_date(2019, Month::December, 30)?;
    /// let at = PlainDateTime::new(date, Time::MIDNIGHT);
    /// assert_eq!(at.weekday(), Weekday::Monday);
    /// # Ok(())
    /// # }
    /// ```
    ///
    /// # Contract
    ///
    /// ```text
    /// ensures { weekday_number result ≡ weekday_of (wall_day self) }
    /// ```
    ///
    /// [docs/proofs/STATEMENT.md](crate::proved#contracts) explains the words.
    #[inline]
    pub const fn weekday(self) -> Weekday {
        self.date().weekday()
    }

    /// As [`Date::to_julian_day`] of the date.
    ///
    /// ```
    /// # use muxandu::proved::*;
    /// # fn main() -> Result<(), Box<dyn std::error::Error>> {
    /// let date = Date::from_calendar_date(2019, Month::December, 30)?;
    /// let at = PlainDateTime::new(date, Time::MIDNIGHT);
    /// assert_eq!(at.to_julian_day(), 2_458_848);
    /// # Ok(())
    /// # }
    /// ```
    ///
    /// # Contract
    ///
    /// ```text
    /// ensures value { result ≡ julian_day_of (wall_day self) }
    /// ensures self_in_range { IsWallClock self }
    /// ```
    ///
    /// [docs/proofs/STATEMENT.md](crate::proved#contracts) explains the words.
    #[inline]
    pub const fn to_julian_day(self) -> i32 {
        self.date().to_julian_day()
    }

    /// As [`Time::as_hms`] of the time of day.
    ///
    /// ```
    /// # use muxandu::proved::*;
    /// # fn main() -> Result<(), Box<dyn std::error::Error>> {
    /// let time = Time::from_hms_nano(13, 2, 59, 480_300_002)?;
    /// let at = PlainDateTime::new(Date::from_calendar_date(2019, Month::December, 30)?, time);
    /// assert_eq!(at.as_hms(), (13, 2, 59));
    /// # Ok(())
    /// # }
    /// ```
    ///
    /// # Contract
    ///
    /// ```text
    /// ensures value { let c = wall_time self in result ≡ (hour_of c, minute_of c, second_of c) }
    /// ensures in_range { AreTimeParts result.0 result.1 result.2 0 }
    /// ```
    ///
    /// [docs/proofs/STATEMENT.md](crate::proved#contracts) explains the words.
    #[inline]
    pub const fn as_hms(self) -> (u8, u8, u8) {
        self.time().as_hms()
    }

    /// As [`Time::as_hms_milli`] of the time of day.
    ///
    /// ```
    /// # use muxandu::proved::*;
    /// # fn main() -> Result<(), Box<dyn std::error::Error>> {
    /// let time = Time::from_hms_nano(13, 2, 59, 480_300_002)?;
    /// let at = PlainDateTime::new(Date::from_calendar_date(2019, Month::December, 30)?, time);
    /// assert_eq!(at.as_hms_milli(), (13, 2, 59, 480));
    /// # Ok(())
    /// # }
    /// ```
    ///
    /// # Contract
    ///
    /// ```text
    /// ensures value { let c = wall_time self in
    ///     result ≡ (hour_of c, minute_of c, second_of c, millisecond_of c) }
    /// ensures in_range { AreTimeParts result.0 result.1 result.2
    ///     (result.3 * nanos_per_millisecond) }
    /// ```
    ///
    /// [docs/proofs/STATEMENT.md](crate::proved#contracts) explains the words.
    #[inline]
    pub const fn as_hms_milli(self) -> (u8, u8, u8, u16) {
        self.time().as_hms_milli()
    }

    /// As [`Time::as_hms_micro`] of the time of day.
    ///
    /// ```
    /// # use muxandu::proved::*;
    /// # fn main() -> Result<(), Box<dyn std::error::Error>> {
    /// let time = Time::from_hms_nano(13, 2, 59, 480_300_002)?;
    /// let at = PlainDateTime::new(Date::from_calendar_date(2019, Month::December, 30)?, time);
    /// assert_eq!(at.as_hms_micro(), (13, 2, 59, 480_300));
    /// # Ok(())
    /// # }
    /// ```
    ///
    /// # Contract
    ///
    /// ```text
    /// ensures value { let c = wall_time self in
    ///     result ≡ (hour_of c, minute_of c, second_of c, microsecond_of c) }
    /// ensures in_range { AreTimeParts result.0 result.1 result.2
    ///     (result.3 * nanos_per_microsecond) }
    /// ```
    ///
    /// [docs/proofs/STATEMENT.md](crate::proved#contracts) explains the words.
    #[inline]
    pub const fn as_hms_micro(self) -> (u8, u8, u8, u32) {
        self.time().as_hms_micro()
    }

    /// As [`Time::as_hms_nano`] of the time of day.
    ///
    /// ```
    /// # use muxandu::proved::*;
    /// # fn main() -> Result<(), Box<dyn std::error::Error>> {
    /// let time = Time::from_hms_nano(13, 2, 59, 480_300_002)?;
    /// let at = PlainDateTime::new(Date::from_calendar_date(2019, Month::December, 30)?, time);
    /// assert_eq!(at.as_hms_nano(), (13, 2, 59, 480_300_002));
    /// # Ok(())
    /// # }
    /// ```
    ///
    /// # Contract
    ///
    /// ```text
    /// ensures value { let c = wall_time self in
    ///     result ≡ (hour_of c, minute_of c, second_of c, nanosecond_of c) }
    /// ensures in_range { AreTimeParts result.0 result.1 result.2 result.3 }
    /// ```
    ///
    /// [docs/proofs/STATEMENT.md](crate::proved#contracts) explains the words.
    #[inline]
    pub const fn as_hms_nano(self) -> (u8, u8, u8, u32) {
        self.time().as_hms_nano()
    }

    /// As [`Time::hour`] of the time of day.
    ///
    /// ```
    /// # use muxandu::proved::*;
    /// # fn main() -> Result<(), Box<dyn std::error::Error>> {
    /// let time = Time::from_hms_nano(13, 2, 59, 480_300_002)?;
    /// let at = PlainDateTime::new(Date::from_calendar_date(2019, Month::December, 30)?, time);
    /// assert_eq!(at.hour(), 13);
    /// # Ok(())
    /// # }
    /// ```
    ///
    /// # Contract
    ///
    /// ```text
    /// ensures value { result ≡ hour_of (wall_time self) }
    /// ensures in_range { result ≤ 23 }
    /// ```
    ///
    /// [docs/proofs/STATEMENT.md](crate::proved#contracts) explains the words.
    #[inline]
    pub const fn hour(self) -> u8 {
        self.time().hour()
    }

    /// As [`Time::minute`] of the time of day.
    ///
    /// ```
    /// # use muxandu::proved::*;
    /// # fn main() -> Result<(), Box<dyn std::error::Error>> {
    /// let time = Time::from_hms_nano(13, 2, 59, 480_300_002)?;
    /// let at = PlainDateTime::new(Date::from_calendar_date(2019, Month::December, 30)?, time);
    /// assert_eq!(at.minute(), 2);
    /// # Ok(())
    /// # }
    /// ```
    ///
    /// # Contract
    ///
    /// ```text
    /// ensures value { result ≡ minute_of (wall_time self) }
    /// ensures in_range { result ≤ 59 }
    /// ```
    ///
    /// [docs/proofs/STATEMENT.md](crate::proved#contracts) explains the words.
    #[inline]
    pub const fn minute(self) -> u8 {
        self.time().minute()
    }

    /// As [`Time::second`] of the time of day.
    ///
    /// ```
    /// # use muxandu::proved::*;
    /// # fn main() -> Result<(), Box<dyn std::error::Error>> {
    /// let time = Time::from_hms_nano(13, 2, 59, 480_300_002)?;
    /// let at = PlainDateTime::new(Date::from_calendar_date(2019, Month::December, 30)?, time);
    /// assert_eq!(at.second(), 59);
    /// # Ok(())
    /// # }
    /// ```
    ///
    /// # Contract
    ///
    /// ```text
    /// ensures value { result ≡ second_of (wall_time self) }
    /// ensures in_range { result ≤ 59 }
    /// ```
    ///
    /// [docs/proofs/STATEMENT.md](crate::proved#contracts) explains the words.
    #[inline]
    pub const fn second(self) -> u8 {
        self.time().second()
    }

    /// As [`Time::millisecond`] of the time of day.
    ///
    /// ```
    /// # use muxandu::proved::*;
    /// # fn main() -> Result<(), Box<dyn std::error::Error>> {
    /// let time = Time::from_hms_nano(13, 2, 59, 480_300_002)?;
    /// let at = PlainDateTime::new(Date::from_calendar_date(2019, Month::December, 30)?, time);
    /// assert_eq!(at.millisecond(), 480);
    /// # Ok(())
    /// # }
    /// ```
    ///
    /// # Contract
    ///
    /// ```text
    /// ensures value { result ≡ millisecond_of (wall_time self) }
    /// ensures in_range { result ≤ 999 }
    /// ```
    ///
    /// [docs/proofs/STATEMENT.md](crate::proved#contracts) explains the words.
    #[inline]
    pub const fn millisecond(self) -> u16 {
        self.time().millisecond()
    }

    /// As [`Time::microsecond`] of the time of day.
    ///
    /// ```
    /// # use muxandu::proved::*;
    /// # fn main() -> Result<(), Box<dyn std::error::Error>> {
    /// let time = Time::from_hms_nano(13, 2, 59, 480_300_002)?;
    /// let at = PlainDateTime::new(Date::from_calendar_date(2019, Month::December, 30)?, time);
    /// assert_eq!(at.microsecond(), 480_300);
    /// # Ok(())
    /// # }
    /// ```
    ///
    /// # Contract
    ///
    /// ```text
    /// ensures value { result ≡ microsecond_of (wall_time self) }
    /// ensures in_range { result ≤ 999_999 }
    /// ```
    ///
    /// [docs/proofs/STATEMENT.md](crate::proved#contracts) explains the words.
    #[inline]
    pub const fn microsecond(self) -> u32 {
        self.time().microsecond()
    }

    /// As [`Time::nanosecond`] of the time of day.
    ///
    /// ```
    /// # use muxandu::proved::*;
    /// # fn main() -> Result<(), Box<dyn std::error::Error>> {
    /// let time = Time::from_hms_nano(13, 2, 59, 480_300_002)?;
    /// let at = PlainDateTime::new(Date::from_calendar_date(2019, Month::December, 30)?, time);
    /// assert_eq!(at.nanosecond(), 480_300_002);
    /// # Ok(())
    /// # }
    /// ```
    ///
    /// # Contract
    ///
    /// ```text
    /// ensures value { result ≡ nanosecond_of (wall_time self) }
    /// ensures in_range { result ≤ 999_999_999 }
    /// ```
    ///
    /// [docs/proofs/STATEMENT.md](crate::proved#contracts) explains the words.
    #[inline]
    pub const fn nanosecond(self) -> u32 {
        self.time().nanosecond()
    }
}
