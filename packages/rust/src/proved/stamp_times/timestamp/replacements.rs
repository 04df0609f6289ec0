// Made by make/erase of crates/stamp_times/src/timestamp/replacements.rt. Do not edit.
//! A timestamp with a part of its date or of its time of day replaced, in UTC.
use crate::proved::stamp_times::Timestamp;
use crate::proved::calendar_values::units::SECONDS_PER_DAY;
use crate::proved::calendar_values::{ComponentRange, Date, Month, Part, Time};

impl Timestamp {
    /// The same date in UTC at another time of day.
    ///
    /// ```
    /// # use muxandu::proved::*;
    /// # fn main() -> Result<(), Box<dyn std::error::Error>> {
    /// let at = Timestamp::from_seconds(1_709_164_800)?;
    /// let noon = Time::from_hms(12, 0, 0)?;
    /// assert_eq!(at.replace_time(noon).time(), noon);
    /// assert_eq!(at.replace_time(noon).day(), 29);
    /// # Ok(())
    /// # }
    /// ```
    ///
    /// # Contract
    ///
    /// ```text
    /// ensures { ReplacesTime self time result }
    /// ```
    ///
    /// [docs/proofs/STATEMENT.md](crate::proved#contracts) explains the words.
    #[inline]
    pub const fn replace_time(self, time: Time) -> Timestamp {
        instant_on_day(self.day_number(), time.second_of_day(), time.nanosecond())
    }

    /// The same time of day in UTC on another date.
    ///
    /// ```
    /// # use muxandu::proved::*;
    /// # fn main() -> Result<(), Box<dyn std::error::Error>> {
    /// let at = Timestamp::new(1_577_710_979, 480_300_002)?;
    /// assert_eq!(
    ///     at.replace_date(Date::from_calendar_date(2024, Month::February, 29)?).as_hms(),
    ///     (13, 2, 59)
    /// );
    /// # Ok(())
    /// # }
    /// ```
    ///
    /// # Contract
    ///
    /// ```text
    /// ensures { ReplacesDate self date result }
    /// ```
    ///
    /// [docs/proofs/STATEMENT.md](crate::proved#contracts) explains the words.
    #[inline]
    pub const fn replace_date(self, date: Date) -> Timestamp {
        instant_on_day(
            date.days_since_epoch(),
            self.second_of_day(),
            self.nanosecond(),
        )
    }

    /// As [`Date::replace_year`], of the day in UTC, with the time of day kept.
    ///
    /// ```
    /// # use muxandu::proved::*;
    /// # fn main() -> Result<(), Box<dyn std::error::Error>> {
    /// let at = Timestamp::from_seconds(1_709_164_800)?;
    /// assert_eq!(at.replace_year(2028)?.to_ordinal_date(), (2028, 60));
    /// assert_eq!(at.replace_year(2023), Err(ComponentRange::new("day", true)));
    /// # Ok(())
    /// # }
    /// ```
    ///
    /// # Contract
    ///
    /// ```text
    /// ensures value { Gives result (wall_year_outcome self year) }
    /// ensures shown { IfOk result (ShowsYear self year) }
    /// ```
    ///
    /// [docs/proofs/STATEMENT.md](crate::proved#contracts) explains the words.
    #[inline]
    pub const fn replace_year(self, year: i32) -> Result<Timestamp, ComponentRange> {
        match self.date().replace_year(year) {
            Ok(date) => Ok(self.replace_date(date)),
            Err(refusal) => Err(refusal),
        }
    }

    /// As [`Date::replace_month`], of the day in UTC, with the time of day kept.
    ///
    /// ```
    /// # use muxandu::proved::*;
    /// # fn main() -> Result<(), Box<dyn std::error::Error>> {
    /// let at = Timestamp::from_seconds(1_706_659_200)?;
    /// assert_eq!(at.replace_month(Month::March)?.ordinal(), 91);
    /// assert_eq!(at.replace_month(Month::April), Err(ComponentRange::new("day", true)));
    /// # Ok(())
    /// # }
    /// ```
    ///
    /// # Contract
    ///
    /// ```text
    /// ensures value { Gives result (wall_month_outcome self (month_number month)) }
    /// ensures shown { IfOk result (ShowsMonth self (month_number month)) }
    /// ```
    ///
    /// [docs/proofs/STATEMENT.md](crate::proved#contracts) explains the words.
    #[inline]
    pub const fn replace_month(self, month: Month) -> Result<Timestamp, ComponentRange> {
        match self.date().replace_month(month) {
            Ok(date) => Ok(self.replace_date(date)),
            Err(refusal) => Err(refusal),
        }
    }

    /// As [`Date::replace_day`], of the day in UTC, with the time of day kept.
    ///
    /// ```
    /// # use muxandu::proved::*;
    /// # fn main() -> Result<(), Box<dyn std::error::Error>> {
    /// let at = Timestamp::from_seconds(1_709_164_800)?;
    /// assert_eq!(at.replace_day(1)?.ordinal(), 32);
    /// assert_eq!(at.replace_day(30), Err(ComponentRange::new("day", true)));
    /// # Ok(())
    /// # }
    /// ```
    ///
    /// # Contract
    ///
    /// ```text
    /// ensures value { Gives result (wall_day_outcome self day) }
    /// ensures shown { IfOk result (ShowsDay self day) }
    /// ```
    ///
    /// [docs/proofs/STATEMENT.md](crate::proved#contracts) explains the words.
    #[inline]
    pub const fn replace_day(self, day: u8) -> Result<Timestamp, ComponentRange> {
        match self.date().replace_day(day) {
            Ok(date) => Ok(self.replace_date(date)),
            Err(refusal) => Err(refusal),
        }
    }

    /// As [`Date::replace_ordinal`], of the day in UTC, with the time of day kept.
    ///
    /// ```
    /// # use muxandu::proved::*;
    /// # fn main() -> Result<(), Box<dyn std::error::Error>> {
    /// let at = Timestamp::from_seconds(1_709_164_800)?;
    /// assert_eq!(at.replace_ordinal(366)?.to_calendar_date(), (2024, Month::December, 31));
    /// assert_eq!(at.replace_ordinal(367), Err(ComponentRange::new("ordinal", false)));
    /// # Ok(())
    /// # }
    /// ```
    ///
    /// # Contract
    ///
    /// ```text
    /// ensures value { Gives result (wall_ordinal_outcome self ordinal) }
    /// ensures shown { IfOk result (ShowsOrdinal self ordinal) }
    /// ```
    ///
    /// [docs/proofs/STATEMENT.md](crate::proved#contracts) explains the words.
    #[inline]
    pub const fn replace_ordinal(self, ordinal: u16) -> Result<Timestamp, ComponentRange> {
        match self.date().replace_ordinal(ordinal) {
            Ok(date) => Ok(self.replace_date(date)),
            Err(refusal) => Err(refusal),
        }
    }

    /// As [`Time::replace_hour`], of the time of day in UTC, with the date kept.
    ///
    /// ```
    /// # use muxandu::proved::*;
    /// # fn main() -> Result<(), Box<dyn std::error::Error>> {
    /// let at = Timestamp::new(1_577_710_979, 480_300_002)?;
    /// assert_eq!(at.replace_hour(0)?.as_hms_nano(), (0, 2, 59, 480_300_002));
    /// assert_eq!(at.replace_hour(24), Err(ComponentRange::new("hour", false)));
    /// # Ok(())
    /// # }
    /// ```
    ///
    /// # Contract
    ///
    /// ```text
    /// ensures value { Gives result (wall_hour_outcome self hour) }
    /// ensures shown { IfOk result (ShowsHour self hour) }
    /// ```
    ///
    /// [docs/proofs/STATEMENT.md](crate::proved#contracts) explains the words.
    #[inline]
    pub const fn replace_hour(self, hour: u8) -> Result<Timestamp, ComponentRange> {
        match self.time().replace_hour(hour) {
            Ok(time) => Ok(self.replace_time(time)),
            Err(refusal) => Err(refusal),
        }
    }

    /// As [`Time::replace_minute`], of the time of day in UTC, with the date kept.
    ///
    /// ```
    /// # use muxandu::proved::*;
    /// # fn main() -> Result<(), Box<dyn std::error::Error>> {
    /// let at = Timestamp::new(1_577_710_979, 480_300_002)?;
    /// assert_eq!(at.replace_minute(30)?.as_hms_nano(), (13, 30, 59, 480_300_002));
    /// assert_eq!(at.replace_minute(60), Err(ComponentRange::new("minute", false)));
    /// # Ok(())
    /// # }
    /// ```
    ///
    /// # Contract
    ///
    /// ```text
    /// ensures value { Gives result (wall_minute_outcome self minute) }
    /// ensures shown { IfOk result (ShowsMinute self minute) }
    /// ```
    ///
    /// [docs/proofs/STATEMENT.md](crate::proved#contracts) explains the words.
    #[inline]
    pub const fn replace_minute(self, minute: u8) -> Result<Timestamp, ComponentRange> {
        match self.time().replace_minute(minute) {
            Ok(time) => Ok(self.replace_time(time)),
            Err(refusal) => Err(refusal),
        }
    }

    /// As [`Time::replace_second`], of the time of day in UTC, with the date kept.
    ///
    /// ```
    /// # use muxandu::proved::*;
    /// # fn main() -> Result<(), Box<dyn std::error::Error>> {
    /// let at = Timestamp::new(1_577_710_979, 480_300_002)?;
    /// assert_eq!(at.replace_second(0)?.as_hms_nano(), (13, 2, 0, 480_300_002));
    /// assert_eq!(at.replace_second(60), Err(ComponentRange::new("second", false)));
    /// # Ok(())
    /// # }
    /// ```
    ///
    /// # Contract
    ///
    /// ```text
    /// ensures value { Gives result (wall_second_outcome self second) }
    /// ensures shown { IfOk result (ShowsSecond self second) }
    /// ```
    ///
    /// [docs/proofs/STATEMENT.md](crate::proved#contracts) explains the words.
    #[inline]
    pub const fn replace_second(self, second: u8) -> Result<Timestamp, ComponentRange> {
        match self.time().replace_second(second) {
            Ok(time) => Ok(self.replace_time(time)),
            Err(refusal) => Err(refusal),
        }
    }

    /// As [`Time::replace_millisecond`], of the time of day in UTC, with the date kept: the Unix
    /// second is kept, before 1970 too.
    ///
    /// ```
    /// # use muxandu::proved::*;
    /// # fn main() -> Result<(), Box<dyn std::error::Error>> {
    /// let at = Timestamp::new(1_577_710_979, 480_300_002)?;
    /// assert_eq!(at.replace_millisecond(7)?.as_hms_nano(), (13, 2, 59, 7_000_000));
    /// assert_eq!(
    ///     at.replace_millisecond(1_000),
    ///     Err(ComponentRange::new("millisecond", false))
    /// );
    /// # Ok(())
    /// # }
    /// ```
    ///
    /// # Contract
    ///
    /// ```text
    /// ensures value { Gives result (wall_millisecond_outcome self millisecond) }
    /// ensures shown { IfOk result (ShowsMillisecond self millisecond) }
    /// ```
    ///
    /// [docs/proofs/STATEMENT.md](crate::proved#contracts) explains the words.
    #[inline]
    pub const fn replace_millisecond(self, millisecond: u16) -> Result<Timestamp, ComponentRange> {
        if millisecond > 999 {
            return Err(ComponentRange::of_part(Part::Millisecond, false));
        }
        Ok(self.with_nanosecond(millisecond as u32 * 1_000_000))
    }

    /// As [`Time::replace_microsecond`], of the time of day in UTC, with the date kept: the Unix
    /// second is kept, before 1970 too.
    ///
    /// ```
    /// # use muxandu::proved::*;
    /// # fn main() -> Result<(), Box<dyn std::error::Error>> {
    /// let at = Timestamp::new(1_577_710_979, 480_300_002)?;
    /// assert_eq!(at.replace_microsecond(7)?.as_hms_nano(), (13, 2, 59, 7_000));
    /// assert_eq!(
    ///     at.replace_microsecond(1_000_000),
    ///     Err(ComponentRange::new("microsecond", false))
    /// );
    /// # Ok(())
    /// # }
    /// ```
    ///
    /// # Contract
    ///
    /// ```text
    /// ensures value { Gives result (wall_microsecond_outcome self microsecond) }
    /// ensures shown { IfOk result (ShowsMicrosecond self microsecond) }
    /// ```
    ///
    /// [docs/proofs/STATEMENT.md](crate::proved#contracts) explains the words.
    #[inline]
    pub const fn replace_microsecond(self, microsecond: u32) -> Result<Timestamp, ComponentRange> {
        if microsecond > 999_999 {
            return Err(ComponentRange::of_part(Part::Microsecond, false));
        }
        Ok(self.with_nanosecond(microsecond * 1_000))
    }

    /// As [`Time::replace_nanosecond`], of the time of day in UTC, with the date kept: the Unix
    /// second is kept, before 1970 too.
    ///
    /// ```
    /// # use muxandu::proved::*;
    /// # fn main() -> Result<(), Box<dyn std::error::Error>> {
    /// let at = Timestamp::new(1_577_710_979, 480_300_002)?;
    /// assert_eq!(at.replace_nanosecond(7)?.as_hms_nano(), (13, 2, 59, 7));
    /// assert_eq!(
    ///     at.replace_nanosecond(1_000_000_000),
    ///     Err(ComponentRange::new("nanosecond", false))
    /// );
    /// # Ok(())
    /// # }
    /// ```
    ///
    /// # Contract
    ///
    /// ```text
    /// ensures value { Gives result (wall_nanosecond_outcome self nanosecond) }
    /// ensures shown { IfOk result (ShowsNanosecond self nanosecond) }
    /// ```
    ///
    /// [docs/proofs/STATEMENT.md](crate::proved#contracts) explains the words.
    #[inline]
    pub const fn replace_nanosecond(self, nanosecond: u32) -> Result<Timestamp, ComponentRange> {
        if nanosecond > 999_999_999 {
            return Err(ComponentRange::of_part(Part::Nanosecond, false));
        }
        Ok(self.with_nanosecond(nanosecond))
    }

    // The same second with another nanosecond.
    /// # Contract
    ///
    /// ```text
    /// requires { nanosecond < nanos_per_second }
    /// ensures { let c = wall_time self in result ≡
    ///     with_time self (clock_of_parts (hour_of c) (minute_of c) (second_of c) nanosecond) }
    /// ```
    ///
    /// [docs/proofs/STATEMENT.md](crate::proved#contracts) explains the words.
    #[inline]
    const fn with_nanosecond(self, nanosecond: u32) -> Timestamp {
        Timestamp { nanosecond, ..self }
    }
}

// The instant of a day, a second of the day and a nanosecond of the second.
/// # Contract
///
/// ```text
/// requires day { IsDay day }
/// requires second { second < 86_400 }
/// requires nanosecond { nanosecond < nanos_per_second }
/// ensures { result ≡ wall_clock day (second * nanos_per_second + nanosecond) }
/// ```
///
/// [docs/proofs/STATEMENT.md](crate::proved#contracts) explains the words.
#[inline]
const fn instant_on_day(day: i32, second: u32, nanosecond: u32) -> Timestamp {
    Timestamp {
        niche: crate::proved::memory::Niche::Here,
        seconds: day as i64 * SECONDS_PER_DAY + second as i64,
        nanosecond,
    }
}
