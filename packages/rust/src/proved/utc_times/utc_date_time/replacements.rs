// Made by make/erase of crates/utc_times/src/utc_date_time/replacements.rt. Do not edit.
//! Date-times in UTC with a part replaced, or truncated to a unit of time.
use crate::proved::utc_times::UtcDateTime;
use crate::proved::calendar_values::{ComponentRange, Date, Month, Time};
use crate::proved::plain_times::PlainDateTime;

impl UtcDateTime {
    /// The same date in UTC at another time of day.
    ///
    /// ```
    /// # use muxandu::proved::*;
    /// # fn main() -> Result<(), Box<dyn std::error::Error>> {
    /// let at = UtcDateTime::from_unix_timestamp(1_709_164_800)?;
    /// let noon = Time::from_hms(12, 0, 0)?;
    /// assert_eq!(at.replace_time(noon).time(), noon);
    /// assert_eq!(at.replace_time(noon).day(), 29);
    /// # Ok(())
    /// # }
    /// ```
    ///
    /// # Contract
    ///
    /// ```text
    /// ensures { ReplacesTime self time result }
    /// ```
    ///
    /// [docs/proofs/STATEMENT.md](crate::proved#contracts) explains the words.
    #[inline]
    pub const fn replace_time(self, time: Time) -> UtcDateTime {
        UtcDateTime::from_plain(self.as_plain().replace_time(time))
    }

    /// The same time of day in UTC on another date.
    ///
    /// ```
    /// # use muxandu::proved::*;
    /// # fn main() -> Result<(), Box<dyn std::error::Error>> {
    /// let at = UtcDateTime::from_unix_timestamp_nanos(1_577_710_979_480_300_002)?;
    /// assert_eq!(
    ///     at.replace_date(Date::from_calendar_date(2024, Month::February, 29)?).as_hms(),
    ///     (13, 2, 59)
    /// );
    /// # Ok(())
    /// # }
    /// ```
    ///
    /// # Contract
    ///
    /// ```text
    /// ensures { ReplacesDate self date result }
    /// ```
    ///
    /// [docs/proofs/STATEMENT.md](crate::proved#contracts) explains the words.
    #[inline]
    pub const fn replace_date(self, date: Date) -> UtcDateTime {
        UtcDateTime::from_plain(self.as_plain().replace_date(date))
    }

    /// As [`Date::replace_year`], of the day in UTC, with the time of day kept.
    ///
    /// ```
    /// # use muxandu::proved::*;
    /// # fn main() -> Result<(), Box<dyn std::error::Error>> {
    /// let at = UtcDateTime::from_unix_timestamp(1_709_164_800)?;
    /// assert_eq!(at.replace_year(2028)?.to_ordinal_date(), (2028, 60));
    /// assert_eq!(at.replace_year(2023), Err(ComponentRange::new("day", true)));
    /// # Ok(())
    /// # }
    /// ```
    ///
    /// # Contract
    ///
    /// ```text
    /// ensures value { Gives result (wall_year_outcome self year) }
    /// ensures shown { IfOk result (ShowsYear self year) }
    /// ```
    ///
    /// [docs/proofs/STATEMENT.md](crate::proved#contracts) explains the words.
    #[inline]
    pub const fn replace_year(self, year: i32) -> Result<UtcDateTime, ComponentRange> {
        UtcDateTime::or_refused(self.as_plain().replace_year(year))
    }

    /// As [`Date::replace_month`], of the day in UTC, with the time of day kept.
    ///
    /// ```
    /// # use muxandu::proved::*;
    /// # fn main() -> Result<(), Box<dyn std::error::Error>> {
    /// let at = UtcDateTime::from_unix_timestamp(1_706_659_200)?;
    /// assert_eq!(at.replace_month(Month::March)?.ordinal(), 91);
    /// assert_eq!(at.replace_month(Month::April), Err(ComponentRange::new("day", true)));
    /// # Ok(())
    /// # }
    /// ```
    ///
    /// # Contract
    ///
    /// ```text
    /// ensures value { Gives result (wall_month_outcome self (month_number month)) }
    /// ensures shown { IfOk result (ShowsMonth self (month_number month)) }
    /// ```
    ///
    /// [docs/proofs/STATEMENT.md](crate::proved#contracts) explains the words.
    #[inline]
    pub const fn replace_month(self, month: Month) -> Result<UtcDateTime, ComponentRange> {
        UtcDateTime::or_refused(self.as_plain().replace_month(month))
    }

    /// As [`Date::replace_day`], of the day in UTC, with the time of day kept.
    ///
    /// ```
    /// # use muxandu::proved::*;
    /// # fn main() -> Result<(), Box<dyn std::error::Error>> {
    /// let at = UtcDateTime::from_unix_timestamp(1_709_164_800)?;
    /// assert_eq!(at.replace_day(1)?.ordinal(), 32);
    /// assert_eq!(at.replace_day(30), Err(ComponentRange::new("day", true)));
    /// # Ok(())
    /// # }
    /// ```
    ///
    /// # Contract
    ///
    /// ```text
    /// ensures value { Gives result (wall_day_outcome self day) }
    /// ensures shown { IfOk result (ShowsDay self day) }
    /// ```
    ///
    /// [docs/proofs/STATEMENT.md](crate::proved#contracts) explains the words.
    #[inline]
    pub const fn replace_day(self, day: u8) -> Result<UtcDateTime, ComponentRange> {
        UtcDateTime::or_refused(self.as_plain().replace_day(day))
    }

    /// As [`Date::replace_ordinal`], of the day in UTC, with the time of day kept.
    ///
    /// ```
    /// # use muxandu::proved::*;
    /// # fn main() -> Result<(), Box<dyn std::error::Error>> {
    /// let at = UtcDateTime::from_unix_timestamp(1_709_164_800)?;
    /// assert_eq!(at.replace_ordinal(366)?.to_calendar_date(), (2024, Month::December, 31));
    /// assert_eq!(at.replace_ordinal(367), Err(ComponentRange::new("ordinal", false)));
    /// # Ok(())
    /// # }
    /// ```
    ///
    /// # Contract
    ///
    /// ```text
    /// ensures value { Gives result (wall_ordinal_outcome self ordinal) }
    /// ensures shown { IfOk result (ShowsOrdinal self ordinal) }
    /// ```
    ///
    /// [docs/proofs/STATEMENT.md](crate::proved#contracts) explains the words.
    #[inline]
    pub const fn replace_ordinal(self, ordinal: u16) -> Result<UtcDateTime, ComponentRange> {
        UtcDateTime::or_refused(self.as_plain().replace_ordinal(ordinal))
    }

    /// The first nanosecond of the day that it is in, in UTC.
    ///
    /// ```
    /// # use muxandu::proved::*;
    /// # fn main() -> Result<(), Box<dyn std::error::Error>> {
    /// let at = UtcDateTime::from_unix_timestamp_nanos(1_577_710_979_480_300_002)?;
    /// assert_eq!(at.truncate_to_day().as_hms_nano(), (0, 0, 0, 0));
    /// # Ok(())
    /// # }
    /// ```
    ///
    /// # Contract
    ///
    /// ```text
    /// ensures value { TruncatesTo nanos_per_day self result }
    /// ensures midnight { result ≡ wall_clock (wall_day self) 0 }
    /// ensures date { wall_day result ≡ wall_day self }
    /// ensures time { wall_time result ≡ 0 }
    /// ```
    ///
    /// [docs/proofs/STATEMENT.md](crate::proved#contracts) explains the words.
    #[inline]
    pub const fn truncate_to_day(self) -> UtcDateTime {
        UtcDateTime::from_plain(self.as_plain().truncate_to_day())
    }

    /// As [`Time::replace_hour`], of the time of day in UTC, with the date kept.
    ///
    /// ```
    /// # use muxandu::proved::*;
    /// # fn main() -> Result<(), Box<dyn std::error::Error>> {
    /// let at = UtcDateTime::from_unix_timestamp_nanos(1_577_710_979_480_300_002)?;
    /// assert_eq!(at.replace_hour(0)?.as_hms_nano(), (0, 2, 59, 480_300_002));
    /// assert_eq!(at.replace_hour(24), Err(ComponentRange::new("hour", false)));
    /// # Ok(())
    /// # }
    /// ```
    ///
    /// # Contract
    ///
    /// ```text
    /// ensures value { Gives result (wall_hour_outcome self hour) }
    /// ensures shown { IfOk result (ShowsHour self hour) }
    /// ```
    ///
    /// [docs/proofs/STATEMENT.md](crate::proved#contracts) explains the words.
    #[inline]
    pub const fn replace_hour(self, hour: u8) -> Result<UtcDateTime, ComponentRange> {
        UtcDateTime::or_refused(self.as_plain().replace_hour(hour))
    }

    /// The first nanosecond of the hour that it is in, in UTC.
    ///
    /// ```
    /// # use muxandu::proved::*;
    /// # fn main() -> Result<(), Box<dyn std::error::Error>> {
    /// let at = UtcDateTime::from_unix_timestamp_nanos(1_577_710_979_480_300_002)?;
    /// assert_eq!(at.truncate_to_hour().as_hms_nano(), (13, 0, 0, 0));
    /// # Ok(())
    /// # }
    /// ```
    ///
    /// # Contract
    ///
    /// ```text
    /// ensures { TruncatesTo nanos_per_hour self result }
    /// ```
    ///
    /// [docs/proofs/STATEMENT.md](crate::proved#contracts) explains the words.
    #[inline]
    pub const fn truncate_to_hour(self) -> UtcDateTime {
        UtcDateTime::from_plain(self.as_plain().truncate_to_hour())
    }

    /// As [`Time::replace_minute`], of the time of day in UTC, with the date kept.
    ///
    /// ```
    /// # use muxandu::proved::*;
    /// # fn main() -> Result<(), Box<dyn std::error::Error>> {
    /// let at = UtcDateTime::from_unix_timestamp_nanos(1_577_710_979_480_300_002)?;
    /// assert_eq!(at.replace_minute(30)?.as_hms_nano(), (13, 30, 59, 480_300_002));
    /// assert_eq!(at.replace_minute(60), Err(ComponentRange::new("minute", false)));
    /// # Ok(())
    /// # }
    /// ```
    ///
    /// # Contract
    ///
    /// ```text
    /// ensures value { Gives result (wall_minute_outcome self minute) }
    /// ensures shown { IfOk result (ShowsMinute self minute) }
    /// ```
    ///
    /// [docs/proofs/STATEMENT.md](crate::proved#contracts) explains the words.
    #[inline]
    pub const fn replace_minute(self, minute: u8) -> Result<UtcDateTime, ComponentRange> {
        UtcDateTime::or_refused(self.as_plain().replace_minute(minute))
    }

    /// The first nanosecond of the minute that it is in, in UTC.
    ///
    /// ```
    /// # use muxandu::proved::*;
    /// # fn main() -> Result<(), Box<dyn std::error::Error>> {
    /// let at = UtcDateTime::from_unix_timestamp_nanos(1_577_710_979_480_300_002)?;
    /// assert_eq!(at.truncate_to_minute().as_hms_nano(), (13, 2, 0, 0));
    /// # Ok(())
    /// # }
    /// ```
    ///
    /// # Contract
    ///
    /// ```text
    /// ensures { TruncatesTo nanos_per_minute self result }
    /// ```
    ///
    /// [docs/proofs/STATEMENT.md](crate::proved#contracts) explains the words.
    #[inline]
    pub const fn truncate_to_minute(self) -> UtcDateTime {
        UtcDateTime::from_plain(self.as_plain().truncate_to_minute())
    }

    /// As [`Time::replace_second`], of the time of day in UTC, with the date kept.
    ///
    /// ```
    /// # use muxandu::proved::*;
    /// # fn main() -> Result<(), Box<dyn std::error::Error>> {
    /// let at = UtcDateTime::from_unix_timestamp_nanos(1_577_710_979_480_300_002)?;
    /// assert_eq!(at.replace_second(0)?.as_hms_nano(), (13, 2, 0, 480_300_002));
    /// assert_eq!(at.replace_second(60), Err(ComponentRange::new("second", false)));
    /// # Ok(())
    /// # }
    /// ```
    ///
    /// # Contract
    ///
    /// ```text
    /// ensures value { Gives result (wall_second_outcome self second) }
    /// ensures shown { IfOk result (ShowsSecond self second) }
    /// ```
    ///
    /// [docs/proofs/STATEMENT.md](crate::proved#contracts) explains the words.
    #[inline]
    pub const fn replace_second(self, second: u8) -> Result<UtcDateTime, ComponentRange> {
        UtcDateTime::or_refused(self.as_plain().replace_second(second))
    }

    /// The first nanosecond of the second that it is in, in UTC.
    ///
    /// ```
    /// # use muxandu::proved::*;
    /// # fn main() -> Result<(), Box<dyn std::error::Error>> {
    /// let at = UtcDateTime::from_unix_timestamp_nanos(1_577_710_979_480_300_002)?;
    /// assert_eq!(at.truncate_to_second().as_hms_nano(), (13, 2, 59, 0));
    /// # Ok(())
    /// # }
    /// ```
    ///
    /// # Contract
    ///
    /// ```text
    /// ensures { TruncatesTo nanos_per_second self result }
    /// ```
    ///
    /// [docs/proofs/STATEMENT.md](crate::proved#contracts) explains the words.
    #[inline]
    pub const fn truncate_to_second(self) -> UtcDateTime {
        UtcDateTime::from_plain(self.as_plain().truncate_to_second())
    }

    /// As [`Time::replace_millisecond`], of the time of day in UTC, with the date kept.
    ///
    /// ```
    /// # use muxandu::proved::*;
    /// # fn main() -> Result<(), Box<dyn std::error::Error>> {
    /// let at = UtcDateTime::from_unix_timestamp_nanos(1_577_710_979_480_300_002)?;
    /// assert_eq!(at.replace_millisecond(7)?.as_hms_nano(), (13, 2, 59, 7_000_000));
    /// assert_eq!(
    ///     at.replace_millisecond(1_000),
    ///     Err(ComponentRange::new("millisecond", false))
    /// );
    /// # Ok(())
    /// # }
    /// ```
    ///
    /// # Contract
    ///
    /// ```text
    /// ensures value { Gives result (wall_millisecond_outcome self millisecond) }
    /// ensures shown { IfOk result (ShowsMillisecond self millisecond) }
    /// ```
    ///
    /// [docs/proofs/STATEMENT.md](crate::proved#contracts) explains the words.
    #[inline]
    pub const fn replace_millisecond(
        self,
        millisecond: u16,
    ) -> Result<UtcDateTime, ComponentRange> {
        UtcDateTime::or_refused(self.as_plain().replace_millisecond(millisecond))
    }

    /// The first nanosecond of the millisecond that it is in, in UTC.
    ///
    /// ```
    /// # use muxandu::proved::*;
    /// # fn main() -> Result<(), Box<dyn std::error::Error>> {
    /// let at = UtcDateTime::from_unix_timestamp_nanos(1_577_710_979_480_300_002)?;
    /// assert_eq!(at.truncate_to_millisecond().as_hms_nano(), (13, 2, 59, 480_000_000));
    /// # Ok(())
    /// # }
    /// ```
    ///
    /// # Contract
    ///
    /// ```text
    /// ensures { TruncatesTo nanos_per_millisecond self result }
    /// ```
    ///
    /// [docs/proofs/STATEMENT.md](crate::proved#contracts) explains the words.
    #[inline]
    pub const fn truncate_to_millisecond(self) -> UtcDateTime {
        UtcDateTime::from_plain(self.as_plain().truncate_to_millisecond())
    }

    /// As [`Time::replace_microsecond`], of the time of day in UTC, with the date kept.
    ///
    /// ```
    /// # use muxandu::proved::*;
    /// # fn main() -> Result<(), Box<dyn std::error::Error>> {
    /// let at = UtcDateTime::from_unix_timestamp_nanos(1_577_710_979_480_300_002)?;
    /// assert_eq!(at.replace_microsecond(7)?.as_hms_nano(), (13, 2, 59, 7_000));
    /// assert_eq!(
    ///     at.replace_microsecond(1_000_000),
    ///     Err(ComponentRange::new("microsecond", false))
    /// );
    /// # Ok(())
    /// # }
    /// ```
    ///
    /// # Contract
    ///
    /// ```text
    /// ensures value { Gives result (wall_microsecond_outcome self microsecond) }
    /// ensures shown { IfOk result (ShowsMicrosecond self microsecond) }
    /// ```
    ///
    /// [docs/proofs/STATEMENT.md](crate::proved#contracts) explains the words.
    #[inline]
    pub const fn replace_microsecond(
        self,
        microsecond: u32,
    ) -> Result<UtcDateTime, ComponentRange> {
        UtcDateTime::or_refused(self.as_plain().replace_microsecond(microsecond))
    }

    /// The first nanosecond of the microsecond that it is in, in UTC.
    ///
    /// ```
    /// # use muxandu::proved::*;
    /// # fn main() -> Result<(), Box<dyn std::error::Error>> {
    /// let at = UtcDateTime::from_unix_timestamp_nanos(1_577_710_979_480_300_002)?;
    /// assert_eq!(at.truncate_to_microsecond().as_hms_nano(), (13, 2, 59, 480_300_000));
    /// # Ok(())
    /// # }
    /// ```
    ///
    /// # Contract
    ///
    /// ```text
    /// ensures { TruncatesTo nanos_per_microsecond self result }
    /// ```
    ///
    /// [docs/proofs/STATEMENT.md](crate::proved#contracts) explains the words.
    #[inline]
    pub const fn truncate_to_microsecond(self) -> UtcDateTime {
        UtcDateTime::from_plain(self.as_plain().truncate_to_microsecond())
    }

    /// As [`Time::replace_nanosecond`], of the time of day in UTC, with the date kept.
    ///
    /// ```
    /// # use muxandu::proved::*;
    /// # fn main() -> Result<(), Box<dyn std::error::Error>> {
    /// let at = UtcDateTime::from_unix_timestamp_nanos(1_577_710_979_480_300_002)?;
    /// assert_eq!(at.replace_nanosecond(7)?.as_hms_nano(), (13, 2, 59, 7));
    /// assert_eq!(
    ///     at.replace_nanosecond(1_000_000_000),
    ///     Err(ComponentRange::new("nanosecond", false))
    /// );
    /// # Ok(())
    /// # }
    /// ```
    ///
    /// # Contract
    ///
    /// ```text
    /// ensures value { Gives result (wall_nanosecond_outcome self nanosecond) }
    /// ensures shown { IfOk result (ShowsNanosecond self nanosecond) }
    /// ```
    ///
    /// [docs/proofs/STATEMENT.md](crate::proved#contracts) explains the words.
    #[inline]
    pub const fn replace_nanosecond(self, nanosecond: u32) -> Result<UtcDateTime, ComponentRange> {
        UtcDateTime::or_refused(self.as_plain().replace_nanosecond(nanosecond))
    }

    // The same read as UTC, or the same refusal.
    /// # Contract
    ///
    /// ```text
    /// ensures { result ≡ plain }
    /// ```
    ///
    /// [docs/proofs/STATEMENT.md](crate::proved#contracts) explains the words.
    #[inline]
    const fn or_refused(
        plain: Result<PlainDateTime, ComponentRange>,
    ) -> Result<UtcDateTime, ComponentRange> {
        match plain {
            Ok(plain) => Ok(UtcDateTime::from_plain(plain)),
            Err(refusal) => Err(refusal),
        }
    }
}
