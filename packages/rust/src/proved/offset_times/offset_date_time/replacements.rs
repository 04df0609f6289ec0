// Made by make/erase of crates/offset_times/src/offset_date_time/replacements.rt. Do not edit.
//! Date-times with a part replaced, or truncated to a unit of time: the wall clock is, and the
//! offset stays.
use crate::proved::offset_times::{Assume, OffsetDateTime};
use crate::proved::calendar_values::{ComponentRange, Date, Month, Time, UtcOffset};
use crate::proved::plain_times::PlainDateTime;

impl OffsetDateTime {
    /// The same offset with another date and time of day.
    ///
    /// ```
    /// # use muxandu::proved::*;
    /// # fn main() -> Result<(), Box<dyn std::error::Error>> {
    /// let west = UtcOffset::from_hms(-8, 0, 0)?;
    /// let at = OffsetDateTime::UNIX_EPOCH.replace_offset(west);
    /// assert_eq!(at.replace_date_time(PlainDateTime::MAX).date(), Date::MAX);
    /// assert_eq!(at.replace_date_time(PlainDateTime::MAX).offset(), west);
    /// # Ok(())
    /// # }
    /// ```
    ///
    /// # Contract
    ///
    /// ```text
    /// ensures value { result ≡ at_offset_of self date_time }
    /// ensures instant { SameOffset self result }
    /// ```
    ///
    /// [docs/proofs/STATEMENT.md](crate::proved#contracts) explains the words.
    #[inline]
    pub const fn replace_date_time(self, date_time: PlainDateTime) -> OffsetDateTime {
        date_time.assume_offset(self.offset())
    }

    /// The same date and time of day at another offset, so at another instant.
    ///
    /// ```
    /// # use muxandu::proved::*;
    /// # fn main() -> Result<(), Box<dyn std::error::Error>> {
    /// let west = UtcOffset::from_hms(-8, 0, 0)?;
    /// let at = OffsetDateTime::UNIX_EPOCH.replace_offset(west);
    /// assert_eq!(at.hour(), 0);
    /// assert_eq!(at.unix_timestamp(), 28_800);
    /// # Ok(())
    /// # }
    /// ```
    ///
    /// # Contract
    ///
    /// ```text
    /// ensures value { result ≡ wall_at self.wall offset }
    /// ensures instant { instant_of result ≡ self.wall -ℤ offset_nanos offset }
    /// ```
    ///
    /// [docs/proofs/STATEMENT.md](crate::proved#contracts) explains the words.
    #[inline]
    pub const fn replace_offset(self, offset: UtcOffset) -> OffsetDateTime {
        self.date_time().assume_offset(offset)
    }

    /// The same date at another time of day, at the same offset.
    ///
    /// ```
    /// # use muxandu::proved::*;
    /// # fn main() -> Result<(), Box<dyn std::error::Error>> {
    /// let date = Date::from_calendar_date(2024, Month::February, 29)?;
    /// let east = UtcOffset::from_hms(9, 0, 0)?;
    /// let at = OffsetDateTime::new_in_offset(date, Time::MIDNIGHT, east);
    /// let noon = Time::from_hms(12, 0, 0)?;
    /// assert_eq!(at.replace_time(noon).time(), noon);
    /// assert_eq!(at.replace_time(noon).day(), 29);
    /// # Ok(())
    /// # }
    /// ```
    ///
    /// # Contract
    ///
    /// ```text
    /// ensures value { result ≡ at_offset_of self (with_time self.wall time) }
    /// ensures wall { ReplacesTime self.wall time result.wall }
    /// ensures instant { SameOffset self result }
    /// ensures not_a_day_later { instant_of result <ℤ (instant_of self +ℤ pos nanos_per_day) }
    /// ensures not_a_day_earlier { instant_of self <ℤ (instant_of result +ℤ pos nanos_per_day) }
    /// ```
    ///
    /// [docs/proofs/STATEMENT.md](crate::proved#contracts) explains the words.
    #[inline]
    pub const fn replace_time(self, time: Time) -> OffsetDateTime {
        self.replace_date_time(self.date_time().replace_time(time))
    }

    /// The same time of day on another date, at the same offset.
    ///
    /// ```
    /// # use muxandu::proved::*;
    /// # fn main() -> Result<(), Box<dyn std::error::Error>> {
    /// let time = Time::from_hms_nano(13, 2, 59, 480_300_002)?;
    /// let date = Date::from_calendar_date(2019, Month::December, 30)?;
    /// let at = OffsetDateTime::new_in_offset(date, time, UtcOffset::from_hms(9, 0, 0)?);
    /// assert_eq!(
    ///     at.replace_date(Date::from_calendar_date(2024, Month::February, 29)?).to_hms(),
    ///     (13, 2, 59)
    /// );
    /// # Ok(())
    /// # }
    /// ```
    ///
    /// # Contract
    ///
    /// ```text
    /// ensures value { result ≡ at_offset_of self (with_date self.wall date) }
    /// ensures wall { ReplacesDate self.wall date result.wall }
    /// ensures instant { SameOffset self result }
    /// ```
    ///
    /// [docs/proofs/STATEMENT.md](crate::proved#contracts) explains the words.
    #[inline]
    pub const fn replace_date(self, date: Date) -> OffsetDateTime {
        self.replace_date_time(self.date_time().replace_date(date))
    }

    /// As [`Date::replace_year`], of the day of the wall clock, with the time of day and the offset
    /// kept.
    ///
    /// ```
    /// # use muxandu::proved::*;
    /// # fn main() -> Result<(), Box<dyn std::error::Error>> {
    /// let date = Date::from_calendar_date(2024, Month::February, 29)?;
    /// let east = UtcOffset::from_hms(9, 0, 0)?;
    /// let at = OffsetDateTime::new_in_offset(date, Time::MIDNIGHT, east);
    /// assert_eq!(at.replace_year(2028)?.to_ordinal_date(), (2028, 60));
    /// assert_eq!(at.replace_year(2023), Err(ComponentRange::new("day", true)));
    /// # Ok(())
    /// # }
    /// ```
    ///
    /// # Contract
    ///
    /// ```text
    /// ensures value { let w = self.wall in
    ///     Gives result (within (at_offset_of self) (wall_year_outcome w year)) }
    /// ensures shown { IfOk result (λ at. ShowsYear self.wall year at.wall) }
    /// ensures instant { IfOk result (λ at. SameOffset self at) }
    /// ```
    ///
    /// [docs/proofs/STATEMENT.md](crate::proved#contracts) explains the words.
    #[inline]
    pub const fn replace_year(self, year: i32) -> Result<OffsetDateTime, ComponentRange> {
        match self.date_time().replace_year(year) {
            Ok(date_time) => Ok(self.replace_date_time(date_time)),
            Err(refusal) => Err(refusal),
        }
    }

    /// As [`Date::replace_month`], of the day of the wall clock, with the time of day and the
    /// offset kept.
    ///
    /// ```
    /// # use muxandu::proved::*;
    /// # fn main() -> Result<(), Box<dyn std::error::Error>> {
    /// let date = Date::from_calendar_date(2024, Month::January, 31)?;
    /// let east = UtcOffset::from_hms(9, 0, 0)?;
    /// let at = OffsetDateTime::new_in_offset(date, Time::MIDNIGHT, east);
    /// assert_eq!(at.replace_month(Month::March)?.ordinal(), 91);
    /// assert_eq!(at.replace_month(Month::April), Err(ComponentRange::new("day", true)));
    /// # Ok(())
    /// # }
    /// ```
    ///
    /// # Contract
    ///
    /// ```text
    /// ensures value { let w = self.wall in
    ///     Gives result (within (at_offset_of self) (wall_month_outcome w (month_number month))) }
    /// ensures shown { IfOk result (λ at. ShowsMonth self.wall (month_number month) at.wall) }
    /// ensures instant { IfOk result (λ at. SameOffset self at) }
    /// ```
    ///
    /// [docs/proofs/STATEMENT.md](crate::proved#contracts) explains the words.
    #[inline]
    pub const fn replace_month(self, month: Month) -> Result<OffsetDateTime, ComponentRange> {
        match self.date_time().replace_month(month) {
            Ok(date_time) => Ok(self.replace_date_time(date_time)),
            Err(refusal) => Err(refusal),
        }
    }

    /// As [`Date::replace_day`], of the day of the wall clock, with the time of day and the offset
    /// kept.
    ///
    /// ```
    /// # use muxandu::proved::*;
    /// # fn main() -> Result<(), Box<dyn std::error::Error>> {
    /// let date = Date::from_calendar_date(2024, Month::February, 29)?;
    /// let east = UtcOffset::from_hms(9, 0, 0)?;
    /// let at = OffsetDateTime::new_in_offset(date, Time::MIDNIGHT, east);
    /// assert_eq!(at.replace_day(1)?.ordinal(), 32);
    /// assert_eq!(at.replace_day(30), Err(ComponentRange::new("day", true)));
    /// # Ok(())
    /// # }
    /// ```
    ///
    /// # Contract
    ///
    /// ```text
    /// ensures value { let w = self.wall in
    ///     Gives result (within (at_offset_of self) (wall_day_outcome w day)) }
    /// ensures shown { IfOk result (λ at. ShowsDay self.wall day at.wall) }
    /// ensures instant { IfOk result (λ at. SameOffset self at) }
    /// ```
    ///
    /// [docs/proofs/STATEMENT.md](crate::proved#contracts) explains the words.
    #[inline]
    pub const fn replace_day(self, day: u8) -> Result<OffsetDateTime, ComponentRange> {
        match self.date_time().replace_day(day) {
            Ok(date_time) => Ok(self.replace_date_time(date_time)),
            Err(refusal) => Err(refusal),
        }
    }

    /// As [`Date::replace_ordinal`], of the day of the wall clock, with the time of day and the
    /// offset kept.
    ///
    /// ```
    /// # use muxandu::proved::*;
    /// # fn main() -> Result<(), Box<dyn std::error::Error>> {
    /// let date = Date::from_calendar_date(2024, Month::February, 29)?;
    /// let east = UtcOffset::from_hms(9, 0, 0)?;
    /// let at = OffsetDateTime::new_in_offset(date, Time::MIDNIGHT, east);
    /// assert_eq!(at.replace_ordinal(366)?.to_calendar_date(), (2024, Month::December, 31));
    /// assert_eq!(at.replace_ordinal(367), Err(ComponentRange::new("ordinal", false)));
    /// # Ok(())
    /// # }
    /// ```
    ///
    /// # Contract
    ///
    /// ```text
    /// ensures value { let w = self.wall in
    ///     Gives result (within (at_offset_of self) (wall_ordinal_outcome w ordinal)) }
    /// ensures shown { IfOk result (λ at. ShowsOrdinal self.wall ordinal at.wall) }
    /// ensures instant { IfOk result (λ at. SameOffset self at) }
    /// ```
    ///
    /// [docs/proofs/STATEMENT.md](crate::proved#contracts) explains the words.
    #[inline]
    pub const fn replace_ordinal(self, ordinal: u16) -> Result<OffsetDateTime, ComponentRange> {
        match self.date_time().replace_ordinal(ordinal) {
            Ok(date_time) => Ok(self.replace_date_time(date_time)),
            Err(refusal) => Err(refusal),
        }
    }

    /// The first nanosecond of the day that it is in, by the wall clock, at the same offset.
    ///
    /// ```
    /// # use muxandu::proved::*;
    /// # fn main() -> Result<(), Box<dyn std::error::Error>> {
    /// let time = Time::from_hms_nano(13, 2, 59, 480_300_002)?;
    /// let date = Date::from_calendar_date(2019, Month::December, 30)?;
    /// let at = OffsetDateTime::new_in_offset(date, time, UtcOffset::from_hms(9, 0, 0)?);
    /// assert_eq!(at.truncate_to_day().to_hms_nano(), (0, 0, 0, 0));
    /// # Ok(())
    /// # }
    /// ```
    ///
    /// # Contract
    ///
    /// ```text
    /// ensures value { result ≡ local_multiple_below nanos_per_day self }
    /// ensures midnight { result ≡ at_offset_of self (wall_clock (wall_day self.wall) 0) }
    /// ensures date { wall_day result.wall ≡ wall_day self.wall }
    /// ensures time { wall_time result.wall ≡ 0 }
    /// ensures wall { TruncatesTo nanos_per_day self.wall result.wall }
    /// ensures instant { SameOffset self result }
    /// ensures not_after { instant_of result ≤ℤ instant_of self }
    /// ensures within { instant_of self <ℤ (instant_of result +ℤ pos nanos_per_day) }
    /// ```
    ///
    /// [docs/proofs/STATEMENT.md](crate::proved#contracts) explains the words.
    #[inline]
    pub const fn truncate_to_day(self) -> OffsetDateTime {
        self.replace_date_time(self.date_time().truncate_to_day())
    }

    /// As [`Time::replace_hour`], of the time of day of the wall clock, with the date and the
    /// offset kept.
    ///
    /// ```
    /// # use muxandu::proved::*;
    /// # fn main() -> Result<(), Box<dyn std::error::Error>> {
    /// let time = Time::from_hms_nano(13, 2, 59, 480_300_002)?;
    /// let date = Date::from_calendar_date(2019, Month::December, 30)?;
    /// let at = OffsetDateTime::new_in_offset(date, time, UtcOffset::from_hms(9, 0, 0)?);
    /// assert_eq!(at.replace_hour(0)?.to_hms_nano(), (0, 2, 59, 480_300_002));
    /// assert_eq!(at.replace_hour(24), Err(ComponentRange::new("hour", false)));
    /// # Ok(())
    /// # }
    /// ```
    ///
    /// # Contract
    ///
    /// ```text
    /// ensures value { let w = self.wall in
    ///     Gives result (within (at_offset_of self) (wall_hour_outcome w hour)) }
    /// ensures shown { IfOk result (λ at. ShowsHour self.wall hour at.wall) }
    /// ensures instant { IfOk result (λ at. SameOffset self at) }
    /// ```
    ///
    /// [docs/proofs/STATEMENT.md](crate::proved#contracts) explains the words.
    #[inline]
    pub const fn replace_hour(self, hour: u8) -> Result<OffsetDateTime, ComponentRange> {
        match self.date_time().replace_hour(hour) {
            Ok(date_time) => Ok(self.replace_date_time(date_time)),
            Err(refusal) => Err(refusal),
        }
    }

    /// The first nanosecond of the hour that it is in, by the wall clock, at the same offset.
    ///
    /// ```
    /// # use muxandu::proved::*;
    /// # fn main() -> Result<(), Box<dyn std::error::Error>> {
    /// let time = Time::from_hms_nano(13, 2, 59, 480_300_002)?;
    /// let date = Date::from_calendar_date(2019, Month::December, 30)?;
    /// let at = OffsetDateTime::new_in_offset(date, time, UtcOffset::from_hms(9, 0, 0)?);
    /// assert_eq!(at.truncate_to_hour().to_hms_nano(), (13, 0, 0, 0));
    /// # Ok(())
    /// # }
    /// ```
    ///
    /// # Contract
    ///
    /// ```text
    /// ensures value { result ≡ local_multiple_below nanos_per_hour self }
    /// ensures wall { TruncatesTo nanos_per_hour self.wall result.wall }
    /// ensures instant { SameOffset self result }
    /// ensures not_after { instant_of result ≤ℤ instant_of self }
    /// ensures within { instant_of self <ℤ (instant_of result +ℤ pos nanos_per_hour) }
    /// ```
    ///
    /// [docs/proofs/STATEMENT.md](crate::proved#contracts) explains the words.
    #[inline]
    pub const fn truncate_to_hour(self) -> OffsetDateTime {
        self.replace_date_time(self.date_time().truncate_to_hour())
    }

    /// As [`Time::replace_minute`], of the time of day of the wall clock, with the date and the
    /// offset kept.
    ///
    /// ```
    /// # use muxandu::proved::*;
    /// # fn main() -> Result<(), Box<dyn std::error::Error>> {
    /// let time = Time::from_hms_nano(13, 2, 59, 480_300_002)?;
    /// let date = Date::from_calendar_date(2019, Month::December, 30)?;
    /// let at = OffsetDateTime::new_in_offset(date, time, UtcOffset::from_hms(9, 0, 0)?);
    /// assert_eq!(at.replace_minute(30)?.to_hms_nano(), (13, 30, 59, 480_300_002));
    /// assert_eq!(at.replace_minute(60), Err(ComponentRange::new("minute", false)));
    /// # Ok(())
    /// # }
    /// ```
    ///
    /// # Contract
    ///
    /// ```text
    /// ensures value { let w = self.wall in
    ///     Gives result (within (at_offset_of self) (wall_minute_outcome w minute)) }
    /// ensures shown { IfOk result (λ at. ShowsMinute self.wall minute at.wall) }
    /// ensures instant { IfOk result (λ at. SameOffset self at) }
    /// ```
    ///
    /// [docs/proofs/STATEMENT.md](crate::proved#contracts) explains the words.
    #[inline]
    pub const fn replace_minute(self, minute: u8) -> Result<OffsetDateTime, ComponentRange> {
        match self.date_time().replace_minute(minute) {
            Ok(date_time) => Ok(self.replace_date_time(date_time)),
            Err(refusal) => Err(refusal),
        }
    }

    /// The first nanosecond of the minute that it is in, by the wall clock, at the same offset.
    ///
    /// ```
    /// # use muxandu::proved::*;
    /// # fn main() -> Result<(), Box<dyn std::error::Error>> {
    /// let time = Time::from_hms_nano(13, 2, 59, 480_300_002)?;
    /// let date = Date::from_calendar_date(2019, Month::December, 30)?;
    /// let at = OffsetDateTime::new_in_offset(date, time, UtcOffset::from_hms(9, 0, 0)?);
    /// assert_eq!(at.truncate_to_minute().to_hms_nano(), (13, 2, 0, 0));
    /// # Ok(())
    /// # }
    /// ```
    ///
    /// # Contract
    ///
    /// ```text
    /// ensures value { result ≡ local_multiple_below nanos_per_minute self }
    /// ensures wall { TruncatesTo nanos_per_minute self.wall result.wall }
    /// ensures instant { SameOffset self result }
    /// ensures not_after { instant_of result ≤ℤ instant_of self }
    /// ensures within { instant_of self <ℤ (instant_of result +ℤ pos nanos_per_minute) }
    /// ```
    ///
    /// [docs/proofs/STATEMENT.md](crate::proved#contracts) explains the words.
    #[inline]
    pub const fn truncate_to_minute(self) -> OffsetDateTime {
        self.replace_date_time(self.date_time().truncate_to_minute())
    }

    /// As [`Time::replace_second`], of the time of day of the wall clock, with the date and the
    /// offset kept.
    ///
    /// ```
    /// # use muxandu::proved::*;
    /// # fn main() -> Result<(), Box<dyn std::error::Error>> {
    /// let time = Time::from_hms_nano(13, 2, 59, 480_300_002)?;
    /// let date = Date::from_calendar_date(2019, Month::December, 30)?;
    /// let at = OffsetDateTime::new_in_offset(date, time, UtcOffset::from_hms(9, 0, 0)?);
    /// assert_eq!(at.replace_second(0)?.to_hms_nano(), (13, 2, 0, 480_300_002));
    /// assert_eq!(at.replace_second(60), Err(ComponentRange::new("second", false)));
    /// # Ok(())
    /// # }
    /// ```
    ///
    /// # Contract
    ///
    /// ```text
    /// ensures value { let w = self.wall in
    ///     Gives result (within (at_offset_of self) (wall_second_outcome w second)) }
    /// ensures shown { IfOk result (λ at. ShowsSecond self.wall second at.wall) }
    /// ensures instant { IfOk result (λ at. SameOffset self at) }
    /// ```
    ///
    /// [docs/proofs/STATEMENT.md](crate::proved#contracts) explains the words.
    #[inline]
    pub const fn replace_second(self, second: u8) -> Result<OffsetDateTime, ComponentRange> {
        match self.date_time().replace_second(second) {
            Ok(date_time) => Ok(self.replace_date_time(date_time)),
            Err(refusal) => Err(refusal),
        }
    }

    /// The first nanosecond of the second that it is in, by the wall clock, at the same offset.
    ///
    /// ```
    /// # use muxandu::proved::*;
    /// # fn main() -> Result<(), Box<dyn std::error::Error>> {
    /// let time = Time::from_hms_nano(13, 2, 59, 480_300_002)?;
    /// let date = Date::from_calendar_date(2019, Month::December, 30)?;
    /// let at = OffsetDateTime::new_in_offset(date, time, UtcOffset::from_hms(9, 0, 0)?);
    /// assert_eq!(at.truncate_to_second().to_hms_nano(), (13, 2, 59, 0));
    /// # Ok(())
    /// # }
    /// ```
    ///
    /// # Contract
    ///
    /// ```text
    /// ensures value { result ≡ local_multiple_below nanos_per_second self }
    /// ensures wall { TruncatesTo nanos_per_second self.wall result.wall }
    /// ensures instant { SameOffset self result }
    /// ensures not_after { instant_of result ≤ℤ instant_of self }
    /// ensures within { instant_of self <ℤ (instant_of result +ℤ pos nanos_per_second) }
    /// ```
    ///
    /// [docs/proofs/STATEMENT.md](crate::proved#contracts) explains the words.
    #[inline]
    pub const fn truncate_to_second(self) -> OffsetDateTime {
        self.replace_date_time(self.date_time().truncate_to_second())
    }

    /// As [`Time::replace_millisecond`], of the time of day of the wall clock, with the date and
    /// the offset kept.
    ///
    /// ```
    /// # use muxandu::proved::*;
    /// # fn main() -> Result<(), Box<dyn std::error::Error>> {
    /// let time = Time::from_hms_nano(13, 2, 59, 480_300_002)?;
    /// let date = Date::from_calendar_date(2019, Month::December, 30)?;
    /// let at = OffsetDateTime::new_in_offset(date, time, UtcOffset::from_hms(9, 0, 0)?);
    /// assert_eq!(at.replace_millisecond(7)?.to_hms_nano(), (13, 2, 59, 7_000_000));
    /// assert_eq!(
    ///     at.replace_millisecond(1_000),
    ///     Err(ComponentRange::new("millisecond", false))
    /// );
    /// # Ok(())
    /// # }
    /// ```
    ///
    /// # Contract
    ///
    /// ```text
    /// ensures value { let w = self.wall in
    ///     Gives result (within (at_offset_of self) (wall_millisecond_outcome w millisecond)) }
    /// ensures shown { IfOk result (λ at. ShowsMillisecond self.wall millisecond at.wall) }
    /// ensures instant { IfOk result (λ at. SameOffset self at) }
    /// ```
    ///
    /// [docs/proofs/STATEMENT.md](crate::proved#contracts) explains the words.
    #[inline]
    pub const fn replace_millisecond(
        self,
        millisecond: u16,
    ) -> Result<OffsetDateTime, ComponentRange> {
        match self.date_time().replace_millisecond(millisecond) {
            Ok(date_time) => Ok(self.replace_date_time(date_time)),
            Err(refusal) => Err(refusal),
        }
    }

    /// The first nanosecond of the millisecond that it is in, by the wall clock, at the same
    /// offset.
    ///
    /// ```
    /// # use muxandu::proved::*;
    /// # fn main() -> Result<(), Box<dyn std::error::Error>> {
    /// let time = Time::from_hms_nano(13, 2, 59, 480_300_002)?;
    /// let date = Date::from_calendar_date(2019, Month::December, 30)?;
    /// let at = OffsetDateTime::new_in_offset(date, time, UtcOffset::from_hms(9, 0, 0)?);
    /// assert_eq!(at.truncate_to_millisecond().to_hms_nano(), (13, 2, 59, 480_000_000));
    /// # Ok(())
    /// # }
    /// ```
    ///
    /// # Contract
    ///
    /// ```text
    /// ensures value { result ≡ local_multiple_below nanos_per_millisecond self }
    /// ensures wall { TruncatesTo nanos_per_millisecond self.wall result.wall }
    /// ensures instant { SameOffset self result }
    /// ensures not_after { instant_of result ≤ℤ instant_of self }
    /// ensures within { instant_of self <ℤ (instant_of result +ℤ pos nanos_per_millisecond) }
    /// ```
    ///
    /// [docs/proofs/STATEMENT.md](crate::proved#contracts) explains the words.
    #[inline]
    pub const fn truncate_to_millisecond(self) -> OffsetDateTime {
        self.replace_date_time(self.date_time().truncate_to_millisecond())
    }

    /// As [`Time::replace_microsecond`], of the time of day of the wall clock, with the date and
    /// the offset kept.
    ///
    /// ```
    /// # use muxandu::proved::*;
    /// # fn main() -> Result<(), Box<dyn std::error::Error>> {
    /// let time = Time::from_hms_nano(13, 2, 59, 480_300_002)?;
    /// let date = Date::from_calendar_date(2019, Month::December, 30)?;
    /// let at = OffsetDateTime::new_in_offset(date, time, UtcOffset::from_hms(9, 0, 0)?);
    /// assert_eq!(at.replace_microsecond(7)?.to_hms_nano(), (13, 2, 59, 7_000));
    /// assert_eq!(
    ///     at.replace_microsecond(1_000_000),
    ///     Err(ComponentRange::new("microsecond", false))
    /// );
    /// # Ok(())
    /// # }
    /// ```
    ///
    /// # Contract
    ///
    /// ```text
    /// ensures value { let w = self.wall in
    ///     Gives result (within (at_offset_of self) (wall_microsecond_outcome w microsecond)) }
    /// ensures shown { IfOk result (λ at. ShowsMicrosecond self.wall microsecond at.wall) }
    /// ensures instant { IfOk result (λ at. SameOffset self at) }
    /// ```
    ///
    /// [docs/proofs/STATEMENT.md](crate::proved#contracts) explains the words.
    #[inline]
    pub const fn replace_microsecond(
        self,
        microsecond: u32,
    ) -> Result<OffsetDateTime, ComponentRange> {
        match self.date_time().replace_microsecond(microsecond) {
            Ok(date_time) => Ok(self.replace_date_time(date_time)),
            Err(refusal) => Err(refusal),
        }
    }

    /// The first nanosecond of the microsecond that it is in, by the wall clock, at the same
    /// offset.
    ///
    /// ```
    /// # use muxandu::proved::*;
    /// # fn main() -> Result<(), Box<dyn std::error::Error>> {
    /// let time = Time::from_hms_nano(13, 2, 59, 480_300_002)?;
    /// let date = Date::from_calendar_date(2019, Month::December, 30)?;
    /// let at = OffsetDateTime::new_in_offset(date, time, UtcOffset::from_hms(9, 0, 0)?);
    /// assert_eq!(at.truncate_to_microsecond().to_hms_nano(), (13, 2, 59, 480_300_000));
    /// # Ok(())
    /// # }
    /// ```
    ///
    /// # Contract
    ///
    /// ```text
    /// ensures value { result ≡ local_multiple_below nanos_per_microsecond self }
    /// ensures wall { TruncatesTo nanos_per_microsecond self.wall result.wall }
    /// ensures instant { SameOffset self result }
    /// ensures not_after { instant_of result ≤ℤ instant_of self }
    /// ensures within { instant_of self <ℤ (instant_of result +ℤ pos nanos_per_microsecond) }
    /// ```
    ///
    /// [docs/proofs/STATEMENT.md](crate::proved#contracts) explains the words.
    #[inline]
    pub const fn truncate_to_microsecond(self) -> OffsetDateTime {
        self.replace_date_time(self.date_time().truncate_to_microsecond())
    }

    /// As [`Time::replace_nanosecond`], of the time of day of the wall clock, with the date and the
    /// offset kept.
    ///
    /// ```
    /// # use muxandu::proved::*;
    /// # fn main() -> Result<(), Box<dyn std::error::Error>> {
    /// let time = Time::from_hms_nano(13, 2, 59, 480_300_002)?;
    /// let date = Date::from_calendar_date(2019, Month::December, 30)?;
    /// let at = OffsetDateTime::new_in_offset(date, time, UtcOffset::from_hms(9, 0, 0)?);
    /// assert_eq!(at.replace_nanosecond(7)?.to_hms_nano(), (13, 2, 59, 7));
    /// assert_eq!(
    ///     at.replace_nanosecond(1_000_000_000),
    ///     Err(ComponentRange::new("nanosecond", false))
    /// );
    /// # Ok(())
    /// # }
    /// ```
    ///
    /// # Contract
    ///
    /// ```text
    /// ensures value { let w = self.wall in
    ///     Gives result (within (at_offset_of self) (wall_nanosecond_outcome w nanosecond)) }
    /// ensures shown { IfOk result (λ at. ShowsNanosecond self.wall nanosecond at.wall) }
    /// ensures instant { IfOk result (λ at. SameOffset self at) }
    /// ```
    ///
    /// [docs/proofs/STATEMENT.md](crate::proved#contracts) explains the words.
    #[inline]
    pub const fn replace_nanosecond(
        self,
        nanosecond: u32,
    ) -> Result<OffsetDateTime, ComponentRange> {
        match self.date_time().replace_nanosecond(nanosecond) {
            Ok(date_time) => Ok(self.replace_date_time(date_time)),
            Err(refusal) => Err(refusal),
        }
    }
}
