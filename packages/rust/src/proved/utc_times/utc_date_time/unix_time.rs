// Made by make/erase of crates/utc_times/src/utc_date_time/unix_time.rt. Do not edit.
//! Unix time: instants counted from 1970-01-01 0:00 UTC, with no leap seconds.
use crate::proved::utc_times::UtcDateTime;
use crate::proved::calendar_values::units::{NANOS_PER_SECOND, SECONDS_PER_DAY};
use crate::proved::calendar_values::{ComponentRange, Date, Part, Time, day_and_second};

// How far from 1970 a second may lie whose day is asked for: 400,000,000 days. None of the range lies as far.
const FARTHEST_SECOND: i64 = 34_560_000_000_000;

impl UtcDateTime {
    /// The instant of a Unix second. Fails with `timestamp` before that of [`UtcDateTime::MIN`] or
    /// after that of [`UtcDateTime::MAX`].
    ///
    /// ```
    /// # use muxandu::proved::*;
    /// # fn main() -> Result<(), Box<dyn std::error::Error>> {
    /// let at = UtcDateTime::from_unix_timestamp(1_000_000_000)?;
    /// assert_eq!(at.to_calendar_date(), (2001, Month::September, 9));
    /// assert_eq!(
    ///     UtcDateTime::from_unix_timestamp(i64::MAX),
    ///     Err(ComponentRange::new("timestamp", false))
    /// );
    /// # Ok(())
    /// # }
    /// ```
    ///
    /// # Contract
    ///
    /// ```text
    /// ensures { Gives result (instant_outcome (codes "timestamp") (instant_of_second timestamp)) }
    /// ```
    ///
    /// [docs/proofs/STATEMENT.md](crate::proved#contracts) explains the words.
    #[inline]
    pub const fn from_unix_timestamp(timestamp: i64) -> Result<UtcDateTime, ComponentRange> {
        UtcDateTime::after_second(timestamp, 0)
    }

    /// The instant of a number of nanoseconds from 1970-01-01 0:00 UTC. Fails with `timestamp`
    /// before [`UtcDateTime::MIN`] or after [`UtcDateTime::MAX`].
    ///
    /// ```
    /// # use muxandu::proved::*;
    /// # fn main() -> Result<(), Box<dyn std::error::Error>> {
    /// let at = UtcDateTime::from_unix_timestamp_nanos(-1)?;
    /// assert_eq!(at.year(), 1969);
    /// assert_eq!(at.nanosecond(), 999_999_999);
    /// # Ok(())
    /// # }
    /// ```
    ///
    /// # Contract
    ///
    /// ```text
    /// ensures { Gives result (instant_outcome (codes "timestamp") timestamp) }
    /// ```
    ///
    /// [docs/proofs/STATEMENT.md](crate::proved#contracts) explains the words.
    #[inline]
    pub const fn from_unix_timestamp_nanos(timestamp: i128) -> Result<UtcDateTime, ComponentRange> {
        let nanosecond = timestamp.rem_euclid(NANOS_PER_SECOND as i128) as u32;
        let second = timestamp.div_euclid(NANOS_PER_SECOND as i128);
        if second < -FARTHEST_SECOND as i128 || second > FARTHEST_SECOND as i128 {
            return Err(ComponentRange::of_part(Part::Timestamp, false));
        }
        UtcDateTime::after_second(second as i64, nanosecond)
    }

    // The instant this number of nanoseconds after the beginning of a Unix second.
    /// # Contract
    ///
    /// ```text
    /// requires { nanosecond < nanos_per_second }
    /// ensures value { let i = instant_of_second second +ℤ pos nanosecond in
    ///     OkIff result (IsInstant i) i }
    /// ensures refused { IfErr result (λ refusal. refusal ≡ outright_refusal (codes "timestamp")) }
    /// ```
    ///
    /// [docs/proofs/STATEMENT.md](crate::proved#contracts) explains the words.
    #[inline]
    const fn after_second(second: i64, nanosecond: u32) -> Result<UtcDateTime, ComponentRange> {
        match date_of_second(second) {
            Some(date) => Ok(UtcDateTime::new(date, time_of_second(second, nanosecond))),
            None => Err(ComponentRange::of_part(Part::Timestamp, false)),
        }
    }

    /// The Unix second: the whole seconds from 1970-01-01 0:00 UTC, rounded down.
    ///
    /// ```
    /// # use muxandu::proved::*;
    /// # fn main() -> Result<(), Box<dyn std::error::Error>> {
    /// let at = UtcDateTime::from_unix_timestamp_nanos(-1_500_000_000)?;
    /// assert_eq!(at.unix_timestamp(), -2);
    /// # Ok(())
    /// # }
    /// ```
    ///
    /// # Contract
    ///
    /// ```text
    /// ensures value { result ≡ unix_seconds_of self }
    /// ensures self_in_range { IsInstant self }
    /// ```
    ///
    /// [docs/proofs/STATEMENT.md](crate::proved#contracts) explains the words.
    #[inline]
    pub const fn unix_timestamp(self) -> i64 {
        let plain = self.as_plain();
        second_of_parts(
            plain.date().days_since_epoch(),
            plain.time().second_of_day(),
        )
    }

    /// The nanoseconds from 1970-01-01 0:00 UTC.
    ///
    /// ```
    /// # use muxandu::proved::*;
    /// # fn main() -> Result<(), Box<dyn std::error::Error>> {
    /// let date = Date::from_calendar_date(2000, Month::January, 1)?;
    /// let at = UtcDateTime::new(date, Time::MIDNIGHT);
    /// assert_eq!(at.unix_timestamp_nanos(), 946_684_800_000_000_000);
    /// # Ok(())
    /// # }
    /// ```
    ///
    /// # Contract
    ///
    /// ```text
    /// ensures value { result ≡ self }
    /// ensures self_in_range { IsInstant self }
    /// ```
    ///
    /// [docs/proofs/STATEMENT.md](crate::proved#contracts) explains the words.
    #[inline]
    pub const fn unix_timestamp_nanos(self) -> i128 {
        self.unix_timestamp() as i128 * NANOS_PER_SECOND as i128
            + self.as_plain().nanosecond() as i128
    }
}

// The Unix second of a day and a second of the day.
/// # Contract
///
/// ```text
/// requires day { IsDay day }
/// requires second_of_day { second_of_day < 86_400 }
/// ensures { result ≡ day *ℤ pos 86_400 +ℤ pos second_of_day }
/// ```
///
/// [docs/proofs/STATEMENT.md](crate::proved#contracts) explains the words.
#[inline]
const fn second_of_parts(day: i32, second_of_day: u32) -> i64 {
    day as i64 * SECONDS_PER_DAY + second_of_day as i64
}

// The date of a Unix second, if the range has it.
/// # Contract
///
/// ```text
/// ensures { SomeDay result (int_div_euclid second (pos 86_400)) }
/// ```
///
/// [docs/proofs/STATEMENT.md](crate::proved#contracts) explains the words.
#[inline]
const fn date_of_second(second: i64) -> Option<Date> {
    if second < -FARTHEST_SECOND || second > FARTHEST_SECOND {
        return None;
    }
    Date::from_days_since_epoch(day_and_second(second).0)
}

// The time of day this number of nanoseconds after the beginning of a Unix second.
/// # Contract
///
/// ```text
/// requires day { IsDay (int_div_euclid second (pos 86_400)) }
/// requires nanosecond { nanosecond < nanos_per_second }
/// ensures { pos result ≡ int_rem_euclid second (pos 86_400) *ℤ pos nanos_per_second +ℤ
///     pos nanosecond }
/// ```
///
/// [docs/proofs/STATEMENT.md](crate::proved#contracts) explains the words.
#[inline]
const fn time_of_second(second: i64, nanosecond: u32) -> Time {
    Time::at_second_of_day(day_and_second(second).1, nanosecond)
}
