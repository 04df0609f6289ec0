// Made by make/erase of crates/calendar_values/src/time.rt. Do not edit.
//! Times of day.
use crate::proved::calendar_values::units::{NANOS_PER_SECOND, SECONDS_PER_DAY, SECONDS_PER_HOUR};
use crate::proved::calendar_values::{ComponentRange, Part};
mod comparisons;
mod operators;
mod reads;
mod replacements;
mod sums;
mod texts;

/// A time of day, from 0:00:00.0 to 23:59:59.999999999, to the nanosecond. There are no leap
/// seconds. A contract sees the nanoseconds since midnight.
///
/// ```
/// # use muxandu::proved::*;
/// # fn main() -> Result<(), Box<dyn std::error::Error>> {
/// let start = Time::from_hms(9, 30, 0)?;
/// assert_eq!(start.truncate_to_hour(), Time::from_hms(9, 0, 0)?);
/// assert_eq!(
///     start.replace_hour(24),
///     Err(ComponentRange::new("hour", false))
/// );
/// # Ok(())
/// # }
/// ```
#[derive(Clone, Copy, PartialEq)]
pub struct Time {
    niche: crate::proved::memory::Niche,
    hour: u8,
    minute: u8,
    second: u8,
    nanosecond: u32,
}

impl Time {
    /// The first time of a day, 0:00:00.0.
    pub const MIDNIGHT: Time = Time {
        niche: crate::proved::memory::Niche::Here,
        hour: 0,
        minute: 0,
        second: 0,
        nanosecond: 0,
    };

    /// The last time of a day, 23:59:59.999999999.
    pub const MAX: Time = Time {
        niche: crate::proved::memory::Niche::Here,
        hour: 23,
        minute: 59,
        second: 59,
        nanosecond: 999_999_999,
    };

    /// The time of an hour, a minute and a second. Fails with `hour` above 23, `minute` above 59
    /// and `second` above 59, in this order.
    ///
    /// ```
    /// # use muxandu::proved::*;
    /// # fn main() -> Result<(), Box<dyn std::error::Error>> {
    /// assert_eq!(Time::from_hms(7, 5, 9)?.as_hms(), (7, 5, 9));
    /// assert_eq!(Time::from_hms(7, 60, 9), Err(ComponentRange::new("minute", false)));
    /// # Ok(())
    /// # }
    /// ```
    ///
    /// # Contract
    ///
    /// ```text
    /// ensures { Gives result (hms_outcome hour minute second) }
    /// ```
    ///
    /// [docs/proofs/STATEMENT.md](crate::proved#contracts) explains the words.
    #[inline(always)]
    pub const fn from_hms(hour: u8, minute: u8, second: u8) -> Result<Time, ComponentRange> {
        if hour > 23 {
            return Err(ComponentRange::of_part(Part::Hour, false));
        }
        if minute > 59 {
            return Err(ComponentRange::of_part(Part::Minute, false));
        }
        if second > 59 {
            return Err(ComponentRange::of_part(Part::Second, false));
        }
        Ok(Time {
            niche: crate::proved::memory::Niche::Here,
            hour,
            minute,
            second,
            nanosecond: 0,
        })
    }

    /// The time of an hour, a minute, a second and a millisecond of the second. Fails as
    /// [`Time::from_hms`] does, then with `millisecond` above 999.
    ///
    /// ```
    /// # use muxandu::proved::*;
    /// # fn main() -> Result<(), Box<dyn std::error::Error>> {
    /// assert_eq!(Time::from_hms_milli(7, 5, 9, 40)?.nanosecond(), 40_000_000);
    /// assert_eq!(
    ///     Time::from_hms_milli(7, 5, 9, 1_000),
    ///     Err(ComponentRange::new("millisecond", false))
    /// );
    /// # Ok(())
    /// # }
    /// ```
    ///
    /// # Contract
    ///
    /// ```text
    /// ensures { Gives result (hms_milli_outcome hour minute second millisecond) }
    /// ```
    ///
    /// [docs/proofs/STATEMENT.md](crate::proved#contracts) explains the words.
    #[inline]
    pub const fn from_hms_milli(
        hour: u8,
        minute: u8,
        second: u8,
        millisecond: u16,
    ) -> Result<Time, ComponentRange> {
        match Time::from_hms(hour, minute, second) {
            Ok(time) => time.replace_millisecond(millisecond),
            Err(refusal) => Err(refusal),
        }
    }

    /// The time of an hour, a minute, a second and a microsecond of the second. Fails as
    /// [`Time::from_hms`] does, then with `microsecond` above 999,999.
    ///
    /// ```
    /// # use muxandu::proved::*;
    /// # fn main() -> Result<(), Box<dyn std::error::Error>> {
    /// assert_eq!(Time::from_hms_micro(7, 5, 9, 40)?.nanosecond(), 40_000);
    /// assert_eq!(
    ///     Time::from_hms_micro(7, 5, 9, 1_000_000),
    ///     Err(ComponentRange::new("microsecond", false))
    /// );
    /// # Ok(())
    /// # }
    /// ```
    ///
    /// # Contract
    ///
    /// ```text
    /// ensures { Gives result (hms_micro_outcome hour minute second microsecond) }
    /// ```
    ///
    /// [docs/proofs/STATEMENT.md](crate::proved#contracts) explains the words.
    #[inline]
    pub const fn from_hms_micro(
        hour: u8,
        minute: u8,
        second: u8,
        microsecond: u32,
    ) -> Result<Time, ComponentRange> {
        match Time::from_hms(hour, minute, second) {
            Ok(time) => time.replace_microsecond(microsecond),
            Err(refusal) => Err(refusal),
        }
    }

    /// The time of an hour, a minute, a second and a nanosecond of the second. Fails as
    /// [`Time::from_hms`] does, then with `nanosecond` above 999,999,999.
    ///
    /// ```
    /// # use muxandu::proved::*;
    /// # fn main() -> Result<(), Box<dyn std::error::Error>> {
    /// assert_eq!(Time::from_hms_nano(7, 5, 9, 40)?.nanosecond(), 40);
    /// assert_eq!(
    ///     Time::from_hms_nano(7, 5, 9, 1_000_000_000),
    ///     Err(ComponentRange::new("nanosecond", false))
    /// );
    /// # Ok(())
    /// # }
    /// ```
    ///
    /// # Contract
    ///
    /// ```text
    /// ensures { Gives result (hms_nano_outcome hour minute second nanosecond) }
    /// ```
    ///
    /// [docs/proofs/STATEMENT.md](crate::proved#contracts) explains the words.
    #[inline(always)]
    pub const fn from_hms_nano(
        hour: u8,
        minute: u8,
        second: u8,
        nanosecond: u32,
    ) -> Result<Time, ComponentRange> {
        match Time::from_hms(hour, minute, second) {
            Ok(time) => time.replace_nanosecond(nanosecond),
            Err(refusal) => Err(refusal),
        }
    }

    /// As [`Time::from_hms_nano`], of parts in their ranges. The caller proves that they are.
    ///
    /// # Contract
    ///
    /// ```text
    /// requires { AreTimeParts hour minute second nanosecond }
    /// ensures { result ≡ clock_of_parts hour minute second nanosecond }
    /// ```
    ///
    /// [docs/proofs/STATEMENT.md](crate::proved#contracts) explains the words.
    #[inline(always)]
    pub(in crate::proved) const fn at_hms_nano(
        hour: u8,
        minute: u8,
        second: u8,
        nanosecond: u32,
    ) -> Time {
        Time {
            niche: crate::proved::memory::Niche::Here,
            hour,
            minute,
            second,
            nanosecond,
        }
    }

    /// The time of a second of the day, 0 to 86,399, and a nanosecond of that second. None if the
    /// second is above 86,399 or the nanosecond above 999,999,999.
    ///
    /// ```
    /// # use muxandu::proved::*;
    /// # fn main() -> Result<(), Box<dyn std::error::Error>> {
    /// assert_eq!(Time::from_second_of_day(25_509, 0), Some(Time::from_hms(7, 5, 9)?));
    /// assert_eq!(Time::from_second_of_day(86_400, 0), None);
    /// # Ok(())
    /// # }
    /// ```
    ///
    /// # Contract
    ///
    /// ```text
    /// ensures { SomeIff result ((second < 86_400) × (nanosecond < nanos_per_second))
    ///     (second * nanos_per_second + nanosecond) }
    /// ```
    ///
    /// [docs/proofs/STATEMENT.md](crate::proved#contracts) explains the words.
    #[inline]
    pub const fn from_second_of_day(second: u32, nanosecond: u32) -> Option<Time> {
        if second >= SECONDS_PER_DAY as u32 || nanosecond >= NANOS_PER_SECOND as u32 {
            return None;
        }
        Some(Time::at_second_of_day(second, nanosecond))
    }

    /// As [`Time::from_second_of_day`], of a second and a nanosecond below their limits. The caller
    /// proves that they are.
    ///
    /// # Contract
    ///
    /// ```text
    /// requires second { second < 86_400 }
    /// requires nanosecond { nanosecond < nanos_per_second }
    /// ensures { result ≡ second * nanos_per_second + nanosecond }
    /// ```
    ///
    /// [docs/proofs/STATEMENT.md](crate::proved#contracts) explains the words.
    #[inline(always)]
    pub(in crate::proved) const fn at_second_of_day(second: u32, nanosecond: u32) -> Time {
        Time {
            niche: crate::proved::memory::Niche::Here,
            hour: (second / SECONDS_PER_HOUR as u32) as u8,
            minute: (second / 60 % 60) as u8,
            second: (second % 60) as u8,
            nanosecond,
        }
    }
}
