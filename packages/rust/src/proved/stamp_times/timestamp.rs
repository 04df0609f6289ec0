// Made by make/erase of crates/stamp_times/src/timestamp.rt. Do not edit.
//! An instant by its Unix seconds.
use crate::proved::calendar_values::units::NANOS_PER_SECOND;
use crate::proved::calendar_values::{ComponentRange, Part};
mod comparisons;
mod operators;
mod reads;
mod replacements;
mod sums;
mod texts;
mod truncations;
mod with_offset;
mod with_utc;

// The seconds of the first instant of the range and of the last.
const FIRST_SECOND: i64 = -31_619_087_596_800;

const LAST_SECOND: i64 = 31_494_784_780_799;

const MAX_NANOSECOND: u32 = 999_999_999;

/// An instant by its Unix second and the nanosecond of that second, from the first midnight of the
/// range in UTC to its last nanosecond. A contract sees the instant: the nanoseconds from
/// 1970-01-01 0:00 UTC, with no leap seconds. Equality, order and hash go by it; which bytes a
/// hasher is fed is no promise.
///
/// ```
/// # use muxandu::proved::*;
/// # fn main() -> Result<(), Box<dyn std::error::Error>> {
/// let before = Timestamp::from_milliseconds(-1)?;
/// assert_eq!(before.as_seconds(), -1);
/// assert_eq!(before.nanosecond(), 999_000_000);
/// # Ok(())
/// # }
/// ```
#[derive(Clone, Copy, PartialEq)]
pub struct Timestamp {
    niche: crate::proved::memory::Niche,
    seconds: i64,
    nanosecond: u32,
}

impl Timestamp {
    /// The first: midnight of the first day of the range in UTC.
    pub const MIN: Timestamp = Timestamp {
        niche: crate::proved::memory::Niche::Here,
        seconds: FIRST_SECOND,
        nanosecond: 0,
    };

    /// The last: the last nanosecond of the last day of the range in UTC.
    pub const MAX: Timestamp = Timestamp {
        niche: crate::proved::memory::Niche::Here,
        seconds: LAST_SECOND,
        nanosecond: MAX_NANOSECOND,
    };

    /// 1970-01-01 0:00:00.0 in UTC, from which instants are counted.
    pub const UNIX_EPOCH: Timestamp = Timestamp {
        niche: crate::proved::memory::Niche::Here,
        seconds: 0,
        nanosecond: 0,
    };

    /// The instant of a Unix second and a nanosecond of that second. Fails with `seconds` before
    /// that of [`Timestamp::MIN`] or after that of [`Timestamp::MAX`], then `nanoseconds` above
    /// 999,999,999.
    ///
    /// ```
    /// # use muxandu::proved::*;
    /// # fn main() -> Result<(), Box<dyn std::error::Error>> {
    /// assert_eq!(Timestamp::new(-1, 999_000_000)?, Timestamp::from_milliseconds(-1)?);
    /// assert_eq!(
    ///     Timestamp::new(0, 1_000_000_000),
    ///     Err(ComponentRange::new("nanoseconds", false))
    /// );
    /// # Ok(())
    /// # }
    /// ```
    ///
    /// # Contract
    ///
    /// ```text
    /// ensures { Gives result (timestamp_outcome seconds nanoseconds) }
    /// ```
    ///
    /// [docs/proofs/STATEMENT.md](crate::proved#contracts) explains the words.
    #[inline]
    pub const fn new(seconds: i64, nanoseconds: u32) -> Result<Timestamp, ComponentRange> {
        if seconds < FIRST_SECOND || seconds > LAST_SECOND {
            return Err(ComponentRange::of_part(Part::Seconds, false));
        }
        if nanoseconds > MAX_NANOSECOND {
            return Err(ComponentRange::of_part(Part::Nanoseconds, false));
        }
        Ok(Timestamp {
            niche: crate::proved::memory::Niche::Here,
            seconds,
            nanosecond: nanoseconds,
        })
    }

    /// The beginning of a Unix second. Fails with `seconds` before that of [`Timestamp::MIN`] or
    /// after that of [`Timestamp::MAX`].
    ///
    /// ```
    /// # use muxandu::proved::*;
    /// # fn main() -> Result<(), Box<dyn std::error::Error>> {
    /// assert_eq!(Timestamp::from_seconds(1_000_000_000)?.year(), 2001);
    /// assert_eq!(
    ///     Timestamp::from_seconds(i64::MIN),
    ///     Err(ComponentRange::new("seconds", false))
    /// );
    /// # Ok(())
    /// # }
    /// ```
    ///
    /// # Contract
    ///
    /// ```text
    /// ensures { Gives result (instant_outcome (codes "seconds") (instant_of_second seconds)) }
    /// ```
    ///
    /// [docs/proofs/STATEMENT.md](crate::proved#contracts) explains the words.
    #[inline]
    pub const fn from_seconds(seconds: i64) -> Result<Timestamp, ComponentRange> {
        if seconds < FIRST_SECOND || seconds > LAST_SECOND {
            return Err(ComponentRange::of_part(Part::Seconds, false));
        }
        Ok(Timestamp {
            niche: crate::proved::memory::Niche::Here,
            seconds,
            nanosecond: 0,
        })
    }

    /// The instant of a number of milliseconds from 1970-01-01 0:00 UTC. Fails with `milliseconds`
    /// before [`Timestamp::MIN`] or after [`Timestamp::MAX`].
    ///
    /// ```
    /// # use muxandu::proved::*;
    /// # fn main() -> Result<(), Box<dyn std::error::Error>> {
    /// assert_eq!(Timestamp::from_milliseconds(1_250)?, Timestamp::new(1, 250_000_000)?);
    /// assert_eq!(
    ///     Timestamp::from_milliseconds(i64::MAX),
    ///     Err(ComponentRange::new("milliseconds", false))
    /// );
    /// # Ok(())
    /// # }
    /// ```
    ///
    /// # Contract
    ///
    /// ```text
    /// ensures { let i = instant_of_milliseconds milliseconds in
    ///     Gives result (instant_outcome (codes "milliseconds") i) }
    /// ```
    ///
    /// [docs/proofs/STATEMENT.md](crate::proved#contracts) explains the words.
    #[inline]
    pub const fn from_milliseconds(milliseconds: i64) -> Result<Timestamp, ComponentRange> {
        if milliseconds < FIRST_SECOND * 1_000 || milliseconds > LAST_SECOND * 1_000 + 999 {
            return Err(ComponentRange::of_part(Part::Milliseconds, false));
        }
        Ok(Timestamp {
            niche: crate::proved::memory::Niche::Here,
            seconds: milliseconds.div_euclid(1_000),
            nanosecond: milliseconds.rem_euclid(1_000) as u32 * 1_000_000,
        })
    }

    /// The instant of a number of microseconds from 1970-01-01 0:00 UTC. Fails with `microseconds`
    /// before [`Timestamp::MIN`] or after [`Timestamp::MAX`].
    ///
    /// ```
    /// # use muxandu::proved::*;
    /// # fn main() -> Result<(), Box<dyn std::error::Error>> {
    /// assert_eq!(Timestamp::from_microseconds(1_250)?, Timestamp::new(0, 1_250_000)?);
    /// assert_eq!(
    ///     Timestamp::from_microseconds(i128::MAX),
    ///     Err(ComponentRange::new("microseconds", false))
    /// );
    /// # Ok(())
    /// # }
    /// ```
    ///
    /// # Contract
    ///
    /// ```text
    /// ensures { let i = instant_of_microseconds microseconds in
    ///     Gives result (instant_outcome (codes "microseconds") i) }
    /// ```
    ///
    /// [docs/proofs/STATEMENT.md](crate::proved#contracts) explains the words.
    #[inline]
    pub const fn from_microseconds(microseconds: i128) -> Result<Timestamp, ComponentRange> {
        if microseconds < FIRST_SECOND as i128 * 1_000_000
            || microseconds > LAST_SECOND as i128 * 1_000_000 + 999_999
        {
            return Err(ComponentRange::of_part(Part::Microseconds, false));
        }
        Ok(Timestamp {
            niche: crate::proved::memory::Niche::Here,
            seconds: microseconds.div_euclid(1_000_000) as i64,
            nanosecond: microseconds.rem_euclid(1_000_000) as u32 * 1_000,
        })
    }

    /// The instant of a number of nanoseconds from 1970-01-01 0:00 UTC. Fails with `nanoseconds`
    /// before [`Timestamp::MIN`] or after [`Timestamp::MAX`].
    ///
    /// ```
    /// # use muxandu::proved::*;
    /// # fn main() -> Result<(), Box<dyn std::error::Error>> {
    /// assert_eq!(Timestamp::from_nanoseconds(-1)?, Timestamp::new(-1, 999_999_999)?);
    /// assert_eq!(
    ///     Timestamp::from_nanoseconds(i128::MIN),
    ///     Err(ComponentRange::new("nanoseconds", false))
    /// );
    /// # Ok(())
    /// # }
    /// ```
    ///
    /// # Contract
    ///
    /// ```text
    /// ensures { Gives result (instant_outcome (codes "nanoseconds") nanoseconds) }
    /// ```
    ///
    /// [docs/proofs/STATEMENT.md](crate::proved#contracts) explains the words.
    #[inline]
    pub const fn from_nanoseconds(nanoseconds: i128) -> Result<Timestamp, ComponentRange> {
        if nanoseconds < FIRST_SECOND as i128 * NANOS_PER_SECOND as i128
            || nanoseconds > LAST_SECOND as i128 * NANOS_PER_SECOND as i128 + MAX_NANOSECOND as i128
        {
            return Err(ComponentRange::of_part(Part::Nanoseconds, false));
        }
        Ok(Timestamp {
            niche: crate::proved::memory::Niche::Here,
            seconds: nanoseconds.div_euclid(NANOS_PER_SECOND as i128) as i64,
            nanosecond: nanoseconds.rem_euclid(NANOS_PER_SECOND as i128) as u32,
        })
    }

    /// The Unix second: the whole seconds from 1970-01-01 0:00 UTC, rounded down.
    ///
    /// ```
    /// # use muxandu::proved::*;
    /// # fn main() -> Result<(), Box<dyn std::error::Error>> {
    /// let at = Timestamp::new(-2, 250_300_004)?;
    /// assert_eq!(at.as_seconds(), -2);
    /// # Ok(())
    /// # }
    /// ```
    ///
    /// # Contract
    ///
    /// ```text
    /// ensures value { result ≡ unix_seconds_of self }
    /// ensures self_in_range { IsInstant self }
    /// ```
    ///
    /// [docs/proofs/STATEMENT.md](crate::proved#contracts) explains the words.
    #[inline]
    pub const fn as_seconds(self) -> i64 {
        self.seconds
    }

    /// The whole milliseconds from 1970-01-01 0:00 UTC, rounded down.
    ///
    /// ```
    /// # use muxandu::proved::*;
    /// # fn main() -> Result<(), Box<dyn std::error::Error>> {
    /// let at = Timestamp::new(-2, 250_300_004)?;
    /// assert_eq!(at.as_milliseconds(), -1_750);
    /// # Ok(())
    /// # }
    /// ```
    ///
    /// # Contract
    ///
    /// ```text
    /// ensures value { result ≡ unix_milliseconds_of self }
    /// ensures self_in_range { IsInstant self }
    /// ```
    ///
    /// [docs/proofs/STATEMENT.md](crate::proved#contracts) explains the words.
    #[inline]
    pub const fn as_milliseconds(self) -> i64 {
        self.seconds * 1_000 + (self.nanosecond / 1_000_000) as i64
    }

    /// The whole microseconds from 1970-01-01 0:00 UTC, rounded down.
    ///
    /// ```
    /// # use muxandu::proved::*;
    /// # fn main() -> Result<(), Box<dyn std::error::Error>> {
    /// let at = Timestamp::new(-2, 250_300_004)?;
    /// assert_eq!(at.as_microseconds(), -1_749_700);
    /// # Ok(())
    /// # }
    /// ```
    ///
    /// # Contract
    ///
    /// ```text
    /// ensures value { result ≡ unix_microseconds_of self }
    /// ensures self_in_range { IsInstant self }
    /// ```
    ///
    /// [docs/proofs/STATEMENT.md](crate::proved#contracts) explains the words.
    #[inline]
    pub const fn as_microseconds(self) -> i128 {
        self.seconds as i128 * 1_000_000 + (self.nanosecond / 1_000) as i128
    }

    /// The nanoseconds from 1970-01-01 0:00 UTC.
    ///
    /// ```
    /// # use muxandu::proved::*;
    /// # fn main() -> Result<(), Box<dyn std::error::Error>> {
    /// let at = Timestamp::new(-2, 250_300_004)?;
    /// assert_eq!(at.as_nanoseconds(), -1_749_699_996);
    /// # Ok(())
    /// # }
    /// ```
    ///
    /// # Contract
    ///
    /// ```text
    /// ensures value { result ≡ self }
    /// ensures self_in_range { IsInstant self }
    /// ```
    ///
    /// [docs/proofs/STATEMENT.md](crate::proved#contracts) explains the words.
    #[inline]
    pub const fn as_nanoseconds(self) -> i128 {
        self.seconds as i128 * NANOS_PER_SECOND as i128 + self.nanosecond as i128
    }
}
