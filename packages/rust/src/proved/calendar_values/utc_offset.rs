// Made by make/erase of crates/calendar_values/src/utc_offset.rt. Do not edit.
//! Offsets from UTC.
use crate::proved::calendar_values::component_range::{ComponentRange, Part};
use crate::proved::calendar_values::units::SECONDS_PER_HOUR;
mod comparisons;
mod reads;
mod texts;

/// An offset from UTC, -25:59:59 to 25:59:59, as in the `time` crate. It is positive east of
/// Greenwich, where clocks show more. A contract sees the number of its seconds, -93,599 to 93,599.
///
/// ```
/// # use muxandu::proved::*;
/// # fn main() -> Result<(), Box<dyn std::error::Error>> {
/// let newfoundland = UtcOffset::from_hms(-3, -30, 0)?;
/// assert_eq!(newfoundland.whole_seconds(), -12_600);
/// assert_eq!(newfoundland.minutes_past_hour(), -30);
/// # Ok(())
/// # }
/// ```
#[derive(Clone, Copy, PartialEq)]
pub struct UtcOffset {
    niche: crate::proved::memory::Niche,
    hours: i8,
    minutes: i8,
    seconds: i8,
}

impl UtcOffset {
    /// UTC itself, the offset 0.
    pub const UTC: UtcOffset = UtcOffset {
        niche: crate::proved::memory::Niche::Here,
        hours: 0,
        minutes: 0,
        seconds: 0,
    };

    /// The offset of hours, -25 to 25, and of minutes and seconds, -59 to 59. The smaller parts
    /// take the sign of the hours, or of the minutes if the hours are 0, as the `time` crate
    /// documents: `from_hms(1, -2, -3)` is 1:02:03. Fails with the first part out of range:
    /// `hours`, `minutes` or `seconds`, unconditionally.
    ///
    /// ```
    /// # use muxandu::proved::*;
    /// # fn main() -> Result<(), Box<dyn std::error::Error>> {
    /// assert_eq!(UtcOffset::from_hms(5, 45, 0)?.whole_seconds(), 20_700);
    /// assert_eq!(UtcOffset::from_hms(26, 0, 0), Err(ComponentRange::new("hours", false)));
    /// # Ok(())
    /// # }
    /// ```
    ///
    /// # Contract
    ///
    /// ```text
    /// ensures { Gives result (offset_outcome hours minutes seconds) }
    /// ```
    ///
    /// [docs/proofs/STATEMENT.md](crate::proved#contracts) explains the words.
    #[inline]
    pub const fn from_hms(
        hours: i8,
        minutes: i8,
        seconds: i8,
    ) -> Result<UtcOffset, ComponentRange> {
        if hours.unsigned_abs() > 25 {
            return Err(ComponentRange::of_part(Part::Hours, false));
        }
        if minutes.unsigned_abs() > 59 {
            return Err(ComponentRange::of_part(Part::Minutes, false));
        }
        if seconds.unsigned_abs() > 59 {
            return Err(ComponentRange::of_part(Part::Seconds, false));
        }
        Ok(UtcOffset {
            niche: crate::proved::memory::Niche::Here,
            hours,
            minutes: with_sign_of(hours, minutes),
            seconds: with_sign_of(hours, with_sign_of(minutes, seconds)),
        })
    }

    /// The offset of a number of seconds. Fails with `offset_seconds`, unconditionally, outside
    /// -93,599 to 93,599.
    ///
    /// ```
    /// # use muxandu::proved::*;
    /// # fn main() -> Result<(), Box<dyn std::error::Error>> {
    /// assert_eq!(UtcOffset::from_whole_seconds(-34_200)?, UtcOffset::from_hms(-9, -30, 0)?);
    /// assert_eq!(
    ///     UtcOffset::from_whole_seconds(93_600),
    ///     Err(ComponentRange::new("offset_seconds", false))
    /// );
    /// # Ok(())
    /// # }
    /// ```
    ///
    /// # Contract
    ///
    /// ```text
    /// ensures { Gives result (offset_seconds_outcome seconds) }
    /// ```
    ///
    /// [docs/proofs/STATEMENT.md](crate::proved#contracts) explains the words.
    #[inline]
    pub const fn from_whole_seconds(seconds: i32) -> Result<UtcOffset, ComponentRange> {
        if seconds < -93_599 || seconds > 93_599 {
            return Err(ComponentRange::of_part(Part::OffsetSeconds, false));
        }
        Ok(UtcOffset {
            niche: crate::proved::memory::Niche::Here,
            hours: (seconds / SECONDS_PER_HOUR) as i8,
            minutes: (seconds / 60 % 60) as i8,
            seconds: (seconds % 60) as i8,
        })
    }
}

// A part, with the sign of a greater part; it keeps its own where that one is 0.
/// # Contract
///
/// ```text
/// requires { unsigned_abs part ≤ 59 }
/// ensures { result ≡ with_sign_of greater part }
/// ```
///
/// [docs/proofs/STATEMENT.md](crate::proved#contracts) explains the words.
#[inline]
const fn with_sign_of(greater: i8, part: i8) -> i8 {
    if greater < 0 && part > 0 || greater > 0 && part < 0 {
        -part
    } else {
        part
    }
}
