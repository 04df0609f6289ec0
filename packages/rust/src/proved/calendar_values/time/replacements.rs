// Made by make/erase of crates/calendar_values/src/time/replacements.rt. Do not edit.
//! Times of day with a part replaced, or truncated to a unit of time.
use crate::proved::calendar_values::{ComponentRange, Part, Time};

impl Time {
    /// The same time with another hour. Fails with `hour` above 23.
    ///
    /// ```
    /// # use muxandu::proved::*;
    /// # fn main() -> Result<(), Box<dyn std::error::Error>> {
    /// let time = Time::from_hms_nano(13, 2, 59, 480_300_002)?;
    /// assert_eq!(time.replace_hour(0)?.as_hms_nano(), (0, 2, 59, 480_300_002));
    /// assert_eq!(time.replace_hour(24), Err(ComponentRange::new("hour", false)));
    /// # Ok(())
    /// # }
    /// ```
    ///
    /// # Contract
    ///
    /// ```text
    /// ensures value { Gives result (hour_outcome self hour) }
    /// ensures shown { IfOk result (λ time.
    ///     HasTimeParts time hour (minute_of self) (second_of self) (nanosecond_of self)) }
    /// ```
    ///
    /// [docs/proofs/STATEMENT.md](crate::proved#contracts) explains the words.
    #[inline]
    pub const fn replace_hour(self, hour: u8) -> Result<Time, ComponentRange> {
        if hour <= 23 {
            Ok(Time { hour, ..self })
        } else {
            Err(ComponentRange::of_part(Part::Hour, false))
        }
    }

    /// The first nanosecond of the hour that the time is in.
    ///
    /// ```
    /// # use muxandu::proved::*;
    /// # fn main() -> Result<(), Box<dyn std::error::Error>> {
    /// let time = Time::from_hms_nano(13, 2, 59, 480_300_002)?;
    /// assert_eq!(time.truncate_to_hour().as_hms_nano(), (13, 0, 0, 0));
    /// # Ok(())
    /// # }
    /// ```
    ///
    /// # Contract
    ///
    /// ```text
    /// ensures value { result ≡ multiple_below nanos_per_hour self }
    /// ensures not_above { result ≤ self }
    /// ensures within { self < result + nanos_per_hour }
    /// ```
    ///
    /// [docs/proofs/STATEMENT.md](crate::proved#contracts) explains the words.
    #[inline]
    pub const fn truncate_to_hour(self) -> Time {
        Time {
            minute: 0,
            second: 0,
            nanosecond: 0,
            ..self
        }
    }

    /// The same time with another minute. Fails with `minute` above 59.
    ///
    /// ```
    /// # use muxandu::proved::*;
    /// # fn main() -> Result<(), Box<dyn std::error::Error>> {
    /// let time = Time::from_hms_nano(13, 2, 59, 480_300_002)?;
    /// assert_eq!(time.replace_minute(30)?.as_hms_nano(), (13, 30, 59, 480_300_002));
    /// assert_eq!(time.replace_minute(60), Err(ComponentRange::new("minute", false)));
    /// # Ok(())
    /// # }
    /// ```
    ///
    /// # Contract
    ///
    /// ```text
    /// ensures value { Gives result (minute_outcome self minute) }
    /// ensures shown { IfOk result (λ time.
    ///     HasTimeParts time (hour_of self) minute (second_of self) (nanosecond_of self)) }
    /// ```
    ///
    /// [docs/proofs/STATEMENT.md](crate::proved#contracts) explains the words.
    #[inline]
    pub const fn replace_minute(self, minute: u8) -> Result<Time, ComponentRange> {
        if minute <= 59 {
            Ok(Time { minute, ..self })
        } else {
            Err(ComponentRange::of_part(Part::Minute, false))
        }
    }

    /// The first nanosecond of the minute that the time is in.
    ///
    /// ```
    /// # use muxandu::proved::*;
    /// # fn main() -> Result<(), Box<dyn std::error::Error>> {
    /// let time = Time::from_hms_nano(13, 2, 59, 480_300_002)?;
    /// assert_eq!(time.truncate_to_minute().as_hms_nano(), (13, 2, 0, 0));
    /// # Ok(())
    /// # }
    /// ```
    ///
    /// # Contract
    ///
    /// ```text
    /// ensures value { result ≡ multiple_below nanos_per_minute self }
    /// ensures not_above { result ≤ self }
    /// ensures within { self < result + nanos_per_minute }
    /// ```
    ///
    /// [docs/proofs/STATEMENT.md](crate::proved#contracts) explains the words.
    #[inline]
    pub const fn truncate_to_minute(self) -> Time {
        Time {
            second: 0,
            nanosecond: 0,
            ..self
        }
    }

    /// The same time with another second. Fails with `second` above 59.
    ///
    /// ```
    /// # use muxandu::proved::*;
    /// # fn main() -> Result<(), Box<dyn std::error::Error>> {
    /// let time = Time::from_hms_nano(13, 2, 59, 480_300_002)?;
    /// assert_eq!(time.replace_second(0)?.as_hms_nano(), (13, 2, 0, 480_300_002));
    /// assert_eq!(time.replace_second(60), Err(ComponentRange::new("second", false)));
    /// # Ok(())
    /// # }
    /// ```
    ///
    /// # Contract
    ///
    /// ```text
    /// ensures value { Gives result (second_outcome self second) }
    /// ensures shown { IfOk result (λ time.
    ///     HasTimeParts time (hour_of self) (minute_of self) second (nanosecond_of self)) }
    /// ```
    ///
    /// [docs/proofs/STATEMENT.md](crate::proved#contracts) explains the words.
    #[inline]
    pub const fn replace_second(self, second: u8) -> Result<Time, ComponentRange> {
        if second <= 59 {
            Ok(Time { second, ..self })
        } else {
            Err(ComponentRange::of_part(Part::Second, false))
        }
    }

    /// The first nanosecond of the second that the time is in.
    ///
    /// ```
    /// # use muxandu::proved::*;
    /// # fn main() -> Result<(), Box<dyn std::error::Error>> {
    /// let time = Time::from_hms_nano(13, 2, 59, 480_300_002)?;
    /// assert_eq!(time.truncate_to_second().as_hms_nano(), (13, 2, 59, 0));
    /// # Ok(())
    /// # }
    /// ```
    ///
    /// # Contract
    ///
    /// ```text
    /// ensures value { result ≡ multiple_below nanos_per_second self }
    /// ensures not_above { result ≤ self }
    /// ensures within { self < result + nanos_per_second }
    /// ```
    ///
    /// [docs/proofs/STATEMENT.md](crate::proved#contracts) explains the words.
    #[inline]
    pub const fn truncate_to_second(self) -> Time {
        Time {
            nanosecond: 0,
            ..self
        }
    }

    /// The same time with another millisecond of the second, and nothing finer. Fails with
    /// `millisecond` above 999.
    ///
    /// ```
    /// # use muxandu::proved::*;
    /// # fn main() -> Result<(), Box<dyn std::error::Error>> {
    /// let time = Time::from_hms_nano(13, 2, 59, 480_300_002)?;
    /// assert_eq!(time.replace_millisecond(7)?.as_hms_nano(), (13, 2, 59, 7_000_000));
    /// assert_eq!(
    ///     time.replace_millisecond(1_000),
    ///     Err(ComponentRange::new("millisecond", false))
    /// );
    /// # Ok(())
    /// # }
    /// ```
    ///
    /// # Contract
    ///
    /// ```text
    /// ensures value { Gives result (millisecond_outcome self millisecond) }
    /// ensures shown { IfOk result (λ time.
    ///     HasTimeParts time (hour_of self) (minute_of self) (second_of self)
    ///     (millisecond * nanos_per_millisecond)) }
    /// ```
    ///
    /// [docs/proofs/STATEMENT.md](crate::proved#contracts) explains the words.
    #[inline]
    pub const fn replace_millisecond(self, millisecond: u16) -> Result<Time, ComponentRange> {
        if millisecond <= 999 {
            Ok(Time {
                nanosecond: millisecond as u32 * 1_000_000,
                ..self
            })
        } else {
            Err(ComponentRange::of_part(Part::Millisecond, false))
        }
    }

    /// The first nanosecond of the millisecond that the time is in.
    ///
    /// ```
    /// # use muxandu::proved::*;
    /// # fn main() -> Result<(), Box<dyn std::error::Error>> {
    /// let time = Time::from_hms_nano(13, 2, 59, 480_300_002)?;
    /// assert_eq!(time.truncate_to_millisecond().as_hms_nano(), (13, 2, 59, 480_000_000));
    /// # Ok(())
    /// # }
    /// ```
    ///
    /// # Contract
    ///
    /// ```text
    /// ensures value { result ≡ multiple_below nanos_per_millisecond self }
    /// ensures not_above { result ≤ self }
    /// ensures within { self < result + nanos_per_millisecond }
    /// ```
    ///
    /// [docs/proofs/STATEMENT.md](crate::proved#contracts) explains the words.
    #[inline]
    pub const fn truncate_to_millisecond(self) -> Time {
        Time {
            nanosecond: self.nanosecond - self.nanosecond % 1_000_000,
            ..self
        }
    }

    /// The same time with another microsecond of the second, and nothing finer. Fails with
    /// `microsecond` above 999,999.
    ///
    /// ```
    /// # use muxandu::proved::*;
    /// # fn main() -> Result<(), Box<dyn std::error::Error>> {
    /// let time = Time::from_hms_nano(13, 2, 59, 480_300_002)?;
    /// assert_eq!(time.replace_microsecond(7)?.as_hms_nano(), (13, 2, 59, 7_000));
    /// assert_eq!(
    ///     time.replace_microsecond(1_000_000),
    ///     Err(ComponentRange::new("microsecond", false))
    /// );
    /// # Ok(())
    /// # }
    /// ```
    ///
    /// # Contract
    ///
    /// ```text
    /// ensures value { Gives result (microsecond_outcome self microsecond) }
    /// ensures shown { IfOk result (λ time.
    ///     HasTimeParts time (hour_of self) (minute_of self) (second_of self)
    ///     (microsecond * nanos_per_microsecond)) }
    /// ```
    ///
    /// [docs/proofs/STATEMENT.md](crate::proved#contracts) explains the words.
    #[inline]
    pub const fn replace_microsecond(self, microsecond: u32) -> Result<Time, ComponentRange> {
        if microsecond <= 999_999 {
            Ok(Time {
                nanosecond: microsecond * 1_000,
                ..self
            })
        } else {
            Err(ComponentRange::of_part(Part::Microsecond, false))
        }
    }

    /// The first nanosecond of the microsecond that the time is in.
    ///
    /// ```
    /// # use muxandu::proved::*;
    /// # fn main() -> Result<(), Box<dyn std::error::Error>> {
    /// let time = Time::from_hms_nano(13, 2, 59, 480_300_002)?;
    /// assert_eq!(time.truncate_to_microsecond().as_hms_nano(), (13, 2, 59, 480_300_000));
    /// # Ok(())
    /// # }
    /// ```
    ///
    /// # Contract
    ///
    /// ```text
    /// ensures value { result ≡ multiple_below nanos_per_microsecond self }
    /// ensures not_above { result ≤ self }
    /// ensures within { self < result + nanos_per_microsecond }
    /// ```
    ///
    /// [docs/proofs/STATEMENT.md](crate::proved#contracts) explains the words.
    #[inline]
    pub const fn truncate_to_microsecond(self) -> Time {
        Time {
            nanosecond: self.nanosecond - self.nanosecond % 1_000,
            ..self
        }
    }

    /// The same time with another nanosecond of the second. Fails with `nanosecond` above
    /// 999,999,999.
    ///
    /// ```
    /// # use muxandu::proved::*;
    /// # fn main() -> Result<(), Box<dyn std::error::Error>> {
    /// let time = Time::from_hms_nano(13, 2, 59, 480_300_002)?;
    /// assert_eq!(time.replace_nanosecond(7)?.as_hms_nano(), (13, 2, 59, 7));
    /// assert_eq!(
    ///     time.replace_nanosecond(1_000_000_000),
    ///     Err(ComponentRange::new("nanosecond", false))
    /// );
    /// # Ok(())
    /// # }
    /// ```
    ///
    /// # Contract
    ///
    /// ```text
    /// ensures value { Gives result (nanosecond_outcome self nanosecond) }
    /// ensures shown { IfOk result (λ time.
    ///     HasTimeParts time (hour_of self) (minute_of self) (second_of self) nanosecond) }
    /// ```
    ///
    /// [docs/proofs/STATEMENT.md](crate::proved#contracts) explains the words.
    #[inline]
    pub const fn replace_nanosecond(self, nanosecond: u32) -> Result<Time, ComponentRange> {
        if nanosecond <= 999_999_999 {
            Ok(Time { nanosecond, ..self })
        } else {
            Err(ComponentRange::of_part(Part::Nanosecond, false))
        }
    }
}
