// Made by make/erase of crates/calendar_values/src/time/reads.rt. Do not edit.
//! The parts of a time of day.
use crate::proved::calendar_values::Time;
use crate::proved::calendar_values::units::NANOS_PER_SECOND;

impl Time {
    /// The hour, the minute and the second.
    ///
    /// ```
    /// # use muxandu::proved::*;
    /// # fn main() -> Result<(), Box<dyn std::error::Error>> {
    /// let time = Time::from_hms_nano(13, 2, 59, 480_300_002)?;
    /// assert_eq!(time.as_hms(), (13, 2, 59));
    /// # Ok(())
    /// # }
    /// ```
    ///
    /// # Contract
    ///
    /// ```text
    /// ensures value { result ≡ (hour_of self, minute_of self, second_of self) }
    /// ensures in_range { AreTimeParts result.0 result.1 result.2 0 }
    /// ```
    ///
    /// [docs/proofs/STATEMENT.md](crate::proved#contracts) explains the words.
    #[inline]
    pub const fn as_hms(self) -> (u8, u8, u8) {
        (self.hour, self.minute, self.second)
    }

    /// The hour, the minute, the second and the millisecond of the second.
    ///
    /// ```
    /// # use muxandu::proved::*;
    /// # fn main() -> Result<(), Box<dyn std::error::Error>> {
    /// let time = Time::from_hms_nano(13, 2, 59, 480_300_002)?;
    /// assert_eq!(time.as_hms_milli(), (13, 2, 59, 480));
    /// # Ok(())
    /// # }
    /// ```
    ///
    /// # Contract
    ///
    /// ```text
    /// ensures value { result ≡ (
    ///   hour_of self,
    ///   minute_of self,
    ///   second_of self,
    ///   millisecond_of self,
    /// ) }
    /// ensures in_range { AreTimeParts result.0 result.1 result.2
    ///     (result.3 * nanos_per_millisecond) }
    /// ```
    ///
    /// [docs/proofs/STATEMENT.md](crate::proved#contracts) explains the words.
    #[inline]
    pub const fn as_hms_milli(self) -> (u8, u8, u8, u16) {
        (self.hour, self.minute, self.second, self.millisecond())
    }

    /// The hour, the minute, the second and the microsecond of the second.
    ///
    /// ```
    /// # use muxandu::proved::*;
    /// # fn main() -> Result<(), Box<dyn std::error::Error>> {
    /// let time = Time::from_hms_nano(13, 2, 59, 480_300_002)?;
    /// assert_eq!(time.as_hms_micro(), (13, 2, 59, 480_300));
    /// # Ok(())
    /// # }
    /// ```
    ///
    /// # Contract
    ///
    /// ```text
    /// ensures value { result ≡ (
    ///   hour_of self,
    ///   minute_of self,
    ///   second_of self,
    ///   microsecond_of self,
    /// ) }
    /// ensures in_range { AreTimeParts result.0 result.1 result.2
    ///     (result.3 * nanos_per_microsecond) }
    /// ```
    ///
    /// [docs/proofs/STATEMENT.md](crate::proved#contracts) explains the words.
    #[inline]
    pub const fn as_hms_micro(self) -> (u8, u8, u8, u32) {
        (self.hour, self.minute, self.second, self.microsecond())
    }

    /// The hour, the minute, the second and the nanosecond of the second.
    ///
    /// ```
    /// # use muxandu::proved::*;
    /// # fn main() -> Result<(), Box<dyn std::error::Error>> {
    /// let time = Time::from_hms_nano(13, 2, 59, 480_300_002)?;
    /// assert_eq!(time.as_hms_nano(), (13, 2, 59, 480_300_002));
    /// # Ok(())
    /// # }
    /// ```
    ///
    /// # Contract
    ///
    /// ```text
    /// ensures value { result ≡ (
    ///   hour_of self,
    ///   minute_of self,
    ///   second_of self,
    ///   nanosecond_of self,
    /// ) }
    /// ensures in_range { AreTimeParts result.0 result.1 result.2 result.3 }
    /// ```
    ///
    /// [docs/proofs/STATEMENT.md](crate::proved#contracts) explains the words.
    #[inline]
    pub const fn as_hms_nano(self) -> (u8, u8, u8, u32) {
        (self.hour, self.minute, self.second, self.nanosecond)
    }

    /// The hour, 0 to 23.
    ///
    /// ```
    /// # use muxandu::proved::*;
    /// # fn main() -> Result<(), Box<dyn std::error::Error>> {
    /// let time = Time::from_hms_nano(13, 2, 59, 480_300_002)?;
    /// assert_eq!(time.hour(), 13);
    /// # Ok(())
    /// # }
    /// ```
    ///
    /// # Contract
    ///
    /// ```text
    /// ensures value { result ≡ hour_of self }
    /// ensures in_range { result ≤ 23 }
    /// ```
    ///
    /// [docs/proofs/STATEMENT.md](crate::proved#contracts) explains the words.
    #[inline]
    pub const fn hour(self) -> u8 {
        self.hour
    }

    /// The minute of the hour, 0 to 59.
    ///
    /// ```
    /// # use muxandu::proved::*;
    /// # fn main() -> Result<(), Box<dyn std::error::Error>> {
    /// let time = Time::from_hms_nano(13, 2, 59, 480_300_002)?;
    /// assert_eq!(time.minute(), 2);
    /// # Ok(())
    /// # }
    /// ```
    ///
    /// # Contract
    ///
    /// ```text
    /// ensures value { result ≡ minute_of self }
    /// ensures in_range { result ≤ 59 }
    /// ```
    ///
    /// [docs/proofs/STATEMENT.md](crate::proved#contracts) explains the words.
    #[inline]
    pub const fn minute(self) -> u8 {
        self.minute
    }

    /// The second of the minute, 0 to 59.
    ///
    /// ```
    /// # use muxandu::proved::*;
    /// # fn main() -> Result<(), Box<dyn std::error::Error>> {
    /// let time = Time::from_hms_nano(13, 2, 59, 480_300_002)?;
    /// assert_eq!(time.second(), 59);
    /// # Ok(())
    /// # }
    /// ```
    ///
    /// # Contract
    ///
    /// ```text
    /// ensures value { result ≡ second_of self }
    /// ensures in_range { result ≤ 59 }
    /// ```
    ///
    /// [docs/proofs/STATEMENT.md](crate::proved#contracts) explains the words.
    #[inline]
    pub const fn second(self) -> u8 {
        self.second
    }

    /// The millisecond of the second, 0 to 999.
    ///
    /// ```
    /// # use muxandu::proved::*;
    /// # fn main() -> Result<(), Box<dyn std::error::Error>> {
    /// let time = Time::from_hms_nano(13, 2, 59, 480_300_002)?;
    /// assert_eq!(time.millisecond(), 480);
    /// # Ok(())
    /// # }
    /// ```
    ///
    /// # Contract
    ///
    /// ```text
    /// ensures value { result ≡ millisecond_of self }
    /// ensures in_range { result ≤ 999 }
    /// ```
    ///
    /// [docs/proofs/STATEMENT.md](crate::proved#contracts) explains the words.
    #[inline]
    pub const fn millisecond(self) -> u16 {
        (self.nanosecond / 1_000_000) as u16
    }

    /// The microsecond of the second, 0 to 999,999.
    ///
    /// ```
    /// # use muxandu::proved::*;
    /// # fn main() -> Result<(), Box<dyn std::error::Error>> {
    /// let time = Time::from_hms_nano(13, 2, 59, 480_300_002)?;
    /// assert_eq!(time.microsecond(), 480_300);
    /// # Ok(())
    /// # }
    /// ```
    ///
    /// # Contract
    ///
    /// ```text
    /// ensures value { result ≡ microsecond_of self }
    /// ensures in_range { result ≤ 999_999 }
    /// ```
    ///
    /// [docs/proofs/STATEMENT.md](crate::proved#contracts) explains the words.
    #[inline]
    pub const fn microsecond(self) -> u32 {
        self.nanosecond / 1_000
    }

    /// The nanosecond of the second, 0 to 999,999,999.
    ///
    /// ```
    /// # use muxandu::proved::*;
    /// # fn main() -> Result<(), Box<dyn std::error::Error>> {
    /// let time = Time::from_hms_nano(13, 2, 59, 480_300_002)?;
    /// assert_eq!(time.nanosecond(), 480_300_002);
    /// # Ok(())
    /// # }
    /// ```
    ///
    /// # Contract
    ///
    /// ```text
    /// ensures value { result ≡ nanosecond_of self }
    /// ensures in_range { result ≤ 999_999_999 }
    /// ```
    ///
    /// [docs/proofs/STATEMENT.md](crate::proved#contracts) explains the words.
    #[inline]
    pub const fn nanosecond(self) -> u32 {
        self.nanosecond
    }

    /// The second of the day, 0 to 86,399.
    ///
    /// ```
    /// # use muxandu::proved::*;
    /// # fn main() -> Result<(), Box<dyn std::error::Error>> {
    /// let time = Time::from_hms_nano(13, 2, 59, 480_300_002)?;
    /// assert_eq!(time.second_of_day(), 46_979);
    /// # Ok(())
    /// # }
    /// ```
    ///
    /// # Contract
    ///
    /// ```text
    /// ensures value { result ≡ self / nanos_per_second }
    /// ensures in_range { result < 86_400 }
    /// ```
    ///
    /// [docs/proofs/STATEMENT.md](crate::proved#contracts) explains the words.
    #[inline(always)]
    pub const fn second_of_day(self) -> u32 {
        (self.hour as u32 * 60 + self.minute as u32) * 60 + self.second as u32
    }

    /// The nanosecond of the day, 0 to 86,399,999,999,999.
    ///
    /// ```
    /// # use muxandu::proved::*;
    /// # fn main() -> Result<(), Box<dyn std::error::Error>> {
    /// let time = Time::from_hms_nano(13, 2, 59, 480_300_002)?;
    /// assert_eq!(time.nanosecond_of_day(), 46_979_480_300_002);
    /// # Ok(())
    /// # }
    /// ```
    ///
    /// # Contract
    ///
    /// ```text
    /// ensures value { result ≡ self }
    /// ensures self_in_range { IsClock self }
    /// ```
    ///
    /// [docs/proofs/STATEMENT.md](crate::proved#contracts) explains the words.
    #[inline(always)]
    pub const fn nanosecond_of_day(self) -> u64 {
        self.second_of_day() as u64 * NANOS_PER_SECOND as u64 + self.nanosecond as u64
    }
}
