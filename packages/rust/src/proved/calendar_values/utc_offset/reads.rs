// Made by make/erase of crates/calendar_values/src/utc_offset/reads.rt. Do not edit.
//! The parts of an offset.
use crate::proved::calendar_values::UtcOffset;

impl UtcOffset {
    /// The hours, -25 to 25, and the minutes and the seconds, -59 to 59, all of one sign.
    ///
    /// ```
    /// # use muxandu::proved::*;
    /// # fn main() -> Result<(), Box<dyn std::error::Error>> {
    /// let west = UtcOffset::from_hms(-9, -30, -15)?;
    /// assert_eq!(west.as_hms(), (-9, -30, -15));
    /// # Ok(())
    /// # }
    /// ```
    ///
    /// # Contract
    ///
    /// ```text
    /// ensures hours { result.0 ≡ offset_hours_of self }
    /// ensures minutes { result.1 ≡ offset_minutes_of self }
    /// ensures seconds { result.2 ≡ offset_seconds_of self }
    /// ensures in_range { AreSignedOffsetParts result.0 result.1 result.2 }
    /// ensures parts { seconds_of_parts result.0 result.1 result.2 ≡ self }
    /// ```
    ///
    /// [docs/proofs/STATEMENT.md](crate::proved#contracts) explains the words.
    #[inline]
    pub const fn as_hms(self) -> (i8, i8, i8) {
        (self.hours, self.minutes, self.seconds)
    }

    /// The whole hours, rounded towards zero: -25 to 25.
    ///
    /// ```
    /// # use muxandu::proved::*;
    /// # fn main() -> Result<(), Box<dyn std::error::Error>> {
    /// let west = UtcOffset::from_hms(-9, -30, -15)?;
    /// assert_eq!(west.whole_hours(), -9);
    /// # Ok(())
    /// # }
    /// ```
    ///
    /// # Contract
    ///
    /// ```text
    /// ensures value { result ≡ offset_hours_of self }
    /// ensures in_range { unsigned_abs result ≤ 25 }
    /// ```
    ///
    /// [docs/proofs/STATEMENT.md](crate::proved#contracts) explains the words.
    #[inline]
    pub const fn whole_hours(self) -> i8 {
        self.hours
    }

    /// The minutes past the hour, of the sign of the offset: -59 to 59.
    ///
    /// ```
    /// # use muxandu::proved::*;
    /// # fn main() -> Result<(), Box<dyn std::error::Error>> {
    /// let west = UtcOffset::from_hms(-9, -30, -15)?;
    /// assert_eq!(west.minutes_past_hour(), -30);
    /// # Ok(())
    /// # }
    /// ```
    ///
    /// # Contract
    ///
    /// ```text
    /// ensures value { result ≡ offset_minutes_of self }
    /// ensures in_range { unsigned_abs result ≤ 59 }
    /// ```
    ///
    /// [docs/proofs/STATEMENT.md](crate::proved#contracts) explains the words.
    #[inline]
    pub const fn minutes_past_hour(self) -> i8 {
        self.minutes
    }

    /// The seconds past the minute, of the sign of the offset: -59 to 59.
    ///
    /// ```
    /// # use muxandu::proved::*;
    /// # fn main() -> Result<(), Box<dyn std::error::Error>> {
    /// let west = UtcOffset::from_hms(-9, -30, -15)?;
    /// assert_eq!(west.seconds_past_minute(), -15);
    /// # Ok(())
    /// # }
    /// ```
    ///
    /// # Contract
    ///
    /// ```text
    /// ensures value { result ≡ offset_seconds_of self }
    /// ensures in_range { unsigned_abs result ≤ 59 }
    /// ```
    ///
    /// [docs/proofs/STATEMENT.md](crate::proved#contracts) explains the words.
    #[inline]
    pub const fn seconds_past_minute(self) -> i8 {
        self.seconds
    }

    /// The offset in seconds, -93,599 to 93,599.
    ///
    /// ```
    /// # use muxandu::proved::*;
    /// # fn main() -> Result<(), Box<dyn std::error::Error>> {
    /// let west = UtcOffset::from_hms(-9, -30, -15)?;
    /// assert_eq!(west.whole_seconds(), -34_215);
    /// # Ok(())
    /// # }
    /// ```
    ///
    /// # Contract
    ///
    /// ```text
    /// ensures value { result ≡ self }
    /// ensures in_range { IsOffset result }
    /// ensures self_in_range { IsOffset self }
    /// ```
    ///
    /// [docs/proofs/STATEMENT.md](crate::proved#contracts) explains the words.
    #[inline]
    pub const fn whole_seconds(self) -> i32 {
        let minutes = in_sixtieths(self.hours as i32, self.minutes as i32);
        in_sixtieths(minutes, self.seconds as i32)
    }

    /// Whether the offset is 0.
    ///
    /// ```
    /// # use muxandu::proved::*;
    /// # fn main() -> Result<(), Box<dyn std::error::Error>> {
    /// assert_eq!(UtcOffset::UTC.is_utc(), true);
    /// assert_eq!(UtcOffset::from_hms(0, 0, 1)?.is_utc(), false);
    /// # Ok(())
    /// # }
    /// ```
    ///
    /// # Contract
    ///
    /// ```text
    /// ensures { IsTrue result ↔ (self ≡ pos 0) }
    /// ```
    ///
    /// [docs/proofs/STATEMENT.md](crate::proved#contracts) explains the words.
    #[inline]
    pub const fn is_utc(self) -> bool {
        self.whole_seconds() == 0
    }

    /// Whether the offset is below 0.
    ///
    /// ```
    /// # use muxandu::proved::*;
    /// # fn main() -> Result<(), Box<dyn std::error::Error>> {
    /// assert_eq!(UtcOffset::from_hms(0, -30, 0)?.is_negative(), true);
    /// assert_eq!(UtcOffset::UTC.is_negative(), false);
    /// # Ok(())
    /// # }
    /// ```
    ///
    /// # Contract
    ///
    /// ```text
    /// ensures { IsTrue result ↔ (self <ℤ pos 0) }
    /// ```
    ///
    /// [docs/proofs/STATEMENT.md](crate::proved#contracts) explains the words.
    #[inline]
    pub const fn is_negative(self) -> bool {
        self.whole_seconds() < 0
    }
}

// Units and sixtieths of a unit, in sixtieths.
/// # Contract
///
/// ```text
/// requires units { unsigned_abs units ≤ 1_559 }
/// requires sixtieths { unsigned_abs sixtieths ≤ 59 }
/// ensures { result ≡ units *ℤ pos 60 +ℤ sixtieths }
/// ```
///
/// [docs/proofs/STATEMENT.md](crate::proved#contracts) explains the words.
#[inline(always)]
const fn in_sixtieths(units: i32, sixtieths: i32) -> i32 {
    units * 60 + sixtieths
}
