// Made by make/erase of crates/stamp_times/src/timestamp/truncations.rt. Do not edit.
//! Timestamps truncated to a unit of time in UTC: rounded down, before 1970 too.
use crate::proved::stamp_times::Timestamp;
use crate::proved::calendar_values::Time;

impl Timestamp {
    /// The midnight in UTC with which the date of the timestamp begins.
    ///
    /// ```
    /// # use muxandu::proved::*;
    /// # fn main() -> Result<(), Box<dyn std::error::Error>> {
    /// let at = Timestamp::new(1_709_168_523, 480_300_002)?;
    /// assert_eq!(at.truncate_to_day(), Timestamp::new(1_709_164_800, 0)?);
    /// # Ok(())
    /// # }
    /// ```
    ///
    /// # Contract
    ///
    /// ```text
    /// ensures value { TruncatesTo nanos_per_day self result }
    /// ensures midnight { result ≡ wall_clock (wall_day self) 0 }
    /// ensures date { wall_day result ≡ wall_day self }
    /// ensures time { wall_time result ≡ 0 }
    /// ```
    ///
    /// [docs/proofs/STATEMENT.md](crate::proved#contracts) explains the words.
    #[inline]
    pub const fn truncate_to_day(self) -> Timestamp {
        self.replace_time(Time::MIDNIGHT)
    }

    /// The timestamp rounded down to a whole hour in UTC.
    ///
    /// ```
    /// # use muxandu::proved::*;
    /// # fn main() -> Result<(), Box<dyn std::error::Error>> {
    /// let at = Timestamp::new(1_709_168_523, 480_300_002)?;
    /// assert_eq!(at.truncate_to_hour(), Timestamp::new(1_709_168_400, 0)?);
    /// # Ok(())
    /// # }
    /// ```
    ///
    /// # Contract
    ///
    /// ```text
    /// ensures { TruncatesTo nanos_per_hour self result }
    /// ```
    ///
    /// [docs/proofs/STATEMENT.md](crate::proved#contracts) explains the words.
    #[inline]
    pub const fn truncate_to_hour(self) -> Timestamp {
        self.replace_time(self.time().truncate_to_hour())
    }

    /// The timestamp rounded down to a whole minute in UTC.
    ///
    /// ```
    /// # use muxandu::proved::*;
    /// # fn main() -> Result<(), Box<dyn std::error::Error>> {
    /// let at = Timestamp::new(1_709_168_523, 480_300_002)?;
    /// assert_eq!(at.truncate_to_minute(), Timestamp::new(1_709_168_520, 0)?);
    /// # Ok(())
    /// # }
    /// ```
    ///
    /// # Contract
    ///
    /// ```text
    /// ensures { TruncatesTo nanos_per_minute self result }
    /// ```
    ///
    /// [docs/proofs/STATEMENT.md](crate::proved#contracts) explains the words.
    #[inline]
    pub const fn truncate_to_minute(self) -> Timestamp {
        self.replace_time(self.time().truncate_to_minute())
    }

    /// The timestamp rounded down to a whole second in UTC.
    ///
    /// ```
    /// # use muxandu::proved::*;
    /// # fn main() -> Result<(), Box<dyn std::error::Error>> {
    /// let at = Timestamp::new(1_709_168_523, 480_300_002)?;
    /// assert_eq!(at.truncate_to_second(), Timestamp::new(1_709_168_523, 0)?);
    /// # Ok(())
    /// # }
    /// ```
    ///
    /// # Contract
    ///
    /// ```text
    /// ensures { TruncatesTo nanos_per_second self result }
    /// ```
    ///
    /// [docs/proofs/STATEMENT.md](crate::proved#contracts) explains the words.
    #[inline]
    pub const fn truncate_to_second(self) -> Timestamp {
        self.replace_time(self.time().truncate_to_second())
    }

    /// The timestamp rounded down to a whole millisecond in UTC.
    ///
    /// ```
    /// # use muxandu::proved::*;
    /// # fn main() -> Result<(), Box<dyn std::error::Error>> {
    /// let at = Timestamp::new(1_709_168_523, 480_300_002)?;
    /// assert_eq!(at.truncate_to_millisecond(), Timestamp::new(1_709_168_523, 480_000_000)?);
    /// # Ok(())
    /// # }
    /// ```
    ///
    /// # Contract
    ///
    /// ```text
    /// ensures { TruncatesTo nanos_per_millisecond self result }
    /// ```
    ///
    /// [docs/proofs/STATEMENT.md](crate::proved#contracts) explains the words.
    #[inline]
    pub const fn truncate_to_millisecond(self) -> Timestamp {
        self.replace_time(self.time().truncate_to_millisecond())
    }

    /// The timestamp rounded down to a whole microsecond in UTC.
    ///
    /// ```
    /// # use muxandu::proved::*;
    /// # fn main() -> Result<(), Box<dyn std::error::Error>> {
    /// let at = Timestamp::new(1_709_168_523, 480_300_002)?;
    /// assert_eq!(at.truncate_to_microsecond(), Timestamp::new(1_709_168_523, 480_300_000)?);
    /// # Ok(())
    /// # }
    /// ```
    ///
    /// # Contract
    ///
    /// ```text
    /// ensures { TruncatesTo nanos_per_microsecond self result }
    /// ```
    ///
    /// [docs/proofs/STATEMENT.md](crate::proved#contracts) explains the words.
    #[inline]
    pub const fn truncate_to_microsecond(self) -> Timestamp {
        self.replace_time(self.time().truncate_to_microsecond())
    }
}
