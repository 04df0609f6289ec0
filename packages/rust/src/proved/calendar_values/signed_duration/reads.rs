// Made by make/erase of crates/calendar_values/src/signed_duration/reads.rt. Do not edit.
//! The parts of a duration.
use crate::proved::calendar_values::SignedDuration;
use crate::proved::calendar_values::units::{
    NANOS_PER_SECOND, SECONDS_PER_DAY, SECONDS_PER_HOUR, SECONDS_PER_MINUTE, SECONDS_PER_WEEK,
};
use std::time::Duration;

impl SignedDuration {
    /// Whether the duration is 0.
    ///
    /// ```
    /// # use muxandu::proved::*;
    /// # fn main() -> Result<(), Box<dyn std::error::Error>> {
    /// assert_eq!(SignedDuration::ZERO.is_zero(), true);
    /// assert_eq!(SignedDuration::NANOSECOND.is_zero(), false);
    /// # Ok(())
    /// # }
    /// ```
    ///
    /// # Contract
    ///
    /// ```text
    /// ensures { IsTrue result ↔ (self ≡ pos 0) }
    /// ```
    ///
    /// [docs/proofs/STATEMENT.md](crate::proved#contracts) explains the words.
    #[inline]
    pub const fn is_zero(self) -> bool {
        self.seconds == 0 && self.nanoseconds == 0
    }

    /// Whether the duration is below 0.
    ///
    /// ```
    /// # use muxandu::proved::*;
    /// # fn main() -> Result<(), Box<dyn std::error::Error>> {
    /// assert_eq!(SignedDuration::milliseconds(-1).is_negative(), true);
    /// assert_eq!(SignedDuration::ZERO.is_negative(), false);
    /// # Ok(())
    /// # }
    /// ```
    ///
    /// # Contract
    ///
    /// ```text
    /// ensures { IsTrue result ↔ (self <ℤ pos 0) }
    /// ```
    ///
    /// [docs/proofs/STATEMENT.md](crate::proved#contracts) explains the words.
    #[inline]
    pub const fn is_negative(self) -> bool {
        self.seconds < 0 || self.nanoseconds < 0
    }

    /// Whether the duration is above 0.
    ///
    /// ```
    /// # use muxandu::proved::*;
    /// # fn main() -> Result<(), Box<dyn std::error::Error>> {
    /// assert_eq!(SignedDuration::milliseconds(1).is_positive(), true);
    /// assert_eq!(SignedDuration::ZERO.is_positive(), false);
    /// # Ok(())
    /// # }
    /// ```
    ///
    /// # Contract
    ///
    /// ```text
    /// ensures { IsTrue result ↔ (pos 0 <ℤ self) }
    /// ```
    ///
    /// [docs/proofs/STATEMENT.md](crate::proved#contracts) explains the words.
    #[inline]
    pub const fn is_positive(self) -> bool {
        self.seconds > 0 || self.nanoseconds > 0
    }

    /// The duration without its sign, or [`SignedDuration::MAX`] where that is past it: for -2^63
    /// seconds and less.
    ///
    /// ```
    /// # use muxandu::proved::*;
    /// # fn main() -> Result<(), Box<dyn std::error::Error>> {
    /// assert_eq!(SignedDuration::hours(-8).abs(), SignedDuration::hours(8));
    /// assert_eq!(SignedDuration::MIN.abs(), SignedDuration::MAX);
    /// # Ok(())
    /// # }
    /// ```
    ///
    /// # Contract
    ///
    /// ```text
    /// ensures { result ≡ pos (min (unsigned_abs self) (unsigned_abs greatest_duration)) }
    /// ```
    ///
    /// [docs/proofs/STATEMENT.md](crate::proved#contracts) explains the words.
    #[inline]
    pub const fn abs(self) -> SignedDuration {
        if self.seconds == i64::MIN {
            return SignedDuration::MAX;
        }
        SignedDuration {
            niche: crate::proved::memory::Niche::Here,
            seconds: self.seconds.abs(),
            nanoseconds: self.nanoseconds.abs(),
        }
    }

    /// The duration without its sign, which always fits.
    ///
    /// ```
    /// # use muxandu::proved::*;
    /// # fn main() -> Result<(), Box<dyn std::error::Error>> {
    /// assert_eq!(
    ///     SignedDuration::hours(-1).unsigned_abs(),
    ///     std::time::Duration::from_secs(3_600)
    /// );
    /// # Ok(())
    /// # }
    /// ```
    ///
    /// # Contract
    ///
    /// ```text
    /// ensures { as_nanos result ≡ unsigned_abs self }
    /// ```
    ///
    /// [docs/proofs/STATEMENT.md](crate::proved#contracts) explains the words.
    #[inline]
    pub const fn unsigned_abs(self) -> Duration {
        Duration::new(self.seconds.unsigned_abs(), self.nanoseconds.unsigned_abs())
    }

    /// The whole weeks of seven days, rounded towards zero: -15,250,284,452,471 to
    /// 15,250,284,452,471.
    ///
    /// ```
    /// # use muxandu::proved::*;
    /// # fn main() -> Result<(), Box<dyn std::error::Error>> {
    /// let duration = SignedDuration::new(-889_689, -120_300_004);
    /// assert_eq!(duration.whole_weeks(), -1);
    /// # Ok(())
    /// # }
    /// ```
    ///
    /// # Contract
    ///
    /// ```text
    /// ensures value { result ≡ whole_weeks_of self }
    /// ensures in_range { unsigned_abs result ≤ 15_250_284_452_471 }
    /// ```
    ///
    /// [docs/proofs/STATEMENT.md](crate::proved#contracts) explains the words.
    #[inline]
    pub const fn whole_weeks(self) -> i64 {
        self.seconds / SECONDS_PER_WEEK
    }

    /// The whole days, rounded towards zero: -106,751,991,167,300 to 106,751,991,167,300.
    ///
    /// ```
    /// # use muxandu::proved::*;
    /// # fn main() -> Result<(), Box<dyn std::error::Error>> {
    /// let duration = SignedDuration::new(-889_689, -120_300_004);
    /// assert_eq!(duration.whole_days(), -10);
    /// # Ok(())
    /// # }
    /// ```
    ///
    /// # Contract
    ///
    /// ```text
    /// ensures value { result ≡ whole_days_of self }
    /// ensures in_range { unsigned_abs result ≤ 106_751_991_167_300 }
    /// ```
    ///
    /// [docs/proofs/STATEMENT.md](crate::proved#contracts) explains the words.
    #[inline]
    pub const fn whole_days(self) -> i64 {
        self.seconds / SECONDS_PER_DAY
    }

    /// The whole hours, rounded towards zero: -2,562,047,788,015,215 to 2,562,047,788,015,215.
    ///
    /// ```
    /// # use muxandu::proved::*;
    /// # fn main() -> Result<(), Box<dyn std::error::Error>> {
    /// let duration = SignedDuration::new(-889_689, -120_300_004);
    /// assert_eq!(duration.whole_hours(), -247);
    /// # Ok(())
    /// # }
    /// ```
    ///
    /// # Contract
    ///
    /// ```text
    /// ensures value { result ≡ whole_hours_of self }
    /// ensures in_range { unsigned_abs result ≤ 2_562_047_788_015_215 }
    /// ```
    ///
    /// [docs/proofs/STATEMENT.md](crate::proved#contracts) explains the words.
    #[inline]
    pub const fn whole_hours(self) -> i64 {
        self.seconds / SECONDS_PER_HOUR as i64
    }

    /// The whole minutes, rounded towards zero: -153,722,867,280,912,930 to
    /// 153,722,867,280,912,930.
    ///
    /// ```
    /// # use muxandu::proved::*;
    /// # fn main() -> Result<(), Box<dyn std::error::Error>> {
    /// let duration = SignedDuration::new(-889_689, -120_300_004);
    /// assert_eq!(duration.whole_minutes(), -14_828);
    /// # Ok(())
    /// # }
    /// ```
    ///
    /// # Contract
    ///
    /// ```text
    /// ensures value { result ≡ whole_minutes_of self }
    /// ensures in_range { unsigned_abs result ≤ 153_722_867_280_912_930 }
    /// ```
    ///
    /// [docs/proofs/STATEMENT.md](crate::proved#contracts) explains the words.
    #[inline]
    pub const fn whole_minutes(self) -> i64 {
        self.seconds / SECONDS_PER_MINUTE
    }

    /// The whole seconds, rounded towards zero: -2^63 to 2^63 - 1.
    ///
    /// ```
    /// # use muxandu::proved::*;
    /// # fn main() -> Result<(), Box<dyn std::error::Error>> {
    /// let duration = SignedDuration::new(-889_689, -120_300_004);
    /// assert_eq!(duration.whole_seconds(), -889_689);
    /// # Ok(())
    /// # }
    /// ```
    ///
    /// # Contract
    ///
    /// ```text
    /// ensures value { result ≡ whole_seconds_of self }
    /// ensures self_in_range { IsDuration self }
    /// ensures one_sign { IsDurationParts result (subsec_nanoseconds_of self) }
    /// ensures parts { duration_of_parts result (subsec_nanoseconds_of self) ≡ self }
    /// ```
    ///
    /// [docs/proofs/STATEMENT.md](crate::proved#contracts) explains the words.
    #[inline]
    pub const fn whole_seconds(self) -> i64 {
        self.seconds
    }

    /// The nanoseconds that the whole seconds leave, of the sign of the duration: -999,999,999 to
    /// 999,999,999.
    ///
    /// ```
    /// # use muxandu::proved::*;
    /// # fn main() -> Result<(), Box<dyn std::error::Error>> {
    /// let duration = SignedDuration::new(-2, -120_300_004);
    /// assert_eq!(duration.subsec_nanoseconds(), -120_300_004);
    /// # Ok(())
    /// # }
    /// ```
    ///
    /// # Contract
    ///
    /// ```text
    /// ensures value { result ≡ subsec_nanoseconds_of self }
    /// ensures one_sign { IsDurationParts (whole_seconds_of self) result }
    /// ensures parts { duration_of_parts (whole_seconds_of self) result ≡ self }
    /// ```
    ///
    /// [docs/proofs/STATEMENT.md](crate::proved#contracts) explains the words.
    #[inline]
    pub const fn subsec_nanoseconds(self) -> i32 {
        self.nanoseconds
    }

    /// The whole milliseconds, rounded towards zero.
    ///
    /// ```
    /// # use muxandu::proved::*;
    /// # fn main() -> Result<(), Box<dyn std::error::Error>> {
    /// let duration = SignedDuration::new(-2, -120_300_004);
    /// assert_eq!(duration.whole_milliseconds(), -2_120);
    /// # Ok(())
    /// # }
    /// ```
    ///
    /// # Contract
    ///
    /// ```text
    /// ensures value { result ≡ whole_milliseconds_of self }
    /// ensures in_range { unsigned_abs result ≤ 9_223_372_036_854_775_808_999 }
    /// ```
    ///
    /// [docs/proofs/STATEMENT.md](crate::proved#contracts) explains the words.
    #[inline]
    pub const fn whole_milliseconds(self) -> i128 {
        self.whole_seconds() as i128 * 1_000 + self.subsec_milliseconds() as i128
    }

    /// The milliseconds that the whole seconds leave, rounded towards zero: -999 to 999.
    ///
    /// ```
    /// # use muxandu::proved::*;
    /// # fn main() -> Result<(), Box<dyn std::error::Error>> {
    /// let duration = SignedDuration::new(-2, -120_300_004);
    /// assert_eq!(duration.subsec_milliseconds(), -120);
    /// # Ok(())
    /// # }
    /// ```
    ///
    /// # Contract
    ///
    /// ```text
    /// ensures value { result ≡ subsec_milliseconds_of self }
    /// ensures in_range { unsigned_abs result ≤ 999 }
    /// ```
    ///
    /// [docs/proofs/STATEMENT.md](crate::proved#contracts) explains the words.
    #[inline]
    pub const fn subsec_milliseconds(self) -> i16 {
        (self.subsec_nanoseconds() / 1_000_000) as i16
    }

    /// The whole microseconds, rounded towards zero.
    ///
    /// ```
    /// # use muxandu::proved::*;
    /// # fn main() -> Result<(), Box<dyn std::error::Error>> {
    /// let duration = SignedDuration::new(-2, -120_300_004);
    /// assert_eq!(duration.whole_microseconds(), -2_120_300);
    /// # Ok(())
    /// # }
    /// ```
    ///
    /// # Contract
    ///
    /// ```text
    /// ensures value { result ≡ whole_microseconds_of self }
    /// ensures in_range { unsigned_abs result ≤ 9_223_372_036_854_775_808_999_999 }
    /// ```
    ///
    /// [docs/proofs/STATEMENT.md](crate::proved#contracts) explains the words.
    #[inline]
    pub const fn whole_microseconds(self) -> i128 {
        self.whole_seconds() as i128 * 1_000_000 + self.subsec_microseconds() as i128
    }

    /// The microseconds that the whole seconds leave, rounded towards zero: -999,999 to 999,999.
    ///
    /// ```
    /// # use muxandu::proved::*;
    /// # fn main() -> Result<(), Box<dyn std::error::Error>> {
    /// let duration = SignedDuration::new(-2, -120_300_004);
    /// assert_eq!(duration.subsec_microseconds(), -120_300);
    /// # Ok(())
    /// # }
    /// ```
    ///
    /// # Contract
    ///
    /// ```text
    /// ensures value { result ≡ subsec_microseconds_of self }
    /// ensures in_range { unsigned_abs result ≤ 999_999 }
    /// ```
    ///
    /// [docs/proofs/STATEMENT.md](crate::proved#contracts) explains the words.
    #[inline]
    pub const fn subsec_microseconds(self) -> i32 {
        self.subsec_nanoseconds() / 1_000
    }

    /// The nanoseconds: all of the duration.
    ///
    /// ```
    /// # use muxandu::proved::*;
    /// # fn main() -> Result<(), Box<dyn std::error::Error>> {
    /// let duration = SignedDuration::new(-2, -120_300_004);
    /// assert_eq!(duration.whole_nanoseconds(), -2_120_300_004);
    /// # Ok(())
    /// # }
    /// ```
    ///
    /// # Contract
    ///
    /// ```text
    /// ensures value { result ≡ self }
    /// ensures self_in_range { IsDuration self }
    /// ```
    ///
    /// [docs/proofs/STATEMENT.md](crate::proved#contracts) explains the words.
    #[inline]
    pub const fn whole_nanoseconds(self) -> i128 {
        self.whole_seconds() as i128 * NANOS_PER_SECOND as i128 + self.subsec_nanoseconds() as i128
    }
}
