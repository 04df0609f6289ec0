// Made by make/erase of crates/calendar_values/src/time/sums.rt. Do not edit.
//! Sums of a time of day and a duration.
use crate::proved::calendar_values::units::{NANOS_PER_DAY, NANOS_PER_SECOND, SECONDS_PER_DAY};
use crate::proved::calendar_values::{DateAdjustment, SignedDuration, Time};
use std::time::Duration;

impl Time {
    /// The time after a duration without its whole days, rounded towards zero, and the day of this
    /// time.
    ///
    /// ```
    /// # use muxandu::proved::*;
    /// # fn main() -> Result<(), Box<dyn std::error::Error>> {
    /// let late = Time::from_hms(23, 30, 0)?;
    /// assert_eq!(
    ///     late.adjusting_add(SignedDuration::HOUR),
    ///     (DateAdjustment::Next, Time::from_hms(0, 30, 0)?)
    /// );
    /// # Ok(())
    /// # }
    /// ```
    ///
    /// # Contract
    ///
    /// ```text
    /// ensures sum { wall_clock (adjustment_days result.0) result.1 ≡ pos self +ℤ
    ///     subday_nanoseconds_of duration }
    /// ensures in_range { IsClock result.1 }
    /// ```
    ///
    /// [docs/proofs/STATEMENT.md](crate::proved#contracts) explains the words.
    #[inline]
    pub const fn adjusting_add(self, duration: SignedDuration) -> (DateAdjustment, Time) {
        self.moved_by(subday_nanoseconds(duration))
    }

    /// The time before a duration without its whole days, rounded towards zero, and the day of this
    /// time.
    ///
    /// ```
    /// # use muxandu::proved::*;
    /// # fn main() -> Result<(), Box<dyn std::error::Error>> {
    /// let early = Time::from_hms(0, 30, 0)?;
    /// assert_eq!(
    ///     early.adjusting_sub(SignedDuration::HOUR),
    ///     (DateAdjustment::Previous, Time::from_hms(23, 30, 0)?)
    /// );
    /// # Ok(())
    /// # }
    /// ```
    ///
    /// # Contract
    ///
    /// ```text
    /// ensures difference { wall_clock (adjustment_days result.0) result.1 ≡ pos self -ℤ
    ///     subday_nanoseconds_of duration }
    /// ensures in_range { IsClock result.1 }
    /// ```
    ///
    /// [docs/proofs/STATEMENT.md](crate::proved#contracts) explains the words.
    #[inline]
    pub const fn adjusting_sub(self, duration: SignedDuration) -> (DateAdjustment, Time) {
        self.moved_by(-subday_nanoseconds(duration))
    }

    /// The time after a duration without its whole days, and whether it is on the next day.
    ///
    /// ```
    /// # use muxandu::proved::*;
    /// # fn main() -> Result<(), Box<dyn std::error::Error>> {
    /// let late = Time::from_hms(23, 30, 0)?;
    /// assert_eq!(
    ///     late.adjusting_add_std(std::time::Duration::from_secs(3_600)),
    ///     (true, Time::from_hms(0, 30, 0)?)
    /// );
    /// # Ok(())
    /// # }
    /// ```
    ///
    /// # Contract
    ///
    /// ```text
    /// ensures sum { wall_clock (days_if_next result.0) result.1 ≡ pos self +ℤ
    ///     pos (as_nanos duration % nanos_per_day) }
    /// ensures in_range { IsClock result.1 }
    /// ```
    ///
    /// [docs/proofs/STATEMENT.md](crate::proved#contracts) explains the words.
    #[inline]
    pub const fn adjusting_add_std(self, duration: Duration) -> (bool, Time) {
        let (adjustment, time) = self.moved_by(subday_nanoseconds_std(duration));
        (matches!(adjustment, DateAdjustment::Next), time)
    }

    /// The time before a duration without its whole days, and whether it is on the day before.
    ///
    /// ```
    /// # use muxandu::proved::*;
    /// # fn main() -> Result<(), Box<dyn std::error::Error>> {
    /// let early = Time::from_hms(0, 30, 0)?;
    /// assert_eq!(
    ///     early.adjusting_sub_std(std::time::Duration::from_secs(3_600)),
    ///     (true, Time::from_hms(23, 30, 0)?)
    /// );
    /// # Ok(())
    /// # }
    /// ```
    ///
    /// # Contract
    ///
    /// ```text
    /// ensures difference { wall_clock (days_if_previous result.0) result.1 ≡ pos self -ℤ
    ///     pos (as_nanos duration % nanos_per_day) }
    /// ensures in_range { IsClock result.1 }
    /// ```
    ///
    /// [docs/proofs/STATEMENT.md](crate::proved#contracts) explains the words.
    #[inline]
    pub const fn adjusting_sub_std(self, duration: Duration) -> (bool, Time) {
        let (adjustment, time) = self.moved_by(-subday_nanoseconds_std(duration));
        (matches!(adjustment, DateAdjustment::Previous), time)
    }

    // The time at this number of nanoseconds since midnight.
    /// # Contract
    ///
    /// ```text
    /// requires { IsClock nanoseconds }
    /// ensures { result ≡ nanoseconds }
    /// ```
    ///
    /// [docs/proofs/STATEMENT.md](crate::proved#contracts) explains the words.
    #[inline]
    const fn from_nanosecond_of_day(nanoseconds: u64) -> Time {
        Time::at_second_of_day(
            (nanoseconds / NANOS_PER_SECOND as u64) as u32,
            (nanoseconds % NANOS_PER_SECOND as u64) as u32,
        )
    }

    // The time this number of nanoseconds later, or earlier if it is negative, and its day.
    /// # Contract
    ///
    /// ```text
    /// requires low { neg_ℤ (pos nanos_per_day) <ℤ nanoseconds }
    /// requires high { nanoseconds <ℤ pos nanos_per_day }
    /// ensures sum { wall_clock (adjustment_days result.0) result.1 ≡ pos self +ℤ nanoseconds }
    /// ensures in_range { IsClock result.1 }
    /// ensures self_in_range { IsClock self }
    /// ```
    ///
    /// [docs/proofs/STATEMENT.md](crate::proved#contracts) explains the words.
    #[inline]
    const fn moved_by(self, nanoseconds: i64) -> (DateAdjustment, Time) {
        let (adjustment, nanosecond) = within_day(self.nanosecond_of_day() as i64 + nanoseconds);
        (adjustment, Time::from_nanosecond_of_day(nanosecond))
    }
}

// The nanosecond of the day at this number of nanoseconds from midnight, and its day.
/// # Contract
///
/// ```text
/// requires low { neg_ℤ (pos nanos_per_day) <ℤ nanoseconds }
/// requires high { nanoseconds <ℤ pos (2 * nanos_per_day) }
/// ensures sum { wall_clock (adjustment_days result.0) result.1 ≡ nanoseconds }
/// ensures in_range { IsClock result.1 }
/// ```
///
/// [docs/proofs/STATEMENT.md](crate::proved#contracts) explains the words.
#[inline(always)]
const fn within_day(nanoseconds: i64) -> (DateAdjustment, u64) {
    let from_previous = (nanoseconds + NANOS_PER_DAY) as u64;
    let adjustment = match from_previous / NANOS_PER_DAY as u64 {
        0 => DateAdjustment::Previous,
        1 => DateAdjustment::Same,
        _ => DateAdjustment::Next,
    };
    (adjustment, from_previous % NANOS_PER_DAY as u64)
}

// The nanoseconds that the whole days of a duration leave, of its sign.
/// # Contract
///
/// ```text
/// ensures value { result ≡ subday_nanoseconds_of duration }
/// ensures low { neg_ℤ (pos nanos_per_day) <ℤ result }
/// ensures high { result <ℤ pos nanos_per_day }
/// ```
///
/// [docs/proofs/STATEMENT.md](crate::proved#contracts) explains the words.
#[inline]
const fn subday_nanoseconds(duration: SignedDuration) -> i64 {
    nanoseconds_of(
        duration.whole_seconds() % SECONDS_PER_DAY,
        duration.subsec_nanoseconds(),
    )
}

// The nanoseconds of seconds that are less than a day, and of nanoseconds of a second.
/// # Contract
///
/// ```text
/// requires low { neg_ℤ (pos 86_400) <ℤ seconds }
/// requires high { seconds <ℤ pos 86_400 }
/// ensures { result ≡ duration_of_parts seconds nanoseconds }
/// ```
///
/// [docs/proofs/STATEMENT.md](crate::proved#contracts) explains the words.
#[inline]
const fn nanoseconds_of(seconds: i64, nanoseconds: i32) -> i64 {
    seconds * NANOS_PER_SECOND as i64 + nanoseconds as i64
}

// The nanoseconds that the whole days of a duration leave.
/// # Contract
///
/// ```text
/// ensures value { result ≡ pos (as_nanos duration % nanos_per_day) }
/// ensures high { result <ℤ pos nanos_per_day }
/// ```
///
/// [docs/proofs/STATEMENT.md](crate::proved#contracts) explains the words.
#[inline]
const fn subday_nanoseconds_std(duration: Duration) -> i64 {
    let seconds = duration.as_secs() % SECONDS_PER_DAY as u64;
    (seconds * NANOS_PER_SECOND as u64 + duration.subsec_nanos() as u64) as i64
}
