// Made by make/erase of crates/plain_times/src/plain_date_time/sums.rt. Do not edit.
//! Sums of a plain date-time and a duration.
use crate::proved::plain_times::PlainDateTime;
use crate::proved::calendar_values::units::{NANOS_PER_SECOND, SECONDS_PER_DAY};
use crate::proved::calendar_values::{SignedDuration, Time};
use std::time::Duration;

// More days than lie between two dates, and their seconds.
const FARTHEST_DAYS: i64 = 800_000_000;

const FARTHEST: i64 = FARTHEST_DAYS * SECONDS_PER_DAY;

impl PlainDateTime {
    /// The date-time later by the duration, or earlier for a negative duration. None out of range.
    ///
    /// ```
    /// # use muxandu::proved::*;
    /// # fn main() -> Result<(), Box<dyn std::error::Error>> {
    /// let date = Date::from_calendar_date(1970, Month::January, 2)?;
    /// assert_eq!(
    ///     PlainDateTime::UNIX_EPOCH.checked_add(SignedDuration::hours(30)),
    ///     Some(PlainDateTime::new(date, Time::from_hms(6, 0, 0)?))
    /// );
    /// assert_eq!(PlainDateTime::MAX.checked_add(SignedDuration::NANOSECOND), None);
    /// # Ok(())
    /// # }
    /// ```
    ///
    /// # Contract
    ///
    /// ```text
    /// ensures { SomeInRange result (self +ℤ duration) }
    /// ```
    ///
    /// [docs/proofs/STATEMENT.md](crate::proved#contracts) explains the words.
    #[inline]
    pub const fn checked_add(self, duration: SignedDuration) -> Option<PlainDateTime> {
        let second = self.time().second_of_day() as i64;
        self.at_second(
            second.wrapping_add(duration.whole_seconds()),
            self.nanosecond() as i32 + duration.subsec_nanoseconds(),
        )
    }

    /// The date-time earlier by the duration, or later for a negative duration. None out of range.
    ///
    /// ```
    /// # use muxandu::proved::*;
    /// # fn main() -> Result<(), Box<dyn std::error::Error>> {
    /// let date = Date::from_calendar_date(1969, Month::December, 30)?;
    /// assert_eq!(
    ///     PlainDateTime::UNIX_EPOCH.checked_sub(SignedDuration::hours(30)),
    ///     Some(PlainDateTime::new(date, Time::from_hms(18, 0, 0)?))
    /// );
    /// assert_eq!(PlainDateTime::MIN.checked_sub(SignedDuration::NANOSECOND), None);
    /// # Ok(())
    /// # }
    /// ```
    ///
    /// # Contract
    ///
    /// ```text
    /// ensures { SomeInRange result (self -ℤ duration) }
    /// ```
    ///
    /// [docs/proofs/STATEMENT.md](crate::proved#contracts) explains the words.
    #[inline]
    pub const fn checked_sub(self, duration: SignedDuration) -> Option<PlainDateTime> {
        let second = self.time().second_of_day() as i64;
        self.at_second(
            second.wrapping_sub(duration.whole_seconds()),
            self.nanosecond() as i32 - duration.subsec_nanoseconds(),
        )
    }

    /// The date-time later by the duration. None out of range.
    ///
    /// ```
    /// # use muxandu::proved::*;
    /// # fn main() -> Result<(), Box<dyn std::error::Error>> {
    /// let day = std::time::Duration::from_secs(86_400);
    /// let date = Date::from_calendar_date(1970, Month::January, 2)?;
    /// assert_eq!(
    ///     PlainDateTime::UNIX_EPOCH.checked_add_std(day),
    ///     Some(PlainDateTime::new(date, Time::from_hms(0, 0, 0)?))
    /// );
    /// assert_eq!(PlainDateTime::MAX.checked_add_std(day), None);
    /// # Ok(())
    /// # }
    /// ```
    ///
    /// # Contract
    ///
    /// ```text
    /// ensures { SomeInRange result (self +ℤ pos (as_nanos duration)) }
    /// ```
    ///
    /// [docs/proofs/STATEMENT.md](crate::proved#contracts) explains the words.
    #[inline]
    pub const fn checked_add_std(self, duration: Duration) -> Option<PlainDateTime> {
        let second = self.time().second_of_day() as i64;
        match second.checked_add_unsigned(duration.as_secs()) {
            Some(second) => self.at_second(
                second,
                self.nanosecond() as i32 + duration.subsec_nanos() as i32,
            ),
            None => None,
        }
    }

    /// The date-time earlier by the duration. None out of range.
    ///
    /// ```
    /// # use muxandu::proved::*;
    /// # fn main() -> Result<(), Box<dyn std::error::Error>> {
    /// let day = std::time::Duration::from_secs(86_400);
    /// let date = Date::from_calendar_date(1969, Month::December, 31)?;
    /// assert_eq!(
    ///     PlainDateTime::UNIX_EPOCH.checked_sub_std(day),
    ///     Some(PlainDateTime::new(date, Time::from_hms(0, 0, 0)?))
    /// );
    /// assert_eq!(PlainDateTime::MIN.checked_sub_std(day), None);
    /// # Ok(())
    /// # }
    /// ```
    ///
    /// # Contract
    ///
    /// ```text
    /// ensures { SomeInRange result (self -ℤ pos (as_nanos duration)) }
    /// ```
    ///
    /// [docs/proofs/STATEMENT.md](crate::proved#contracts) explains the words.
    #[inline]
    pub const fn checked_sub_std(self, duration: Duration) -> Option<PlainDateTime> {
        let second = self.time().second_of_day() as i64;
        match second.checked_sub_unsigned(duration.as_secs()) {
            Some(second) => self.at_second(
                second,
                self.nanosecond() as i32 - duration.subsec_nanos() as i32,
            ),
            None => None,
        }
    }

    // The date-time this many seconds and nanoseconds after the midnight of its date, if the range has it.
    /// # Contract
    ///
    /// ```text
    /// requires low { neg_ℤ (pos nanos_per_second) <ℤ nanosecond }
    /// requires high { nanosecond <ℤ pos (2 * nanos_per_second) }
    /// ensures { SomeInRange result (wall_clock (wall_day self) 0
    ///     +ℤ duration_of_parts second nanosecond) }
    /// ```
    ///
    /// [docs/proofs/STATEMENT.md](crate::proved#contracts) explains the words.
    #[inline(always)]
    const fn at_second(self, second: i64, nanosecond: i32) -> Option<PlainDateTime> {
        // Most sums are on the same date.
        if is_of_day(second, nanosecond) {
            let time = time_at(second as u32, nanosecond as u32);
            return Some(PlainDateTime::new(self.date(), time));
        }
        if second < -FARTHEST || second > FARTHEST {
            return None;
        }
        let (second, nanosecond) = with_carry(second, nanosecond);
        let (days, second) = days_and_second(second);
        self.add_days_at(days, time_at(second, nanosecond))
    }

    // The date-time of a time of day, this number of days later, if the range has it.
    /// # Contract
    ///
    /// ```text
    /// requires { IsClock time }
    /// ensures { SomeInRange result (wall_clock (wall_day self +ℤ days) time) }
    /// ```
    ///
    /// [docs/proofs/STATEMENT.md](crate::proved#contracts) explains the words.
    #[inline]
    const fn add_days_at(self, days: i64, time: Time) -> Option<PlainDateTime> {
        match self.date().checked_add_days(days) {
            Some(date) => Some(PlainDateTime::new(date, time)),
            None => None,
        }
    }

    /// The date-time later by the duration, or earlier for a negative duration. If that is out of
    /// range, the nearest end of the range.
    ///
    /// ```
    /// # use muxandu::proved::*;
    /// # fn main() -> Result<(), Box<dyn std::error::Error>> {
    /// let date = Date::from_calendar_date(1970, Month::January, 2)?;
    /// assert_eq!(
    ///     PlainDateTime::UNIX_EPOCH.saturating_add(SignedDuration::hours(30)),
    ///     PlainDateTime::new(date, Time::from_hms(6, 0, 0)?)
    /// );
    /// assert_eq!(PlainDateTime::MAX.saturating_add(SignedDuration::DAY), PlainDateTime::MAX);
    /// # Ok(())
    /// # }
    /// ```
    ///
    /// # Contract
    ///
    /// ```text
    /// ensures { IsSaturatingSum self duration result }
    /// ```
    ///
    /// [docs/proofs/STATEMENT.md](crate::proved#contracts) explains the words.
    #[inline]
    pub const fn saturating_add(self, duration: SignedDuration) -> PlainDateTime {
        // For the proof alone: what is read lies in its range.
        let _in_range = self.date();
        match self.checked_add(duration) {
            Some(sum) => sum,
            None => end_of_range(duration.is_negative()),
        }
    }

    /// The date-time earlier by the duration, or later for a negative duration. If that is out of
    /// range, the nearest end of the range.
    ///
    /// ```
    /// # use muxandu::proved::*;
    /// # fn main() -> Result<(), Box<dyn std::error::Error>> {
    /// let date = Date::from_calendar_date(1969, Month::December, 30)?;
    /// assert_eq!(
    ///     PlainDateTime::UNIX_EPOCH.saturating_sub(SignedDuration::hours(30)),
    ///     PlainDateTime::new(date, Time::from_hms(18, 0, 0)?)
    /// );
    /// assert_eq!(PlainDateTime::MIN.saturating_sub(SignedDuration::DAY), PlainDateTime::MIN);
    /// # Ok(())
    /// # }
    /// ```
    ///
    /// # Contract
    ///
    /// ```text
    /// ensures { IsSaturatingDifference self duration result }
    /// ```
    ///
    /// [docs/proofs/STATEMENT.md](crate::proved#contracts) explains the words.
    #[inline]
    pub const fn saturating_sub(self, duration: SignedDuration) -> PlainDateTime {
        // For the proof alone: what is read lies in its range.
        let _in_range = self.date();
        match self.checked_sub(duration) {
            Some(difference) => difference,
            None => end_of_range(!duration.is_negative()),
        }
    }
}

// The end of the range that lies earlier, or later.
/// # Contract
///
/// ```text
/// ensures { result ≡ if is_earlier then first_wall_clock else last_wall_clock }
/// ```
///
/// [docs/proofs/STATEMENT.md](crate::proved#contracts) explains the words.
#[inline]
const fn end_of_range(is_earlier: bool) -> PlainDateTime {
    if is_earlier {
        PlainDateTime::MIN
    } else {
        PlainDateTime::MAX
    }
}

// Whether they are a second of the day and a nanosecond of the second.
/// # Contract
///
/// ```text
/// ensures { IsTrue result ↔ ((pos 0 ≤ℤ second) × (second <ℤ pos 86_400)
///     × (pos 0 ≤ℤ nanosecond) × (nanosecond <ℤ pos nanos_per_second)) }
/// ```
///
/// [docs/proofs/STATEMENT.md](crate::proved#contracts) explains the words.
#[inline(always)]
const fn is_of_day(second: i64, nanosecond: i32) -> bool {
    (second >= 0) & (second < SECONDS_PER_DAY) & (nanosecond >= 0) & (nanosecond < NANOS_PER_SECOND)
}

// The time of a second of the day and a nanosecond of the second.
/// # Contract
///
/// ```text
/// requires second { second < 86_400 }
/// requires nanosecond { nanosecond < nanos_per_second }
/// ensures { result ≡ second * nanos_per_second + nanosecond }
/// ```
///
/// [docs/proofs/STATEMENT.md](crate::proved#contracts) explains the words.
#[inline(always)]
const fn time_at(second: u32, nanosecond: u32) -> Time {
    let minutes = second / 60;
    let hour = second / 3_600;
    Time::at_hms_nano(
        hour as u8,
        (minutes - hour * 60) as u8,
        (second - minutes * 60) as u8,
        nanosecond,
    )
}

// The same moment with a nanosecond of the second.
/// # Contract
///
/// ```text
/// requires low { neg_ℤ (pos nanos_per_second) <ℤ nanosecond }
/// requires high { nanosecond <ℤ pos (2 * nanos_per_second) }
/// requires near { unsigned_abs second ≤ 69_120_000_000_000 }
/// ensures value { duration_of_parts result.0 (pos result.1) ≡
///     duration_of_parts second nanosecond }
/// ensures near { unsigned_abs result.0 ≤ 69_120_000_000_001 }
/// ensures in_range { result.1 < nanos_per_second }
/// ```
///
/// [docs/proofs/STATEMENT.md](crate::proved#contracts) explains the words.
#[inline(always)]
const fn with_carry(second: i64, nanosecond: i32) -> (i64, u32) {
    if nanosecond < 0 {
        (second - 1, (nanosecond + NANOS_PER_SECOND) as u32)
    } else if nanosecond < NANOS_PER_SECOND {
        (second, nanosecond as u32)
    } else {
        (second + 1, (nanosecond - NANOS_PER_SECOND) as u32)
    }
}

// The days before a second, and the second of the day.
/// # Contract
///
/// ```text
/// requires { unsigned_abs second ≤ 69_120_000_000_001 }
/// ensures value { result.0 *ℤ pos 86_400 +ℤ pos result.1 ≡ second }
/// ensures in_range { result.1 < 86_400 }
/// ```
///
/// [docs/proofs/STATEMENT.md](crate::proved#contracts) explains the words.
#[inline(always)]
const fn days_and_second(second: i64) -> (i64, u32) {
    let seconds = (second + FARTHEST + SECONDS_PER_DAY) as u64;
    let days = (seconds / SECONDS_PER_DAY as u64) as i64;
    (
        days - FARTHEST_DAYS - 1,
        (seconds % SECONDS_PER_DAY as u64) as u32,
    )
}
