// Made by make/erase of crates/calendar_values/src/signed_duration.rt. Do not edit.
//! Durations, which may be negative.
use crate::proved::calendar_values::units::{
    NANOS_PER_SECOND, SECONDS_PER_DAY, SECONDS_PER_HOUR, SECONDS_PER_MINUTE, SECONDS_PER_WEEK,
};
mod comparisons;
mod operators;
mod products;
mod quotients;
mod reads;
mod std_durations;
mod sums;
mod totals;

/// A duration of -2^63 to 2^63 - 1 seconds plus -999,999,999 to 999,999,999 nanoseconds, never of
/// opposite signs, as in the `time` crate. A contract sees the sum as a number of nanoseconds.
///
/// ```
/// # use muxandu::proved::*;
/// # fn main() -> Result<(), Box<dyn std::error::Error>> {
/// let delay = SignedDuration::new(-1, -500_000_000);
/// assert_eq!(delay.whole_seconds(), -1);
/// assert_eq!(
///     delay + SignedDuration::seconds(2),
///     SignedDuration::nanoseconds(500_000_000)
/// );
/// # Ok(())
/// # }
/// ```
#[derive(Clone, Copy, PartialEq)]
pub struct SignedDuration {
    niche: crate::proved::memory::Niche,
    seconds: i64,
    nanoseconds: i32,
}

/// # Contract
///
/// ```text
/// ghost is_default = { λ d. d ≡ pos 0 };
/// ```
///
/// [docs/proofs/STATEMENT.md](crate::proved#contracts) explains the words.
impl Default for SignedDuration {
    /// The duration 0.
    #[inline]
    fn default() -> SignedDuration {
        SignedDuration::ZERO
    }
}

impl SignedDuration {
    /// The duration 0.
    pub const ZERO: SignedDuration = SignedDuration {
        niche: crate::proved::memory::Niche::Here,
        seconds: 0,
        nanoseconds: 0,
    };

    /// The least duration: -2^63 seconds and -999,999,999 nanoseconds.
    pub const MIN: SignedDuration = SignedDuration {
        niche: crate::proved::memory::Niche::Here,
        seconds: i64::MIN,
        nanoseconds: -999_999_999,
    };

    /// The greatest duration: 2^63 - 1 seconds and 999,999,999 nanoseconds.
    pub const MAX: SignedDuration = SignedDuration {
        niche: crate::proved::memory::Niche::Here,
        seconds: i64::MAX,
        nanoseconds: 999_999_999,
    };

    /// One nanosecond.
    pub const NANOSECOND: SignedDuration = SignedDuration {
        niche: crate::proved::memory::Niche::Here,
        seconds: 0,
        nanoseconds: 1,
    };

    /// One microsecond.
    pub const MICROSECOND: SignedDuration = SignedDuration {
        niche: crate::proved::memory::Niche::Here,
        seconds: 0,
        nanoseconds: 1_000,
    };

    /// One millisecond.
    pub const MILLISECOND: SignedDuration = SignedDuration {
        niche: crate::proved::memory::Niche::Here,
        seconds: 0,
        nanoseconds: 1_000_000,
    };

    /// One second.
    pub const SECOND: SignedDuration = SignedDuration {
        niche: crate::proved::memory::Niche::Here,
        seconds: 1,
        nanoseconds: 0,
    };

    /// One minute.
    pub const MINUTE: SignedDuration = SignedDuration {
        niche: crate::proved::memory::Niche::Here,
        seconds: SECONDS_PER_MINUTE,
        nanoseconds: 0,
    };

    /// One hour.
    pub const HOUR: SignedDuration = SignedDuration {
        niche: crate::proved::memory::Niche::Here,
        seconds: SECONDS_PER_HOUR as i64,
        nanoseconds: 0,
    };

    /// One day of 86,400 seconds.
    pub const DAY: SignedDuration = SignedDuration {
        niche: crate::proved::memory::Niche::Here,
        seconds: SECONDS_PER_DAY,
        nanoseconds: 0,
    };

    /// One week of seven days.
    pub const WEEK: SignedDuration = SignedDuration {
        niche: crate::proved::memory::Niche::Here,
        seconds: SECONDS_PER_WEEK,
        nanoseconds: 0,
    };

    /// The duration of seconds and nanoseconds together: `new(1, -1)` has 0 seconds and 999,999,999
    /// nanoseconds. Their sum must be from `MIN` to `MAX`.
    ///
    /// ```
    /// # use muxandu::proved::*;
    /// # fn main() -> Result<(), Box<dyn std::error::Error>> {
    /// assert_eq!(SignedDuration::new(1, -250_000_000), SignedDuration::milliseconds(750));
    /// assert_eq!(SignedDuration::new(-1, 2_000_000_000), SignedDuration::seconds(1));
    /// # Ok(())
    /// # }
    /// ```
    ///
    /// # Panics
    ///
    /// The call breaks a `requires` of the contract.
    ///
    /// # Contract
    ///
    /// ```text
    /// requires { IsDuration (duration_of_parts seconds nanoseconds) }
    /// ensures { result ≡ duration_of_parts seconds nanoseconds }
    /// ```
    ///
    /// [docs/proofs/STATEMENT.md](crate::proved#contracts) explains the words.
    #[inline]
    #[track_caller]
    pub const fn new(seconds: i64, nanoseconds: i32) -> SignedDuration {
        SignedDuration::from_parts(seconds, nanoseconds).unwrap()
    }

    // The duration of these seconds and nanoseconds together, if it is in range.
    /// # Contract
    ///
    /// ```text
    /// ensures { SomeDuration result (duration_of_parts seconds nanoseconds) }
    /// ```
    ///
    /// [docs/proofs/STATEMENT.md](crate::proved#contracts) explains the words.
    #[inline]
    const fn from_parts(seconds: i64, nanoseconds: i32) -> Option<SignedDuration> {
        let carried = (nanoseconds / NANOS_PER_SECOND) as i64;
        let left = nanoseconds % NANOS_PER_SECOND;
        match seconds.checked_add(carried) {
            Some(seconds) => Some(SignedDuration::of_one_sign(seconds, left)),
            None => None,
        }
    }

    // Brings the two parts to one sign.
    /// # Contract
    ///
    /// ```text
    /// requires { unsigned_abs nanoseconds ≤ 999_999_999 }
    /// ensures { result ≡ duration_of_parts seconds nanoseconds }
    /// ```
    ///
    /// [docs/proofs/STATEMENT.md](crate::proved#contracts) explains the words.
    #[inline]
    const fn of_one_sign(seconds: i64, nanoseconds: i32) -> SignedDuration {
        if seconds > 0 && nanoseconds < 0 {
            return SignedDuration {
                niche: crate::proved::memory::Niche::Here,
                seconds: seconds - 1,
                nanoseconds: nanoseconds + NANOS_PER_SECOND,
            };
        }
        if seconds < 0 && nanoseconds > 0 {
            return SignedDuration {
                niche: crate::proved::memory::Niche::Here,
                seconds: seconds + 1,
                nanoseconds: nanoseconds - NANOS_PER_SECOND,
            };
        }
        SignedDuration {
            niche: crate::proved::memory::Niche::Here,
            seconds,
            nanoseconds,
        }
    }

    /// The duration of a number of weeks of seven days. Its absolute value must be at most
    /// 15,250,284,452,471, the most that fits.
    ///
    /// ```
    /// # use muxandu::proved::*;
    /// # fn main() -> Result<(), Box<dyn std::error::Error>> {
    /// assert_eq!(SignedDuration::weeks(-2), SignedDuration::days(-14));
    /// # Ok(())
    /// # }
    /// ```
    ///
    /// # Panics
    ///
    /// The call breaks a `requires` of the contract.
    ///
    /// # Contract
    ///
    /// ```text
    /// requires { unsigned_abs weeks ≤ 15_250_284_452_471 }
    /// ensures value { result ≡ weeks *ℤ pos nanos_per_week }
    /// ensures whole { whole_days_of result ≡ weeks *ℤ pos 7 }
    /// ```
    ///
    /// [docs/proofs/STATEMENT.md](crate::proved#contracts) explains the words.
    #[inline]
    #[track_caller]
    pub const fn weeks(weeks: i64) -> SignedDuration {
        SignedDuration::days(weeks.checked_mul(7).unwrap())
    }

    /// The duration of a number of days of 86,400 seconds. Its absolute value must be at most
    /// 106,751,991,167,300, the most that fits.
    ///
    /// ```
    /// # use muxandu::proved::*;
    /// # fn main() -> Result<(), Box<dyn std::error::Error>> {
    /// assert_eq!(SignedDuration::days(3), SignedDuration::hours(72));
    /// # Ok(())
    /// # }
    /// ```
    ///
    /// # Panics
    ///
    /// The call breaks a `requires` of the contract.
    ///
    /// # Contract
    ///
    /// ```text
    /// requires { unsigned_abs days ≤ 106_751_991_167_300 }
    /// ensures value { result ≡ days *ℤ pos nanos_per_day }
    /// ensures whole { whole_days_of result ≡ days }
    /// ```
    ///
    /// [docs/proofs/STATEMENT.md](crate::proved#contracts) explains the words.
    #[inline]
    #[track_caller]
    pub const fn days(days: i64) -> SignedDuration {
        SignedDuration::seconds(days.checked_mul(SECONDS_PER_DAY).unwrap())
    }

    /// The duration of a number of hours. Its absolute value must be at most 2,562,047,788,015,215,
    /// the most that fits.
    ///
    /// ```
    /// # use muxandu::proved::*;
    /// # fn main() -> Result<(), Box<dyn std::error::Error>> {
    /// assert_eq!(SignedDuration::hours(-5), SignedDuration::minutes(-300));
    /// # Ok(())
    /// # }
    /// ```
    ///
    /// # Panics
    ///
    /// The call breaks a `requires` of the contract.
    ///
    /// # Contract
    ///
    /// ```text
    /// requires { unsigned_abs hours ≤ 2_562_047_788_015_215 }
    /// ensures { result ≡ hours *ℤ pos nanos_per_hour }
    /// ```
    ///
    /// [docs/proofs/STATEMENT.md](crate::proved#contracts) explains the words.
    #[inline]
    #[track_caller]
    pub const fn hours(hours: i64) -> SignedDuration {
        SignedDuration::seconds(hours.checked_mul(SECONDS_PER_HOUR as i64).unwrap())
    }

    /// The duration of a number of minutes. Its absolute value must be at most
    /// 153,722,867,280,912,930, the most that fits.
    ///
    /// ```
    /// # use muxandu::proved::*;
    /// # fn main() -> Result<(), Box<dyn std::error::Error>> {
    /// assert_eq!(SignedDuration::minutes(90), SignedDuration::seconds(5_400));
    /// # Ok(())
    /// # }
    /// ```
    ///
    /// # Panics
    ///
    /// The call breaks a `requires` of the contract.
    ///
    /// # Contract
    ///
    /// ```text
    /// requires { unsigned_abs minutes ≤ 153_722_867_280_912_930 }
    /// ensures { result ≡ minutes *ℤ pos nanos_per_minute }
    /// ```
    ///
    /// [docs/proofs/STATEMENT.md](crate::proved#contracts) explains the words.
    #[inline]
    #[track_caller]
    pub const fn minutes(minutes: i64) -> SignedDuration {
        SignedDuration::seconds(minutes.checked_mul(SECONDS_PER_MINUTE).unwrap())
    }

    /// The duration of a number of seconds.
    ///
    /// ```
    /// # use muxandu::proved::*;
    /// # fn main() -> Result<(), Box<dyn std::error::Error>> {
    /// assert_eq!(SignedDuration::seconds(12), SignedDuration::new(12, 0));
    /// # Ok(())
    /// # }
    /// ```
    ///
    /// # Contract
    ///
    /// ```text
    /// ensures { result ≡ seconds *ℤ pos nanos_per_second }
    /// ```
    ///
    /// [docs/proofs/STATEMENT.md](crate::proved#contracts) explains the words.
    #[inline]
    pub const fn seconds(seconds: i64) -> SignedDuration {
        SignedDuration {
            niche: crate::proved::memory::Niche::Here,
            seconds,
            nanoseconds: 0,
        }
    }

    /// The duration of a number of milliseconds.
    ///
    /// ```
    /// # use muxandu::proved::*;
    /// # fn main() -> Result<(), Box<dyn std::error::Error>> {
    /// assert_eq!(SignedDuration::milliseconds(-1_250), SignedDuration::new(-1, -250_000_000));
    /// # Ok(())
    /// # }
    /// ```
    ///
    /// # Contract
    ///
    /// ```text
    /// ensures { result ≡ milliseconds *ℤ pos nanos_per_millisecond }
    /// ```
    ///
    /// [docs/proofs/STATEMENT.md](crate::proved#contracts) explains the words.
    #[inline]
    pub const fn milliseconds(milliseconds: i64) -> SignedDuration {
        SignedDuration::new(
            milliseconds / 1_000,
            (milliseconds % 1_000) as i32 * 1_000_000,
        )
    }

    /// The duration of a number of microseconds.
    ///
    /// ```
    /// # use muxandu::proved::*;
    /// # fn main() -> Result<(), Box<dyn std::error::Error>> {
    /// assert_eq!(SignedDuration::microseconds(3_000_007), SignedDuration::new(3, 7_000));
    /// # Ok(())
    /// # }
    /// ```
    ///
    /// # Contract
    ///
    /// ```text
    /// ensures { result ≡ microseconds *ℤ pos nanos_per_microsecond }
    /// ```
    ///
    /// [docs/proofs/STATEMENT.md](crate::proved#contracts) explains the words.
    #[inline]
    pub const fn microseconds(microseconds: i64) -> SignedDuration {
        SignedDuration::new(
            microseconds / 1_000_000,
            (microseconds % 1_000_000) as i32 * 1_000,
        )
    }

    /// The duration of a number of nanoseconds.
    ///
    /// ```
    /// # use muxandu::proved::*;
    /// # fn main() -> Result<(), Box<dyn std::error::Error>> {
    /// assert_eq!(SignedDuration::nanoseconds(-1_000_000_001), SignedDuration::new(-1, -1));
    /// # Ok(())
    /// # }
    /// ```
    ///
    /// # Contract
    ///
    /// ```text
    /// ensures { result ≡ nanoseconds }
    /// ```
    ///
    /// [docs/proofs/STATEMENT.md](crate::proved#contracts) explains the words.
    #[inline]
    pub const fn nanoseconds(nanoseconds: i64) -> SignedDuration {
        SignedDuration {
            niche: crate::proved::memory::Niche::Here,
            seconds: nanoseconds / NANOS_PER_SECOND as i64,
            nanoseconds: (nanoseconds % NANOS_PER_SECOND as i64) as i32,
        }
    }

    // The duration of this number of nanoseconds, if it is in range.
    /// # Contract
    ///
    /// ```text
    /// ensures { SomeDuration result nanoseconds }
    /// ```
    ///
    /// [docs/proofs/STATEMENT.md](crate::proved#contracts) explains the words.
    #[inline]
    const fn from_whole_nanoseconds(nanoseconds: i128) -> Option<SignedDuration> {
        let seconds = nanoseconds / NANOS_PER_SECOND as i128;
        if seconds < i64::MIN as i128 || seconds > i64::MAX as i128 {
            return None;
        }
        Some(SignedDuration {
            niche: crate::proved::memory::Niche::Here,
            seconds: seconds as i64,
            nanoseconds: (nanoseconds % NANOS_PER_SECOND as i128) as i32,
        })
    }

    // The duration that is nearest to this number of nanoseconds.
    /// # Contract
    ///
    /// ```text
    /// ensures { IsNearestDuration nanoseconds result }
    /// ```
    ///
    /// [docs/proofs/STATEMENT.md](crate::proved#contracts) explains the words.
    #[inline]
    const fn nearest(nanoseconds: i128) -> SignedDuration {
        match SignedDuration::from_whole_nanoseconds(nanoseconds) {
            Some(duration) => duration,
            None if nanoseconds < 0 => SignedDuration::MIN,
            None => SignedDuration::MAX,
        }
    }
}
