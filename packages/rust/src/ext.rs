//! Numbers as lengths of time.

use core::time::Duration;

use crate::signed_duration::TOO_LONG;
use crate::{SignedDuration, fractional};

#[cfg(feature = "std")]
pub use crate::instant::{InstantExt, SystemTimeExt};

mod sealed {
    pub trait Sealed {}

    impl Sealed for i64 {}
    impl Sealed for f64 {}
    impl Sealed for u64 {}
}

/// A number of units as a [`SignedDuration`].
///
/// ```
/// use muxandu::SignedDuration;
/// use muxandu::ext::NumericalDuration;
///
/// assert_eq!(5.minutes(), SignedDuration::seconds(300));
/// assert_eq!((-1.5).seconds(), SignedDuration::milliseconds(-1_500));
/// ```
pub trait NumericalDuration: sealed::Sealed {
    /// The duration of this number of nanoseconds.
    fn nanoseconds(self) -> SignedDuration;
    /// The duration of this number of microseconds.
    fn microseconds(self) -> SignedDuration;
    /// The duration of this number of milliseconds.
    fn milliseconds(self) -> SignedDuration;
    /// The duration of this number of seconds.
    fn seconds(self) -> SignedDuration;
    /// The duration of this number of minutes.
    fn minutes(self) -> SignedDuration;
    /// The duration of this number of hours.
    fn hours(self) -> SignedDuration;
    /// The duration of this number of days of 24 hours.
    fn days(self) -> SignedDuration;
    /// The duration of this number of weeks.
    fn weeks(self) -> SignedDuration;
}

/// A number of units as std's `Duration`.
///
/// ```
/// use muxandu::ext::NumericalStdDuration;
///
/// assert_eq!(5.std_minutes(), core::time::Duration::from_secs(300));
/// assert_eq!(1.5.std_seconds(), core::time::Duration::from_millis(1_500));
/// ```
pub trait NumericalStdDuration: sealed::Sealed {
    /// The duration of this number of nanoseconds.
    fn std_nanoseconds(self) -> Duration;
    /// The duration of this number of microseconds.
    fn std_microseconds(self) -> Duration;
    /// The duration of this number of milliseconds.
    fn std_milliseconds(self) -> Duration;
    /// The duration of this number of seconds.
    fn std_seconds(self) -> Duration;
    /// The duration of this number of minutes.
    fn std_minutes(self) -> Duration;
    /// The duration of this number of hours.
    fn std_hours(self) -> Duration;
    /// The duration of this number of days of 24 hours.
    fn std_days(self) -> Duration;
    /// The duration of this number of weeks.
    fn std_weeks(self) -> Duration;
}

macro_rules! whole {
    ($($unit:ident)+) => {
        impl NumericalDuration for i64 {
            $(
                #[track_caller]
                fn $unit(self) -> SignedDuration {
                    SignedDuration::$unit(self)
                }
            )+
        }
    };
}

whole! { nanoseconds microseconds milliseconds seconds minutes hours days weeks }

/// Units for `f64`, each with its number of nanoseconds.
macro_rules! fractional {
    ($($unit:ident, $std_unit:ident = $nanoseconds:literal;)+) => {
        /// Rounded to the nearest nanosecond, and to the even one where two are as near.
        impl NumericalDuration for f64 {
            $(
                #[track_caller]
                fn $unit(self) -> SignedDuration {
                    SignedDuration::of_units(self, $nanoseconds)
                }
            )+
        }

        /// Rounded to the nearest nanosecond, and to the even one where two are as near.
        ///
        /// # Panics
        ///
        /// The number is negative or NaN, or 64 bits do not hold the whole seconds.
        impl NumericalStdDuration for f64 {
            $(
                #[track_caller]
                fn $std_unit(self) -> Duration {
                    assert!(
                        self >= 0.0,
                        "a duration of std must not be negative: make a `SignedDuration`"
                    );
                    fractional::std_duration(self, $nanoseconds)
                        .expect(TOO_LONG)
                }
            )+
        }
    };
}

fractional! {
    nanoseconds, std_nanoseconds = 1;
    microseconds, std_microseconds = 1_000;
    milliseconds, std_milliseconds = 1_000_000;
    seconds, std_seconds = 1_000_000_000;
    minutes, std_minutes = 60_000_000_000;
    hours, std_hours = 3_600_000_000_000;
    days, std_days = 86_400_000_000_000;
    weeks, std_weeks = 604_800_000_000_000;
}

macro_rules! of_std {
    ($($unit:ident = $make:ident, $factor:literal;)+) => {
        impl NumericalStdDuration for u64 {
            $(
                #[track_caller]
                fn $unit(self) -> Duration {
                    Duration::$make(self.checked_mul($factor).expect(TOO_LONG))
                }
            )+
        }
    };
}

of_std! {
    std_nanoseconds = from_nanos, 1;
    std_microseconds = from_micros, 1;
    std_milliseconds = from_millis, 1;
    std_seconds = from_secs, 1;
    std_minutes = from_secs, 60;
    std_hours = from_secs, 3_600;
    std_days = from_secs, 86_400;
    std_weeks = from_secs, 604_800;
}
