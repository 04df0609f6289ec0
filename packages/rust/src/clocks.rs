//! The clock of the machine, and conversions with std's `SystemTime`.
#![cfg(feature = "std")]

use core::ops::Sub;
use std::time::SystemTime;

use crate::ext::SystemTimeExt as _;
use crate::{OffsetDateTime, SignedDuration, Timestamp, UtcDateTime};

impl Timestamp {
    /// The instant that the clock of the machine shows.
    ///
    /// ```
    /// # #[cfg(feature = "std")] {
    /// use muxandu::Timestamp;
    /// use muxandu::macros::timestamp;
    ///
    /// assert!(Timestamp::now() > timestamp!(1_700_000_000));
    /// # }
    /// ```
    #[must_use]
    #[inline]
    pub fn now() -> Timestamp {
        SystemTime::now().into()
    }
}

impl UtcDateTime {
    /// The time of the clock of the machine, in UTC.
    ///
    /// ```
    /// # #[cfg(feature = "std")] {
    /// use muxandu::UtcDateTime;
    ///
    /// assert!(UtcDateTime::now().year() >= 2024);
    /// # }
    /// ```
    #[must_use]
    #[inline]
    pub fn now() -> UtcDateTime {
        SystemTime::now().into()
    }
}

impl OffsetDateTime {
    /// The time of the clock of the machine, at the offset 0.
    ///
    /// ```
    /// # #[cfg(feature = "std")] {
    /// use muxandu::OffsetDateTime;
    ///
    /// let now = OffsetDateTime::now_utc();
    /// assert!(now.year() >= 2024 && now.offset().is_utc());
    /// # }
    /// ```
    #[must_use]
    #[inline]
    pub fn now_utc() -> OffsetDateTime {
        SystemTime::now().into()
    }
}

/// # Panics
///
/// The time lies outside the range.
impl From<SystemTime> for Timestamp {
    #[track_caller]
    #[inline]
    fn from(time: SystemTime) -> Timestamp {
        match time.duration_since(SystemTime::UNIX_EPOCH) {
            Ok(after) => Timestamp::UNIX_EPOCH + after,
            Err(before) => Timestamp::UNIX_EPOCH - before.duration(),
        }
    }
}

/// # Panics
///
/// A time of the system does not hold the instant.
impl From<Timestamp> for SystemTime {
    #[track_caller]
    #[inline]
    fn from(at: Timestamp) -> SystemTime {
        SystemTime::UNIX_EPOCH + (at - Timestamp::UNIX_EPOCH)
    }
}

macro_rules! of_system {
    ($($Type:ident)+) => {
        $(
            /// # Panics
            ///
            /// The time lies outside the range.
            impl From<SystemTime> for $Type {
                #[track_caller]
                #[inline]
                fn from(time: SystemTime) -> $Type {
                    Timestamp::from(time).into()
                }
            }

            /// # Panics
            ///
            /// A time of the system does not hold the instant.
            impl From<$Type> for SystemTime {
                #[track_caller]
                #[inline]
                fn from(at: $Type) -> SystemTime {
                    Timestamp::from(at).into()
                }
            }
        )+
    };
}

of_system! { UtcDateTime OffsetDateTime }

/// The order of an instant and a time of a clock.
macro_rules! order {
    ($Type:ident, $at:expr, $time:expr) => {
        ($at - $Type::UNIX_EPOCH).cmp(&$time.signed_duration_since(SystemTime::UNIX_EPOCH))
    };
}

compared! {
    Timestamp, SystemTime: at, time => order!(Timestamp, at, time).is_eq(), order!(Timestamp, at, time);
    UtcDateTime, SystemTime: at, time => order!(UtcDateTime, at, time).is_eq(), order!(UtcDateTime, at, time);
    OffsetDateTime, SystemTime: at, time => order!(OffsetDateTime, at, time).is_eq(), order!(OffsetDateTime, at, time);
}

macro_rules! differences {
    ($($Type:ident)+) => {
        $(
            /// # Panics
            ///
            /// 64 bits do not hold the seconds of the difference.
            impl Sub<SystemTime> for $Type {
                type Output = SignedDuration;

                #[track_caller]
                #[inline]
                fn sub(self, earlier: SystemTime) -> SignedDuration {
                    (self - $Type::UNIX_EPOCH) - earlier.signed_duration_since(SystemTime::UNIX_EPOCH)
                }
            }

            /// # Panics
            ///
            /// 64 bits do not hold the seconds of the difference.
            impl Sub<$Type> for SystemTime {
                type Output = SignedDuration;

                #[track_caller]
                #[inline]
                fn sub(self, earlier: $Type) -> SignedDuration {
                    self.signed_duration_since(SystemTime::UNIX_EPOCH) - (earlier - $Type::UNIX_EPOCH)
                }
            }
        )+
    };
}

differences! { Timestamp UtcDateTime OffsetDateTime }
