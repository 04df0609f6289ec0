//! A clock that never goes back, and std's clocks with durations of either sign.
#![cfg(feature = "std")]

use core::borrow::Borrow;
use core::ops::Sub;
use core::time::Duration;
use std::time::{Instant as StdInstant, SystemTime};

use crate::SignedDuration;

/// The message of a panic over a time that a clock does not hold.
const NO_TIME: &str = "the time is out of the range of the clock";

mod sealed {
    pub trait Sealed {}

    impl Sealed for super::StdInstant {}
    impl Sealed for super::SystemTime {}
}

macro_rules! clocks {
    ($($(#[$doc:meta])* $Ext:ident for $Clock:ident: $later:ident, $earlier:ident => $size:expr;)+) => {
        $(
            $(#[$doc])*
            pub trait $Ext: sealed::Sealed + Sized {
                /// The time later by a duration, or none that the clock does not hold.
                fn checked_add_signed(&self, duration: SignedDuration) -> Option<Self>;

                /// The time earlier by a duration, or none that the clock does not hold.
                fn checked_sub_signed(&self, duration: SignedDuration) -> Option<Self>;

                /// The duration since another time, below 0 if that is the later one.
                ///
                /// # Panics
                ///
                /// 64 bits do not hold its seconds.
                fn signed_duration_since(&self, earlier: Self) -> SignedDuration;

                /// The time later by a duration.
                ///
                /// # Panics
                ///
                /// The clock does not hold the time.
                #[track_caller]
                fn add_signed(self, duration: SignedDuration) -> Self {
                    self.checked_add_signed(duration).expect(NO_TIME)
                }

                /// The time earlier by a duration.
                ///
                /// # Panics
                ///
                /// The clock does not hold the time.
                #[track_caller]
                fn sub_signed(self, duration: SignedDuration) -> Self {
                    self.checked_sub_signed(duration).expect(NO_TIME)
                }
            }

            impl $Ext for $Clock {
                fn checked_add_signed(&self, duration: SignedDuration) -> Option<$Clock> {
                    let size = duration.unsigned_abs();
                    if duration.is_negative() { self.checked_sub(size) } else { self.checked_add(size) }
                }

                fn checked_sub_signed(&self, duration: SignedDuration) -> Option<$Clock> {
                    let size = duration.unsigned_abs();
                    if duration.is_negative() { self.checked_add(size) } else { self.checked_sub(size) }
                }

                #[track_caller]
                fn signed_duration_since(&self, earlier: $Clock) -> SignedDuration {
                    let size = |$later: $Clock, $earlier: $Clock| -> Duration { $size };
                    if *self < earlier {
                        SignedDuration::ZERO - size(earlier, *self)
                    } else {
                        SignedDuration::ZERO + size(*self, earlier)
                    }
                }
            }

            sums! {
                /// # Panics
                ///
                /// The clock does not hold the time.
                $Clock, SignedDuration: self, duration => self.add_signed(duration), self.sub_signed(duration);
            }
        )+
    };
}

clocks! {
    /// std's `Instant` with durations of either sign.
    ///
    /// ```
    /// # #[cfg(feature = "std")] {
    /// use std::time::Instant;
    /// use muxandu::ext::{InstantExt as _, NumericalDuration as _};
    ///
    /// let start = Instant::now();
    /// let later = start.add_signed(90.seconds());
    /// assert_eq!(start.signed_duration_since(later), (-90).seconds());
    /// assert_eq!(later.checked_sub_signed(90.seconds()), Some(start));
    /// # }
    /// ```
    InstantExt for StdInstant: later, earlier => later.duration_since(earlier);
    /// std's `SystemTime` with durations of either sign.
    ///
    /// ```
    /// # #[cfg(feature = "std")] {
    /// use std::time::SystemTime;
    /// use muxandu::ext::{NumericalDuration as _, SystemTimeExt as _};
    ///
    /// let before = SystemTime::UNIX_EPOCH.add_signed((-5).hours());
    /// assert_eq!(before.signed_duration_since(SystemTime::UNIX_EPOCH), (-5).hours());
    /// # }
    /// ```
    SystemTimeExt for SystemTime: later, earlier => later.duration_since(earlier).unwrap_or_default();
}

/// A moment of a clock that never goes back: std's, with durations of either sign.
///
/// ```
/// # #[cfg(feature = "std")] {
/// use muxandu::Instant;
/// use muxandu::ext::NumericalDuration as _;
///
/// let start = Instant::now();
/// assert_eq!((start + 5.seconds()) - start, 5.seconds());
/// assert_eq!(start.checked_sub((-5).seconds()), Some(start + 5.seconds()));
/// assert!(!start.elapsed().is_negative());
/// # }
/// ```
#[derive(Clone, Copy, Debug, PartialEq, Eq, PartialOrd, Ord, Hash)]
pub struct Instant(pub StdInstant);

impl Instant {
    /// The moment that the clock shows.
    ///
    /// ```
    /// # #[cfg(feature = "std")] {
    /// use muxandu::Instant;
    ///
    /// assert!(Instant::now() <= Instant::now());
    /// # }
    /// ```
    #[must_use]
    pub fn now() -> Instant {
        Instant(StdInstant::now())
    }

    /// The duration since this moment.
    ///
    /// ```
    /// # #[cfg(feature = "std")] {
    /// use muxandu::Instant;
    /// use muxandu::ext::NumericalDuration as _;
    ///
    /// assert!(Instant::now().elapsed() < 1.hours());
    /// # }
    /// ```
    #[must_use]
    pub fn elapsed(self) -> SignedDuration {
        Instant::now() - self
    }

    /// The moment later by a duration, or none that the clock does not hold.
    ///
    /// ```
    /// # #[cfg(feature = "std")] {
    /// use muxandu::{Instant, SignedDuration};
    /// use muxandu::ext::NumericalDuration as _;
    ///
    /// let now = Instant::now();
    /// assert_eq!(now.checked_add((-5).seconds()), Some(now - 5.seconds()));
    /// assert_eq!(now.checked_add(SignedDuration::MAX), None);
    /// # }
    /// ```
    #[must_use]
    pub fn checked_add(self, duration: SignedDuration) -> Option<Instant> {
        self.0.checked_add_signed(duration).map(Instant)
    }

    /// The moment earlier by a duration, or none that the clock does not hold.
    ///
    /// ```
    /// # #[cfg(feature = "std")] {
    /// use muxandu::Instant;
    /// use muxandu::ext::NumericalDuration as _;
    ///
    /// let now = Instant::now();
    /// assert_eq!(now.checked_sub((-5).seconds()), Some(now + 5.seconds()));
    /// # }
    /// ```
    #[must_use]
    pub fn checked_sub(self, duration: SignedDuration) -> Option<Instant> {
        self.0.checked_sub_signed(duration).map(Instant)
    }

    /// The moment as std has it.
    ///
    /// ```
    /// # #[cfg(feature = "std")] {
    /// use muxandu::Instant;
    ///
    /// let now = Instant::now();
    /// assert_eq!(now.into_inner(), now.0);
    /// # }
    /// ```
    #[must_use]
    pub const fn into_inner(self) -> StdInstant {
        self.0
    }
}

impl SignedDuration {
    /// Calls a function, and returns how long it took and its result.
    ///
    /// ```
    /// # #[cfg(feature = "std")] {
    /// use muxandu::SignedDuration;
    ///
    /// let (took, sum) = SignedDuration::time_fn(|| 1 + 2);
    /// assert_eq!((took.is_negative(), sum), (false, 3));
    /// # }
    /// ```
    pub fn time_fn<T>(call: impl FnOnce() -> T) -> (SignedDuration, T) {
        let start = Instant::now();
        let value = call();
        (start.elapsed(), value)
    }
}

sums! {
    /// # Panics
    ///
    /// The clock does not hold the time.
    Instant, SignedDuration: self, duration => Instant(self.0 + duration), Instant(self.0 - duration);
    /// # Panics
    ///
    /// The clock does not hold the time.
    Instant, Duration: self, duration => Instant(self.0 + duration), Instant(self.0 - duration);
}

compared! {
    Instant, StdInstant: first, second => first.0 == second, first.0.cmp(&second);
}

macro_rules! differences {
    ($($First:ty, $Second:ty: $first:ident, $second:ident => $later:expr, $earlier:expr;)+) => {
        $(
            impl Sub<$Second> for $First {
                type Output = SignedDuration;

                #[track_caller]
                fn sub(self, earlier: $Second) -> SignedDuration {
                    let ($first, $second) = (self, earlier);
                    $later.signed_duration_since($earlier)
                }
            }
        )+
    };
}

differences! {
    Instant, Instant: later, earlier => later.0, earlier.0;
    Instant, StdInstant: later, earlier => later.0, earlier;
    StdInstant, Instant: later, earlier => later, earlier.0;
}

impl From<StdInstant> for Instant {
    fn from(instant: StdInstant) -> Instant {
        Instant(instant)
    }
}

impl From<Instant> for StdInstant {
    fn from(instant: Instant) -> StdInstant {
        instant.0
    }
}

impl AsRef<StdInstant> for Instant {
    fn as_ref(&self) -> &StdInstant {
        &self.0
    }
}

impl Borrow<StdInstant> for Instant {
    fn borrow(&self) -> &StdInstant {
        &self.0
    }
}
