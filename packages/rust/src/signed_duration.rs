//! Durations by more of `time`'s names: numbers with a point, comparisons with std's durations, and
//! texts.

use core::fmt;
use core::ops::{Div, DivAssign, Mul, MulAssign};
use core::str::FromStr;
use core::time::Duration;

use crate::{Refusal, SignedDuration, fractional, spelled};

const PER_SECOND: i128 = 1_000_000_000;

/// The message of a panic over a duration whose seconds do not fit in 64 bits.
pub(crate) const TOO_LONG: &str = "the duration is out of range: its seconds must fit in 64 bits";

impl SignedDuration {
    #[inline]
    pub(crate) const fn of_nanoseconds(whole: i128) -> Option<SignedDuration> {
        let seconds = whole / PER_SECOND;
        if seconds < i64::MIN as i128 || seconds > i64::MAX as i128 {
            return None;
        }
        Some(SignedDuration::new(seconds as i64, (whole % PER_SECOND) as i32))
    }

    /// The length in seconds: the nearest `f64`, or one next to it.
    ///
    /// ```
    /// use muxandu::SignedDuration;
    ///
    /// assert_eq!(SignedDuration::milliseconds(-1_500).as_seconds_f64(), -1.5);
    /// ```
    #[must_use]
    #[inline]
    pub fn as_seconds_f64(self) -> f64 {
        self.whole_seconds() as f64 + f64::from(self.subsec_nanoseconds()) / 1e9
    }

    /// The length in seconds: the nearest `f32`, or one next to it.
    ///
    /// ```
    /// use muxandu::SignedDuration;
    ///
    /// assert_eq!(SignedDuration::milliseconds(-1_500).as_seconds_f32(), -1.5);
    /// ```
    #[must_use]
    #[inline]
    pub fn as_seconds_f32(self) -> f32 {
        self.as_seconds_f64() as f32
    }

    /// As [`SignedDuration::seconds_f64`].
    ///
    /// ```
    /// use muxandu::SignedDuration;
    ///
    /// assert_eq!(SignedDuration::seconds_f32(-0.5), SignedDuration::milliseconds(-500));
    /// // The `f32` nearest to 1.001 is 1.00100004673...
    /// assert_eq!(SignedDuration::seconds_f32(1.001), SignedDuration::nanoseconds(1_001_000_047));
    /// ```
    ///
    /// # Panics
    ///
    /// 64 bits do not hold the whole seconds, or the number is NaN.
    #[must_use]
    #[track_caller]
    #[inline]
    pub const fn seconds_f32(seconds: f32) -> SignedDuration {
        SignedDuration::seconds_f64(seconds as f64)
    }

    /// The duration of a number of seconds, rounded to the nearest nanosecond, and to the even one
    /// where two are as near.
    ///
    /// ```
    /// use muxandu::SignedDuration;
    /// use muxandu::ext::NumericalDuration as _;
    ///
    /// assert_eq!(SignedDuration::seconds_f64(1.001), SignedDuration::milliseconds(1_001));
    /// assert_eq!(SignedDuration::seconds_f64(1.001), 1.001.seconds());
    /// assert_eq!(SignedDuration::seconds_f64(-2.7e-9), SignedDuration::nanoseconds(-3));
    /// ```
    ///
    /// # Panics
    ///
    /// 64 bits do not hold the whole seconds, or the number is NaN.
    #[must_use]
    #[track_caller]
    #[inline]
    pub const fn seconds_f64(seconds: f64) -> SignedDuration {
        SignedDuration::of_units(seconds, 1_000_000_000)
    }

    /// As [`SignedDuration::checked_seconds_f64`].
    ///
    /// ```
    /// use muxandu::SignedDuration;
    ///
    /// let half = SignedDuration::checked_seconds_f32(0.5);
    /// assert_eq!(half, Some(SignedDuration::milliseconds(500)));
    /// assert_eq!(SignedDuration::checked_seconds_f32(f32::INFINITY), None);
    /// ```
    #[must_use]
    #[inline]
    pub const fn checked_seconds_f32(seconds: f32) -> Option<SignedDuration> {
        SignedDuration::checked_seconds_f64(seconds as f64)
    }

    /// The duration of a number of seconds, as [`SignedDuration::seconds_f64`] rounds it. None
    /// where 64 bits do not hold the whole seconds, and for NaN.
    ///
    /// ```
    /// use muxandu::SignedDuration;
    ///
    /// let half = SignedDuration::checked_seconds_f64(-0.5);
    /// assert_eq!(half, Some(SignedDuration::milliseconds(-500)));
    /// assert_eq!(SignedDuration::checked_seconds_f64(f64::NAN), None);
    /// assert_eq!(SignedDuration::checked_seconds_f64(1e19), None);
    /// ```
    #[must_use]
    #[inline]
    pub const fn checked_seconds_f64(seconds: f64) -> Option<SignedDuration> {
        match fractional::nanoseconds(seconds, PER_SECOND as u64) {
            Some(whole) => SignedDuration::of_nanoseconds(whole),
            None => None,
        }
    }

    /// As [`SignedDuration::saturating_seconds_f64`].
    ///
    /// ```
    /// use muxandu::SignedDuration;
    ///
    /// assert_eq!(SignedDuration::saturating_seconds_f32(0.5), SignedDuration::milliseconds(500));
    /// assert_eq!(SignedDuration::saturating_seconds_f32(f32::MAX), SignedDuration::MAX);
    /// ```
    #[must_use]
    #[inline]
    pub const fn saturating_seconds_f32(seconds: f32) -> SignedDuration {
        SignedDuration::saturating_seconds_f64(seconds as f64)
    }

    /// The duration of a number of seconds, as [`SignedDuration::seconds_f64`] rounds it, or the
    /// end of the range that it is beyond. NaN gives the duration 0.
    ///
    /// ```
    /// use muxandu::SignedDuration;
    ///
    /// let half = SignedDuration::saturating_seconds_f64(-0.5);
    /// assert_eq!(half, SignedDuration::milliseconds(-500));
    /// assert_eq!(SignedDuration::saturating_seconds_f64(f64::NEG_INFINITY), SignedDuration::MIN);
    /// assert_eq!(SignedDuration::saturating_seconds_f64(1e19), SignedDuration::MAX);
    /// assert_eq!(SignedDuration::saturating_seconds_f64(f64::NAN), SignedDuration::ZERO);
    /// ```
    #[must_use]
    #[inline]
    pub const fn saturating_seconds_f64(seconds: f64) -> SignedDuration {
        match SignedDuration::checked_seconds_f64(seconds) {
            Some(duration) => duration,
            None if seconds.is_nan() => SignedDuration::ZERO,
            None if seconds < 0.0 => SignedDuration::MIN,
            None => SignedDuration::MAX,
        }
    }

    /// The duration of `count` units of a number of nanoseconds, rounded as
    /// [`fractional::nanoseconds`] does.
    #[track_caller]
    #[inline]
    pub(crate) const fn of_units(count: f64, unit: u64) -> SignedDuration {
        let Some(whole) = fractional::nanoseconds(count, unit) else { panic!("{}", TOO_LONG) };
        match SignedDuration::of_nanoseconds(whole) {
            Some(duration) => duration,
            None => panic!("{}", TOO_LONG),
        }
    }
}

/// Products and quotients with numbers that have a point: the nearest nanosecond, and the even one
/// where two are as near.
macro_rules! fractional_factors {
    ($($Factor:ident)+) => {
        $(
            impl Mul<$Factor> for SignedDuration {
                type Output = SignedDuration;

                #[track_caller]
                #[inline]
                fn mul(self, factor: $Factor) -> SignedDuration {
                    let product = fractional::product(self.whole_nanoseconds(), f64::from(factor));
                    product.and_then(SignedDuration::of_nanoseconds).expect(TOO_LONG)
                }
            }

            impl Mul<SignedDuration> for $Factor {
                type Output = SignedDuration;

                #[track_caller]
                #[inline]
                fn mul(self, duration: SignedDuration) -> SignedDuration {
                    duration * self
                }
            }

            impl Div<$Factor> for SignedDuration {
                type Output = SignedDuration;

                #[track_caller]
                #[inline]
                fn div(self, divisor: $Factor) -> SignedDuration {
                    let quotient = fractional::quotient(self.whole_nanoseconds(), f64::from(divisor));
                    quotient.and_then(SignedDuration::of_nanoseconds).expect(TOO_LONG)
                }
            }

            impl MulAssign<$Factor> for SignedDuration {
                #[inline]
                #[track_caller]
                fn mul_assign(&mut self, factor: $Factor) {
                    *self = *self * factor;
                }
            }

            impl DivAssign<$Factor> for SignedDuration {
                #[inline]
                #[track_caller]
                fn div_assign(&mut self, divisor: $Factor) {
                    *self = *self / divisor;
                }
            }
        )+
    };
}

fractional_factors! { f32 f64 }

/// How many times as long the first of two lengths is, each by its seconds.
macro_rules! ratios {
    ($($First:ident / $Second:ident: $first_seconds:ident, $second_seconds:ident;)+) => {
        $(
            /// How many times as long the first is.
            impl Div<$Second> for $First {
                type Output = f64;

                #[inline]
                fn div(self, other: $Second) -> f64 {
                    self.$first_seconds() / other.$second_seconds()
                }
            }
        )+
    };
}

ratios! {
    SignedDuration / SignedDuration: as_seconds_f64, as_seconds_f64;
    SignedDuration / Duration: as_seconds_f64, as_secs_f64;
    Duration / SignedDuration: as_secs_f64, as_seconds_f64;
}

compared! {
    SignedDuration, Duration: first, second => first.cmp_std(second).is_eq(), first.cmp_std(second);
}

/// The days, the hours, the minutes, the seconds and finer units, without those that are 0, as
/// `1d2h` or `-1s500ms`.
///
/// With a precision, the number of the greatest unit that the duration has one of, rounded to that
/// many decimals. If two are as near, it takes the even digit. It writes at most 24 decimals.
///
/// ```
/// use muxandu::SignedDuration;
///
/// let took = SignedDuration::milliseconds(5_750);
/// assert_eq!(format!("{took}, {took:.1}"), "5s750ms, 5.8s");
/// assert_eq!(format!("{:.2}", SignedDuration::milliseconds(5)), "5.00ms");
/// ```
impl fmt::Display for SignedDuration {
    fn fmt(&self, f: &mut fmt::Formatter<'_>) -> fmt::Result {
        spelled::write_duration(f, *self)
    }
}

/// The whole seconds and the rest in nanoseconds, by their names.
///
/// ```
/// use muxandu::SignedDuration;
///
/// let took = SignedDuration::milliseconds(-1_500);
/// assert_eq!(format!("{took:?}"), "SignedDuration { seconds: -1, nanoseconds: -500000000 }");
/// ```
impl fmt::Debug for SignedDuration {
    fn fmt(&self, f: &mut fmt::Formatter<'_>) -> fmt::Result {
        f.debug_struct("SignedDuration")
            .field("seconds", &self.whole_seconds())
            .field("nanoseconds", &self.subsec_nanoseconds())
            .finish()
    }
}

/// Reads the text of `Display`, and the others of
/// [`parse_duration`](crate::proved::duration_texts::parse_duration), such as `1 day 2 hours`,
/// `PT36H` or seconds alone. Fails with [`Refusal::Syntax`], and with `duration` if the seconds do
/// not fit in 64 bits.
impl FromStr for SignedDuration {
    type Err = Refusal;

    fn from_str(text: &str) -> Result<SignedDuration, Refusal> {
        spelled::duration(text)
    }
}

#[cfg(test)]
mod tests {
    use super::SignedDuration;

    /// Seconds and nanoseconds at the ends of the range, about 0, and between.
    fn some() -> impl Iterator<Item = SignedDuration> + Clone {
        let seconds = [i64::MIN, i64::MIN + 1, -86_401, -1, 0, 1, 59, 1 << 40, i64::MAX];
        let nanoseconds = [-999_999_999, -500_000_000, -1, 0, 1, 500_000_000, 999_999_999];
        seconds.into_iter().flat_map(move |second| {
            let of_one_sign = move |nanosecond: &i32| {
                second == 0 || i64::from(*nanosecond).signum() * second.signum() >= 0
            };
            nanoseconds
                .into_iter()
                .filter(of_one_sign)
                .map(move |nanosecond| SignedDuration::new(second, nanosecond))
        })
    }

    #[test]
    fn sums_and_products_are_those_of_all_the_nanoseconds() {
        let held = SignedDuration::of_nanoseconds;
        let (least, most) = (SignedDuration::MIN, SignedDuration::MAX);
        let ends = (least.whole_nanoseconds(), most.whole_nanoseconds());
        let nearest = |whole: i128| held(whole.clamp(ends.0, ends.1)).unwrap();
        for first in some() {
            let whole = first.whole_nanoseconds();
            assert_eq!(first.checked_neg(), held(-whole));
            assert_eq!(first.whole_milliseconds(), whole / 1_000_000);
            assert_eq!(first.whole_microseconds(), whole / 1_000);
            for second in some() {
                let other = second.whole_nanoseconds();
                assert_eq!(first.checked_add(second), held(whole + other), "{first} + {second}");
                assert_eq!(first.checked_sub(second), held(whole - other), "{first} - {second}");
                assert_eq!(first.saturating_add(second), nearest(whole + other));
                assert_eq!(first.saturating_sub(second), nearest(whole - other));
            }
            for factor in [i32::MIN, -7, -1, 0, 1, 2, 1_000_003, i32::MAX] {
                let by = i128::from(factor);
                assert_eq!(first.checked_mul(factor), held(whole * by), "{first} * {factor}");
                assert_eq!(first.saturating_mul(factor), nearest(whole * by));
                let quotient = (factor != 0).then(|| held(whole / by)).flatten();
                assert_eq!(first.checked_div(factor), quotient, "{first} / {factor}");
            }
            let factor = u32::MAX;
            assert_eq!(Some(first / factor), held(whole / i128::from(factor)));
            if let Some(product) = held(whole * i128::from(factor)) {
                assert_eq!(first * factor, product);
            }
        }
    }

    #[test]
    fn nanoseconds_are_carried() {
        for nanoseconds in
            [i32::MIN, -1_000_000_000, -999_999_999, 0, 999_999_999, 1_000_000_000, i32::MAX]
        {
            for seconds in [-3, -2, -1, 0, 1, 2, 3] {
                let whole = i128::from(seconds) * super::PER_SECOND + i128::from(nanoseconds);
                let duration = SignedDuration::new(seconds, nanoseconds);
                assert_eq!(Some(duration), SignedDuration::of_nanoseconds(whole));
            }
        }
    }
}
