//! Numbers with a point as lengths of time.

use core::time::Duration;

/// The bits of a significand that an `f64` stores.
const STORED: u32 = f64::MANTISSA_DIGITS - 1;

/// The exponent of infinity and of NaN.
const NOT_FINITE: u32 = 0x7ff;

/// The bias of a stored exponent: that of the least bit of a significand is less by this.
const BIAS: u32 = 1_023 + STORED;

/// A finite number without its sign: a whole number of 53 bits, times 2 to the power of the second.
/// None for infinity and NaN.
const fn parts(number: f64) -> Option<(u64, i32)> {
    let bits = number.to_bits();
    let fraction = bits & ((1 << STORED) - 1);
    match (bits >> STORED) as u32 & NOT_FINITE {
        NOT_FINITE => None,
        0 => Some((fraction, 1 - BIAS as i32)),
        exponent => Some((fraction | 1 << STORED, exponent as i32 - BIAS as i32)),
    }
}

/// The number halved a number of times, once at least: the nearest whole number, and the even one
/// where two are as near.
const fn halve(number: u128, times: u32) -> u128 {
    if times >= u128::BITS {
        return 0;
    }
    let whole = number >> times;
    let rest = number - (whole << times);
    let half = 1 << (times - 1);
    let is_nearer_above = rest > half || rest == half && whole % 2 == 1;
    whole + is_nearer_above as u128
}

/// A whole number times 2 to a power, rounded as `halve` does. None where 127 bits do not hold it.
const fn scale(number: u128, exponent: i32) -> Option<u128> {
    if exponent < 0 {
        Some(halve(number, exponent.unsigned_abs()))
    } else if number == 0 {
        Some(0)
    } else if (exponent as u32) < number.leading_zeros() {
        Some(number << exponent)
    } else {
        None
    }
}

/// A number of this size. None where 127 bits do not hold it.
const fn with_sign(size: Option<u128>, is_negative: bool) -> Option<i128> {
    match size {
        Some(size) if size > i128::MAX as u128 => None,
        Some(size) if is_negative => Some(-(size as i128)),
        Some(size) => Some(size as i128),
        None => None,
    }
}

/// The nanoseconds of `count` units: the nearest whole number, and the even one where two are as
/// near. A unit has at most 2^50 nanoseconds. None for infinity and NaN, and where 127 bits do not
/// hold the nanoseconds.
pub(crate) const fn nanoseconds(count: f64, unit: u64) -> Option<i128> {
    match parts(count) {
        Some((significand, exponent)) => {
            with_sign(scale(significand as u128 * unit as u128, exponent), count < 0.0)
        }
        None => None,
    }
}

/// The nanoseconds of a duration times a number: the nearest whole number, and the even one where
/// two are as near. None for infinity and NaN, and only else where no duration is that long.
pub(crate) const fn product(whole: i128, factor: f64) -> Option<i128> {
    let Some((significand, exponent)) = parts(factor) else {
        return None;
    };
    let (size, significand) = (whole.unsigned_abs(), significand as u128);
    let is_negative = (whole < 0) != (factor < 0.0);
    if let Some(product) = size.checked_mul(significand) {
        return with_sign(scale(product, exponent), is_negative);
    }
    // Of a product of 129 to 147 bits the last 32 only say whether it is more than a tie.
    if exponent > -34 {
        return None;
    }
    let low = (size & u32::MAX as u128) * significand;
    let high = (size >> 32) * significand + (low >> 32);
    let is_more = low as u32 != 0;
    with_sign(scale(high | is_more as u128, exponent + 32), is_negative)
}

/// The nanoseconds of a duration divided by a number, rounded as `product` does. They are 0 for
/// infinity. None for 0 and NaN, and only else where no duration is that long.
pub(crate) const fn quotient(whole: i128, divisor: f64) -> Option<i128> {
    if divisor.is_infinite() {
        return Some(0);
    }
    let Some((significand @ 1.., exponent)) = parts(divisor) else {
        return None;
    };
    // A divisor that is not held is more than twice the number.
    let Some(size) = scale(significand as u128, if exponent < 0 { 0 } else { exponent }) else {
        return Some(0);
    };
    let mut times = if exponent < 0 { exponent.unsigned_abs() } else { 0 };
    let mut quotient = whole.unsigned_abs() / size;
    let mut rest = whole.unsigned_abs() % size;
    while times > 0 {
        let step = if times < 64 { times } else { 64 };
        if quotient.leading_zeros() <= step {
            return None;
        }
        rest <<= step;
        quotient = (quotient << step) | (rest / size);
        rest %= size;
        times -= step;
    }
    let is_nearer_above = 2 * rest > size || 2 * rest == size && quotient % 2 == 1;
    with_sign(Some(quotient + is_nearer_above as u128), (whole < 0) != (divisor < 0.0))
}

/// Std's duration of `count` units. None where it is negative, infinite or NaN, and where 64 bits
/// do not hold the seconds.
pub(crate) fn std_duration(count: f64, unit: u64) -> Option<Duration> {
    const SECOND: i128 = 1_000_000_000;
    let whole = nanoseconds(count, unit)?;
    let seconds = u64::try_from(whole.div_euclid(SECOND)).ok()?;
    Some(Duration::new(seconds, whole.rem_euclid(SECOND) as u32))
}

#[cfg(test)]
mod tests {
    use super::*;

    #[test]
    fn seconds_are_rounded_as_std_rounds_them() {
        let mut bits = 88_172_645_463_325_252_u64;
        for _ in 0..200_000 {
            bits ^= bits << 13;
            bits ^= bits >> 7;
            bits ^= bits << 17;
            // Exponents from 2^-40, less than a nanosecond, to 2^66, beyond 64 bits of seconds.
            let exponent = u64::from(BIAS) - 52 - 40 + bits % 107;
            let number = f64::from_bits(exponent << STORED | bits >> 12);
            let here = std_duration(number, 1_000_000_000);
            assert_eq!(here, Duration::try_from_secs_f64(number).ok(), "{number:e}");
        }
    }

    #[test]
    fn each_unit_is_rounded_exactly() {
        // Python's `round(Fraction(count) * unit)`, which takes the even number where two are as near.
        let rows = [
            (1.001, 1_000_000_000, 1_001_000_000),
            (0.1, 60_000_000_000, 6_000_000_000),
            (2.5, 1, 2),
            (3.5, 1, 4),
            (-2.5, 1, -2),
            (0.500_000_000_000_000_1, 1, 1),
            (-1e-10, 1_000_000_000, 0),
            (1.0 / 3.0, 86_400_000_000_000, 28_800_000_000_000),
            (1.0 / 7.0, 604_800_000_000_000, 86_400_000_000_000),
            (0.000_000_1, 3_600_000_000_000, 360_000),
            (1.1, 604_800_000_000_000, 665_280_000_000_000),
        ];
        for (count, unit, wanted) in rows {
            assert_eq!(nanoseconds(count, unit), Some(wanted), "{count} of {unit}");
        }
        for count in [f64::NAN, f64::INFINITY, f64::NEG_INFINITY, f64::MAX, 1e30] {
            assert_eq!(nanoseconds(count, 1_000_000_000), None, "{count:e}");
        }
        assert_eq!(nanoseconds(f64::MIN_POSITIVE, 1), Some(0));
    }
    /// The length of the longest duration, in nanoseconds.
    const LONGEST: i128 = 9_223_372_036_854_775_807_999_999_999;

    // Python's `round(Fraction(factor) * whole)`.
    #[test]
    fn products_are_rounded_once() {
        let rows = [
            (10_000_000_000_000_000_001, 1.0, 10_000_000_000_000_000_001),
            (2_296_661_671_250_132_284, 1.452_707_228_567_834_2, 3_336_377_011_399_749_975),
            (LONGEST, 1.0, LONGEST),
            (-LONGEST, 1.0, -LONGEST),
            (LONGEST, 0.999_999_999_999_999_9, 9_223_372_036_854_774_783_999_999_999),
            (LONGEST, 0.1, 922_337_203_685_477_632_000_000_000),
            (-LONGEST, 1.0 / 3.0, -3_074_457_345_618_258_432_000_000_000),
            (LONGEST, -1e-9, -9_223_372_036_854_776_382),
            // A 2^53rd more than a tie.
            (
                1_208_925_819_614_629_174_706_177,
                0.500_000_000_000_000_1,
                604_462_909_807_314_721_570_817,
            ),
            (3, 0.5, 2),
            (5, 0.5, 2),
            (-3, 0.5, -2),
            (7, 1e20, 700_000_000_000_000_000_000),
            (0, 1e300, 0),
            (1, 5e-324, 0),
            (LONGEST, 1e-300, 0),
        ];
        for (whole, factor, wanted) in rows {
            assert_eq!(product(whole, factor), Some(wanted), "{whole} * {factor:e}");
        }
        for factor in [f64::NAN, f64::INFINITY, f64::MIN, 1e30] {
            assert_eq!(product(LONGEST, factor), None, "{factor:e}");
        }
        assert_eq!(product(0, f64::INFINITY), None);
    }

    // Python's `round(Fraction(whole) / Fraction(divisor))`.
    #[test]
    fn quotients_are_rounded_once() {
        let rows = [
            (10_000_000_000_000_000_001, 1.0, 10_000_000_000_000_000_001),
            (2_296_661_671_250_132_284, 1.452_707_228_567_834_2, 1_580_952_876_178_856_043),
            (LONGEST, 1.0, LONGEST),
            (LONGEST, 1.000_000_000_000_000_2, 9_223_372_036_854_773_759_999_999_999),
            (LONGEST, 3.0, 3_074_457_345_618_258_602_666_666_666),
            (-LONGEST, 7.1, -1_299_066_484_064_052_995_707_200_952),
            (LONGEST, 1e9, 9_223_372_036_854_775_808),
            (3, 2.0, 2),
            (5, 2.0, 2),
            (-3, -2.0, 2),
            (7, 0.1, 70),
            (1, 1e-20, 100_000_000_000_000_005_485),
            (0, 5e-324, 0),
            (1, 1e300, 0),
            (LONGEST, f64::NEG_INFINITY, 0),
        ];
        for (whole, divisor, wanted) in rows {
            assert_eq!(quotient(whole, divisor), Some(wanted), "{whole} / {divisor:e}");
        }
        for divisor in [f64::NAN, 0.0, -0.0, f64::MIN_POSITIVE, 1e-11] {
            assert_eq!(quotient(LONGEST, divisor), None, "{divisor:e}");
        }
    }

    /// The whole number nearest to a fraction, and the even one of two.
    fn nearest(numerator: i128, denominator: i128) -> i128 {
        let (whole, rest) = (numerator.div_euclid(denominator), numerator.rem_euclid(denominator));
        let is_nearer_above = 2 * rest > denominator || 2 * rest == denominator && whole % 2 != 0;
        whole + i128::from(is_nearer_above)
    }

    // A number of 32 bits over a power of 2 is a factor with no rounding, as 128 bits show.
    #[test]
    fn factors_of_few_bits_are_exact() {
        let mut bits = 88_172_645_463_325_252_u64;
        for _ in 0..100_000 {
            bits ^= bits << 13;
            bits ^= bits >> 7;
            bits ^= bits << 17;
            let whole = i128::from(bits as i64) * i128::from(bits >> 36);
            let (count, places) = (i128::from(bits >> 33) + 1, bits % 33);
            let power = 1_i128 << places;
            let factor = count as f64 / power as f64;
            let held = |length: &i128| length.abs() <= LONGEST;
            let wanted = Some(nearest(whole * count, power)).filter(held);
            assert_eq!(product(whole, factor).filter(held), wanted, "{whole} * {count} / {power}");
            let less = whole >> 32;
            let wanted = Some(nearest(less * power, count));
            assert_eq!(quotient(less, factor), wanted, "{less} / ({count} / {power})");
        }
    }
}
