//! Durations and their parts.
use super::is;
use calendar_values::{ConversionRange, SignedDuration};
use std::cmp::Ordering;
use std::hash::{DefaultHasher, Hash, Hasher};
use std::time::Duration;

#[test]
fn parts_have_one_sign(rt: HostRuntime) {
    let past_a_day = SignedDuration::nanoseconds(-86_400_000_000_001);
    let of_nanoseconds = SignedDuration::nanoseconds(i64::MIN);
    let of_hours = SignedDuration::hours(2_562_047_788_015_215);
    let of_days = SignedDuration::days(-106_751_991_167_300);
    let of_parts = SignedDuration::new(i64::MAX, i32::MIN);
    let most_days = 106_751_991_167_300;
    for (duration, seconds, nanoseconds, days) in [
        (SignedDuration::new(1, -1), 0, 999_999_999, 0),
        (SignedDuration::new(-1, 1), 0, -999_999_999, 0),
        (SignedDuration::new(0, -1), 0, -1, 0),
        (SignedDuration::new(-5, -2_000_000_001), -7, -1, 0),
        (SignedDuration::new(5, 2_147_483_647), 7, 147_483_647, 0),
        (SignedDuration::new(86_400, -1), 86_399, 999_999_999, 0),
        (SignedDuration::new(-86_400, 1), -86_399, -999_999_999, 0),
        (past_a_day, -86_400, -1, -1),
        (of_nanoseconds, -9_223_372_036, -854_775_808, -106_751),
        (SignedDuration::seconds(-86_399), -86_399, 0, 0),
        (SignedDuration::hours(-27), -97_200, 0, -1),
        (of_hours, 9_223_372_036_854_774_000, 0, most_days),
        (of_days, -9_223_372_036_854_720_000, 0, -most_days),
        (of_parts, 9_223_372_036_854_775_804, 852_516_352, most_days),
        (SignedDuration::ZERO, 0, 0, 0),
        (SignedDuration::MIN, i64::MIN, -999_999_999, -most_days),
        (SignedDuration::MAX, i64::MAX, 999_999_999, most_days),
    ] {
        let parts = (duration.whole_seconds(), duration.subsec_nanoseconds());
        is(&rt, parts, (seconds, nanoseconds));
        is(&rt, duration.whole_days(), days);
        is(&rt, duration.is_negative(), seconds < 0 || nanoseconds < 0);
    }
}

#[test]
fn larger_units_round_towards_zero(rt: HostRuntime) {
    for (duration, seconds, nanoseconds, weeks, hours, minutes) in [
        (
            SignedDuration::weeks(-15_250_284_452_471),
            -9_223_372_036_854_460_800,
            0,
            -15_250_284_452_471,
            -2_562_047_788_015_128,
            -153_722_867_280_907_680,
        ),
        (SignedDuration::weeks(2), 1_209_600, 0, 2, 336, 20_160),
        (
            SignedDuration::minutes(153_722_867_280_912_930),
            9_223_372_036_854_775_800,
            0,
            15_250_284_452_471,
            2_562_047_788_015_215,
            153_722_867_280_912_930,
        ),
        (SignedDuration::minutes(-90), -5_400, 0, 0, -1, -90),
        (
            SignedDuration::milliseconds(-604_800_001),
            -604_800,
            -1_000_000,
            -1,
            -168,
            -10_080,
        ),
        (
            SignedDuration::milliseconds(i64::MAX),
            9_223_372_036_854_775,
            807_000_000,
            15_250_284_452,
            2_562_047_788_015,
            153_722_867_280_912,
        ),
        (
            SignedDuration::microseconds(3_599_999_999),
            3_599,
            999_999_000,
            0,
            0,
            59,
        ),
        (
            SignedDuration::microseconds(i64::MIN),
            -9_223_372_036_854,
            -775_808_000,
            -15_250_284,
            -2_562_047_788,
            -153_722_867_280,
        ),
        (SignedDuration::nanoseconds(-1), 0, -1, 0, 0, 0),
        (SignedDuration::nanoseconds(1), 0, 1, 0, 0, 0),
        (SignedDuration::ZERO, 0, 0, 0, 0, 0),
        (
            SignedDuration::MIN,
            i64::MIN,
            -999_999_999,
            -15_250_284_452_471,
            -2_562_047_788_015_215,
            -153_722_867_280_912_930,
        ),
        (
            SignedDuration::MAX,
            i64::MAX,
            999_999_999,
            15_250_284_452_471,
            2_562_047_788_015_215,
            153_722_867_280_912_930,
        ),
    ] {
        let parts = (duration.whole_seconds(), duration.subsec_nanoseconds());
        is(&rt, parts, (seconds, nanoseconds));
        let counts = (
            duration.whole_weeks(),
            duration.whole_hours(),
            duration.whole_minutes(),
        );
        is(&rt, counts, (weeks, hours, minutes));
        is(&rt, duration.is_zero(), seconds == 0 && nanoseconds == 0);
        is(&rt, duration.is_positive(), seconds > 0 || nanoseconds > 0);
    }
}

#[test]
fn smaller_units_round_towards_zero(rt: HostRuntime) {
    for (duration, nanoseconds, milliseconds, left, microseconds, left_micro) in [
        (
            SignedDuration::seconds(1),
            1_000_000_000,
            1_000,
            0,
            1_000_000,
            0,
        ),
        (
            SignedDuration::milliseconds(-1),
            -1_000_000,
            -1,
            -1,
            -1_000,
            -1_000,
        ),
        (SignedDuration::microseconds(1), 1_000, 0, 0, 1, 1),
        (SignedDuration::nanoseconds(-1), -1, 0, 0, 0, 0),
        (
            SignedDuration::new(1, 400_000_000),
            1_400_000_000,
            1_400,
            400,
            1_400_000,
            400_000,
        ),
        (
            SignedDuration::new(-1, -400_000_000),
            -1_400_000_000,
            -1_400,
            -400,
            -1_400_000,
            -400_000,
        ),
        (
            SignedDuration::new(1, 400_000),
            1_000_400_000,
            1_000,
            0,
            1_000_400,
            400,
        ),
        (
            SignedDuration::new(-1, -400_000),
            -1_000_400_000,
            -1_000,
            0,
            -1_000_400,
            -400,
        ),
        (
            SignedDuration::new(-2, -999_999_999),
            -2_999_999_999,
            -2_999,
            -999,
            -2_999_999,
            -999_999,
        ),
        (SignedDuration::new(0, 999_999), 999_999, 0, 0, 999, 999),
        (
            SignedDuration::nanoseconds(i64::MIN),
            -9_223_372_036_854_775_808,
            -9_223_372_036_854,
            -854,
            -9_223_372_036_854_775,
            -854_775,
        ),
        (SignedDuration::ZERO, 0, 0, 0, 0, 0),
        (
            SignedDuration::MIN,
            -9_223_372_036_854_775_808_999_999_999,
            -9_223_372_036_854_775_808_999,
            -999,
            -9_223_372_036_854_775_808_999_999,
            -999_999,
        ),
        (
            SignedDuration::MAX,
            9_223_372_036_854_775_807_999_999_999,
            9_223_372_036_854_775_807_999,
            999,
            9_223_372_036_854_775_807_999_999,
            999_999,
        ),
    ] {
        is(&rt, duration.whole_nanoseconds(), nanoseconds);
        let in_milliseconds = (
            duration.whole_milliseconds(),
            duration.subsec_milliseconds(),
        );
        is(&rt, in_milliseconds, (milliseconds, left));
        let in_microseconds = (
            duration.whole_microseconds(),
            duration.subsec_microseconds(),
        );
        is(&rt, in_microseconds, (microseconds, left_micro));
    }
}

#[test]
fn absolute_values_have_no_sign(rt: HostRuntime) {
    let second = SignedDuration::seconds(1);
    let most = SignedDuration::MAX;
    let most_negative = SignedDuration::new(i64::MIN + 1, -999_999_999);
    let least_seconds = SignedDuration::seconds(i64::MIN);
    for (duration, size, unsigned) in [
        (second, second, Duration::new(1, 0)),
        (SignedDuration::seconds(-1), second, Duration::new(1, 0)),
        (SignedDuration::ZERO, SignedDuration::ZERO, Duration::ZERO),
        (
            SignedDuration::new(-5, -3),
            SignedDuration::new(5, 3),
            Duration::new(5, 3),
        ),
        (
            most_negative,
            most,
            Duration::new(9_223_372_036_854_775_807, 999_999_999),
        ),
        (
            least_seconds,
            most,
            Duration::new(9_223_372_036_854_775_808, 0),
        ),
        (
            SignedDuration::MIN,
            most,
            Duration::new(9_223_372_036_854_775_808, 999_999_999),
        ),
        (
            most,
            most,
            Duration::new(9_223_372_036_854_775_807, 999_999_999),
        ),
    ] {
        is(&rt, duration.abs(), size);
        assert!(rt; duration.unsigned_abs() == unsigned);
    }
}

#[test]
fn sums_and_differences_carry(rt: HostRuntime) {
    let (second, nanosecond) = (SignedDuration::seconds(1), SignedDuration::nanoseconds(1));
    let (least, greatest) = (SignedDuration::MIN, SignedDuration::MAX);
    let most = SignedDuration::new(0, 999_999_999);
    for (got, wanted) in [
        (most + nanosecond, second),
        (second - nanosecond, most),
        (nanosecond - second, SignedDuration::new(0, -999_999_999)),
        (most + most, SignedDuration::new(1, 999_999_998)),
        (greatest + least, SignedDuration::seconds(-1)),
        (greatest - greatest, SignedDuration::ZERO),
    ] {
        is(&rt, got, wanted);
    }
    // The seconds alone, 0 less -2^63, do not fit.
    let least_seconds = SignedDuration::seconds(i64::MIN);
    is(
        &rt,
        SignedDuration::nanoseconds(-1) - least_seconds,
        greatest,
    );
    let mut sum = second;
    sum += most;
    is(&rt, sum, SignedDuration::new(1, 999_999_999));
    sum -= nanosecond;
    is(&rt, sum, SignedDuration::new(1, 999_999_998));
    is(&rt, -sum, SignedDuration::new(-1, -999_999_998));
}

#[test]
fn sums_outside_the_range_are_refused_or_saturate(rt: HostRuntime) {
    let (second, nanosecond) = (SignedDuration::seconds(1), SignedDuration::nanoseconds(1));
    let (least, greatest) = (SignedDuration::MIN, SignedDuration::MAX);
    let (zero, back) = (SignedDuration::ZERO, SignedDuration::nanoseconds(-1));
    let (five, ten) = (SignedDuration::seconds(5), SignedDuration::seconds(10));
    let most = SignedDuration::new(0, 999_999_999);
    let least_seconds = SignedDuration::seconds(i64::MIN);
    let before = SignedDuration::seconds(-1);
    let five_before = SignedDuration::seconds(-5);
    for (first, other, sum, nearest) in [
        (most, nanosecond, Some(second), second),
        (five_before, five, Some(zero), zero),
        (greatest, least, Some(before), before),
        (greatest, nanosecond, None, greatest),
        (least, back, None, least),
        (greatest, greatest, None, greatest),
        (least, least, None, least),
    ] {
        is(&rt, first.checked_add(other), sum);
        is(&rt, first.saturating_add(other), nearest);
    }
    for (first, other, difference, nearest) in [
        (second, most, Some(nanosecond), nanosecond),
        (five, ten, Some(five_before), five_before),
        (back, least_seconds, Some(greatest), greatest),
        (zero, least_seconds, None, greatest),
        (back, least, None, greatest),
        (greatest, back, None, greatest),
        (least, nanosecond, None, least),
        (least, greatest, None, least),
    ] {
        is(&rt, first.checked_sub(other), difference);
        is(&rt, first.saturating_sub(other), nearest);
    }
    let most_negative = SignedDuration::new(i64::MIN + 1, -999_999_999);
    for (duration, negative) in [
        (second, Some(before)),
        (back, Some(nanosecond)),
        (zero, Some(zero)),
        (greatest, Some(most_negative)),
        (most_negative, Some(greatest)),
        (least_seconds, None),
        (least, None),
    ] {
        is(&rt, duration.checked_neg(), negative);
    }
}

#[test]
fn products_outside_the_range_are_refused_or_saturate(rt: HostRuntime) {
    let (least, greatest) = (SignedDuration::MIN, SignedDuration::MAX);
    let (five, five_before) = (SignedDuration::seconds(5), SignedDuration::seconds(-5));
    let (ten, ten_before) = (SignedDuration::seconds(10), SignedDuration::seconds(-10));
    let zero = SignedDuration::ZERO;
    let most = SignedDuration::new(0, 999_999_999);
    let most_negative = SignedDuration::new(i64::MIN + 1, -999_999_999);
    let wide = SignedDuration::new(4_294_967_296, 500_000_000);
    let wide_before = SignedDuration::seconds(-4_294_967_296);
    for (duration, factor, is_duration, nearest) in [
        (five, 2, true, ten),
        (five, -2, true, ten_before),
        (five_before, -2, true, ten),
        (greatest, 0, true, zero),
        (zero, i32::MIN, true, zero),
        (
            most,
            i32::MAX,
            true,
            SignedDuration::new(2_147_483_644, 852_516_353),
        ),
        (
            wide,
            i32::MAX,
            true,
            SignedDuration::new(9_223_372_033_633_550_335, 500_000_000),
        ),
        (wide, i32::MIN, false, least),
        (wide_before, i32::MIN, false, greatest),
        (greatest, 1, true, greatest),
        (greatest, -1, true, most_negative),
        (greatest, 2, false, greatest),
        (least, 1, true, least),
        (least, -1, false, greatest),
        (least, 2, false, least),
    ] {
        let product = if is_duration { Some(nearest) } else { None };
        is(&rt, duration.checked_mul(factor), product);
        is(&rt, duration.saturating_mul(factor), nearest);
    }
}

#[test]
fn quotients_round_towards_zero(rt: HostRuntime) {
    let (least, greatest) = (SignedDuration::MIN, SignedDuration::MAX);
    let (second, ten_before) = (SignedDuration::seconds(1), SignedDuration::seconds(-10));
    let odd = SignedDuration::new(5, 1);
    for (duration, divisor, quotient) in [
        (second, 3, Some(SignedDuration::nanoseconds(333_333_333))),
        (ten_before, 3, Some(SignedDuration::new(-3, -333_333_333))),
        (ten_before, -2, Some(SignedDuration::seconds(5))),
        (odd, 3, Some(SignedDuration::new(1, 666_666_667))),
        (
            SignedDuration::nanoseconds(-7),
            2,
            Some(SignedDuration::nanoseconds(-3)),
        ),
        (
            greatest,
            i32::MAX,
            Some(SignedDuration::seconds(4_294_967_298)),
        ),
        (
            least,
            i32::MIN,
            Some(SignedDuration::seconds(4_294_967_296)),
        ),
        (
            least,
            -2,
            Some(SignedDuration::new(4_611_686_018_427_387_904, 499_999_999)),
        ),
        (
            greatest,
            -1,
            Some(SignedDuration::new(i64::MIN + 1, -999_999_999)),
        ),
        (least, -1, None),
        (least, 0, None),
        (SignedDuration::ZERO, 0, None),
    ] {
        is(&rt, duration.checked_div(divisor), quotient);
    }
}

#[test]
fn whole_numbers_with_a_sign_are_factors_and_divisors(rt: HostRuntime) {
    let duration = SignedDuration::new(3, 500);
    let (by_i8, by_i16) = (
        SignedDuration::new(-300, -50_000),
        SignedDuration::new(-90_000, -15_000_000),
    );
    is(&rt, duration * -100_i8, by_i8);
    is(&rt, -100_i8 * duration, by_i8);
    is(&rt, duration / -100_i8, SignedDuration::new(0, -30_000_005));
    is(&rt, duration * -30_000_i16, by_i16);
    is(&rt, -30_000_i16 * duration, by_i16);
    is(
        &rt,
        duration / -30_000_i16,
        SignedDuration::new(0, -100_000),
    );
}

#[test]
fn large_whole_numbers_with_a_sign_are_factors_and_divisors(rt: HostRuntime) {
    let duration = SignedDuration::new(3, 500);
    let by_i32 = SignedDuration::new(-6_000_001_000, 0);
    is(&rt, duration * -2_000_000_000_i32, by_i32);
    is(&rt, -2_000_000_000_i32 * duration, by_i32);
    let quotient = duration / -2_000_000_000_i32;
    is(&rt, quotient, SignedDuration::new(0, -1));
}

#[test]
fn whole_numbers_without_a_sign_are_factors_and_divisors(rt: HostRuntime) {
    let duration = SignedDuration::new(3, 500);
    let (by_u8, by_u16) = (
        SignedDuration::new(600, 100_000),
        SignedDuration::new(180_000, 30_000_000),
    );
    is(&rt, duration * 200_u8, by_u8);
    is(&rt, 200_u8 * duration, by_u8);
    is(&rt, duration / 200_u8, SignedDuration::new(0, 15_000_002));
    is(&rt, duration * 60_000_u16, by_u16);
    is(&rt, 60_000_u16 * duration, by_u16);
    is(&rt, duration / 60_000_u16, SignedDuration::new(0, 50_000));
}

#[test]
fn large_whole_numbers_without_a_sign_are_factors_and_divisors(rt: HostRuntime) {
    let duration = SignedDuration::new(3, 500);
    let by_u32 = SignedDuration::new(12_000_002_000, 0);
    is(&rt, duration * 4_000_000_000_u32, by_u32);
    is(&rt, 4_000_000_000_u32 * duration, by_u32);
    is(&rt, duration / 4_000_000_000_u32, SignedDuration::new(0, 0));
}

#[test]
fn products_by_whole_numbers_are_in_place(rt: HostRuntime) {
    let mut product = SignedDuration::new(3, 500);
    product *= -2_i8;
    is(&rt, product, SignedDuration::new(-6, -1_000));
    product *= 3_i16;
    is(&rt, product, SignedDuration::new(-18, -3_000));
    product *= -5_i32;
    is(&rt, product, SignedDuration::new(90, 15_000));
    product *= 7_u8;
    is(&rt, product, SignedDuration::new(630, 105_000));
    product *= 11_u16;
    is(&rt, product, SignedDuration::new(6_930, 1_155_000));
    product *= 13_u32;
    is(&rt, product, SignedDuration::new(90_090, 15_015_000));
}

#[test]
fn quotients_by_whole_numbers_are_in_place(rt: HostRuntime) {
    let mut quotient = SignedDuration::new(3, 500);
    quotient /= -2_i8;
    is(&rt, quotient, SignedDuration::new(-1, -500_000_250));
    quotient /= 3_i16;
    is(&rt, quotient, SignedDuration::new(0, -500_000_083));
    quotient /= -5_i32;
    is(&rt, quotient, SignedDuration::new(0, 100_000_016));
    quotient /= 7_u8;
    is(&rt, quotient, SignedDuration::new(0, 14_285_716));
    quotient /= 11_u16;
    is(&rt, quotient, SignedDuration::new(0, 1_298_701));
    quotient /= 13_u32;
    is(&rt, quotient, SignedDuration::new(0, 99_900));
}

#[test]
fn durations_of_std_are_converted(rt: HostRuntime) {
    let (second, std_second) = (SignedDuration::SECOND, Duration::new(1, 0));
    let most = Duration::new(i64::MAX as u64, 999_999_999);
    let past = Duration::new(1 << 63, 0);
    is(&rt, SignedDuration::try_from(std_second), Ok(second));
    is(&rt, SignedDuration::try_from(most), Ok(SignedDuration::MAX));
    is(&rt, SignedDuration::try_from(past), Err(ConversionRange));
    let before = SignedDuration::milliseconds(-500);
    assert!(rt; Duration::try_from(second) == Ok(std_second));
    assert!(rt; Duration::try_from(before) == Err(ConversionRange));
}

#[test]
fn durations_of_std_are_compared(rt: HostRuntime) {
    let half = SignedDuration::milliseconds(500);
    let (std_half, past) = (Duration::new(0, 500_000_000), Duration::new(1 << 63, 0));
    is(
        &rt,
        SignedDuration::SECOND.cmp_std(std_half),
        Ordering::Greater,
    );
    is(&rt, half.cmp_std(std_half), Ordering::Equal);
    is(&rt, (-half).cmp_std(Duration::ZERO), Ordering::Less);
    is(&rt, SignedDuration::MAX.cmp_std(past), Ordering::Less);
}

#[test]
fn durations_of_std_are_added(rt: HostRuntime) {
    let (second, half) = (SignedDuration::SECOND, SignedDuration::milliseconds(500));
    let (std_second, std_half) = (Duration::new(1, 0), Duration::new(0, 500_000_000));
    let before = SignedDuration::milliseconds(-500);
    is(&rt, second + std_half, SignedDuration::milliseconds(1_500));
    is(&rt, std_half + second, SignedDuration::milliseconds(1_500));
    is(&rt, half - std_second, before);
    is(&rt, std_half - second, before);
    // 2^63 seconds alone do not fit.
    let sum = SignedDuration::seconds(-1) + Duration::new(1 << 63, 0);
    is(&rt, sum, SignedDuration::seconds(i64::MAX));
}

#[test]
fn durations_of_std_are_added_in_place(rt: HostRuntime) {
    let (std_second, half) = (Duration::new(1, 0), SignedDuration::milliseconds(500));
    let mut sum = SignedDuration::milliseconds(-500);
    sum += std_second;
    is(&rt, sum, half);
    let mut std_sum = Duration::new(0, 500_000_000);
    std_sum += half;
    assert!(rt; std_sum == std_second);
}

#[test]
fn order_is_that_of_the_nanoseconds(rt: HostRuntime) {
    for (smaller, larger) in [
        (SignedDuration::MIN, SignedDuration::seconds(-1)),
        (SignedDuration::seconds(-1), SignedDuration::nanoseconds(-1)),
        (SignedDuration::nanoseconds(-1), SignedDuration::ZERO),
        (SignedDuration::ZERO, SignedDuration::nanoseconds(1)),
        (SignedDuration::nanoseconds(1), SignedDuration::seconds(1)),
        (SignedDuration::seconds(1), SignedDuration::MAX),
    ] {
        assert!(rt; smaller < larger && larger > smaller && smaller != larger);
    }
    is(&rt, SignedDuration::hours(24), SignedDuration::days(1));
    let (day, zero) = (SignedDuration::DAY, SignedDuration::default());
    is(&rt, hash_of(day), hash_of(SignedDuration::hours(24)));
    assert_ne!(rt; hash_of(day), hash_of(zero));
    is(&rt, zero, SignedDuration::ZERO);
}

fn hash_of(duration: SignedDuration) -> u64 {
    let mut hasher = DefaultHasher::new();
    duration.hash(&mut hasher);
    hasher.finish()
}
