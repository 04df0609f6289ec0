//! Laws that hold for every type: equality, order, hashes, texts, units, and the ends of ranges.

use core::cmp::Ordering;
use core::fmt::{Debug, Display};
use core::hash::{Hash, Hasher};
use std::collections::hash_map::DefaultHasher;
use std::error::Error as _;
use std::time::Duration as StdDuration;

use muxandu::error::{
    ComponentRange, ConversionRange, DifferentVariant, Format, InvalidFormatDescription,
    InvalidVariant, ParseFromDescription, TryFromParsed,
};
use muxandu::ext::{NumericalDuration, NumericalStdDuration};
use muxandu::macros::{date, datetime, offset, time, timestamp, utc_datetime};
use muxandu::{
    Date, Month, OffsetDateTime, PlainDateTime, Refusal, SignedDuration, Time, Timestamp, Unit,
    UtcDateTime, UtcOffset, Weekday,
};

fn hash(value: &impl Hash) -> u64 {
    let mut hasher = DefaultHasher::new();
    value.hash(&mut hasher);
    hasher.finish()
}

/// Both values are equal, at two addresses, and so are their hashes.
fn are_equal<T: Hash + PartialEq + Debug>(values: &[T; 2]) {
    assert_eq!(values[0], values[1]);
    assert_eq!(hash(&values[0]), hash(&values[1]), "{values:?}");
}

#[test]
fn equal_dates_hash_alike() {
    are_equal(&[date!(2024 - 060), date!(2024 - 02 - 29)]);
    are_equal(&[Date::from_days_since_epoch(19_782).unwrap(), date!(2024 - 02 - 29)]);
    are_equal(&[Month::May, Month::try_from(5).unwrap()]);
    are_equal(&[Weekday::Monday, Weekday::Sunday.next()]);
}

#[test]
fn equal_refusals_hash_alike() {
    let refused = || Date::from_ordinal_date(2023, 366).unwrap_err();
    are_equal(&[refused(), refused()]);
}

#[test]
fn equal_times_hash_alike() {
    are_equal(&[time!(1:02), Time::from_hms(1, 2, 0).unwrap()]);
}

#[test]
fn equal_offsets_hash_alike() {
    are_equal(&[offset!(-1:30), UtcOffset::from_hms(-1, 30, 0).unwrap()]);
}

#[test]
fn equal_durations_hash_alike() {
    are_equal(&[SignedDuration::new(1, -1), 999_999_999.nanoseconds()]);
}

#[test]
fn numbers_of_seconds_are_tested() {
    let second = SignedDuration::SECOND;
    assert_eq!(SignedDuration::checked_seconds_f64(1.0), Some(second));
    assert_eq!(SignedDuration::checked_seconds_f32(1.0), Some(second));
    assert_eq!(SignedDuration::saturating_seconds_f64(1.0), second);
    assert_eq!(SignedDuration::saturating_seconds_f32(1.0), second);
    // The ends: -2^63 seconds are there, and 2^63 are not.
    let end = 9_223_372_036_854_775_808.0;
    let first = SignedDuration::seconds(i64::MIN);
    assert_eq!(SignedDuration::checked_seconds_f64(-end), Some(first));
    assert_eq!(SignedDuration::saturating_seconds_f64(-end), first);
    for number in [end, f64::INFINITY, f64::MAX] {
        assert_eq!(SignedDuration::checked_seconds_f64(number), None);
        assert_eq!(SignedDuration::saturating_seconds_f64(number), SignedDuration::MAX);
        let least = SignedDuration::saturating_seconds_f64(-number * 2.0);
        assert_eq!(least, SignedDuration::MIN);
    }
    assert_eq!(SignedDuration::checked_seconds_f64(f64::NAN), None);
    let zero = SignedDuration::saturating_seconds_f64(f64::NAN);
    assert_eq!(zero, SignedDuration::ZERO);
}

#[test]
fn a_duration_names_its_parts() {
    let text = format!("{:?}", SignedDuration::milliseconds(-1_500));
    assert_eq!(text, "SignedDuration { seconds: -1, nanoseconds: -500000000 }");
}

#[test]
fn equal_plain_date_times_hash_alike() {
    are_equal(&[datetime!(2024-02-29 1:00), date!(2024 - 060).with_hms(1, 0, 0).unwrap()]);
}

#[test]
fn equal_utc_date_times_hash_alike() {
    are_equal(&[
        utc_datetime!(2024-02-29 0:00),
        UtcDateTime::from_unix_timestamp(1_709_164_800).unwrap(),
    ]);
}

#[test]
fn equal_date_times_hash_alike() {
    are_equal(&[datetime!(2024-02-29 1:00 +1), datetime!(2024-02-29 0:00 UTC)]);
    let before = PlainDateTime::MIN.assume_offset(offset!(+1));
    are_equal(&[before, before.to_offset(offset!(+2))]);
}

#[test]
fn equal_timestamps_hash_alike() {
    are_equal(&[timestamp!(-0.5), Timestamp::from_milliseconds(-500).unwrap()]);
    are_equal(&[timestamp!(7), Timestamp::from_seconds(7).unwrap()]);
}

/// Each operator says of two values what the order of their numbers is.
macro_rules! are_ordered {
    ($first:expr, $second:expr, $order:expr) => {
        let (first, second, order) = ($first, $second, $order);
        let shown = format!("{first:?} {second:?}");
        assert_eq!(first.partial_cmp(&second), Some(order), "{shown}");
        assert_eq!(first == second, order == Ordering::Equal, "{shown}");
        assert_eq!(first < second, order == Ordering::Less, "{shown}");
        assert_eq!(first <= second, order != Ordering::Greater, "{shown}");
        assert_eq!(first > second, order == Ordering::Greater, "{shown}");
        assert_eq!(first >= second, order != Ordering::Less, "{shown}");
    };
}

/// Values in their order.
fn compare<T: Copy + Ord + Debug>(values: &[T]) {
    for (first, one) in values.iter().enumerate() {
        for (second, other) in values.iter().enumerate() {
            are_ordered!(*one, *other, first.cmp(&second));
            assert_eq!(one.cmp(other), first.cmp(&second));
        }
    }
}

#[test]
fn values_are_ordered() {
    compare(&[
        Date::MIN,
        date!(-1 - 12 - 31),
        date!(0 - 01 - 01),
        date!(2023 - 12 - 31),
        date!(2024 - 01 - 31),
        date!(2024 - 02 - 01),
        Date::MAX,
    ]);
    compare(&[
        Time::MIDNIGHT,
        time!(0:00:00.000_000_001),
        time!(0:00:01),
        time!(0:01),
        time!(0:59:59.9),
        time!(1:00),
        Time::MAX,
    ]);
    compare(&[
        offset!(-25:59:59),
        offset!(-0:00:01),
        UtcOffset::UTC,
        offset!(+1),
        offset!(+25:59:59),
    ]);
    compare(&[
        SignedDuration::MIN,
        (-1).seconds(),
        (-1).nanoseconds(),
        SignedDuration::ZERO,
        1.nanoseconds(),
        1.seconds(),
        SignedDuration::MAX,
    ]);
    compare(&[
        PlainDateTime::MIN,
        datetime!(-1-12-31 23:59:59.999_999_999),
        datetime!(2023-12-31 23:00),
        datetime!(2024-01-01 1:00),
        datetime!(2024-01-01 1:00:00.1),
        PlainDateTime::MAX,
    ]);
}

/// Instants in their order, each as every type that has an instant.
#[test]
fn instants_of_all_types_are_ordered() {
    let instants = [
        timestamp!(-4_000_000_000),
        timestamp!(-0.000_000_001),
        timestamp!(0),
        timestamp!(1.5),
        timestamp!(1_709_164_800),
    ];
    for (first, one) in instants.iter().enumerate() {
        for (second, other) in instants.iter().enumerate() {
            let order = first.cmp(&second);
            let apart = (one.as_nanoseconds() - other.as_nanoseconds()) as i64;
            let apart = apart.nanoseconds();
            let (one_utc, other_utc) = (one.to_utc(), other.to_utc());
            let one_shown = one.to_offset(offset!(+1:30));
            let other_shown = other.to_offset(offset!(-7));
            macro_rules! all {
                ($first_value:expr; $($second_value:expr),+) => {
                    $(
                        are_ordered!($first_value, $second_value, order);
                        assert_eq!($first_value - $second_value, apart);
                    )+
                };
            }
            all!(*one; *other, other_utc, other_shown);
            all!(one_utc; *other, other_utc, other_shown);
            all!(one_shown; *other, other_utc, other_shown);
            #[cfg(feature = "std")]
            {
                let other_time = std::time::SystemTime::from(*other);
                all!(*one; other_time);
                all!(one_utc; other_time);
                all!(one_shown; other_time);
                let one_time = std::time::SystemTime::from(*one);
                all!(one_time; *other, other_utc, other_shown);
            }
        }
    }
}

#[test]
fn signs_of_offsets() {
    for (seconds, is_positive, is_negative) in
        [(-1, false, true), (0, false, false), (1, true, false)]
    {
        let offset = UtcOffset::from_whole_seconds(seconds).unwrap();
        assert_eq!(
            (offset.is_positive(), offset.is_negative(), offset.is_utc()),
            (is_positive, is_negative, seconds == 0)
        );
    }
}

#[test]
fn units_of_numbers_with_a_point_are_those_of_whole_ones() {
    assert_eq!(2.0.weeks(), 2.weeks());
    assert_eq!(2.0.days(), 2.days());
    assert_eq!(2.0.hours(), 2.hours());
    assert_eq!(2.0.minutes(), 2.minutes());
    assert_eq!(2.0.seconds(), 2.seconds());
    assert_eq!(2.0.milliseconds(), 2.milliseconds());
    assert_eq!(2.0.microseconds(), 2.microseconds());
    assert_eq!(2.0.nanoseconds(), 2.nanoseconds());
    assert_eq!(2.0.std_weeks(), 2.std_weeks());
    assert_eq!(2.0.std_days(), 2.std_days());
    assert_eq!(2.0.std_hours(), 2.std_hours());
    assert_eq!(2.0.std_minutes(), 2.std_minutes());
    assert_eq!(2.0.std_seconds(), 2.std_seconds());
    assert_eq!(2.0.std_milliseconds(), 2.std_milliseconds());
    assert_eq!(2.0.std_microseconds(), 2.std_microseconds());
    assert_eq!(2.0.std_nanoseconds(), 2.std_nanoseconds());
}

#[test]
fn units_are_those_of_std() {
    let hour = StdDuration::from_secs(3_600);
    assert_eq!((1.std_hours(), 60.std_minutes()), (hour, hour));
    assert_eq!((1.std_days(), 1.std_weeks()), (hour * 24, hour * 168));
    assert_eq!(1.std_milliseconds(), StdDuration::from_millis(1));
    assert_eq!(1.std_microseconds(), StdDuration::from_micros(1));
    assert_eq!(1.std_nanoseconds(), StdDuration::from_nanos(1));
    assert_eq!((1.weeks(), 1.days()), (1.std_weeks().try_into().unwrap(), 24.hours()));
}

/// The `f64` nearest to 1.001 is less than that.
#[test]
fn seconds_with_a_point_are_rounded_to_the_nearest() {
    assert_eq!(SignedDuration::seconds_f64(1.001), 1_001.milliseconds());
    assert_eq!(1.001.seconds(), 1_001.milliseconds());
    assert_eq!(1.001.std_seconds(), StdDuration::from_millis(1_001));
    assert_eq!(SignedDuration::seconds_f64(-1.001), (-1_001).milliseconds());
    for count in 0..100_000 {
        let thousandths = f64::from(count) / 1_000.0;
        let wanted = i64::from(count).milliseconds();
        assert_eq!(SignedDuration::seconds_f64(thousandths), wanted);
        assert_eq!(thousandths.seconds(), wanted);
        assert_eq!(f64::from(count).milliseconds(), wanted);
        assert_eq!((-thousandths).seconds(), -wanted);
        let nearest = StdDuration::from_secs_f32(thousandths as f32);
        assert_eq!(SignedDuration::seconds_f32(thousandths as f32), nearest);
    }
}

#[test]
fn lengths_as_numbers_with_a_point() {
    assert_eq!(1_500.milliseconds().as_seconds_f64(), 1.5);
    assert_eq!(1_500.milliseconds().as_seconds_f32(), 1.5);
    assert_eq!((-250).milliseconds().as_seconds_f32(), -0.25);
    assert_eq!(1.001.seconds().as_seconds_f64(), 1.001);
}

/// Std writes durations of less than a minute in the same units.
#[test]
fn a_precision_rounds_as_std_does() {
    let rounds_half_up = format!("{:.0?}", StdDuration::from_millis(2_500)) == "3s";
    let mut bits = 88_172_645_463_325_252_u64;
    for _ in 0..20_000 {
        bits ^= bits << 13;
        bits ^= bits >> 7;
        bits ^= bits << 17;
        let nanoseconds = bits % 10_u64.pow(1 + (bits >> 40) as u32 % 10) + 1;
        let duration = (nanoseconds as i64).nanoseconds();
        let of_std = StdDuration::from_nanos(nanoseconds);
        let exact = format!("{of_std:?}");
        let digits =
            exact.trim_end_matches(char::is_alphabetic).split_once('.').map_or("", |it| it.1);
        for decimals in 0..=10 {
            // std of older compilers, such as 1.85, rounds a half up.
            if digits.len() == decimals + 1 && digits.ends_with('5') && rounds_half_up {
                continue;
            }
            let wanted = format!("{of_std:.decimals$?}");
            assert_eq!(format!("{duration:.decimals$}"), wanted);
            assert_eq!(format!("{:.decimals$}", -duration), format!("-{wanted}"));
        }
    }
}

/// The number before the unit is within half of its last digit of the exact one.
#[test]
fn a_precision_rounds_minutes_hours_and_days() {
    let units = [("d", 86_400_000_000_000_i128), ("h", 3_600_000_000_000), ("m", 60_000_000_000)];
    let mut bits = 88_172_645_463_325_252_u64;
    for _ in 0..20_000 {
        bits ^= bits << 13;
        bits ^= bits >> 7;
        bits ^= bits << 17;
        let seconds = bits as i64 >> (bits % 54);
        let duration = SignedDuration::new(seconds, (bits % 1_000_000_000) as i32);
        let size = duration.whole_nanoseconds().abs();
        let Some((unit, length)) = units.into_iter().find(|(_, length)| size >= *length) else {
            continue;
        };
        for decimals in 0..=9 {
            let text = format!("{duration:.decimals$}");
            let digits: String = text.chars().filter(char::is_ascii_digit).collect();
            let number: i128 = digits.parse().unwrap();
            let apart = number * length - size * 10_i128.pow(decimals as u32);
            assert!(apart.abs() * 2 <= length, "{duration:?} {text}");
            let sign = if duration.is_negative() { "-" } else { "" };
            let (whole, fraction) = digits.split_at(digits.len() - decimals);
            let point = if decimals == 0 { "" } else { "." };
            assert_eq!(text, format!("{sign}{whole}{point}{fraction}{unit}"));
        }
    }
}

#[test]
fn durations_with_a_precision() {
    assert_eq!(format!("{:.2}", 5.milliseconds()), "5.00ms");
    assert_eq!(format!("{:.1}", (-90).seconds()), "-1.5m");
    assert_eq!(format!("{:.0}", 90.seconds()), "2m");
    assert_eq!(format!("{:.0}", 150.seconds()), "2m");
    assert_eq!(format!("{:.0}", 100.days()), "100d");
    assert_eq!(format!("{:.1}", 59_990.milliseconds()), "60.0s");
    assert_eq!(format!("{:.1}", SignedDuration::ZERO), "0.0s");
    // The example of `time`'s own documentation.
    let duration = SignedDuration::new(123_456, 789_011_223);
    assert_eq!(format!("{duration:.3}"), "1.429d");
    assert_eq!(format!("{:.2}", SignedDuration::MIN), "-106751991167300.65d");
    assert_eq!(format!("{:.99}", 1.days() + 20.minutes()), "1.013888888888888888888889d");
    assert_eq!(
        format!("{:>9.1}|{:<9.1}|{:*^9.1}", 1.seconds(), 1.5.hours(), 2.days()),
        "     1.0s|1.5h     |**2.0d***"
    );
    assert_eq!(format!("{:>9}|{:9}|", 1.seconds(), 90.minutes()), "       1s|1h30m    |");
    assert_eq!(format!("{}", 7.microseconds()), "7µs");
}

fn are_aligned(value: impl Display) {
    let text = value.to_string();
    let width = text.chars().count() + 5;
    assert_eq!(format!("{value:>width$}"), format!("     {text}"));
    assert_eq!(format!("{value:<width$}"), format!("{text}     "));
    assert_eq!(format!("{value:-^width$}"), format!("--{text}---"));
}

#[test]
fn texts_of_offsets_heed_a_width() {
    are_aligned(UtcOffset::UTC);
    assert_eq!(format!("{:>11}", UtcOffset::UTC), "  +00:00:00");
}

#[test]
fn texts_of_names_heed_a_width() {
    are_aligned(Weekday::Monday);
    are_aligned(Month::May);
    assert_eq!(format!("{:<8}|{:^7}", Weekday::Monday, Weekday::Friday), "Monday  |Friday ");
}

#[test]
fn texts_heed_a_width() {
    are_aligned(date!(2024 - 02 - 29));
    are_aligned(time!(1:02));
    are_aligned(90.seconds());
    are_aligned(90.microseconds());
    are_aligned(datetime!(2024-02-29 1:02));
    are_aligned(utc_datetime!(2024-02-29 1:02));
    are_aligned(datetime!(2024-02-29 1:02 UTC));
    are_aligned(timestamp!(-0.5));
    are_aligned(Timestamp::UNIX_EPOCH.to_rfc3339().unwrap());
}

#[test]
fn unix_seconds_before_the_range_round_down() {
    let nanosecond = PlainDateTime::MIN.replace_nanosecond(5).unwrap();
    let first = nanosecond.assume_offset(offset!(+1));
    assert_eq!(first.checked_to_utc(), None);
    let whole = first.unix_timestamp_nanos();
    assert_eq!(i128::from(first.unix_timestamp()), whole.div_euclid(1_000_000_000));
    assert_eq!(first.unix_timestamp(), Timestamp::MIN.as_seconds() - 3_600);
}

#[test]
#[should_panic]
fn a_sum_of_std_is_not_below_0() {
    let mut length = StdDuration::from_secs(1);
    length += (-2).seconds();
}

#[test]
#[should_panic]
fn a_difference_of_std_is_not_below_0() {
    let mut length = StdDuration::from_secs(1);
    length -= 2.seconds();
}

#[test]
#[should_panic(expected = "a duration of std must not be negative")]
fn a_number_of_std_seconds_is_not_below_0() {
    let _ = (-0.5).std_seconds();
}

#[test]
fn durations_of_std_are_added_and_subtracted() {
    let mut length = 5.seconds();
    length -= 2.std_seconds();
    assert_eq!(length, 3.seconds());
    length += 4.std_seconds();
    assert_eq!(length, 7.seconds());
    assert_eq!(6.std_seconds() / 4.seconds(), 1.5);
    assert_eq!(6.seconds() / 4.std_seconds(), 1.5);
    assert_eq!(6.seconds() / 4.seconds(), 1.5);
    let mut length = 6.seconds();
    length /= 4;
    assert_eq!(length, 1_500.milliseconds());
    length *= 2_u8;
    assert_eq!(length, 3.seconds());
    length /= 3.0;
    assert_eq!(length, 1.seconds());
    let none: [SignedDuration; 0] = [];
    assert_eq!(none.into_iter().sum::<SignedDuration>(), SignedDuration::ZERO);
}

#[test]
fn a_difference_saturates_at_the_end_that_it_is_beyond() {
    let (least, most) = (SignedDuration::MIN, SignedDuration::MAX);
    assert_eq!((-1).nanoseconds().saturating_sub(least), most);
    assert_eq!((-2).seconds().saturating_sub(most), least);
    assert_eq!(1.nanoseconds().saturating_sub(least), most);
    assert_eq!(SignedDuration::ZERO.saturating_sub(least), most);
    assert_eq!(least.saturating_sub(1.nanoseconds()), least);
    assert_eq!(most.saturating_sub((-1).nanoseconds()), most);
}

#[test]
fn the_default_of_each_type() {
    assert_eq!(Date::default(), date!(1970 - 01 - 01));
    assert_eq!(Time::default(), time!(0:00));
    assert_eq!(UtcOffset::default(), UtcOffset::UTC);
    assert_eq!(SignedDuration::default(), SignedDuration::ZERO);
    assert_eq!(OffsetDateTime::default(), datetime!(1970-01-01 0:00 UTC));
    assert_eq!(Timestamp::default(), timestamp!(0));
}

#[test]
fn errors_say_what_is_out_of_range() {
    let year = Date::from_ordinal_date(1_000_000, 1).unwrap_err();
    assert_eq!(year.to_string(), "year is out of range");
    let day = date!(2024 - 02 - 29).replace_year(2023).unwrap_err();
    assert_eq!(day.to_string(), "day is out of range given the other parts");
    assert_eq!(format!("{day:?}"), "ComponentRange { part: Day, conditional: true }");
}

#[test]
fn an_error_is_each_kind() {
    let day = date!(2024 - 02 - 29).replace_day(30).unwrap_err();
    macro_rules! kinds {
        ($($Kind:ident: $value:expr;)+) => {
            $(
                let error = muxandu::Error::from($value);
                assert_eq!(error.to_string(), $value.to_string());
                let source = error.source().expect("a source");
                assert_eq!(source.downcast_ref::<$Kind>(), Some(&$value));
                assert_eq!($Kind::try_from(error), Ok($value));
                assert_eq!(
                    ComponentRange::try_from(muxandu::Error::from($value)).is_ok(),
                    stringify!($Kind) == "ComponentRange"
                );
            )+
        };
    }
    kinds! {
        ComponentRange: day;
        ConversionRange: ConversionRange;
        DifferentVariant: DifferentVariant;
        Format: Format::InsufficientTypeInformation;
        InvalidFormatDescription: InvalidFormatDescription::UnclosedOpeningBracket { index: 0 };
        InvalidVariant: InvalidVariant;
        ParseFromDescription: ParseFromDescription::InvalidLiteral;
        Refusal: Refusal::OutOfRange("hour");
        TryFromParsed: TryFromParsed::InsufficientInformation;
    }
}

#[test]
fn months_and_days_of_the_week_step() {
    assert_eq!(Month::November.nth_next(3), Month::February);
    assert_eq!(Month::February.nth_prev(3), Month::November);
    assert_eq!(Month::May.nth_next(255), Month::May.nth_next(3));
    assert_eq!(Month::May.nth_prev(255), Month::May.nth_prev(3));
    assert_eq!(Month::January.previous(), Month::December);
    assert_eq!(Month::December.next(), Month::January);
    assert_eq!(Weekday::Saturday.nth_next(3), Weekday::Tuesday);
    assert_eq!(Weekday::Tuesday.nth_prev(3), Weekday::Saturday);
    assert_eq!(Weekday::Monday.nth_next(255), Weekday::Monday.nth_next(3));
    assert_eq!(Weekday::Monday.nth_prev(255), Weekday::Monday.nth_prev(3));
    assert_eq!(Weekday::Sunday.previous(), Weekday::Saturday);
    let sunday = Weekday::Sunday;
    assert_eq!((sunday.number_from_monday(), sunday.number_from_sunday()), (7, 1));
    assert_eq!(sunday.number_days_from_monday(), 6);
    assert_eq!(sunday.number_days_from_sunday(), 0);
}

/// The start of each unit, of every type that has a time of day.
macro_rules! truncate {
    ($value:expr, $with:expr) => {
        let (value, with) = ($value, $with);
        assert_eq!(value.truncate_to_hour(), with(time!(12:00)));
        assert_eq!(value.truncate_to_minute(), with(time!(12:34)));
        assert_eq!(value.truncate_to_second(), with(time!(12:34:56)));
        assert_eq!(value.truncate_to_millisecond(), with(time!(12:34:56.789)));
        assert_eq!(value.truncate_to_microsecond(), with(time!(12:34:56.789_012)));
    };
}

#[test]
fn values_are_rounded_down_to_a_unit() {
    let day = date!(2024 - 02 - 29);
    truncate!(time!(12:34:56.789_012_345), |time: Time| time);
    truncate!(datetime!(2024-02-29 12:34:56.789_012_345), |time| { day.with_time(time) });
    truncate!(utc_datetime!(2024-02-29 12:34:56.789_012_345), |time| {
        UtcDateTime::new(day, time)
    });
    truncate!(datetime!(2024-02-29 12:34:56.789_012_345 +1), |time| {
        OffsetDateTime::new_in_offset(day, time, offset!(+1))
    });
    let at = timestamp!(1_709_210_096.789_012_345);
    for (unit, time) in [
        (Unit::Day, time!(0:00)),
        (Unit::Hour, time!(12:00)),
        (Unit::Minute, time!(12:34)),
        (Unit::Second, time!(12:34:56)),
        (Unit::Millisecond, time!(12:34:56.789)),
        (Unit::Microsecond, time!(12:34:56.789_012)),
        (Unit::Nanosecond, time!(12:34:56.789_012_345)),
    ] {
        assert_eq!(at.truncated_to(unit), UtcDateTime::new(day, time));
        let shown = at.to_utc().date().with_time(at.time());
        let shown = shown.assume_offset(offset!(+1));
        assert_eq!(shown.truncated_to(unit), OffsetDateTime::new_in_offset(day, time, offset!(+1)));
    }
}

#[test]
fn date_times_of_utc_are_those_at_the_offset_0() {
    let (day, time) = (date!(2024 - 02 - 29), time!(12:34));
    let shown = OffsetDateTime::new_utc(day, time);
    assert!(shown.is_same(datetime!(2024-02-29 12:34 UTC)));
    assert_eq!(shown, UtcDateTime::new(day, time));
    assert_eq!(shown, day.with_time(time).assume_utc());
}

#[test]
fn texts_of_rfc_3339_are_read_by_every_instant() {
    let text = "1996-12-19T16:39:57-08:00";
    let at = timestamp!(851_042_397);
    assert_eq!(Timestamp::from_rfc3339(text.as_bytes()), Ok(at));
    assert_eq!(UtcDateTime::from_rfc3339(text.as_bytes()), Ok(at.to_utc()));
    assert_eq!(OffsetDateTime::from_rfc3339(text.as_bytes()), Ok(at.into()));
    assert_eq!(text.parse::<Timestamp>(), Ok(at));
    assert_eq!(text.parse::<UtcDateTime>(), Ok(at.to_utc()));
    assert_eq!(text.parse::<OffsetDateTime>(), Ok(at.into()));
}

#[test]
fn literals_are_constants() {
    const DAY: Date = date!(2024 - 02 - 29);
    const NOON: PlainDateTime = DAY.with_time(time!(12:00));
    static LAST: OffsetDateTime = datetime!(9999-12-31 23:59:59.999_999 utc);
    static INSTANTS: [UtcDateTime; 2] = [utc_datetime!(2024-W09-4 0:00), UtcDateTime::UNIX_EPOCH];
    const SHIFT: UtcOffset = offset!(utc);
    const HALF: Timestamp = timestamp!(-0.5);
    assert_eq!((DAY.day(), NOON.hour(), LAST.year()), (29, 12, 9999));
    assert_eq!(INSTANTS[0].date(), DAY);
    assert_eq!((SHIFT.whole_seconds(), HALF.nanosecond()), (0, 500_000_000));
}

/// Python's `date.fromisocalendar` gives the days. 2020 and 2015 have 53 weeks; 2013 begins on a Tuesday, 2014 on a Wednesday.
#[test]
fn literals_of_weeks_are_those_of_the_calendar() {
    assert_eq!(date!(2020 - W53 - 7), date!(2021 - 01 - 03));
    assert_eq!(date!(2015 - W53 - 1), date!(2015 - 12 - 28));
    assert_eq!(date!(2014 - W01 - 1), date!(2013 - 12 - 30));
    for year in [2013, 2014, 2016, 2018, 2019, 2021] {
        let week = Date::from_iso_week_date(year, 53, Weekday::Monday);
        assert!(week.is_err_and(|refused| refused.is_conditional()));
    }
}

#[test]
fn a_result_has_any_error() {
    fn first(month: &str) -> muxandu::Result<Date> {
        Ok(Date::from_calendar_date(2024, month.parse()?, 1)?)
    }
    assert_eq!(first("May"), Ok(date!(2024 - 05 - 01)));
    assert_eq!(first("may"), Err(InvalidVariant.into()));
}

/// 1 January 2021 is a Friday, in week 53 of the ISO year 2020, and the Julian day 2459216.
macro_rules! reads_of_the_date {
    ($($value:expr),+) => {
        $(
            let value = $value;
            assert_eq!((value.year(), value.month(), value.day()), (2021, Month::January, 1));
            assert_eq!(value.to_calendar_date(), (2021, Month::January, 1));
            assert_eq!((value.ordinal(), value.to_ordinal_date()), (1, (2021, 1)));
            assert_eq!((value.iso_week(), value.weekday()), (53, Weekday::Friday));
            assert_eq!(value.to_iso_week_date(), (2020, 53, Weekday::Friday));
            assert_eq!((value.sunday_based_week(), value.monday_based_week()), (0, 0));
            assert_eq!(value.to_julian_day(), 2_459_216);
        )+
    };
}

macro_rules! reads_of_the_time {
    ($($value:expr => $hms:ident $milli:ident $micro:ident $nano:ident;)+) => {
        $(
            let value = $value;
            assert_eq!((value.hour(), value.minute(), value.second()), (12, 34, 56));
            assert_eq!((value.millisecond(), value.microsecond()), (789, 789_012));
            assert_eq!(value.nanosecond(), 789_012_345);
            assert_eq!(value.$hms(), (12, 34, 56));
            assert_eq!(value.$milli(), (12, 34, 56, 789));
            assert_eq!(value.$micro(), (12, 34, 56, 789_012));
            assert_eq!(value.$nano(), (12, 34, 56, 789_012_345));
        )+
    };
}

#[test]
fn parts_are_those_of_the_date_and_the_time() {
    let (day, time) = (date!(2021 - 01 - 01), time!(12:34:56.789_012_345));
    let plain = PlainDateTime::new(day, time);
    let utc = UtcDateTime::new(day, time);
    let shown = OffsetDateTime::new_in_offset(day, time, offset!(+1:30));
    let at = Timestamp::from(utc);
    reads_of_the_date!(day, plain, utc, shown, at);
    reads_of_the_time! {
        time => as_hms as_hms_milli as_hms_micro as_hms_nano;
        plain => as_hms as_hms_milli as_hms_micro as_hms_nano;
        utc => as_hms as_hms_milli as_hms_micro as_hms_nano;
        at => as_hms as_hms_milli as_hms_micro as_hms_nano;
        shown => to_hms to_hms_milli to_hms_micro to_hms_nano;
    }
    assert_eq!(shown.to_hms(), time.as_hms());
    assert_eq!(shown.to_hms_micro(), time.as_hms_micro());
    assert_eq!(shown.to_hms_nano(), time.as_hms_nano());
    assert_eq!((plain.date(), plain.time()), (day, time));
    assert_eq!((utc.date(), utc.time()), (day, time));
    assert_eq!((shown.date(), shown.time()), (day, time));
    assert_eq!((at.date(), at.time()), (day, time));
    assert_eq!(day.with_hms(12, 34, 56), Ok(day.with_time(time!(12:34:56))));
    assert_eq!(day.with_hms_milli(12, 34, 56, 789), Ok(day.with_time(time!(12:34:56.789))));
    assert_eq!(day.with_hms_micro(12, 34, 56, 789_012), Ok(day.with_time(time!(12:34:56.789_012))));
    assert_eq!(day.with_hms_nano(12, 34, 56, 789_012_345), Ok(plain));
}

/// A replaced part of every type that has a date, made again by what the second gives.
macro_rules! replace_the_date {
    ($($value:expr, $with:expr;)+) => {
        $(
            let (value, with) = ($value, $with);
            assert_eq!(value.replace_year(2023), Ok(with(date!(2023-01-31))));
            assert_eq!(value.replace_month(Month::March), Ok(with(date!(2024-03-31))));
            assert_eq!(value.replace_day(29), Ok(with(date!(2024-01-29))));
            assert_eq!(value.replace_ordinal(60), Ok(with(date!(2024-02-29))));
            for (refused, part, is_conditional) in [
                (value.replace_year(1_000_000), "year", false),
                (value.replace_month(Month::February), "day", true),
                (value.replace_day(0), "day", false),
                (value.replace_ordinal(367), "ordinal", false),
            ] {
                let refused = refused.unwrap_err();
                assert_eq!((refused.name(), refused.is_conditional()), (part, is_conditional));
            }
        )+
    };
}

#[test]
fn parts_of_the_date_are_replaced() {
    let (day, time) = (date!(2024 - 01 - 31), time!(12:34:56.789));
    let shown = OffsetDateTime::new_in_offset(day, time, offset!(+1));
    replace_the_date! {
        day, |day| day;
        PlainDateTime::new(day, time), |day: Date| day.with_time(time);
        UtcDateTime::new(day, time), |day| UtcDateTime::new(day, time);
        shown, |day| shown.replace_date(day);
        Timestamp::from(UtcDateTime::new(day, time)), |day| {
            Timestamp::from(UtcDateTime::new(day, time))
        };
    }
}

/// The same of every type that has a time of day.
macro_rules! replace_the_time {
    ($($value:expr, $with:expr;)+) => {
        $(
            let (value, with) = ($value, $with);
            assert_eq!(value.replace_hour(23), Ok(with(time!(23:34:56.789_012_345))));
            assert_eq!(value.replace_minute(59), Ok(with(time!(12:59:56.789_012_345))));
            assert_eq!(value.replace_second(0), Ok(with(time!(12:34:00.789_012_345))));
            assert_eq!(value.replace_millisecond(9), Ok(with(time!(12:34:56.009))));
            assert_eq!(value.replace_microsecond(9), Ok(with(time!(12:34:56.000_009))));
            assert_eq!(value.replace_nanosecond(9), Ok(with(time!(12:34:56.000_000_009))));
            for (refused, part) in [
                (value.replace_hour(24), "hour"),
                (value.replace_minute(60), "minute"),
                (value.replace_second(60), "second"),
                (value.replace_millisecond(1_000), "millisecond"),
                (value.replace_microsecond(1_000_000), "microsecond"),
                (value.replace_nanosecond(1_000_000_000), "nanosecond"),
            ] {
                let refused = refused.unwrap_err();
                assert_eq!((refused.name(), refused.is_conditional()), (part, false));
            }
        )+
    };
}

#[test]
fn parts_of_the_time_are_replaced() {
    let (day, time) = (date!(1969 - 12 - 31), time!(12:34:56.789_012_345));
    let shown = OffsetDateTime::new_in_offset(day, time, offset!(+1));
    replace_the_time! {
        time, |time| time;
        PlainDateTime::new(day, time), |time| day.with_time(time);
        UtcDateTime::new(day, time), |time| UtcDateTime::new(day, time);
        shown, |time| shown.replace_time(time);
        Timestamp::from(UtcDateTime::new(day, time)), |time| {
            Timestamp::from(UtcDateTime::new(day, time))
        };
    }
    let plain = date!(2024 - 02 - 29).with_time(time!(1:02));
    assert_eq!(shown.replace_date_time(plain), plain.assume_offset(offset!(+1)));
}

#[test]
fn unix_seconds_of_each_type() {
    for seconds in [-62_167_219_200, -1, 0, 1_709_164_800] {
        let at = Timestamp::from_seconds(seconds).unwrap();
        let nanoseconds = i128::from(seconds) * 1_000_000_000 + 7;
        let later = at + 7.nanoseconds();
        assert_eq!(OffsetDateTime::from_unix_timestamp(seconds), Ok(at.into()));
        assert_eq!(UtcDateTime::from_unix_timestamp(seconds), Ok(at.to_utc()));
        assert_eq!(OffsetDateTime::from_unix_timestamp_nanos(nanoseconds), Ok(later.into()));
        assert_eq!(UtcDateTime::from_unix_timestamp_nanos(nanoseconds), Ok(later.to_utc()));
        assert_eq!(later.to_utc().unix_timestamp_nanos(), nanoseconds);
        assert_eq!(later.to_utc().unix_timestamp(), seconds);
    }
}

#[test]
fn parts_of_durations() {
    let duration = SignedDuration::new(-90, -1_002_003);
    assert_eq!(duration.subsec_milliseconds(), -1);
    assert_eq!(duration.subsec_microseconds(), -1_002);
    assert_eq!(duration.subsec_nanoseconds(), -1_002_003);
    assert_eq!(duration.unsigned_abs(), StdDuration::new(90, 1_002_003));
    assert_eq!(duration.abs(), SignedDuration::new(90, 1_002_003));
    assert_eq!(SignedDuration::MIN.abs(), SignedDuration::MAX);
    for (duration, sign) in [(duration, -1), (SignedDuration::ZERO, 0), (duration.abs(), 1)] {
        assert_eq!(duration.is_negative(), sign < 0);
        assert_eq!(duration.is_zero(), sign == 0);
        assert_eq!(duration.is_positive(), sign > 0);
    }
}

#[cfg(feature = "std")]
#[test]
fn now_is_what_the_clock_of_the_machine_shows() {
    let before = std::time::SystemTime::now();
    let now = (Timestamp::now(), UtcDateTime::now(), OffsetDateTime::now_utc());
    let after = std::time::SystemTime::now();
    assert!(before <= now.0 && before <= now.1 && before <= now.2);
    assert!(now.0 <= after && now.1 <= after && now.2 <= after);
    assert_eq!(now.2.offset(), UtcOffset::UTC);
}
