//! Calls that break what a public function requires: each panics, also in a release build. make/erase reads the names here, and
//! those of the other functions that require something in make/erased_lists/requires.txt.

use muxandu::proved::*;
use std::hint::black_box;
use std::time::Duration;

const SECOND: SignedDuration = SignedDuration::seconds(1);
const STD_SECOND: Duration = Duration::from_secs(1);

fn hours(hours: i8) -> UtcOffset {
    UtcOffset::from_hms(hours, 0, 0).unwrap()
}

fn at_utc(at: PlainDateTime) -> OffsetDateTime {
    at.assume_offset(UtcOffset::UTC)
}

macro_rules! panics {
    ($($name:ident, $function:literal: $call:expr;)*) => {
        $(
            #[test]
            #[should_panic]
            fn $name() {
                let _ = black_box($call);
            }
        )*
    };
}

panics! {
    component_range_new, "calendar_values/component_range.rt ComponentRange::new":
        ComponentRange::new("x", false);
    date_next_occurrence, "calendar_values/date/occurrences.rt Date::next_occurrence":
        Date::MAX.next_occurrence(Weekday::Friday);
    date_prev_occurrence, "calendar_values/date/occurrences.rt Date::prev_occurrence":
        Date::MIN.prev_occurrence(Weekday::Monday);
    date_nth_next_occurrence, "calendar_values/date/occurrences.rt Date::nth_next_occurrence":
        Date::UNIX_EPOCH.nth_next_occurrence(Weekday::Friday, 0);
    date_nth_prev_occurrence, "calendar_values/date/occurrences.rt Date::nth_prev_occurrence":
        Date::MIN.nth_prev_occurrence(Weekday::Monday, 1);
    duration_new, "calendar_values/signed_duration.rt SignedDuration::new":
        SignedDuration::new(i64::MAX, 1_000_000_000);
    duration_weeks, "calendar_values/signed_duration.rt SignedDuration::weeks":
        SignedDuration::weeks(15_250_284_452_472);
    duration_days, "calendar_values/signed_duration.rt SignedDuration::days":
        SignedDuration::days(106_751_991_167_301);
    duration_hours, "calendar_values/signed_duration.rt SignedDuration::hours":
        SignedDuration::hours(2_562_047_788_015_216);
    duration_minutes, "calendar_values/signed_duration.rt SignedDuration::minutes":
        SignedDuration::minutes(153_722_867_280_912_931);
    duration_add_duration, "calendar_values/signed_duration/operators.rt Add for SignedDuration::add":
        SignedDuration::MAX + SignedDuration::NANOSECOND;
    duration_add_assign_duration, "calendar_values/signed_duration/operators.rt AddAssign for SignedDuration::add_assign":
        { let mut duration = SignedDuration::MAX; duration += SignedDuration::NANOSECOND; duration };
    duration_sub_duration, "calendar_values/signed_duration/operators.rt Sub for SignedDuration::sub":
        SignedDuration::ZERO - SignedDuration::seconds(i64::MIN);
    duration_sub_assign_duration, "calendar_values/signed_duration/operators.rt SubAssign for SignedDuration::sub_assign":
        { let mut duration = SignedDuration::MIN; duration -= SignedDuration::NANOSECOND; duration };
    duration_neg, "calendar_values/signed_duration/operators.rt Neg for SignedDuration::neg":
        -SignedDuration::MIN;
    duration_mul_i8, "calendar_values/signed_duration/products.rt Mul<i8> for SignedDuration::mul":
        SignedDuration::MAX * 2_i8;
    i8_mul_duration, "calendar_values/signed_duration/products.rt Mul<SignedDuration> for i8::mul":
        2_i8 * SignedDuration::MAX;
    duration_mul_assign_i8, "calendar_values/signed_duration/products.rt MulAssign<i8> for SignedDuration::mul_assign":
        { let mut duration = SignedDuration::MAX; duration *= 2_i8; duration };
    duration_div_i8, "calendar_values/signed_duration/quotients.rt Div<i8> for SignedDuration::div":
        SignedDuration::MIN / -1_i8;
    duration_div_assign_i8, "calendar_values/signed_duration/quotients.rt DivAssign<i8> for SignedDuration::div_assign":
        { let mut duration = SignedDuration::SECOND; duration /= 0_i8; duration };
    duration_mul_i16, "calendar_values/signed_duration/products.rt Mul<i16> for SignedDuration::mul":
        SignedDuration::MAX * 2_i16;
    i16_mul_duration, "calendar_values/signed_duration/products.rt Mul<SignedDuration> for i16::mul":
        2_i16 * SignedDuration::MAX;
    duration_mul_assign_i16, "calendar_values/signed_duration/products.rt MulAssign<i16> for SignedDuration::mul_assign":
        { let mut duration = SignedDuration::MAX; duration *= 2_i16; duration };
    duration_div_i16, "calendar_values/signed_duration/quotients.rt Div<i16> for SignedDuration::div":
        SignedDuration::MIN / -1_i16;
    duration_div_assign_i16, "calendar_values/signed_duration/quotients.rt DivAssign<i16> for SignedDuration::div_assign":
        { let mut duration = SignedDuration::SECOND; duration /= 0_i16; duration };
    duration_mul_i32, "calendar_values/signed_duration/products.rt Mul<i32> for SignedDuration::mul":
        SignedDuration::MAX * 2_i32;
    i32_mul_duration, "calendar_values/signed_duration/products.rt Mul<SignedDuration> for i32::mul":
        2_i32 * SignedDuration::MAX;
    duration_mul_assign_i32, "calendar_values/signed_duration/products.rt MulAssign<i32> for SignedDuration::mul_assign":
        { let mut duration = SignedDuration::MAX; duration *= 2_i32; duration };
    duration_div_i32, "calendar_values/signed_duration/quotients.rt Div<i32> for SignedDuration::div":
        SignedDuration::MIN / -1_i32;
    duration_div_assign_i32, "calendar_values/signed_duration/quotients.rt DivAssign<i32> for SignedDuration::div_assign":
        { let mut duration = SignedDuration::SECOND; duration /= 0_i32; duration };
    duration_mul_u8, "calendar_values/signed_duration/products.rt Mul<u8> for SignedDuration::mul":
        SignedDuration::MAX * 2_u8;
    u8_mul_duration, "calendar_values/signed_duration/products.rt Mul<SignedDuration> for u8::mul":
        2_u8 * SignedDuration::MAX;
    duration_mul_assign_u8, "calendar_values/signed_duration/products.rt MulAssign<u8> for SignedDuration::mul_assign":
        { let mut duration = SignedDuration::MAX; duration *= 2_u8; duration };
    duration_div_u8, "calendar_values/signed_duration/quotients.rt Div<u8> for SignedDuration::div":
        SignedDuration::MIN / 0_u8;
    duration_div_assign_u8, "calendar_values/signed_duration/quotients.rt DivAssign<u8> for SignedDuration::div_assign":
        { let mut duration = SignedDuration::SECOND; duration /= 0_u8; duration };
    duration_mul_u16, "calendar_values/signed_duration/products.rt Mul<u16> for SignedDuration::mul":
        SignedDuration::MAX * 2_u16;
    u16_mul_duration, "calendar_values/signed_duration/products.rt Mul<SignedDuration> for u16::mul":
        2_u16 * SignedDuration::MAX;
    duration_mul_assign_u16, "calendar_values/signed_duration/products.rt MulAssign<u16> for SignedDuration::mul_assign":
        { let mut duration = SignedDuration::MAX; duration *= 2_u16; duration };
    duration_div_u16, "calendar_values/signed_duration/quotients.rt Div<u16> for SignedDuration::div":
        SignedDuration::MIN / 0_u16;
    duration_div_assign_u16, "calendar_values/signed_duration/quotients.rt DivAssign<u16> for SignedDuration::div_assign":
        { let mut duration = SignedDuration::SECOND; duration /= 0_u16; duration };
    duration_mul_u32, "calendar_values/signed_duration/products.rt Mul<u32> for SignedDuration::mul":
        SignedDuration::MAX * 2_u32;
    u32_mul_duration, "calendar_values/signed_duration/products.rt Mul<SignedDuration> for u32::mul":
        2_u32 * SignedDuration::MAX;
    duration_mul_assign_u32, "calendar_values/signed_duration/products.rt MulAssign<u32> for SignedDuration::mul_assign":
        { let mut duration = SignedDuration::MAX; duration *= 2_u32; duration };
    duration_div_u32, "calendar_values/signed_duration/quotients.rt Div<u32> for SignedDuration::div":
        SignedDuration::MIN / 0_u32;
    duration_div_assign_u32, "calendar_values/signed_duration/quotients.rt DivAssign<u32> for SignedDuration::div_assign":
        { let mut duration = SignedDuration::SECOND; duration /= 0_u32; duration };
    duration_add_std_duration, "calendar_values/signed_duration/std_durations.rt Add<Duration> for SignedDuration::add":
        SignedDuration::MAX + STD_SECOND;
    duration_add_assign_std_duration, "calendar_values/signed_duration/std_durations.rt AddAssign<Duration> for SignedDuration::add_assign":
        { let mut duration = SignedDuration::MAX; duration += STD_SECOND; duration };
    std_duration_add_duration, "calendar_values/signed_duration/std_durations.rt Add<SignedDuration> for Duration::add":
        STD_SECOND + SignedDuration::MAX;
    std_duration_add_assign_duration, "calendar_values/signed_duration/std_durations.rt AddAssign<SignedDuration> for Duration::add_assign":
        { let mut duration = STD_SECOND; duration += SignedDuration::seconds(-2); duration };
    duration_sub_std_duration, "calendar_values/signed_duration/std_durations.rt Sub<Duration> for SignedDuration::sub":
        SignedDuration::MIN - STD_SECOND;
    duration_sub_assign_std_duration, "calendar_values/signed_duration/std_durations.rt SubAssign<Duration> for SignedDuration::sub_assign":
        { let mut duration = SignedDuration::MIN; duration -= STD_SECOND; duration };
    std_duration_sub_duration, "calendar_values/signed_duration/std_durations.rt Sub<SignedDuration> for Duration::sub":
        STD_SECOND - SignedDuration::MIN;
    std_duration_sub_assign_duration, "calendar_values/signed_duration/std_durations.rt SubAssign<SignedDuration> for Duration::sub_assign":
        { let mut duration = STD_SECOND; duration -= SignedDuration::seconds(2); duration };
    sum_of_durations, "calendar_values/signed_duration/totals.rt Sum<SignedDuration> for SignedDuration::sum":
        [SignedDuration::MAX, SECOND].into_iter().sum::<SignedDuration>();
    sum_of_references, "calendar_values/signed_duration/totals.rt Sum<&'a SignedDuration> for SignedDuration::sum":
        [SignedDuration::MIN, -SECOND].iter().sum::<SignedDuration>();
    plain_date_time_add_duration, "plain_times/plain_date_time/operators.rt Add<SignedDuration> for PlainDateTime::add":
        PlainDateTime::MAX + SECOND;
    plain_date_time_add_assign_duration, "plain_times/plain_date_time/operators.rt AddAssign<SignedDuration> for PlainDateTime::add_assign":
        { let mut at = PlainDateTime::MAX; at += SECOND; at };
    plain_date_time_add_std_duration, "plain_times/plain_date_time/operators.rt Add<Duration> for PlainDateTime::add":
        PlainDateTime::MAX + STD_SECOND;
    plain_date_time_add_assign_std_duration, "plain_times/plain_date_time/operators.rt AddAssign<Duration> for PlainDateTime::add_assign":
        { let mut at = PlainDateTime::MAX; at += STD_SECOND; at };
    plain_date_time_sub_duration, "plain_times/plain_date_time/operators.rt Sub<SignedDuration> for PlainDateTime::sub":
        PlainDateTime::MIN - SECOND;
    plain_date_time_sub_assign_duration, "plain_times/plain_date_time/operators.rt SubAssign<SignedDuration> for PlainDateTime::sub_assign":
        { let mut at = PlainDateTime::MIN; at -= SECOND; at };
    plain_date_time_sub_std_duration, "plain_times/plain_date_time/operators.rt Sub<Duration> for PlainDateTime::sub":
        PlainDateTime::MIN - STD_SECOND;
    plain_date_time_sub_assign_std_duration, "plain_times/plain_date_time/operators.rt SubAssign<Duration> for PlainDateTime::sub_assign":
        { let mut at = PlainDateTime::MIN; at -= STD_SECOND; at };
    utc_date_time_add_duration, "utc_times/utc_date_time/operators.rt Add<SignedDuration> for UtcDateTime::add":
        UtcDateTime::MAX + SECOND;
    utc_date_time_add_assign_duration, "utc_times/utc_date_time/operators.rt AddAssign<SignedDuration> for UtcDateTime::add_assign":
        { let mut at = UtcDateTime::MAX; at += SECOND; at };
    utc_date_time_add_std_duration, "utc_times/utc_date_time/operators.rt Add<Duration> for UtcDateTime::add":
        UtcDateTime::MAX + STD_SECOND;
    utc_date_time_add_assign_std_duration, "utc_times/utc_date_time/operators.rt AddAssign<Duration> for UtcDateTime::add_assign":
        { let mut at = UtcDateTime::MAX; at += STD_SECOND; at };
    utc_date_time_sub_duration, "utc_times/utc_date_time/operators.rt Sub<SignedDuration> for UtcDateTime::sub":
        UtcDateTime::MIN - SECOND;
    utc_date_time_sub_assign_duration, "utc_times/utc_date_time/operators.rt SubAssign<SignedDuration> for UtcDateTime::sub_assign":
        { let mut at = UtcDateTime::MIN; at -= SECOND; at };
    utc_date_time_sub_std_duration, "utc_times/utc_date_time/operators.rt Sub<Duration> for UtcDateTime::sub":
        UtcDateTime::MIN - STD_SECOND;
    utc_date_time_sub_assign_std_duration, "utc_times/utc_date_time/operators.rt SubAssign<Duration> for UtcDateTime::sub_assign":
        { let mut at = UtcDateTime::MIN; at -= STD_SECOND; at };
    to_offset_of_utc, "offset_times/to_offset.rt trait ToOffset::to_offset":
        ToOffset::to_offset(UtcDateTime::MAX, hours(1));
    offset_date_time_to_offset, "offset_times/offset_date_time/conversions.rt OffsetDateTime::to_offset":
        at_utc(PlainDateTime::MAX).to_offset(hours(1));
    offset_date_time_to_utc, "offset_times/offset_date_time/conversions.rt OffsetDateTime::to_utc":
        PlainDateTime::MAX.assume_offset(hours(-1)).to_utc();
    offset_date_time_add_duration, "offset_times/offset_date_time/operators.rt Add<SignedDuration> for OffsetDateTime::add":
        at_utc(PlainDateTime::MAX) + SECOND;
    offset_date_time_add_assign_duration, "offset_times/offset_date_time/operators.rt AddAssign<SignedDuration> for OffsetDateTime::add_assign":
        { let mut at = at_utc(PlainDateTime::MAX); at += SECOND; at };
    offset_date_time_add_std_duration, "offset_times/offset_date_time/operators.rt Add<Duration> for OffsetDateTime::add":
        at_utc(PlainDateTime::MAX) + STD_SECOND;
    offset_date_time_add_assign_std_duration, "offset_times/offset_date_time/operators.rt AddAssign<Duration> for OffsetDateTime::add_assign":
        { let mut at = at_utc(PlainDateTime::MAX); at += STD_SECOND; at };
    offset_date_time_sub_duration, "offset_times/offset_date_time/operators.rt Sub<SignedDuration> for OffsetDateTime::sub":
        at_utc(PlainDateTime::MIN) - SECOND;
    offset_date_time_sub_assign_duration, "offset_times/offset_date_time/operators.rt SubAssign<SignedDuration> for OffsetDateTime::sub_assign":
        { let mut at = at_utc(PlainDateTime::MIN); at -= SECOND; at };
    offset_date_time_sub_std_duration, "offset_times/offset_date_time/operators.rt Sub<Duration> for OffsetDateTime::sub":
        at_utc(PlainDateTime::MIN) - STD_SECOND;
    offset_date_time_sub_assign_std_duration, "offset_times/offset_date_time/operators.rt SubAssign<Duration> for OffsetDateTime::sub_assign":
        { let mut at = at_utc(PlainDateTime::MIN); at -= STD_SECOND; at };
    to_timestamp_of_offset_date_time, "stamp_times/to_timestamp.rt trait ToTimestamp::to_timestamp":
        PlainDateTime::MAX.assume_offset(hours(-1)).to_timestamp();
    timestamp_add_duration, "stamp_times/timestamp/operators.rt Add<SignedDuration> for Timestamp::add":
        Timestamp::MAX + SECOND;
    timestamp_add_assign_duration, "stamp_times/timestamp/operators.rt AddAssign<SignedDuration> for Timestamp::add_assign":
        { let mut at = Timestamp::MAX; at += SECOND; at };
    timestamp_add_std_duration, "stamp_times/timestamp/operators.rt Add<Duration> for Timestamp::add":
        Timestamp::MAX + STD_SECOND;
    timestamp_add_assign_std_duration, "stamp_times/timestamp/operators.rt AddAssign<Duration> for Timestamp::add_assign":
        { let mut at = Timestamp::MAX; at += STD_SECOND; at };
    timestamp_sub_duration, "stamp_times/timestamp/operators.rt Sub<SignedDuration> for Timestamp::sub":
        Timestamp::MIN - SECOND;
    timestamp_sub_assign_duration, "stamp_times/timestamp/operators.rt SubAssign<SignedDuration> for Timestamp::sub_assign":
        { let mut at = Timestamp::MIN; at -= SECOND; at };
    timestamp_sub_std_duration, "stamp_times/timestamp/operators.rt Sub<Duration> for Timestamp::sub":
        Timestamp::MIN - STD_SECOND;
    timestamp_sub_assign_std_duration, "stamp_times/timestamp/operators.rt SubAssign<Duration> for Timestamp::sub_assign":
        { let mut at = Timestamp::MIN; at -= STD_SECOND; at };
    timestamp_to_offset, "stamp_times/timestamp/with_offset.rt Timestamp::to_offset":
        Timestamp::MAX.to_offset(hours(1));
}
