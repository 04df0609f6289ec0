//! Values that the compiler computes by calls of the library. Python's `datetime` gives the same.

use muxandu::{
    Date, Duration, Month, OffsetDateTime, PlainDateTime, Time, Timestamp, UtcDateTime, UtcOffset,
    Weekday,
};

/// The value that a call gives. A program with a refusal in its place does not compile.
macro_rules! some {
    ($call:expr) => {
        match $call {
            Some(value) => value,
            None => panic!("None"),
        }
    };
}

macro_rules! ok {
    ($call:expr) => {
        match $call {
            Ok(value) => value,
            Err(_) => panic!("refused"),
        }
    };
}

const DAY: Date = ok!(Date::from_calendar_date(2024, Month::February, 29));
const LAST: Time = ok!(Time::from_hms_nano(23, 59, 59, 999_999_999));
const WEST: UtcOffset = ok!(UtcOffset::from_hms(-3, -30, 0));
const EAST: UtcOffset = ok!(UtcOffset::from_whole_seconds(32_400));
const WALL: PlainDateTime = PlainDateTime::new(DAY, LAST);

#[test]
fn dates_are_constants() {
    const WEEK: (i32, u8, Weekday) = DAY.to_iso_week_date();
    const NUMBERS: (u16, i32) = (DAY.ordinal(), DAY.to_julian_day());
    const SAME: [Date; 3] = [
        ok!(Date::from_ordinal_date(2024, 60)),
        ok!(Date::from_iso_week_date(2024, 9, Weekday::Thursday)),
        ok!(Date::from_julian_day(2_460_370)),
    ];
    const NEXT: (i32, Month, u8) = some!(DAY.next_day()).to_calendar_date();
    const LATER: Date = some!(DAY.checked_add(Duration::days(366)));
    const IS_REFUSED: bool = DAY.replace_year(2023).is_err();
    assert_eq!(WEEK, (2024, 9, Weekday::Thursday));
    assert_eq!(NUMBERS, (60, 2_460_370));
    assert_eq!(SAME, [DAY; 3]);
    assert_eq!(NEXT, (2024, Month::March, 1));
    assert_eq!(LATER.to_calendar_date(), (2025, Month::March, 1));
    assert_eq!([IS_REFUSED], [true]);
}

#[test]
fn date_times_are_constants() {
    const MIDNIGHT: PlainDateTime = some!(WALL.checked_add(Duration::nanoseconds(1)));
    const CUT: OffsetDateTime = WALL.assume_offset(WEST).truncate_to_second();
    const SECOND: i64 = CUT.unix_timestamp();
    const SHOWN: OffsetDateTime = some!(CUT.checked_to_offset(EAST));
    const IN_UTC: UtcDateTime = some!(SHOWN.checked_to_utc());
    const STAMP: Timestamp = ok!(Timestamp::from_seconds(1_709_263_799));
    const JANUARY: Timestamp =
        ok!(ok!(Timestamp::from_nanoseconds(-1)).replace_month(Month::January));
    const FROM_NANOSECONDS: UtcDateTime =
        ok!(UtcDateTime::from_unix_timestamp_nanos(1_709_263_799_000_000_000));
    assert_eq!((MIDNIGHT.month(), MIDNIGHT.day(), MIDNIGHT.hour()), (Month::March, 1, 0));
    assert_eq!(SECOND, 1_709_263_799);
    assert_eq!((SHOWN.day(), SHOWN.to_hms()), (1, (12, 29, 59)));
    assert_eq!((IN_UTC.day(), IN_UTC.as_hms()), (1, (3, 29, 59)));
    assert_eq!(STAMP.to_utc(), IN_UTC);
    assert_eq!(FROM_NANOSECONDS, IN_UTC);
    assert_eq!(
        (JANUARY.year(), JANUARY.month(), JANUARY.as_hms()),
        (1969, Month::January, (23, 59, 59))
    );
}

#[test]
fn dates_at_times_are_constants() {
    const START: PlainDateTime = ok!(DAY.with_hms(9, 30, 15));
    const PARTS: [PlainDateTime; 3] = [
        ok!(DAY.with_hms_milli(9, 30, 15, 0)),
        ok!(DAY.with_hms_micro(9, 30, 15, 0)),
        ok!(DAY.with_hms_nano(9, 30, 15, 0)),
    ];
    const IS_REFUSED: bool = DAY.with_hms(24, 0, 0).is_err();
    const ENDS: [Date; 4] = [
        DAY.saturating_add(Duration::MAX),
        DAY.saturating_add(Duration::MIN),
        DAY.saturating_sub(Duration::MAX),
        DAY.saturating_sub(Duration::days(366)),
    ];
    const OFFSETS: ([i16; 2], [bool; 3]) = (
        [WEST.whole_minutes(), EAST.whole_minutes()],
        [WEST.is_positive(), UtcOffset::UTC.is_positive(), EAST.is_positive()],
    );
    assert_eq!((START.date(), START.as_hms()), (DAY, (9, 30, 15)));
    assert_eq!(PARTS, [START; 3]);
    assert_eq!([IS_REFUSED], [true]);
    assert_eq!(ENDS[..3], [Date::MAX, Date::MIN, Date::MIN]);
    assert_eq!(ENDS[3].to_calendar_date(), (2023, Month::February, 28));
    assert_eq!(OFFSETS, ([-210, 540], [false, false, true]));
}

// 2024-02-29 is a Thursday.
#[test]
fn occurrences_are_constants() {
    const NEXT: [Option<Date>; 3] = [
        DAY.checked_next_occurrence(Weekday::Thursday),
        DAY.checked_prev_occurrence(Weekday::Friday),
        Date::MAX.checked_next_occurrence(Weekday::Monday),
    ];
    const LATER: [Date; 4] = [
        DAY.next_occurrence(Weekday::Friday),
        DAY.prev_occurrence(Weekday::Thursday),
        DAY.nth_next_occurrence(Weekday::Wednesday, 2),
        DAY.nth_prev_occurrence(Weekday::Wednesday, 2),
    ];
    let days = |date: Date| (date - DAY).whole_days();
    assert_eq!(NEXT.map(|date| date.map(days)), [Some(7), Some(-6), None]);
    assert_eq!(LATER.map(days), [1, -7, 13, -8]);
}

#[test]
fn constants_are_patterns() {
    macro_rules! place {
        ($value:expr, $first:path, $last:path) => {
            match $value {
                $first => "first",
                $last => "last",
                _ => "between",
            }
        };
    }
    assert_eq!(place!(Date::MIN, Date::MIN, Date::MAX), "first");
    assert_eq!(place!(DAY, Date::MIN, Date::MAX), "between");
    assert_eq!(place!(LAST, Time::MIDNIGHT, Time::MAX), "last");
    assert_eq!(place!(WALL, PlainDateTime::MIN, PlainDateTime::MAX), "between");
    assert_eq!(place!(PlainDateTime::MAX, PlainDateTime::MIN, PlainDateTime::MAX), "last");
    assert_eq!(place!(Duration::ZERO, Duration::ZERO, Duration::MAX), "first");
    assert_eq!(place!(UtcOffset::UTC, UtcOffset::UTC, EAST), "first");
    assert_eq!(place!(UtcDateTime::UNIX_EPOCH, UtcDateTime::MIN, UtcDateTime::UNIX_EPOCH), "last");
    assert_eq!(place!(Timestamp::UNIX_EPOCH, Timestamp::UNIX_EPOCH, Timestamp::MAX), "first");
    assert!(!matches!(OffsetDateTime::UNIX_EPOCH.time(), LAST));
}
