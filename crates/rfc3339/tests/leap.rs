//! Texts whose second is 60. The list of the IERS has the leap seconds, Python's `calendar` their
//! Unix seconds, and `time` 0.3.9 the answers to invalid texts.
use super::is;
use rfc3339::{Component, TextRefusal, parse_rfc3339, parse_rfc3339_leap};
use std::test::Fail;

// Each leap second that there was, and the Unix second before its month's end.
const LEAP_SECONDS: [(&[u8], i64); 27] = [
    (b"1972-06-30T23:59:60Z", 78_796_799),
    (b"1972-12-31T23:59:60Z", 94_694_399),
    (b"1973-12-31T23:59:60Z", 126_230_399),
    (b"1974-12-31T23:59:60Z", 157_766_399),
    (b"1975-12-31T23:59:60Z", 189_302_399),
    (b"1976-12-31T23:59:60Z", 220_924_799),
    (b"1977-12-31T23:59:60Z", 252_460_799),
    (b"1978-12-31T23:59:60Z", 283_996_799),
    (b"1979-12-31T23:59:60Z", 315_532_799),
    (b"1981-06-30T23:59:60Z", 362_793_599),
    (b"1982-06-30T23:59:60Z", 394_329_599),
    (b"1983-06-30T23:59:60Z", 425_865_599),
    (b"1985-06-30T23:59:60Z", 489_023_999),
    (b"1987-12-31T23:59:60Z", 567_993_599),
    (b"1989-12-31T23:59:60Z", 631_151_999),
    (b"1990-12-31T23:59:60Z", 662_687_999),
    (b"1992-06-30T23:59:60Z", 709_948_799),
    (b"1993-06-30T23:59:60Z", 741_484_799),
    (b"1994-06-30T23:59:60Z", 773_020_799),
    (b"1995-12-31T23:59:60Z", 820_454_399),
    (b"1997-06-30T23:59:60Z", 867_715_199),
    (b"1998-12-31T23:59:60Z", 915_148_799),
    (b"2005-12-31T23:59:60Z", 1_136_073_599),
    (b"2008-12-31T23:59:60Z", 1_230_767_999),
    (b"2012-06-30T23:59:60Z", 1_341_100_799),
    (b"2015-06-30T23:59:60Z", 1_435_708_799),
    (b"2016-12-31T23:59:60Z", 1_483_228_799),
];

#[test]
fn each_leap_second_that_there_was(rt: HostRuntime) -> Result<(), Fail> {
    for (text, second) in LEAP_SECONDS {
        let (at, is_leap) = parse_rfc3339_leap(text)?;
        is(
            &rt,
            (at.unix_timestamp(), at.nanosecond()),
            (second, 999_999_999),
        );
        is(&rt, is_leap, true);
        is(&rt, parse_rfc3339(text).is_err(), true);
    }
    Ok(())
}

#[test]
fn leap_seconds_elsewhere(rt: HostRuntime) -> Result<(), Fail> {
    for (text, second) in [
        ("1990-12-31T15:59:60-08:00", 662_687_999),
        ("2017-01-01T05:29:60+05:30", 1_483_228_799),
        ("2017-01-01t23:58:60.5+23:59", 1_483_228_799),
        ("2016-12-31 00:00:60.000000001-23:59", 1_483_228_799),
        ("2024-02-29T23:59:60.123456789z", 1_709_251_199),
        ("2023-02-28T23:59:60.0Z", 1_677_628_799),
        ("0000-02-29T23:59:60Z", -62_162_035_201),
        ("9999-12-31T23:59:60Z", 253_402_300_799),
        ("9999-12-31T22:59:60-01:00", 253_402_300_799),
        ("0000-01-01T00:59:60+01:00", -62_167_219_201),
    ] {
        let (at, is_leap) = parse_rfc3339_leap(text.as_bytes())?;
        is(
            &rt,
            (at.unix_timestamp(), at.nanosecond()),
            (second, 999_999_999),
        );
        is(&rt, (at.second(), is_leap), (59, true));
    }
    Ok(())
}

#[test]
fn the_order_of_what_is_written(rt: HostRuntime) -> Result<(), Fail> {
    let mut last = parse_rfc3339_leap(b"2016-12-31T23:59:58.999999999Z")?.0;
    for text in [
        "2016-12-31T23:59:59Z",
        "2016-12-31T23:59:59.9Z",
        "2016-12-31T23:59:60Z",
        "2016-12-31T23:59:60.5Z",
        "2017-01-01T00:00:00Z",
    ] {
        let (at, _) = parse_rfc3339_leap(text.as_bytes())?;
        is(&rt, last <= at, true);
        last = at;
    }
    Ok(())
}

#[test]
fn seconds_below_60(rt: HostRuntime) -> Result<(), Fail> {
    for text in ["1990-12-31T23:59:59Z", "2024-06-30t12:00:00.25-00:30"] {
        let read = parse_rfc3339(text.as_bytes())?;
        is(&rt, parse_rfc3339_leap(text.as_bytes())?, (read, false));
    }
    Ok(())
}

#[test]
fn seconds_that_are_refused(rt: HostRuntime) -> Result<(), Fail> {
    for (text, part) in [
        ("1990-12-31T23:59:61Z", Component::Second),
        ("2024-06-30T12:00:60.25Z", Component::Second),
        ("2016-12-30T23:59:60Z", Component::Second),
        ("2024-02-28T23:59:60Z", Component::Second),
        ("2016-12-31T23:58:60Z", Component::Second),
        ("2016-12-31T22:59:60Z", Component::Second),
        ("2016-12-31T23:59:60-08:00", Component::Second),
        ("2016-12-31T23:59:60+00:01", Component::Second),
        ("2016-12-31T15:59:60+08:00", Component::Second),
        ("2017-01-01T00:00:60Z", Component::Second),
        ("1990-12-31T23:60:60Z", Component::Minute),
        ("1990-11-31T23:59:60Z", Component::Day),
        ("1990-12-31T23:59:60+24:00", Component::OffsetHour),
        ("1990-12-31T12:00:60+24:00", Component::OffsetHour),
        ("1990-12-31T23:59:60-00:60", Component::OffsetMinute),
    ] {
        let refusal = parse_rfc3339_leap(text.as_bytes()).err();
        is(&rt, refusal, Some(TextRefusal::OutOfRange(part)));
    }
    for text in [
        "1990-12-31T23:59:6Z",
        "1990-12-31T23:59:60Z ",
        "1990-12-31T23:59:60.Z",
    ] {
        let refusal = parse_rfc3339_leap(text.as_bytes()).err();
        is(&rt, refusal, Some(TextRefusal::Syntax));
    }
    Ok(())
}
