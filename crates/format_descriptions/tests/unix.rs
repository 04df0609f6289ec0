//! Unix timestamps, written and read, and what is passed over: the counts are those of Python's
//! integers.
use super::is;
use calendar_values::{Date, Month, Time, UtcOffset};
use format_descriptions::{
    Case, Component, Field, Item, NameForm, ReadCase, Sign, SubsecondDigits, UnixPrecision,
    ValueRefusal, format, parse,
};
use stamp_times::Timestamp;
use std::test::Fail;
use utc_times::UtcDateTime;

#[test]
fn timestamps(rt: HostRuntime) -> Result<(), Fail> {
    let date = Date::from_calendar_date(2024, Month::February, 29)?;
    let before = Date::from_calendar_date(1969, Month::December, 31)?;
    let time = Time::from_hms_nano(12, 34, 56, 789_012_345)?;
    let half = UtcOffset::from_hms(5, 30, 0)?;
    for (precision, count, earlier) in [
        (UnixPrecision::Seconds, "1709190296", "-60904"),
        (UnixPrecision::Milliseconds, "1709190296789", "-60903211"),
        (
            UnixPrecision::Microseconds,
            "1709190296789012",
            "-60903210988",
        ),
        (
            UnixPrecision::Nanoseconds,
            "1709190296789012345",
            "-60903210987655",
        ),
    ] {
        let items = [Item::Part(Component::UnixTimestamp(precision, Sign::Automatic))];
        for (date, wanted) in [(date, count), (before, earlier)] {
            match format(&items, date, time, half) {
                Some(text) => {
                    is(&rt, text.as_bytes() == wanted.as_bytes(), true);
                    match parse(&items, text.as_bytes()) {
                        Ok(parts) => is(&rt, parts.timestamp().is_ok(), true),
                        Err(place) => is(&rt, place, 99),
                    }
                }
                None => is(&rt, wanted, ""),
            }
        }
    }
    Ok(())
}

#[test]
fn timestamps_are_read(rt: HostRuntime) {
    for (precision, text, wanted) in [
        (UnixPrecision::Seconds, "1709208296", Some(1_709_208_296)),
        (UnixPrecision::Seconds, "-1", Some(-1)),
        (UnixPrecision::Seconds, "+7", Some(7)),
        (UnixPrecision::Seconds, "007", Some(7)),
        (
            UnixPrecision::Seconds,
            "99999999999999",
            Some(99_999_999_999_999),
        ),
        (UnixPrecision::Seconds, "100000000000000", None),
        (UnixPrecision::Seconds, "", None),
        (UnixPrecision::Seconds, "-", None),
    ] {
        let items = [Item::Part(Component::UnixTimestamp(precision, Sign::Automatic))];
        let shown = match parse(&items, text.as_bytes()) {
            Ok(parts) => parts.unix_second,
            Err(_) => None,
        };
        is(&rt, shown, wanted);
    }
    let items = [Item::Part(Component::UnixTimestamp(UnixPrecision::Nanoseconds, Sign::Mandatory))];
    match parse(&items, b"-99999999999999999999999") {
        Ok(parts) => is(
            &rt,
            parts.unix_nanosecond,
            Some(-99_999_999_999_999_999_999_999),
        ),
        Err(place) => is(&rt, place, 99),
    }
    is(&rt, parse(&items, b"1").err(), Some(0));
}

#[test]
fn bytes_passed_over_and_the_end(rt: HostRuntime) {
    let items = [Item::Part(Component::Ignore(3)), Item::Part(Component::End)];
    is(&rt, parse(&items, b"abc").err(), None);
    is(&rt, parse(&items, b"ab").err(), Some(0));
    is(&rt, parse(&items, b"abcd").err(), Some(3));
}

#[test]
fn names_in_any_case(rt: HostRuntime) {
    for (read, text, wanted) in [
        (ReadCase::Same, "July", Some(7)),
        (ReadCase::Same, "JULY", None),
        (ReadCase::Any, "JULY", Some(7)),
        (ReadCase::Any, "jUlY", Some(7)),
        (ReadCase::Any, "Jul", None),
    ] {
        let items = [Item::Part(Component::MonthName(NameForm::Long, read))];
        let shown = match parse(&items, text.as_bytes()) {
            Ok(parts) => parts.month,
            Err(_) => None,
        };
        is(&rt, shown, wanted);
    }
    for (read, text, wanted) in [
        (ReadCase::Same, "Sun", Some(6)),
        (ReadCase::Same, "sun", None),
        (ReadCase::Any, "SUN", Some(6)),
    ] {
        let items = [Item::Part(Component::WeekdayName(NameForm::Short, read))];
        let shown = match parse(&items, text.as_bytes()) {
            Ok(parts) => parts.weekday,
            Err(_) => None,
        };
        is(&rt, shown, wanted);
    }
    for (read, text, wanted) in [
        (ReadCase::Same, "PM", Some(true)),
        (ReadCase::Same, "pm", None),
        (ReadCase::Any, "pM", Some(true)),
        (ReadCase::Any, "am", Some(false)),
    ] {
        let items = [Item::Part(Component::Period(Case::Upper, read))];
        let shown = match parse(&items, text.as_bytes()) {
            Ok(parts) => parts.is_afternoon,
            Err(_) => None,
        };
        is(&rt, shown, wanted);
    }
}

#[test]
fn instants_of_timestamps(rt: HostRuntime) -> Result<(), Fail> {
    let half = Timestamp::from_nanoseconds(1_709_190_296_500_000_000)?;
    let before = Timestamp::from_nanoseconds(-1)?;
    let whole = [
        Item::Part(Component::UnixTimestamp(UnixPrecision::Seconds, Sign::Automatic)),
        Item::Byte(b'.'),
        Item::Part(Component::Subsecond(SubsecondDigits::OneOrMore)),
    ];
    let nanos = [Item::Part(Component::UnixTimestamp(UnixPrecision::Nanoseconds, Sign::Automatic))];
    let millis = [Item::Part(Component::UnixTimestamp(
        UnixPrecision::Milliseconds,
        Sign::Automatic,
    ))];
    for (items, text, wanted) in [
        (&whole[..], "1709190296.5", half),
        (&whole[..], "-1.999999999", before),
        (&nanos[..], "-1", before),
        (&nanos[..], "1709190296500000000", half),
        (&millis[..], "1709190296500", half),
    ] {
        match parse(items, text.as_bytes()) {
            Ok(parts) => {
                is(&rt, parts.timestamp().ok() == Some(wanted), true);
                let utc = parts.utc_date_time().ok();
                is(&rt, utc == Some(UtcDateTime::from(wanted)), true);
            }
            Err(place) => is(&rt, place, 99),
        }
    }
    let both = [nanos[0], Item::Byte(b' '), millis[0]];
    for (text, refusal) in [
        ("1999999 2", ValueRefusal::Wrong(Field::UnixMillisecond)),
        (
            "99999999999999999999999 1",
            ValueRefusal::Wrong(Field::UnixNanosecond),
        ),
    ] {
        match parse(&both, text.as_bytes()) {
            Ok(parts) => is(&rt, parts.timestamp().err() == Some(refusal), true),
            Err(place) => is(&rt, place, 99),
        }
    }
    match parse(&[], b"") {
        Ok(parts) => is(
            &rt,
            parts.timestamp().err() == Some(ValueRefusal::Missing(Field::UnixSecond)),
            true,
        ),
        Err(place) => is(&rt, place, 99),
    }
    Ok(())
}

#[test]
fn fractions_finer_than_the_count(rt: HostRuntime) -> Result<(), Fail> {
    let fraction = Item::Part(Component::Subsecond(SubsecondDigits::OneOrMore));
    for (precision, text, wanted) in [
        (
            UnixPrecision::Milliseconds,
            "1709166600500 500000001",
            Some(1_709_166_600_500_000_001),
        ),
        (
            UnixPrecision::Microseconds,
            "1709166600500000 500000001",
            Some(1_709_166_600_500_000_001),
        ),
        (
            UnixPrecision::Milliseconds,
            "-1501 499999999",
            Some(-1_500_000_001),
        ),
        (UnixPrecision::Microseconds, "-1 999999", Some(-1_000)),
        (UnixPrecision::Milliseconds, "1709166600500 501", None),
    ] {
        let count = Component::UnixTimestamp(precision, Sign::Automatic);
        let items = [Item::Part(count), Item::Byte(b' '), fraction];
        match parse(&items, text.as_bytes()) {
            Ok(parts) => {
                let read = parts.timestamp().map(|at| at.as_nanoseconds());
                is(
                    &rt,
                    read,
                    wanted.ok_or(ValueRefusal::Wrong(Field::Subsecond)),
                );
            }
            Err(place) => is(&rt, place, 99),
        }
    }
    Ok(())
}
