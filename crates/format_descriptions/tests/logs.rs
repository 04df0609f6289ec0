//! The components that logs need and `time` lacks. The lines are those of RFC 5424 (6.5), RFC 9110
//! (5.6.7) and of Spark's logs; `strptime` of Python reads the same numbers, and puts the years of
//! two digits into 1969 to 2068.
use super::is;
use calendar_values::{Date, Month, Time, UtcOffset};
use format_descriptions::{
    Component, FormatRefusal, Item, NameForm, Padding, ReadCase, Sign, SubsecondDigits, UtcWord,
    YearBase, YearRange, format, format_date, format_offset, parse,
};
use std::process::Abort;
use std::test::Fail;

const YEAR: Item = Item::Part(Component::Year(
    YearBase::Calendar,
    Sign::Automatic,
    Padding::Zero,
    YearRange::Standard,
));

const MONTH: Item = Item::Part(Component::Month(Padding::Zero));

const DAY: Item = Item::Part(Component::Day(Padding::Zero));

const DIGITS: Item = Item::Part(Component::IgnoreDigits);

const SPACE: Item = Item::Byte(b' ');

const DASH: Item = Item::Byte(b'-');

const UTC: Item = Item::Part(Component::OffsetWord(UtcWord::Utc, ReadCase::Same));

const GMT: Item = Item::Part(Component::OffsetWord(UtcWord::Gmt, ReadCase::Any));

const ZULU: Item = Item::Part(Component::OffsetWord(UtcWord::Zulu, ReadCase::Any));

const SINCE: Item = Item::Part(Component::YearSince(1969));

// `<34>1 2003-10-11`
const HEADER: [Item; 10] = [
    Item::Byte(b'<'),
    DIGITS,
    Item::Byte(b'>'),
    DIGITS,
    SPACE,
    YEAR,
    DASH,
    MONTH,
    DASH,
    DAY,
];

// `Sun, 06 Nov 1994`
const WEEKDAY: [Item; 8] = [
    Item::Part(Component::IgnoreWeekday(NameForm::Short, ReadCase::Same)),
    Item::Byte(b','),
    SPACE,
    DAY,
    SPACE,
    Item::Part(Component::MonthName(NameForm::Short, ReadCase::Same)),
    SPACE,
    YEAR,
];

#[test]
fn digits_are_ignored(rt: HostRuntime) {
    for (text, day, place) in [
        ("<34>1 2003-10-11", 11, 99),
        ("<165>12 2003-10-11", 11, 99),
        ("<>1 2003-10-11", 99, 1),
        ("<34> 2003-10-11", 99, 4),
        ("<34>x 2003-10-11", 99, 4),
    ] {
        match parse(&HEADER, text.as_bytes()) {
            Ok(parts) => {
                is(&rt, parts.day, Some(day));
                is(&rt, parts.year, Some(2003));
            }
            Err(at) => is(&rt, at, place),
        }
    }
}

#[test]
fn digits_write_nothing(rt: HostRuntime) {
    let text = format(&HEADER, Date::UNIX_EPOCH, Time::MIDNIGHT, UtcOffset::UTC);
    is(
        &rt,
        text.map(|text| text.as_bytes() == b"<> 1970-01-01".as_slice()),
        Some(true),
    );
}

#[test]
fn weekdays_are_ignored(rt: HostRuntime) {
    for (text, day, place) in [
        ("Sun, 06 Nov 1994", 6, 99),
        ("Mon, 06 Nov 1994", 6, 99),
        ("SUN, 06 Nov 1994", 99, 0),
        ("Sunday, 06 Nov 1994", 99, 3),
        ("Son, 06 Nov 1994", 99, 0),
    ] {
        match parse(&WEEKDAY, text.as_bytes()) {
            Ok(parts) => {
                is(&rt, parts.day, Some(day));
                is(&rt, parts.weekday, None);
            }
            Err(at) => is(&rt, at, place),
        }
    }
}

#[test]
fn weekdays_are_those_of_the_date(rt: HostRuntime) -> Result<(), Fail> {
    let date = Date::from_calendar_date(1994, Month::November, 6)?;
    let text = format_date(&WEEKDAY, date);
    is(
        &rt,
        text.map(|text| text.as_bytes() == b"Sun, 06 Nov 1994".as_slice()),
        Ok(true),
    );
    Ok(())
}

#[test]
fn words_for_utc_are_read(rt: HostRuntime) {
    for (word, text, is_read) in [
        (UTC, "UTC", true),
        (UTC, "utc", false),
        (UTC, "GMT", false),
        (UTC, "UT", false),
        (GMT, "GMT", true),
        (GMT, "gmt", true),
        (ZULU, "Z", true),
        (ZULU, "z", true),
        (ZULU, "+00:00", false),
    ] {
        match parse(&[word], text.as_bytes()) {
            Ok(parts) => {
                is(&rt, is_read, true);
                is(&rt, parts.offset(), Ok(UtcOffset::UTC));
            }
            Err(place) => is(&rt, (is_read, place), (false, 0)),
        }
    }
}

// A word and numbers agree on 0 alone.
#[test]
fn words_and_numbers_agree(rt: HostRuntime) {
    let hour = Item::Part(Component::OffsetHour(Sign::Mandatory, Padding::Zero));
    let minute = Item::Part(Component::OffsetMinute(Padding::Zero));
    let items = [GMT, hour, minute];
    is(&rt, parse(&items, b"GMT+0000").is_ok(), true);
    is(&rt, parse(&items, b"GMT-0000").err(), Some(3));
    is(&rt, parse(&items, b"GMT+0100").err(), Some(3));
    is(&rt, parse(&items, b"GMT+0030").err(), Some(6));
}

#[test]
fn words_of_other_offsets(rt: HostRuntime) -> Result<(), Fail> {
    let east = UtcOffset::from_hms(0, 0, 1)?;
    for (word, letters) in [(UTC, "UTC"), (GMT, "GMT"), (ZULU, "Z")] {
        let text = format_offset(&[word], UtcOffset::UTC);
        is(
            &rt,
            text.map(|text| text.as_bytes() == letters.as_bytes()),
            Ok(true),
        );
        is(
            &rt,
            format_offset(&[word], east).err(),
            Some(FormatRefusal::NoText),
        );
    }
    is(&rt, format_date(&[UTC], Date::UNIX_EPOCH).is_err(), true);
    Ok(())
}

#[test]
fn years_of_a_hundred_are_read(rt: HostRuntime) {
    for (first, text, year) in [
        (1969, "69", 1969),
        (1969, "99", 1999),
        (1969, "00", 2000),
        (1969, "17", 2017),
        (1969, "68", 2068),
        (2000, "00", 2000),
        (2000, "99", 2099),
        (1950, "49", 2049),
        (0, "07", 7),
    ] {
        let item = Item::Part(Component::YearSince(first));
        match parse(&[item], text.as_bytes()) {
            Ok(parts) => is(&rt, parts.year, Some(year)),
            Err(place) => is(&rt, place, 99),
        }
    }
    is(&rt, parse(&[SINCE], b"7").err(), Some(0));
    is(&rt, parse(&[SINCE], b"217").err(), Some(2));
    is(&rt, parse(&[SINCE, SPACE, YEAR], b"17 2017").is_ok(), true);
    is(&rt, parse(&[SINCE, SPACE, YEAR], b"17 1917").err(), Some(3));
}

#[test]
fn years_of_a_hundred_are_written(rt: HostRuntime) -> Result<(), Fail> {
    for (year, digits) in [
        (1969, "69"),
        (2000, "00"),
        (2068, "68"),
        (1968, ""),
        (2069, ""),
        (-69, ""),
    ] {
        let date = Date::from_calendar_date(year, Month::June, 9)?;
        match format_date(&[SINCE], date) {
            Ok(text) => is(&rt, text.as_bytes() == digits.as_bytes(), true),
            Err(refusal) => is(&rt, (digits, refusal), ("", FormatRefusal::NoText)),
        }
    }
    Ok(())
}

// A line of the kernel: `0229 06:30:00.123456`; and a date that pads its day by a space.
#[test]
fn other_forms_of_logs(rt: HostRuntime) {
    let subsecond = Item::Part(Component::Subsecond(SubsecondDigits::Six));
    match parse(&[MONTH, DAY, SPACE, subsecond], b"0229 123456") {
        Ok(parts) => {
            is(&rt, parts.day, Some(29));
            is(&rt, parts.nanosecond, Some(123_456_000));
        }
        Err(place) => is(&rt, place, 99),
    }
    let spaced = Item::Part(Component::Day(Padding::Space));
    for (text, day) in [(" 6", 6), ("16", 16)] {
        match parse(&[spaced], text.as_bytes()) {
            Ok(parts) => is(&rt, parts.day, Some(day)),
            Err(place) => is(&rt, place, 99),
        }
    }
}
