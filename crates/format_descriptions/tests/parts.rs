//! Parts that descriptions read, and the places where a text is refused.
use super::is;
use format_descriptions::{
    Case, Component, Item, NameForm, Padding, Parts, ReadCase, Sign, SubsecondDigits, YearBase,
    YearRange, parse,
};

// A date-time with a byte between its parts.
const ITEMS: [Item; 12] = [
    Item::Part(Component::Year(
        YearBase::Calendar,
        Sign::Automatic,
        Padding::Zero,
        YearRange::Extended,
    )),
    Item::Byte(b'-'),
    Item::Part(Component::Month(Padding::Zero)),
    Item::Byte(b'-'),
    Item::Part(Component::Day(Padding::Bare)),
    Item::Byte(b'T'),
    Item::Part(Component::Hour(Padding::Space)),
    Item::Byte(b'.'),
    Item::Part(Component::Subsecond(SubsecondDigits::Six)),
    Item::Part(Component::OffsetHour(Sign::Mandatory, Padding::Zero)),
    Item::Byte(b':'),
    Item::Part(Component::OffsetMinute(Padding::Zero)),
];

#[test]
fn parts_of_a_text(rt: HostRuntime) {
    match parse(&ITEMS, b"1985-04-7T 9.123456-00:30") {
        Ok(parts) => {
            is(&rt, parts.year, Some(1985));
            is(&rt, parts.month, Some(4));
            is(&rt, parts.day, Some(7));
            is(&rt, parts.hour, Some(9));
            is(&rt, parts.minute, None);
            is(&rt, parts.nanosecond, Some(123_456_000));
            is(&rt, parts.is_west, Some(true));
            is(&rt, parts.offset_hour, Some(0));
            is(&rt, parts.offset_minute, Some(30));
        }
        Err(place) => is(&rt, place, 99),
    }
}

#[test]
fn years_are_read(rt: HostRuntime) {
    for (sign, text, wanted) in [
        (Sign::Automatic, "1985", Some(1985)),
        (Sign::Automatic, "+1985", Some(1985)),
        (Sign::Automatic, "-0044", Some(-44)),
        (Sign::Automatic, "+12024", Some(12_024)),
        (Sign::Automatic, "-999999", Some(-999_999)),
        (Sign::Automatic, "12024", None),
        (Sign::Automatic, "+1000000", None),
        (Sign::Automatic, "198", None),
        (Sign::Mandatory, "+1985", Some(1985)),
        (Sign::Mandatory, "1985", None),
    ] {
        let items = [Item::Part(Component::Year(
            YearBase::Calendar,
            sign,
            Padding::Zero,
            YearRange::Extended,
        ))];
        let year = match parse(&items, text.as_bytes()) {
            Ok(parts) => parts.year,
            Err(_) => None,
        };
        is(&rt, year, wanted);
    }
}

#[test]
fn names_are_read(rt: HostRuntime) {
    for (text, month) in [
        ("Jan", Some(1)),
        ("May", Some(5)),
        ("Sep", Some(9)),
        ("Dec", Some(12)),
        ("jan", None),
        ("Ja", None),
        ("June", None),
    ] {
        let items = [Item::Part(Component::MonthName(NameForm::Short, ReadCase::Same))];
        let shown = match parse(&items, text.as_bytes()) {
            Ok(parts) => parts.month,
            Err(_) => None,
        };
        is(&rt, shown, month);
    }
    for (text, weekday) in [
        ("Monday", Some(0)),
        ("Thursday", Some(3)),
        ("Sunday", Some(6)),
        ("Sun", None),
    ] {
        let items = [Item::Part(Component::WeekdayName(NameForm::Long, ReadCase::Same))];
        let shown = match parse(&items, text.as_bytes()) {
            Ok(parts) => parts.weekday,
            Err(_) => None,
        };
        is(&rt, shown, weekday);
    }
}

#[test]
fn clocks_of_two_halves(rt: HostRuntime) {
    let items = [
        Item::Part(Component::Hour12(Padding::Bare)),
        Item::Part(Component::Period(Case::Lower, ReadCase::Same)),
    ];
    for (text, hour, is_afternoon) in [("12am", 12, false), ("1am", 1, false), ("11pm", 11, true)] {
        match parse(&items, text.as_bytes()) {
            Ok(parts) => {
                is(&rt, parts.hour_12, Some(hour));
                is(&rt, parts.is_afternoon, Some(is_afternoon));
            }
            Err(place) => is(&rt, place, 99),
        }
    }
    is(&rt, parse(&items, b"1AM").err(), Some(1));
}

#[test]
fn digits_of_fractions(rt: HostRuntime) {
    for (digits, text, wanted) in [
        (SubsecondDigits::OneOrMore, "5", Some(500_000_000)),
        (SubsecondDigits::OneOrMore, "123456789", Some(123_456_789)),
        (SubsecondDigits::OneOrMore, "1234567899", Some(123_456_789)),
        (SubsecondDigits::OneOrMore, "", None),
        (SubsecondDigits::One, "7", Some(700_000_000)),
        (SubsecondDigits::Four, "0120", Some(12_000_000)),
        (SubsecondDigits::Four, "012", None),
        (SubsecondDigits::Nine, "000000001", Some(1)),
    ] {
        let items = [Item::Part(Component::Subsecond(digits))];
        let shown = match parse(&items, text.as_bytes()) {
            Ok(parts) => parts.nanosecond,
            Err(_) => None,
        };
        is(&rt, shown, wanted);
    }
}

#[test]
fn days_of_years(rt: HostRuntime) {
    for (padding, text, wanted) in [
        (Padding::Zero, "060", Some(60)),
        (Padding::Zero, "60", None),
        (Padding::Space, " 60", Some(60)),
        (Padding::Space, "  6", Some(6)),
        (Padding::Space, "366", Some(366)),
        (Padding::Space, "   6", None),
        (Padding::Bare, "6", Some(6)),
        (Padding::Bare, "60", Some(60)),
        (Padding::Bare, "0060", None),
    ] {
        let items = [Item::Part(Component::Ordinal(padding))];
        let shown = match parse(&items, text.as_bytes()) {
            Ok(parts) => parts.ordinal,
            Err(_) => None,
        };
        is(&rt, shown, wanted);
    }
}

#[test]
fn contradictions_are_refused(rt: HostRuntime) {
    let items = [
        Item::Part(Component::Month(Padding::Zero)),
        Item::Byte(b' '),
        Item::Part(Component::MonthName(NameForm::Short, ReadCase::Same)),
    ];
    is(&rt, parse(&items, b"02 Feb").is_ok(), true);
    is(&rt, parse(&items, b"01 Feb").err(), Some(3));
}

#[test]
fn places_of_faults(rt: HostRuntime) {
    for (text, place) in [
        ("", 0),
        ("198", 0),
        ("1985", 4),
        ("1985/04", 4),
        ("1985-4-7", 5),
        ("1985-04-x", 8),
        ("1985-04-007", 10),
        ("1985-04-7T9.", 10),
        ("1985-04-7T 9.12345-00:30", 13),
        ("1985-04-7T 9.123456 00:30", 19),
        ("1985-04-7T 9.123456-00:3", 23),
        ("1985-04-7T 9.123456-00:30 ", 25),
    ] {
        is(&rt, parse(&ITEMS, text.as_bytes()).err(), Some(place));
    }
}
