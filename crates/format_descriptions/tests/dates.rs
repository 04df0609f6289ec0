//! Dates of parts: the days are those of Python's `datetime`.
use super::is;
use calendar_values::{Date, Month};
use format_descriptions::{
    Component, Field, Item, NameForm, Padding, ReadCase, Sign, ValueRefusal, YearBase, YearRange,
    parse,
};
use std::test::Fail;

// The day of the week, the year, the month, the day and the day of the year.
const ITEMS: [Item; 9] = [
    Item::Part(Component::WeekdayName(NameForm::Short, ReadCase::Same)),
    Item::Byte(b' '),
    Item::Part(Component::Year(
        YearBase::Calendar,
        Sign::Automatic,
        Padding::Zero,
        YearRange::Extended,
    )),
    Item::Byte(b'-'),
    Item::Part(Component::Month(Padding::Zero)),
    Item::Byte(b'-'),
    Item::Part(Component::Day(Padding::Zero)),
    Item::Byte(b' '),
    Item::Part(Component::Ordinal(Padding::Zero)),
];

#[test]
fn dates_of_parts(rt: HostRuntime) -> Result<(), Fail> {
    let date = Date::from_calendar_date(2024, Month::February, 29)?;
    for text in ["Thu 2024-02-29 060"] {
        match parse(&ITEMS, text.as_bytes()) {
            Ok(parts) => is(&rt, parts.date().ok(), Some(date)),
            Err(place) => is(&rt, place, 99),
        }
    }
    match parse(&[ITEMS[2], ITEMS[7], ITEMS[8]], b"2024 060") {
        Ok(parts) => is(&rt, parts.date().ok(), Some(date)),
        Err(place) => is(&rt, place, 99),
    }
    Ok(())
}

#[test]
fn parts_that_are_no_date(rt: HostRuntime) {
    for (text, refusal) in [
        ("Fri 2024-02-29 060", ValueRefusal::Wrong(Field::Weekday)),
        ("Thu 2024-02-29 061", ValueRefusal::Wrong(Field::Ordinal)),
        ("Wed 2023-02-29 060", ValueRefusal::Wrong(Field::Day)),
        ("Thu 2024-13-29 060", ValueRefusal::Wrong(Field::Month)),
        ("Thu 2024-02-00 060", ValueRefusal::Wrong(Field::Day)),
    ] {
        match parse(&ITEMS, text.as_bytes()) {
            Ok(parts) => is(&rt, parts.date().err(), Some(refusal)),
            Err(place) => is(&rt, place, 99),
        }
    }
    for (items, text, refusal) in [
        (&ITEMS[4..5], "02", ValueRefusal::Missing(Field::Year)),
        (&ITEMS[2..5], "2024-02", ValueRefusal::Missing(Field::Day)),
        (&ITEMS[2..3], "2024", ValueRefusal::Missing(Field::Month)),
    ] {
        match parse(items, text.as_bytes()) {
            Ok(parts) => is(&rt, parts.date().err(), Some(refusal)),
            Err(place) => is(&rt, place, 99),
        }
    }
}
