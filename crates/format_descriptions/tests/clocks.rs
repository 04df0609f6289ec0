//! Times of day of parts, as Python's `strptime` has them.
use super::is;
use calendar_values::Time;
use format_descriptions::{
    Case, Component, Field, Item, Padding, ReadCase, SubsecondDigits, ValueRefusal, parse,
};
use std::test::Fail;

// The hour, the minute, the fraction, the hour on a clock of 12 hours and the half of the day.
const ITEMS: [Item; 8] = [
    Item::Part(Component::Hour(Padding::Zero)),
    Item::Byte(b':'),
    Item::Part(Component::Minute(Padding::Zero)),
    Item::Byte(b'.'),
    Item::Part(Component::Subsecond(SubsecondDigits::Three)),
    Item::Byte(b' '),
    Item::Part(Component::Hour12(Padding::Bare)),
    Item::Part(Component::Period(Case::Upper, ReadCase::Same)),
];

#[test]
fn times_of_parts(rt: HostRuntime) -> Result<(), Fail> {
    let whole = &ITEMS[..];
    for (items, text, hour, minute, nanosecond) in [
        (whole, "13:05.250 1PM", 13, 5, 250_000_000),
        (whole, "00:00.000 12AM", 0, 0, 0),
        (&ITEMS[6..], "12AM", 0, 0, 0),
        (&ITEMS[6..], "12PM", 12, 0, 0),
        (&ITEMS[6..], "11PM", 23, 0, 0),
        (&ITEMS[..1], "23", 23, 0, 0),
    ] {
        let wanted = Time::from_hms_nano(hour, minute, 0, nanosecond)?;
        match parse(items, text.as_bytes()) {
            Ok(parts) => is(&rt, parts.time().ok(), Some(wanted)),
            Err(place) => is(&rt, place, 99),
        }
    }
    Ok(())
}

#[test]
fn parts_that_are_no_time(rt: HostRuntime) {
    let whole = &ITEMS[..];
    for (items, text, refusal) in [
        (whole, "24:05.250 1PM", ValueRefusal::Wrong(Field::Hour)),
        (whole, "13:60.250 1PM", ValueRefusal::Wrong(Field::Minute)),
        (whole, "13:05.250 2PM", ValueRefusal::Wrong(Field::Hour12)),
        (whole, "13:05.250 1AM", ValueRefusal::Wrong(Field::Period)),
        (&ITEMS[6..], "13PM", ValueRefusal::Wrong(Field::Hour12)),
        (&ITEMS[6..7], "1", ValueRefusal::Missing(Field::Period)),
        (&ITEMS[2..3], "05", ValueRefusal::Missing(Field::Hour)),
    ] {
        match parse(items, text.as_bytes()) {
            Ok(parts) => is(&rt, parts.time().err(), Some(refusal)),
            Err(place) => is(&rt, place, 99),
        }
    }
}
