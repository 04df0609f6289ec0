//! Offsets of parts.
use super::is;
use calendar_values::UtcOffset;
use format_descriptions::{Component, Field, Item, Padding, Sign, ValueRefusal, parse};
use std::test::Fail;

// The hours, the minutes and the seconds.
const ITEMS: [Item; 5] = [
    Item::Part(Component::OffsetHour(Sign::Automatic, Padding::Zero)),
    Item::Byte(b':'),
    Item::Part(Component::OffsetMinute(Padding::Zero)),
    Item::Byte(b':'),
    Item::Part(Component::OffsetSecond(Padding::Zero)),
];

#[test]
fn offsets_of_parts(rt: HostRuntime) -> Result<(), Fail> {
    for (count, text, seconds) in [
        (3, "+05:30", 19_800),
        (3, "05:30", 19_800),
        (3, "-00:30", -1_800),
        (3, "-00:00", 0),
        (5, "-25:59:59", -93_599),
        (1, "-08", -28_800),
    ] {
        let wanted = UtcOffset::from_whole_seconds(seconds)?;
        match parse(&ITEMS[..count], text.as_bytes()) {
            Ok(parts) => is(&rt, parts.offset().ok(), Some(wanted)),
            Err(place) => is(&rt, place, 99),
        }
    }
    Ok(())
}

#[test]
fn parts_that_are_no_offset(rt: HostRuntime) {
    for (items, text, refusal) in [
        (
            &ITEMS[..3],
            "+26:00",
            ValueRefusal::Wrong(Field::OffsetHour),
        ),
        (
            &ITEMS[..3],
            "+05:60",
            ValueRefusal::Wrong(Field::OffsetMinute),
        ),
        (
            &ITEMS[..5],
            "+05:30:60",
            ValueRefusal::Wrong(Field::OffsetSecond),
        ),
        (&ITEMS[2..3], "30", ValueRefusal::Missing(Field::OffsetHour)),
    ] {
        match parse(items, text.as_bytes()) {
            Ok(parts) => is(&rt, parts.offset().err(), Some(refusal)),
            Err(place) => is(&rt, place, 99),
        }
    }
}
