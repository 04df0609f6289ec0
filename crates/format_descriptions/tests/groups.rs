//! Groups of items: the rows follow what the documentation of `time` says of its optional items and
//! of the first of several, which its version 0.3.9 reads and writes so too.
use super::is;
use calendar_values::{Date, Time, UtcOffset};
use format_descriptions::{
    Component, FormatRefusal, Item, Padding, Sign, SubsecondDigits, format, format_date,
    format_time, parse, parse_front,
};
use std::process::Abort;

const HOUR: Item = Item::Part(Component::Hour(Padding::Zero));

const MINUTE: Item = Item::Part(Component::Minute(Padding::Zero));

const SECOND: Item = Item::Part(Component::Second(Padding::Zero));

const SUBSECOND: Item = Item::Part(Component::Subsecond(SubsecondDigits::OneOrMore));

const OFFSET: Item = Item::Part(Component::OffsetHour(Sign::Mandatory, Padding::Zero));

const COLON: Item = Item::Byte(b':');

// An hour and a minute, perhaps a second, and perhaps a fraction of it.
const CLOCK: [Item; 9] = [
    HOUR,
    COLON,
    MINUTE,
    Item::Optional(5),
    COLON,
    SECOND,
    Item::Optional(2),
    Item::Byte(b'.'),
    SUBSECOND,
];

// An hour, and then `Z`, or an offset of hours, or a minute, and then `!`.
const ZONE: [Item; 8] = [
    HOUR,
    Item::First(1),
    Item::Byte(b'Z'),
    Item::Or(1),
    OFFSET,
    Item::Or(1),
    MINUTE,
    Item::Byte(b'!'),
];

#[test]
fn optional_groups_are_read(rt: HostRuntime) {
    for (text, minute, second, nanosecond) in [
        ("07:08", 8, 99, 99),
        ("07:08:09", 8, 9, 99),
        ("07:08:09.5", 8, 9, 500_000_000),
    ] {
        match parse(&CLOCK, text.as_bytes()) {
            Ok(parts) => {
                is(&rt, parts.hour, Some(7));
                is(&rt, parts.minute, Some(minute));
                is(&rt, parts.second.unwrap_or(99), second);
                is(&rt, parts.nanosecond.unwrap_or(99), nanosecond);
            }
            Err(place) => is(&rt, place, 99),
        }
    }
}

#[test]
fn one_of_several_groups_is_read(rt: HostRuntime) {
    for (text, offset_hour, minute) in [("07Z!", 99, 99), ("07+02!", 2, 99), ("0711!", 99, 11)] {
        match parse(&ZONE, text.as_bytes()) {
            Ok(parts) => {
                is(&rt, parts.hour, Some(7));
                is(&rt, parts.offset_hour.unwrap_or(99), offset_hour);
                is(&rt, parts.minute.unwrap_or(99), minute);
            }
            Err(place) => is(&rt, place, 99),
        }
    }
}

#[test]
fn groups_that_are_not_read(rt: HostRuntime) {
    for (text, place) in [("07:", 3), ("07:08:", 5), ("07:08:0x", 5), ("07:08:09.", 8)] {
        match parse(&CLOCK, text.as_bytes()) {
            Ok(_) => is(&rt, 99, place),
            Err(found) => is(&rt, found, place),
        }
    }
    for (text, place) in [
        ("07", 2),
        ("07z!", 2),
        ("07+2!", 2),
        ("07Z", 3),
        ("07Z+02!", 3),
    ] {
        match parse(&ZONE, text.as_bytes()) {
            Ok(_) => is(&rt, 99, place),
            Err(found) => is(&rt, found, place),
        }
    }
}

#[test]
fn groups_are_written(rt: HostRuntime) {
    match format_time(&CLOCK, Time::MIDNIGHT) {
        Ok(text) => is(&rt, text.as_bytes() == b"00:00:00.0".as_slice(), true),
        Err(_) => is(&rt, 1, 2),
    }
    match format_time(&ZONE, Time::MIDNIGHT) {
        Ok(text) => is(&rt, text.as_bytes() == b"00Z!".as_slice(), true),
        Err(_) => is(&rt, 1, 2),
    }
    is(
        &rt,
        format_date(
            &[Item::First(1), COLON, Item::Or(1), HOUR],
            Date::UNIX_EPOCH,
        )
        .is_ok(),
        true,
    );
    match format_date(&[Item::Optional(1), HOUR], Date::UNIX_EPOCH) {
        Ok(_) => is(&rt, 1, 2),
        Err(refusal) => is(
            &rt,
            refusal,
            FormatRefusal::Lacks(Component::Hour(Padding::Zero)),
        ),
    }
}

#[test]
fn counts_past_the_end(rt: HostRuntime) {
    let a = Item::Byte(b'a');
    let long = [a, Item::Optional(9), a, Item::First(2), a];
    match format(&long, Date::UNIX_EPOCH, Time::MIDNIGHT, UtcOffset::UTC) {
        Some(text) => is(&rt, text.as_bytes() == b"aaa".as_slice(), true),
        None => is(&rt, 1, 2),
    }
    is(&rt, parse(&long, b"aaa").is_ok(), true);
    is(&rt, parse(&long, b"a").is_ok(), true);
    is(&rt, parse(&long, b"aa").is_ok(), false);
}

#[test]
fn fronts_of_texts(rt: HostRuntime) {
    let items = [OFFSET, Item::Optional(2), Item::Byte(b'.'), SUBSECOND];
    for (text, count) in [
        ("+07.250 lines", 7),
        ("+07", 3),
        ("+07. lines", 3),
        ("-07 lines", 3),
    ] {
        match parse_front(&items, text.as_bytes()) {
            Ok((parts, taken)) => {
                is(&rt, taken, count);
                is(&rt, parts.offset_hour, Some(7));
            }
            Err(place) => is(&rt, place, 99),
        }
    }
    match parse_front(&items, b"07") {
        Ok((_, taken)) => is(&rt, taken, 99),
        Err(place) => is(&rt, place, 0),
    }
}
