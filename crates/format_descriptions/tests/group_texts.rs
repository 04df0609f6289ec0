//! Groups of descriptions from their texts: the rows are those of the documentation of `time`, and
//! the faults that it names.
use super::is;
use format_descriptions::{
    Component, DescriptionFault, DescriptionVersion, Item, Padding, Sign, SubsecondDigits,
    parse_description,
};
use std::process::Abort;

const HOUR: Item = Item::Part(Component::Hour(Padding::Zero));

const MINUTE: Item = Item::Part(Component::Minute(Padding::Zero));

const SECOND: Item = Item::Part(Component::Second(Padding::Zero));

const SUBSECOND: Item = Item::Part(Component::Subsecond(SubsecondDigits::OneOrMore));

const OFFSET: Item = Item::Part(Component::OffsetHour(Sign::Mandatory, Padding::Zero));

const COLON: Item = Item::Byte(b':');

const VERSIONS: [DescriptionVersion; 2] = [DescriptionVersion::One, DescriptionVersion::Two];

// Compares the items of a text in both versions.
fn are_items(rt: &impl Abort, text: &str, wanted: &[Item]) {
    for version in VERSIONS {
        let mut room = [Item::Byte(0); 12];
        let count = parse_description(version, text.as_bytes(), &mut room);
        is(rt, count.ok(), Some(wanted.len()));
        is(rt, room.get(..wanted.len()) == Some(wanted), true);
    }
}

#[test]
fn optional_groups_of_texts(rt: HostRuntime) {
    are_items(&rt, "[optional [:]]", &[Item::Optional(1), COLON]);
    are_items(
        &rt,
        "[hour]:[minute][optional [:[second][optional [.[subsecond]]]]]",
        &[
            HOUR,
            COLON,
            MINUTE,
            Item::Optional(5),
            COLON,
            SECOND,
            Item::Optional(2),
            Item::Byte(b'.'),
            SUBSECOND,
        ],
    );
    are_items(
        &rt,
        "[ optional\n[ [hour]] ][minute]",
        &[Item::Optional(2), Item::Byte(b' '), HOUR, MINUTE],
    );
    are_items(
        &rt,
        "[optional []]]",
        &[Item::Optional(0), Item::Byte(b']')],
    );
}

#[test]
fn several_groups_of_texts(rt: HostRuntime) {
    are_items(
        &rt,
        "[hour][first [Z] [[offset_hour sign:mandatory]][[minute]] ]!",
        &[
            HOUR,
            Item::First(1),
            Item::Byte(b'Z'),
            Item::Or(1),
            OFFSET,
            Item::Or(1),
            MINUTE,
            Item::Byte(b'!'),
        ],
    );
    are_items(
        &rt,
        "[first [[optional [:]][first [] [!]]] [[hour]]]",
        &[
            Item::First(5),
            Item::Optional(1),
            COLON,
            Item::First(0),
            Item::Or(1),
            Item::Byte(b'!'),
            Item::Or(1),
            HOUR,
        ],
    );
}

// A bracket in a group is escaped as outside of it.
#[test]
fn escapes_in_groups(rt: HostRuntime) {
    let mut room = [Item::Byte(0); 4];
    let count = parse_description(DescriptionVersion::Two, b"[optional [\\]]]", &mut room);
    is(&rt, count, Ok(2));
    is(
        &rt,
        (room[0], room[1]),
        (Item::Optional(1), Item::Byte(b']')),
    );
    let count = parse_description(DescriptionVersion::One, b"[optional [:[[:]]", &mut room);
    is(&rt, count, Ok(4));
    is(
        &rt,
        (room[0], room[2]),
        (Item::Optional(3), Item::Byte(b'[')),
    );
}

#[test]
fn faults_of_groups(rt: HostRuntime) {
    for (text, fault, place) in [
        ("[optional]", DescriptionFault::NoGroup, 9),
        ("[first ]", DescriptionFault::NoGroup, 7),
        ("[optional [:] [!]]", DescriptionFault::WrongGroup, 14),
        ("[optional[:]]", DescriptionFault::WrongGroup, 9),
        ("[first :]", DescriptionFault::WrongGroup, 7),
        ("[first [:] hour]", DescriptionFault::WrongGroup, 11),
        (":[optional [:]", DescriptionFault::NoEnd, 1),
        (":[optional [[first [:]]", DescriptionFault::NoEnd, 1),
        (":[first", DescriptionFault::NoEnd, 1),
        (
            "[first [:] [[hours]]]",
            DescriptionFault::UnknownComponent,
            13,
        ),
        ("[optionals [:]]", DescriptionFault::UnknownComponent, 1),
        ("[optional [:::::::::::::]]", DescriptionFault::NoRoom, 22),
    ] {
        for version in VERSIONS {
            let mut room = [Item::Byte(0); 12];
            let refusal = parse_description(version, text.as_bytes(), &mut room).err();
            is(
                &rt,
                refusal.map(|refusal| (refusal.fault, refusal.place)),
                Some((fault, place)),
            );
        }
    }
}

// 32 groups are inside each other, and 33 are too many.
#[test]
fn groups_in_groups(rt: HostRuntime) {
    let mut text = [0; 448];
    for (place, byte) in text.iter_mut().enumerate() {
        *byte = if place < 352 {
            b"[optional ["[place % 11]
        } else {
            b']'
        };
    }
    let mut room = [Item::Byte(0); 40];
    let deep = text.get(..416).unwrap_or(&[]);
    let count = parse_description(DescriptionVersion::Two, deep, &mut room);
    is(&rt, count, Ok(32));
    is(
        &rt,
        (room[0], room[31]),
        (Item::Optional(31), Item::Optional(0)),
    );
}
