//! Descriptions that are written: the rows are the shortest texts that the documentation of `time`
//! has for their items.
use super::is;
use format_descriptions::{
    Component, DescriptionVersion, Item, ItemFault, ItemRefusal, NameForm, Padding, ReadCase,
    parse_description, write_description,
};
use std::process::Abort;

const VERSIONS: [DescriptionVersion; 2] = [DescriptionVersion::One, DescriptionVersion::Two];

const HOUR: Item = Item::Part(Component::Hour(Padding::Zero));

// Reads a text, and compares what its items write.
fn is_written_again(rt: &impl Abort, version: DescriptionVersion, text: &str) {
    let mut items = [Item::Byte(0); 24];
    let count = parse_description(version, text.as_bytes(), &mut items).unwrap_or(24);
    let mut room = [0; 100];
    let used = match items.get(..count) {
        Some(items) => write_description(version, items, &mut room).unwrap_or(0),
        None => 0,
    };
    is(rt, room.get(..used) == Some(text.as_bytes()), true);
}

#[test]
fn components_are_written(rt: HostRuntime) {
    for text in [
        "[year]-[month]-[day]",
        "[year repr:century padding:space sign:mandatory base:iso_week range:standard]",
        "[year repr:last_two padding:none base:iso_week]",
        "[month repr:long case_sensitive:false] [month repr:short]",
        "[ordinal padding:none][week_number repr:sunday padding:space]",
        "[weekday], [weekday repr:short] [weekday repr:monday one_indexed:false]",
        "[hour repr:12 padding:space]:[minute]:[second] [period case:lower]",
        "[subsecond][subsecond digits:1][subsecond digits:9]",
        "[offset_hour sign:mandatory padding:none]:[offset_minute]:[offset_second]",
        "[unix_timestamp][unix_timestamp precision:nanosecond sign:mandatory]",
        "[ignore count:1][ignore count:65535][ignore count:407][end]",
    ] {
        for version in VERSIONS {
            is_written_again(&rt, version, text);
        }
    }
}

#[test]
fn groups_are_written(rt: HostRuntime) {
    for text in [
        "[hour]:[minute][optional [:[second][optional [.[subsecond]]]]]",
        "[optional []][first [Z] [[offset_hour]] [[first [a] []]]]!",
        "[first [[optional [[hour]]]]][first [b]][optional [c]]",
    ] {
        for version in VERSIONS {
            is_written_again(&rt, version, text);
        }
    }
}

#[test]
fn brackets_are_written(rt: HostRuntime) {
    is_written_again(&rt, DescriptionVersion::One, "[[[hour]]\\ [optional [[[]]");
    is_written_again(
        &rt,
        DescriptionVersion::Two,
        "\\[[hour]\\]\\\\ [optional [\\[\\]]]",
    );
}

// Compares the refusal of items, in version 1.
fn is_refused(rt: &impl Abort, items: &[Item], place: usize, fault: ItemFault) {
    let mut room = [7; 12];
    let refused = write_description(DescriptionVersion::One, items, &mut room);
    is(rt, refused, Err(ItemRefusal { place, fault }));
    is(rt, room, [7; 12]);
}

#[test]
fn items_without_text_are_refused(rt: HostRuntime) {
    let own = Component::IgnoreWeekday(NameForm::Short, ReadCase::Same);
    is_refused(&rt, &[HOUR, Item::Part(own)], 1, ItemFault::NoName);
    let none = Item::Part(Component::Ignore(0));
    is_refused(&rt, &[none], 0, ItemFault::NoCount);
    let bracket = Item::Byte(b']');
    is_refused(&rt, &[Item::Optional(1), bracket], 1, ItemFault::NoEscape);
    is_refused(&rt, &[HOUR, Item::Or(1), HOUR], 1, ItemFault::NoFirst);
    is_refused(&rt, &[Item::First(2), HOUR], 0, ItemFault::PastEnd);
    is_refused(&rt, &[HOUR, HOUR, HOUR], 2, ItemFault::NoRoom);
}

#[test]
fn groups_past_the_end_of_another_are_refused(rt: HostRuntime) {
    let items = [Item::Optional(1), Item::Optional(1), HOUR];
    let mut room = [0; 40];
    let refused = write_description(DescriptionVersion::Two, &items, &mut room);
    let place = 1;
    let fault = ItemFault::PastEnd;
    is(&rt, refused, Err(ItemRefusal { place, fault }));
}

#[test]
fn groups_are_written_32_deep(rt: HostRuntime) {
    let mut items = [Item::Optional(0); 33];
    for depth in 0..33 {
        items[depth] = Item::Optional(32 - depth);
    }
    let mut room = [0; 420];
    let refused = write_description(DescriptionVersion::Two, &items, &mut room);
    let place = 32;
    let fault = ItemFault::TooDeep;
    is(&rt, refused, Err(ItemRefusal { place, fault }));
    let written = write_description(DescriptionVersion::Two, &items[1..], &mut room);
    is(&rt, written, Ok(416));
}
