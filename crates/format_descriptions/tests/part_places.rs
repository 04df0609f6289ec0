//! The places of parts: the bytes are counted in the texts by hand.
use super::is;
use format_descriptions::{
    DescriptionVersion, Field, Item, ValueRefusal, parse, parse_description, part_place,
};

// The place and the length of a part in a text.
fn place(text: &str, description: &str, field: Field) -> Option<(usize, usize)> {
    let mut room = [Item::Byte(0); 64];
    let description = description.as_bytes();
    let count = parse_description(DescriptionVersion::Two, description, &mut room).ok()?;
    part_place(&room[..count], text.as_bytes(), field).map(|at| (at.place, at.length))
}

// The place of the part that the error of a date names.
fn place_of_date(text: &str, description: &str) -> Option<(usize, usize)> {
    let mut room = [Item::Byte(0); 64];
    let version = DescriptionVersion::Two;
    let count = parse_description(version, description.as_bytes(), &mut room).ok()?;
    match parse(&room[..count], text.as_bytes()).ok()?.date() {
        Err(ValueRefusal::Wrong(field)) => place(text, description, field),
        _ => None,
    }
}

#[test]
fn places_of_clocks(rt: HostRuntime) {
    let text = "2024-04-31 25:61:62.500+26:61:62";
    let description = "[year]-[month]-[day] [hour]:[minute]:[second].[subsecond]\
        [offset_hour]:[offset_minute]:[offset_second]";
    for (field, wanted) in [
        (Field::Year, Some((0, 4))),
        (Field::Month, Some((5, 2))),
        (Field::Day, Some((8, 2))),
        (Field::Hour, Some((11, 2))),
        (Field::Minute, Some((14, 2))),
        (Field::Second, Some((17, 2))),
        (Field::Subsecond, Some((20, 3))),
        (Field::OffsetHour, Some((23, 3))),
        (Field::OffsetMinute, Some((27, 2))),
        (Field::OffsetSecond, Some((30, 2))),
        (Field::Weekday, None),
    ] {
        is(&rt, place(text, description, field), wanted);
    }
}

#[test]
fn places_of_other_parts(rt: HostRuntime) {
    let names =
        "[weekday], [year repr:century][year repr:last_two] [ordinal] [hour repr:12][period]";
    let weeks = "[year base:iso_week] W[week_number] [week_number repr:sunday] \
        [week_number repr:monday]";
    let years = "[year base:iso_week repr:century] [year base:iso_week repr:last_two]";
    let counts = "[unix_timestamp] [unix_timestamp precision:millisecond] \
        [unix_timestamp precision:microsecond] [unix_timestamp precision:nanosecond]";
    for (description, text, field, wanted) in [
        (names, "Thursday, 2024 366 13PM", Field::Weekday, (0, 8)),
        (
            names,
            "Thursday, 2024 366 13PM",
            Field::YearCentury,
            (10, 2),
        ),
        (
            names,
            "Thursday, 2024 366 13PM",
            Field::YearLastTwo,
            (12, 2),
        ),
        (names, "Thursday, 2024 366 13PM", Field::Ordinal, (15, 3)),
        (names, "Thursday, 2024 366 13PM", Field::Hour12, (19, 2)),
        (names, "Thursday, 2024 366 13PM", Field::Period, (21, 2)),
        (weeks, "2024 W09 08 09", Field::IsoYear, (0, 4)),
        (weeks, "2024 W09 08 09", Field::IsoWeek, (6, 2)),
        (weeks, "2024 W09 08 09", Field::SundayWeek, (9, 2)),
        (weeks, "2024 W09 08 09", Field::MondayWeek, (12, 2)),
        (years, "20 24", Field::IsoYearCentury, (0, 2)),
        (years, "20 24", Field::IsoYearLastTwo, (3, 2)),
        (
            counts,
            "-1 -1000 -1000000 -1000000000",
            Field::UnixSecond,
            (0, 2),
        ),
        (
            counts,
            "-1 -1000 -1000000 -1000000000",
            Field::UnixMillisecond,
            (3, 5),
        ),
        (
            counts,
            "-1 -1000 -1000000 -1000000000",
            Field::UnixMicrosecond,
            (9, 8),
        ),
        (
            counts,
            "-1 -1000 -1000000 -1000000000",
            Field::UnixNanosecond,
            (18, 11),
        ),
    ] {
        is(&rt, place(text, description, field), Some(wanted));
    }
}

#[test]
fn places_in_groups(rt: HostRuntime) {
    let optional = "[year][optional [-[month]]] [day]";
    let first = "[first [[day]/[month]] [[day].[month]]]";
    let second = "[first [[month]-x] [x[month]]]";
    let inner = "[optional [[year]-[day][first [a] [b]]]][optional [!]]";
    for (description, text, field, wanted) in [
        (optional, "2024-02 30", Field::Month, Some((5, 2))),
        (optional, "2024-02 30", Field::Day, Some((8, 2))),
        (optional, "2024 30", Field::Month, None),
        (optional, "2024 30", Field::Day, Some((5, 2))),
        (first, "31/04", Field::Day, Some((0, 2))),
        (first, "31.04", Field::Day, Some((0, 2))),
        (first, "31.04", Field::Month, Some((3, 2))),
        (second, "13-x", Field::Month, Some((0, 2))),
        (second, "x13", Field::Month, Some((1, 2))),
        (inner, "2024-31a", Field::Day, Some((5, 2))),
        (inner, "2024-31b!", Field::Day, Some((5, 2))),
        (inner, "!", Field::Day, None),
        ("[day] [day]", "31 31", Field::Day, Some((0, 2))),
        ("[day] [day]", "31 30", Field::Day, None),
        ("[month]-[day]", "02-30, in vain", Field::Day, Some((3, 2))),
    ] {
        is(&rt, place(text, description, field), wanted);
    }
}

#[test]
fn places_of_errors(rt: HostRuntime) {
    let form = "[weekday repr:short] [year]-[month]-[day] [ordinal]";
    for (text, wanted) in [
        ("Fri 2024-02-29 060", Some((0, 3))),
        ("Thu 2024-13-29 060", Some((9, 2))),
        ("Wed 2023-02-29 060", Some((12, 2))),
        ("Tue 2024-04-31 060", Some((12, 2))),
        ("Thu 2024-02-29 061", Some((15, 3))),
        ("Thu 2024-02-29 060", None),
    ] {
        is(&rt, place_of_date(text, form), wanted);
    }
}
