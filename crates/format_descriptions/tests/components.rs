//! Components by themselves: the rows are those of the documentation of `time`.
use super::is;
use calendar_values::{Date, Month, Text, Time, UtcOffset};
use format_descriptions::{
    Component, Item, NameForm, Padding, Parts, ReadCase, format_component, format_component_into,
    parse_component, parse_component_into, parse_front_into, parse_into,
};
use std::test::Fail;

#[test]
fn components_are_written_alone(rt: HostRuntime) -> Result<(), Fail> {
    let date = Date::from_calendar_date(2020, Month::January, 2)?;
    let time = Time::from_hms(3, 4, 5)?;
    for (component, wanted) in [
        (Component::Day(Padding::Zero), "02"),
        (Component::Month(Padding::Space), " 1"),
        (Component::Hour(Padding::Bare), "3"),
        (Component::YearSince(1970), "20"),
    ] {
        match format_component(component, date, time, UtcOffset::UTC) {
            Some(text) => is(&rt, text.as_str(), wanted),
            None => is(&rt, "no text", wanted),
        }
    }
    let since = Component::YearSince(2021);
    let none = format_component(since, date, time, UtcOffset::UTC);
    is(&rt, none.is_none(), true);
    Ok(())
}

#[test]
fn components_are_read_one_after_another(rt: HostRuntime) {
    let day = Component::Day(Padding::Zero);
    let month = Component::MonthName(NameForm::Short, ReadCase::Same);
    let Some((parts, rest)) = parse_component(day, b"02Jan02 03", Parts::none()) else {
        is(&rt, "no day", "02");
        return;
    };
    let Some((parts, rest)) = parse_component(month, rest, parts) else {
        is(&rt, "no month", "Jan");
        return;
    };
    is(&rt, (parts.day, parts.month), (Some(2), Some(1)));
    is(&rt, rest, b"02 03".as_slice());
    is(&rt, parse_component(day, rest, parts).is_some(), true);
    is(&rt, parse_component(day, b"03", parts).is_none(), true);
    is(&rt, parse_component(day, b"3", parts).is_none(), true);
}

#[test]
fn components_are_read_in_place(rt: HostRuntime) {
    let day = Component::Day(Padding::Zero);
    let mut parts = Parts::none();
    let left = parse_component_into(day, b"02!", &mut parts).map(|rest| rest.len());
    is(&rt, (parts.day, left), (Some(2), Some(1)));
    let left = parse_component_into(day, b"03", &mut parts).map(|rest| rest.len());
    is(&rt, (parts.day, left), (Some(2), None));
}

#[test]
fn items_are_read_in_place(rt: HostRuntime) {
    let items = [
        Item::Part(Component::Day(Padding::Zero)),
        Item::Byte(b'/'),
        Item::Part(Component::Month(Padding::Zero)),
    ];
    let mut parts = Parts::none();
    let left = parse_front_into(&items, b"29/02/2024", &mut parts).map(|rest| rest.len());
    is(
        &rt,
        (parts.day, parts.month, left),
        (Some(29), Some(2), Ok(5)),
    );
    let left = parse_front_into(&items, b"29/03", &mut parts).map(|rest| rest.len());
    is(&rt, (parts.day, parts.month, left), (None, None, Err(3)));
}

#[test]
fn texts_are_read_into_parts(rt: HostRuntime) {
    let day = Item::Part(Component::Day(Padding::Zero));
    let month = Item::Part(Component::Month(Padding::Zero));
    let items = [day, Item::Byte(b'.'), month];
    let mut parts = Parts::none();
    is(&rt, parse_into(&items, b"29.02", &mut parts), Ok(()));
    is(&rt, (parts.day, parts.month), (Some(29), Some(2)));
    // The same parts again, and then another day.
    is(&rt, parse_into(&items, b"29.02", &mut parts), Ok(()));
    is(&rt, parse_into(&items, b"28.02", &mut parts), Err(0));
    is(&rt, (parts.day, parts.month), (None, None));
    is(&rt, parse_into(&items, b"29.02!", &mut parts), Err(5));
    is(&rt, (parts.day, parts.month), (None, None));
}

#[test]
fn components_are_written_in_place(rt: HostRuntime) -> Result<(), Fail> {
    let date = Date::from_calendar_date(2020, Month::September, 2)?;
    let name = Component::MonthName(NameForm::Long, ReadCase::Same);
    let mut text = Text::new();
    for n in 0..8 {
        let is_added = format_component_into(name, date, Time::MIDNIGHT, UtcOffset::UTC, &mut text);
        is(&rt, is_added, n < 7);
    }
    is(&rt, text.as_bytes().len(), 63);
    is(&rt, text.as_bytes().ends_with(b"SeptemberSeptember"), true);
    Ok(())
}
