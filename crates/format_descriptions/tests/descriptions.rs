//! Descriptions from their texts: the rows are those of the documentation of `time`, whose version
//! 0.3.9 reads those of version 1 alike.
use super::is;
use format_descriptions::{
    Case, Component, DescriptionFault, DescriptionVersion, Item, NameForm, Padding, ReadCase, Sign,
    SubsecondDigits, UnixPrecision, WeekRule, WeekStart, WeekdayCount, YearBase, YearRange,
    parse_description,
};
use std::process::Abort;

const YEAR: Component = Component::Year(
    YearBase::Calendar,
    Sign::Automatic,
    Padding::Zero,
    YearRange::Extended,
);

#[test]
fn components_of_descriptions(rt: HostRuntime) {
    for (text, component) in [
        ("[year]", YEAR),
        ("[ year ]", YEAR),
        ("[year repr:full]", YEAR),
        (
            "[year sign:mandatory padding:none base:iso_week range:standard]",
            Component::Year(
                YearBase::IsoWeek,
                Sign::Mandatory,
                Padding::Bare,
                YearRange::Standard,
            ),
        ),
        (
            "[year repr:century padding:space]",
            Component::YearCentury(
                YearBase::Calendar,
                Sign::Automatic,
                Padding::Space,
                YearRange::Extended,
            ),
        ),
        (
            "[year repr:last_two]",
            Component::YearLastTwo(YearBase::Calendar, Padding::Zero),
        ),
        ("[month padding:zero]", Component::Month(Padding::Zero)),
        (
            "[month repr:long]",
            Component::MonthName(NameForm::Long, ReadCase::Same),
        ),
        (
            "[month case_sensitive:false repr:short]",
            Component::MonthName(NameForm::Short, ReadCase::Any),
        ),
        (
            "[day padding:zero padding:space]",
            Component::Day(Padding::Space),
        ),
        ("[ordinal]", Component::Ordinal(Padding::Zero)),
        (
            "[weekday]",
            Component::WeekdayName(NameForm::Long, ReadCase::Same),
        ),
        (
            "[weekday repr:short]",
            Component::WeekdayName(NameForm::Short, ReadCase::Same),
        ),
        (
            "[weekday repr:sunday one_indexed:false]",
            Component::WeekdayNumber(WeekStart::Sunday, WeekdayCount::FromZero),
        ),
        (
            "[weekday repr:monday]",
            Component::WeekdayNumber(WeekStart::Monday, WeekdayCount::FromOne),
        ),
        (
            "[week_number]",
            Component::WeekNumber(WeekRule::Iso, Padding::Zero),
        ),
        (
            "[week_number repr:monday]",
            Component::WeekNumber(WeekRule::Monday, Padding::Zero),
        ),
    ] {
        is_component(&rt, text, component);
    }
}

#[test]
fn components_of_times(rt: HostRuntime) {
    for (text, component) in [
        ("[hour]", Component::Hour(Padding::Zero)),
        (
            "[hour repr:12 padding:none]",
            Component::Hour12(Padding::Bare),
        ),
        ("[minute]", Component::Minute(Padding::Zero)),
        ("[period]", Component::Period(Case::Upper, ReadCase::Same)),
        (
            "[period case:lower]",
            Component::Period(Case::Lower, ReadCase::Same),
        ),
        ("[second]", Component::Second(Padding::Zero)),
        (
            "[subsecond]",
            Component::Subsecond(SubsecondDigits::OneOrMore),
        ),
        (
            "[subsecond digits:3]",
            Component::Subsecond(SubsecondDigits::Three),
        ),
        (
            "[subsecond digits:9]",
            Component::Subsecond(SubsecondDigits::Nine),
        ),
        (
            "[offset_hour]",
            Component::OffsetHour(Sign::Automatic, Padding::Zero),
        ),
        (
            "[offset_hour sign:mandatory]",
            Component::OffsetHour(Sign::Mandatory, Padding::Zero),
        ),
        ("[offset_minute]", Component::OffsetMinute(Padding::Zero)),
        ("[offset_second]", Component::OffsetSecond(Padding::Zero)),
        (
            "[unix_timestamp precision:millisecond]",
            Component::UnixTimestamp(UnixPrecision::Milliseconds, Sign::Automatic),
        ),
        ("[ignore count:12]", Component::Ignore(12)),
        ("[end]", Component::End),
    ] {
        is_component(&rt, text, component);
    }
}

// Ends the test unless the text is this component, and nothing else.
fn is_component(rt: &impl Abort, text: &str, component: Component) {
    let mut room = [Item::Byte(0); 2];
    match parse_description(DescriptionVersion::One, text.as_bytes(), &mut room) {
        Ok(count) => is(rt, count, 1),
        Err(refusal) => is(rt, refusal.place, 99),
    }
    is(rt, room[0], Item::Part(component));
    is(rt, room[1], Item::Byte(0));
}

#[test]
fn bytes_of_descriptions(rt: HostRuntime) {
    let (one, two) = (DescriptionVersion::One, DescriptionVersion::Two);
    for (version, text, bytes) in [
        (one, "a]", b"a]"),
        (one, "[[a", b"[a"),
        (one, "\\[[", b"\\["),
        (two, "a]", b"a]"),
        (two, "\\[\\]", b"[]"),
        (two, "\\\\a", b"\\a"),
    ] {
        let mut room = [Item::Byte(0); 2];
        match parse_description(version, text.as_bytes(), &mut room) {
            Ok(count) => is(&rt, count, 2),
            Err(refusal) => is(&rt, refusal.place, 99),
        }
        is(&rt, room[0], Item::Byte(bytes[0]));
        is(&rt, room[1], Item::Byte(bytes[1]));
    }
}

#[test]
fn texts_that_are_no_descriptions(rt: HostRuntime) {
    let (one, two) = (DescriptionVersion::One, DescriptionVersion::Two);
    for (version, text, place, fault) in [
        (one, "[", 0, DescriptionFault::NoEnd),
        (one, "a[year", 1, DescriptionFault::NoEnd),
        (one, "a[]", 1, DescriptionFault::NoName),
        (one, "[ ]", 0, DescriptionFault::NoName),
        (two, "[[year]]", 0, DescriptionFault::NoName),
        (one, "[ foo]", 2, DescriptionFault::UnknownComponent),
        (one, "[years]", 1, DescriptionFault::UnknownComponent),
        (one, "[hour 12]", 6, DescriptionFault::UnknownModifier),
        (
            one,
            "[hour sign:automatic]",
            6,
            DescriptionFault::UnknownModifier,
        ),
        (
            one,
            "[hour padding : zero]",
            6,
            DescriptionFault::UnknownModifier,
        ),
        (one, "[hour padding:]", 14, DescriptionFault::WrongValue),
        (one, "[hour repr:13]", 11, DescriptionFault::WrongValue),
        (one, "[ignore count:0]", 14, DescriptionFault::WrongValue),
        (
            one,
            "[ignore count:65536]",
            14,
            DescriptionFault::WrongValue,
        ),
        (one, "a[ignore]", 1, DescriptionFault::MissingModifier),
        (one, "[hour[minute]]", 5, DescriptionFault::NestedBracket),
        (two, "a\\b", 2, DescriptionFault::WrongEscape),
        (two, "a\\", 2, DescriptionFault::WrongEscape),
        (one, "abc[hour]", 8, DescriptionFault::NoRoom),
    ] {
        let mut room = [Item::Byte(0); 3];
        match parse_description(version, text.as_bytes(), &mut room) {
            Ok(count) => is(&rt, count, 99),
            Err(refusal) => {
                is(&rt, refusal.place, place);
                is(&rt, refusal.fault, fault);
            }
        }
    }
}
