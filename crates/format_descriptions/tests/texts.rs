//! Texts that descriptions write, as `time` 0.3.9 writes them, and Python's `strftime` where it has
//! the component.
use super::is;
use calendar_values::{Date, Month, Text, Time, UtcOffset};
use format_descriptions::{
    Case, Component, Item, NameForm, Padding, ReadCase, Sign, SubsecondDigits, YearBase, YearRange,
    format, format_date_time,
};
use offset_times::OffsetDateTime;
use std::process::Abort;
use std::test::Fail;
use utc_times::UtcDateTime;

// Ends the test unless the text is this one.
fn is_text(rt: &impl Abort, shown: Option<Text>, wanted: &str) {
    match shown {
        Some(text) => is(rt, text.as_str(), wanted),
        None => is(rt, "no text", wanted),
    }
}

#[test]
fn components_of_a_moment(rt: HostRuntime) -> Result<(), Fail> {
    let date = Date::from_calendar_date(2003, Month::July, 1)?;
    let time = Time::from_hms_nano(0, 5, 37, 120_000_000)?;
    let offset = UtcOffset::from_hms(-2, -30, -9)?;
    for (component, wanted) in [
        (
            Component::Year(
                YearBase::Calendar,
                Sign::Automatic,
                Padding::Zero,
                YearRange::Extended,
            ),
            "2003",
        ),
        (
            Component::Year(
                YearBase::Calendar,
                Sign::Mandatory,
                Padding::Zero,
                YearRange::Extended,
            ),
            "+2003",
        ),
        (
            Component::YearLastTwo(YearBase::Calendar, Padding::Zero),
            "03",
        ),
        (
            Component::YearLastTwo(YearBase::Calendar, Padding::Bare),
            "3",
        ),
        (Component::Month(Padding::Zero), "07"),
        (Component::Month(Padding::Space), " 7"),
        (Component::Month(Padding::Bare), "7"),
        (Component::MonthName(NameForm::Long, ReadCase::Same), "July"),
        (Component::MonthName(NameForm::Short, ReadCase::Same), "Jul"),
        (Component::Day(Padding::Zero), "01"),
        (Component::Day(Padding::Space), " 1"),
        (Component::Ordinal(Padding::Zero), "182"),
        (
            Component::WeekdayName(NameForm::Long, ReadCase::Same),
            "Tuesday",
        ),
        (
            Component::WeekdayName(NameForm::Short, ReadCase::Same),
            "Tue",
        ),
        (Component::Hour(Padding::Zero), "00"),
        (Component::Hour(Padding::Bare), "0"),
        (Component::Hour12(Padding::Zero), "12"),
        (Component::Period(Case::Upper, ReadCase::Same), "AM"),
        (Component::Period(Case::Lower, ReadCase::Same), "am"),
        (Component::Minute(Padding::Space), " 5"),
        (Component::Second(Padding::Zero), "37"),
        (Component::Subsecond(SubsecondDigits::OneOrMore), "12"),
        (Component::Subsecond(SubsecondDigits::One), "1"),
        (Component::Subsecond(SubsecondDigits::Four), "1200"),
        (Component::Subsecond(SubsecondDigits::Nine), "120000000"),
        (Component::OffsetHour(Sign::Automatic, Padding::Zero), "-02"),
        (Component::OffsetHour(Sign::Mandatory, Padding::Bare), "-2"),
        (Component::OffsetMinute(Padding::Zero), "30"),
        (Component::OffsetSecond(Padding::Space), " 9"),
    ] {
        is_text(
            &rt,
            format(&[Item::Part(component)], date, time, offset),
            wanted,
        );
    }
    Ok(())
}

#[test]
fn years_with_their_signs(rt: HostRuntime) -> Result<(), Fail> {
    for (year, automatic, mandatory) in [
        (0, "0000", "+0000"),
        (-7, "-0007", "-0007"),
        (9_999, "9999", "+9999"),
        (12_024, "+12024", "+12024"),
        (-12_024, "-12024", "-12024"),
        (999_999, "+999999", "+999999"),
    ] {
        let date = Date::from_ordinal_date(year, 1)?;
        for (sign, wanted) in [(Sign::Automatic, automatic), (Sign::Mandatory, mandatory)] {
            let items = [Item::Part(Component::Year(
                YearBase::Calendar,
                sign,
                Padding::Zero,
                YearRange::Extended,
            ))];
            is_text(
                &rt,
                format(&items, date, Time::MIDNIGHT, UtcOffset::UTC),
                wanted,
            );
        }
    }
    Ok(())
}

#[test]
fn hours_of_two_clocks(rt: HostRuntime) -> Result<(), Fail> {
    let items = [
        Item::Part(Component::Hour(Padding::Space)),
        Item::Byte(b'='),
        Item::Part(Component::Hour12(Padding::Bare)),
        Item::Part(Component::Period(Case::Lower, ReadCase::Same)),
    ];
    for (hour, wanted) in [
        (0, " 0=12am"),
        (1, " 1=1am"),
        (11, "11=11am"),
        (12, "12=12pm"),
        (13, "13=1pm"),
        (23, "23=11pm"),
    ] {
        let time = Time::from_hms(hour, 0, 0)?;
        is_text(&rt, format(&items, Date::MIN, time, UtcOffset::UTC), wanted);
    }
    Ok(())
}

#[test]
fn a_date_time_as_mail_has_it(rt: HostRuntime) -> Result<(), Fail> {
    let items = [
        Item::Part(Component::WeekdayName(NameForm::Short, ReadCase::Same)),
        Item::Byte(b','),
        Item::Byte(b' '),
        Item::Part(Component::Day(Padding::Zero)),
        Item::Byte(b' '),
        Item::Part(Component::MonthName(NameForm::Short, ReadCase::Same)),
        Item::Byte(b' '),
        Item::Part(Component::Year(
            YearBase::Calendar,
            Sign::Automatic,
            Padding::Zero,
            YearRange::Extended,
        )),
        Item::Byte(b' '),
        Item::Part(Component::Hour(Padding::Zero)),
        Item::Byte(b':'),
        Item::Part(Component::Minute(Padding::Zero)),
        Item::Byte(b':'),
        Item::Part(Component::Second(Padding::Zero)),
        Item::Byte(b' '),
        Item::Part(Component::OffsetHour(Sign::Mandatory, Padding::Zero)),
        Item::Part(Component::OffsetMinute(Padding::Zero)),
    ];
    for (second, wanted) in [
        (0, "Thu, 01 Jan 1970 00:00:00 +0000"),
        (482_196_050, "Fri, 12 Apr 1985 23:20:50 +0000"),
        (1_709_210_096, "Thu, 29 Feb 2024 12:34:56 +0000"),
    ] {
        let at = OffsetDateTime::from(UtcDateTime::from_unix_timestamp(second)?);
        is_text(&rt, format_date_time(&items, at), wanted);
    }
    Ok(())
}

#[test]
fn texts_that_are_not_written(rt: HostRuntime) {
    let (date, time) = (Date::MIN, Time::MIDNIGHT);
    let long = [Item::Byte(b'-'); 65];
    is_text(&rt, format(&long, date, time, UtcOffset::UTC), "no text");
    is_text(
        &rt,
        format(&long[1..], date, time, UtcOffset::UTC),
        "----------------------------------------------------------------",
    );
    is_text(
        &rt,
        format(&[Item::Byte(128)], date, time, UtcOffset::UTC),
        "no text",
    );
    is_text(&rt, format(&[], date, time, UtcOffset::UTC), "");
}
