//! Weeks, the numbers of the days of the week, and years by their digits: the rows are those of
//! Python's `isocalendar` and `strftime`.
use super::is;
use calendar_values::{Date, Month, Time, UtcOffset};
use format_descriptions::{
    Component, Field, Item, Padding, Parts, Sign, ValueRefusal, WeekRule, WeekStart, WeekdayCount,
    YearBase, YearRange, format, parse,
};
use std::test::Fail;

const ISO_YEAR: Component = Component::Year(
    YearBase::IsoWeek,
    Sign::Automatic,
    Padding::Zero,
    YearRange::Standard,
);

const YEAR: Component = Component::Year(
    YearBase::Calendar,
    Sign::Automatic,
    Padding::Zero,
    YearRange::Standard,
);

// An ISO week date.
const ISO: [Item; 6] = [
    Item::Part(ISO_YEAR),
    Item::Byte(b'-'),
    Item::Byte(b'W'),
    Item::Part(Component::WeekNumber(WeekRule::Iso, Padding::Zero)),
    Item::Byte(b'-'),
    Item::Part(Component::WeekdayNumber(WeekStart::Monday, WeekdayCount::FromOne)),
];

// A week by Sundays, with the days from Sunday on.
const SUNDAY: [Item; 3] = [
    Item::Part(Component::WeekNumber(WeekRule::Sunday, Padding::Zero)),
    Item::Byte(b' '),
    Item::Part(Component::WeekdayNumber(WeekStart::Sunday, WeekdayCount::FromZero)),
];

// A week by Mondays, with the days from Monday on.
const MONDAY: [Item; 3] = [
    Item::Part(Component::WeekNumber(WeekRule::Monday, Padding::Zero)),
    Item::Byte(b' '),
    Item::Part(Component::WeekdayNumber(WeekStart::Monday, WeekdayCount::FromZero)),
];

// The parts of a text, none where it cannot be read.
fn read(items: &[Item], text: &str) -> Option<Parts> {
    parse(items, text.as_bytes()).ok()
}

// Whether a date is written so.
fn is_written(items: &[Item], date: Date, wanted: &str) -> bool {
    match format(items, date, Time::MIDNIGHT, UtcOffset::UTC) {
        Some(text) => text.as_bytes() == wanted.as_bytes(),
        None => false,
    }
}

#[test]
fn weeks_of_dates(rt: HostRuntime) -> Result<(), Fail> {
    for (year, month, day, iso, sunday, monday) in [
        (2024, Month::February, 29, "2024-W09-4", "08 4", "09 3"),
        (2023, Month::January, 1, "2022-W52-7", "01 0", "00 6"),
        (2021, Month::January, 3, "2020-W53-7", "01 0", "00 6"),
        (2020, Month::December, 31, "2020-W53-4", "52 4", "52 3"),
        (2018, Month::December, 31, "2019-W01-1", "52 1", "53 0"),
        (2016, Month::January, 2, "2015-W53-6", "00 6", "00 5"),
        (2000, Month::January, 1, "1999-W52-6", "00 6", "00 5"),
        (1, Month::January, 1, "0001-W01-1", "00 1", "01 0"),
        (9999, Month::December, 31, "9999-W52-5", "52 5", "52 4"),
        (2012, Month::January, 1, "2011-W52-7", "01 0", "00 6"),
    ] {
        let date = Date::from_calendar_date(year, month, day)?;
        is(&rt, is_written(&ISO, date, iso), true);
        is(&rt, is_written(&SUNDAY, date, sunday), true);
        is(&rt, is_written(&MONDAY, date, monday), true);
        if let Some(parts) = read(&ISO, iso) {
            is(&rt, parts.date().ok(), Some(date));
        }
        for (items, text) in [(&SUNDAY, sunday), (&MONDAY, monday)] {
            match read(items, text) {
                Some(parts) => {
                    let parts = Parts {
                        year: Some(year),
                        ..parts
                    };
                    is(&rt, parts.date().ok(), Some(date));
                }
                None => is(&rt, text, ""),
            }
        }
    }
    Ok(())
}

#[test]
fn weeks_that_are_no_date(rt: HostRuntime) {
    for (text, refusal) in [
        ("2023-W53-1", ValueRefusal::Wrong(Field::IsoWeek)),
        ("2023-W00-1", ValueRefusal::Wrong(Field::IsoWeek)),
        ("2024-W99-1", ValueRefusal::Wrong(Field::IsoWeek)),
    ] {
        match parse(&ISO, text.as_bytes()) {
            Ok(parts) => is(&rt, parts.date().err(), Some(refusal)),
            Err(place) => is(&rt, place, 99),
        }
    }
    for (text, place) in [("2024-W09-0", 9), ("2024-W09-8", 9), ("2024-W9-1", 6)] {
        is(&rt, parse(&ISO, text.as_bytes()).err(), Some(place));
    }
    match parse(&[ISO[3], ISO[4], ISO[5]], b"09-4") {
        Ok(parts) => {
            is(
                &rt,
                parts.date().err(),
                Some(ValueRefusal::Missing(Field::Year)),
            );
            let parts = Parts {
                iso_year: Some(2024),
                month: Some(3),
                ..parts
            };
            is(
                &rt,
                parts.date().err(),
                Some(ValueRefusal::Wrong(Field::Month)),
            );
        }
        Err(place) => is(&rt, place, 99),
    }
}

#[test]
fn years_by_their_digits(rt: HostRuntime) -> Result<(), Fail> {
    let sign = Sign::Automatic;
    let century = Component::YearCentury(
        YearBase::Calendar,
        sign,
        Padding::Zero,
        YearRange::Extended,
    );
    let last_two = Component::YearLastTwo(YearBase::Calendar, Padding::Zero);
    let digits = [Item::Part(century), Item::Byte(b'/'), Item::Part(last_two)];
    for (year, wanted) in [
        (2024, "20/24"),
        (44, "00/44"),
        (-44, "-00/44"),
        (-1234, "-12/34"),
        (12_345, "+123/45"),
    ] {
        let date = Date::from_ordinal_date(year, 60)?;
        is(&rt, is_written(&digits, date, wanted), true);
        match read(&digits, wanted) {
            Some(parts) => {
                let parts = Parts {
                    ordinal: Some(60),
                    ..parts
                };
                is(&rt, parts.date().ok(), Some(date));
            }
            None => is(&rt, wanted, ""),
        }
    }
    Ok(())
}

#[test]
fn years_with_padding(rt: HostRuntime) -> Result<(), Fail> {
    for (year, space, none) in [
        (7, "   7", "7"),
        (44, "  44", "44"),
        (753, " 753", "753"),
        (2024, "2024", "2024"),
        (-7, "-   7", "-7"),
        (12_024, "+12024", "+12024"),
    ] {
        let date = Date::from_ordinal_date(year, 1)?;
        for (padding, wanted) in [(Padding::Space, space), (Padding::Bare, none)] {
            let items = [Item::Part(Component::Year(
                YearBase::Calendar,
                Sign::Automatic,
                padding,
                YearRange::Extended,
            ))];
            is(&rt, is_written(&items, date, wanted), true);
            match read(&items, wanted) {
                Some(parts) => is(&rt, parts.year, Some(year)),
                None => is(&rt, wanted, ""),
            }
        }
    }
    for (text, year) in [
        ("+12024", None),
        ("+2024", Some(2024)),
        ("2024", Some(2024)),
    ] {
        let parts = read(&[Item::Part(YEAR)], text);
        let shown = match parts {
            Some(parts) => parts.year,
            None => None,
        };
        is(&rt, shown, year);
    }
    Ok(())
}
