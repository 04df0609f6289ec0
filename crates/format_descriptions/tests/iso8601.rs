//! Forms of ISO 8601. Fractions of the hour and of the minute: the numbers are by hand (a
//! billionth of an hour is 3,600 nanoseconds), the dates by `isocalendar` and `strftime` of Python.
use super::is;
use calendar_values::{Date, Month, Time, UtcOffset};
use format_descriptions::{
    Component, Iso8601, Iso8601Date, Iso8601Offset, Iso8601Time, Parts, SubsecondDigits, YearBase,
    format_component, format_iso8601, parse_component, parse_iso8601, parse_iso8601_date,
    parse_iso8601_time,
};
use offset_times::OffsetDateTime;
use std::process::Abort;
use std::test::Fail;

#[test]
fn fractions_of_the_last_part(rt: HostRuntime) -> Result<(), Fail> {
    for (text, minute, second, nanosecond) in [
        ("12.5", 30, 0, 0),
        ("12,25Z", 15, 0, 0),
        ("12.123456789", 7, 24, 444_440_400),
        ("12.1234567899", 7, 24, 444_440_400),
        ("12:30.25", 30, 15, 0),
        ("1230,5+05:30", 30, 30, 0),
        ("12:30.000000001", 30, 0, 60),
        ("12:30:45.25", 30, 45, 250_000_000),
        ("123045,25-03", 30, 45, 250_000_000),
        ("12", 0, 0, 0),
    ] {
        match parse_iso8601_time(text.as_bytes()) {
            Ok(parts) => {
                let time = Time::from_hms_nano(12, minute, second, nanosecond)?;
                is(&rt, parts.time(), Ok(time));
            }
            Err(place) => is(&rt, place, 99),
        }
    }
    Ok(())
}

#[test]
fn times_that_are_not_of_iso_8601(rt: HostRuntime) {
    for (text, place) in [
        ("T12", 0),
        ("12.", 2),
        ("12:30.", 5),
        ("12:30.5.5", 7),
        ("12.5:30", 4),
        ("", 0),
    ] {
        let read = parse_iso8601_time(text.as_bytes()).err();
        is(&rt, read, Some(place));
    }
}

#[test]
fn dates_of_iso_8601(rt: HostRuntime) -> Result<(), Fail> {
    let date = Date::from_calendar_date(2024, Month::February, 29)?;
    for text in [
        "2024-02-29",
        "20240229",
        "2024-060",
        "2024060",
        "2024-W09-4",
        "2024W094",
    ] {
        match parse_iso8601_date(text.as_bytes()) {
            Ok(parts) => is(&rt, parts.date(), Ok(date)),
            Err(place) => is(&rt, place, 99),
        }
    }
    is(&rt, parse_iso8601_date(b"2024-02-29T12").err(), Some(10));
    is(&rt, parse_iso8601_date(b"2024-02").err(), Some(7));
    is(&rt, parse_iso8601(b"2024-02-29T12.5Z").is_ok(), true);
    Ok(())
}

// 2024-02-29 12:30:45.5 +05:30.
fn february() -> Result<OffsetDateTime, Fail> {
    let date = Date::from_calendar_date(2024, Month::February, 29)?;
    let time = Time::from_hms_milli(12, 30, 45, 500)?;
    let offset = UtcOffset::from_hms(5, 30, 0)?;
    Ok(OffsetDateTime::new_in_offset(date, time, offset))
}

fn has_text(rt: &impl Abort, form: Iso8601, at: OffsetDateTime, wanted: &str) {
    match format_iso8601(form, at) {
        Some(text) => is(rt, text.as_str(), wanted),
        None => is(rt, "none", wanted),
    }
}

#[test]
fn forms_of_iso_8601(rt: HostRuntime) -> Result<(), Fail> {
    let at = february()?;
    let whole = Iso8601::DEFAULT;
    has_text(&rt, whole, at, "2024-02-29T12:30:45.500000000+05:30");
    let second = Iso8601Time::Second(None);
    let basic = Iso8601 {
        time: Some(second),
        has_separators: false,
        ..whole
    };
    has_text(&rt, basic, at, "20240229T123045+0530");
    let date = Iso8601 {
        time: None,
        offset: None,
        ..whole
    };
    has_text(&rt, date, at, "2024-02-29");
    let week = Iso8601 {
        date: Some(Iso8601Date::Week),
        ..date
    };
    has_text(&rt, week, at, "2024-W09-4");
    let ordinal = Iso8601 {
        date: Some(Iso8601Date::Ordinal),
        has_six_digit_years: true,
        ..date
    };
    has_text(&rt, ordinal, at, "+002024-060");
    let hour = Iso8601 {
        date: None,
        time: Some(Iso8601Time::Hour(Some(SubsecondDigits::Nine))),
        has_time_mark: false,
        ..date
    };
    has_text(&rt, hour, at, "12.512638888");
    let minute = Iso8601 {
        time: Some(Iso8601Time::Minute(Some(SubsecondDigits::One))),
        has_time_mark: true,
        ..hour
    };
    has_text(&rt, minute, at, "T12:30.7");
    let zulu = Iso8601 {
        time: Some(Iso8601Time::Hour(None)),
        offset: Some(Iso8601Offset::Hour),
        ..whole
    };
    has_text(&rt, zulu, OffsetDateTime::UNIX_EPOCH, "1970-01-01T00Z");
    has_text(&rt, zulu, at, "none");
    Ok(())
}

#[test]
fn date_times_without_a_form(rt: HostRuntime) -> Result<(), Fail> {
    let first = Date::from_calendar_date(0, Month::January, 1)?;
    let before = Date::from_calendar_date(-1, Month::December, 31)?;
    let after = Date::from_calendar_date(10_000, Month::January, 1)?;
    let east = UtcOffset::from_hms(0, 0, 1)?;
    let date = Iso8601 {
        time: None,
        offset: None,
        ..Iso8601::DEFAULT
    };
    let week = Iso8601 {
        date: Some(Iso8601Date::Week),
        ..date
    };
    let six = Iso8601 {
        has_six_digit_years: true,
        ..date
    };
    let offset = Iso8601 {
        date: None,
        offset: Some(Iso8601Offset::Minute),
        ..date
    };
    for (day, form, wanted) in [
        (first, date, "0000-01-01"),
        (first, week, "none"),
        (before, date, "none"),
        (before, six, "-000001-12-31"),
        (after, date, "none"),
        (after, week, "9999-W52-6"),
        (after, six, "+010000-01-01"),
        (first, offset, "none"),
    ] {
        let at = OffsetDateTime::new_in_offset(day, Time::MIDNIGHT, east);
        has_text(&rt, form, at, wanted);
    }
    Ok(())
}

#[test]
fn components_of_iso_8601(rt: HostRuntime) -> Result<(), Fail> {
    let at = february()?;
    let (date, time, offset) = at.parts();
    for (component, wanted) in [
        (Component::YearSix(YearBase::Calendar), "+002024"),
        (Component::HourFraction(SubsecondDigits::Two), "51"),
        (
            Component::MinuteFraction(SubsecondDigits::OneOrMore),
            "758333333",
        ),
    ] {
        match format_component(component, date, time, offset) {
            Some(text) => is(&rt, text.as_str(), wanted),
            None => is(&rt, "no text", wanted),
        }
    }
    let six = Component::YearSix(YearBase::IsoWeek);
    let read = parse_component(six, b"-0099991", Parts::none());
    is(
        &rt,
        read.map(|it| (it.0.iso_year, it.1.len())),
        Some((Some(-9_999), 1)),
    );
    is(
        &rt,
        parse_component(six, b"009999", Parts::none()).is_none(),
        true,
    );
    is(
        &rt,
        parse_component(six, b"+00999", Parts::none()).is_none(),
        true,
    );
    let hour = Component::HourFraction(SubsecondDigits::Two);
    let minute = Component::MinuteFraction(SubsecondDigits::Two);
    let read = parse_component(hour, b"50", Parts::none());
    is(
        &rt,
        read.map(|it| (it.0.minute, it.0.second)),
        Some((Some(30), Some(0))),
    );
    if let Some((parts, _)) = read {
        is(&rt, parse_component(minute, b"00", parts).is_some(), true);
        is(&rt, parse_component(minute, b"01", parts).is_none(), true);
        is(&rt, parse_component(hour, b"51", parts).is_none(), true);
    }
    Ok(())
}
