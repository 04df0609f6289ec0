//! Days in zones, by Python's `zoneinfo`.
use super::is;
use super::zones::{APIA, BERLIN, CASABLANCA, LORD_HOWE, SAO_PAULO, TROLL, begin, parts, zone};
use calendar_values::{Date, Month, SignedDuration};
use std::process::Abort;
use std::test::Fail;
use zoned_times::ZoneDays;
use zones::Transition;

// A month and a day, the Unix second and the offset at which it starts, and its seconds.
type Row = (Month, u8, i64, i32, i64);

// Compares days of a year in the zone of these transitions.
fn are_days(
    rt: &impl Abort,
    transitions: &[Transition],
    year: i32,
    rows: &[Row],
) -> Result<(), Fail> {
    let zone = zone(transitions)?;
    for row in rows {
        let (month, day, second, offset, seconds) = *row;
        let date = Date::from_calendar_date(year, month, day)?;
        let start = date.start_of_day_in_zone(&zone).map(parts);
        is(rt, start, begin(second, offset));
        let length = date.length_of_day_in_zone(&zone);
        is(rt, length, SignedDuration::seconds(seconds));
    }
    Ok(())
}

#[test]
fn days_of_berlin(rt: HostRuntime) -> Result<(), Fail> {
    are_days(
        &rt,
        &BERLIN,
        2024,
        &[
            (Month::March, 31, 1_711_839_600, 3_600, 82_800),
            (Month::October, 27, 1_729_980_000, 7_200, 90_000),
            (Month::July, 1, 1_719_784_800, 7_200, 86_400),
        ],
    )
}

#[test]
fn days_of_sao_paulo(rt: HostRuntime) -> Result<(), Fail> {
    are_days(
        &rt,
        &SAO_PAULO,
        2018,
        &[
            (Month::February, 17, 1_518_832_800, -7_200, 90_000),
            (Month::November, 4, 1_541_300_400, -7_200, 82_800),
        ],
    )
}

#[test]
fn days_of_apia(rt: HostRuntime) -> Result<(), Fail> {
    are_days(
        &rt,
        &APIA,
        2011,
        &[
            (Month::December, 29, 1_325_152_800, -36_000, 86_400),
            (Month::December, 30, 1_325_239_200, 50_400, 0),
            (Month::December, 31, 1_325_239_200, 50_400, 86_400),
        ],
    )
}

#[test]
fn days_of_casablanca(rt: HostRuntime) -> Result<(), Fail> {
    are_days(
        &rt,
        &CASABLANCA,
        2024,
        &[(Month::March, 10, 1_710_025_200, 3_600, 90_000)],
    )
}

#[test]
fn days_of_troll(rt: HostRuntime) -> Result<(), Fail> {
    are_days(
        &rt,
        &TROLL,
        2024,
        &[(Month::March, 31, 1_711_843_200, 0, 79_200)],
    )
}

#[test]
fn days_of_lord_howe(rt: HostRuntime) -> Result<(), Fail> {
    are_days(
        &rt,
        &LORD_HOWE,
        2024,
        &[
            (Month::April, 7, 1_712_408_400, 39_600, 88_200),
            (Month::October, 6, 1_728_135_000, 37_800, 84_600),
        ],
    )
}
