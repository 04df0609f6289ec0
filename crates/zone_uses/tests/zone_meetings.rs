//! Meetings and runs in Berlin in 2024, by Python's `zoneinfo`.
use super::is;
use calendar_values::{Date, Month, SignedDuration, Time};
use offset_times::OffsetDateTime;
use plain_times::PlainDateTime;
use std::test::Fail;
use zone_uses::zone_meetings::{at, between, meeting, meeting_after, run_after};
use zones::{TimeType, Transition, Zone};

const WINTER: TimeType = TimeType {
    offset: 3_600,
    is_daylight: false,
    designation: 0,
};

const SUMMER: TimeType = TimeType {
    offset: 7_200,
    is_daylight: true,
    designation: 1,
};

pub(super) const BERLIN: [Transition; 2] = [
    Transition {
        second: 1_711_846_800,
        before: WINTER,
        after: SUMMER,
    },
    Transition {
        second: 1_729_990_800,
        before: SUMMER,
        after: WINTER,
    },
];

pub(super) fn berlin<'a>(rows: &'a [Transition]) -> Result<Zone<'a>, Fail> {
    match Zone::new(WINTER, rows, None) {
        Ok(zone) => Ok(zone),
        Err(_) => Err(Fail::from("no zone")),
    }
}

pub(super) fn day(month: Month, day: u8) -> Result<Date, Fail> {
    Ok(Date::from_calendar_date(2024, month, day)?)
}

pub(super) fn wall(date: Date, hour: u8, minute: u8) -> Result<PlainDateTime, Fail> {
    Ok(PlainDateTime::new(date, Time::from_hms(hour, minute, 0)?))
}

// The Unix second and the offset of a date-time.
pub(super) fn parts(at: OffsetDateTime) -> (i64, i32) {
    (at.unix_timestamp(), at.offset().whole_seconds())
}

#[test]
fn each_monday_at_nine(rt: HostRuntime) -> Result<(), Fail> {
    let zone = berlin(&BERLIN)?;
    let monday = day(Month::March, 25)?;
    let first = meeting(monday, &zone).map(parts);
    is(&rt, first, Some((1_711_353_600, 3_600)));
    let next = meeting_after(monday, &zone).map(parts);
    is(&rt, next, Some((1_711_954_800, 7_200)));
    is(&rt, meeting_after(Date::MAX, &zone).is_none(), true);
    Ok(())
}

#[test]
fn runs_over_a_change_of_time(rt: HostRuntime) -> Result<(), Fail> {
    let zone = berlin(&BERLIN)?;
    for (month, date, second, offset) in [
        (Month::March, 30, 1_711_848_600, 7_200),
        (Month::October, 26, 1_729_989_000, 7_200),
        (Month::October, 27, 1_730_079_000, 3_600),
    ] {
        let Some(run) = at(wall(day(month, date)?, 2, 30)?, &zone) else {
            return Err(Fail::from("no run"));
        };
        is(
            &rt,
            run_after(run, &zone).map(parts),
            Some((second, offset)),
        );
    }
    Ok(())
}

#[test]
fn hours_between_wall_clocks(rt: HostRuntime) -> Result<(), Fail> {
    let zone = berlin(&BERLIN)?;
    for (month, date, hours) in [
        (Month::March, 31, 23),
        (Month::October, 27, 25),
        (Month::July, 1, 24),
    ] {
        let begin = day(month, date)?;
        let end = begin.next_day().ok_or("no day")?;
        let shown = between(wall(begin, 0, 0)?, wall(end, 0, 0)?, &zone);
        is(&rt, shown, Some(SignedDuration::hours(hours)));
    }
    Ok(())
}
