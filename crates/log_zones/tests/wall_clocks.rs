//! Wall clocks of Berlin, whose instants are those of Python's zoneinfo.
use super::is;
use calendar_values::Month;
use log_zones::laws::{clocks_show_it, earliest_holds, skipped_is_never_shown};
use log_zones::{NoInstant, Showing, earliest_second, instant_in, showing_in};
use std::test::Fail;
use utc_times::UtcDateTime;
use zones::{Cycle, Moment, OwnedZone, RuleDay, TimeType, Transition, Zone};

const STANDARD: TimeType = TimeType {
    offset: 3_600,
    is_daylight: false,
    designation: 0,
};

const SUMMER: TimeType = TimeType {
    offset: 7_200,
    is_daylight: true,
    designation: 1,
};

// Standard time up to the spring of 2024, and summer time from then on.
const SPRING: Transition = Transition {
    second: 1_711_846_800,
    before: STANDARD,
    after: SUMMER,
};

// The rule `CET-1CEST,M3.5.0,M10.5.0/3`.
fn rule() -> Cycle {
    Cycle {
        first: Moment {
            day: RuleDay::Weekday(Month::March, 5, 0),
            time: 7_200,
        },
        second: Moment {
            day: RuleDay::Weekday(Month::October, 5, 0),
            time: 10_800,
        },
        after_first: SUMMER,
        after_second: STANDARD,
    }
}

#[test]
fn seconds_of_a_table_and_a_rule(rt: HostRuntime) -> Result<(), Fail> {
    let Ok(zone) = Zone::new(STANDARD, &[SPRING], Some(rule())) else {
        return Err(Fail::from("no zone"));
    };
    let zone = OwnedZone::new(rt.alloc(), &zone)?;
    let rows = [
        (1_711_850_399, Some(1_711_846_799)),
        (1_711_852_200, None),
        (1_711_854_000, Some(1_711_846_800)),
        (1_719_835_200, Some(1_719_828_000)),
        (1_729_994_399, Some(1_729_987_199)),
        (1_729_996_200, Some(1_729_989_000)),
        (1_729_998_000, Some(1_729_994_400)),
        (4_109_884_200, None),
        (4_128_633_000, Some(4_128_625_800)),
    ];
    for (wall, second) in rows {
        is(&rt, earliest_second(&zone, wall), second);
    }
    Ok(())
}

#[test]
fn instants_to_the_nanosecond(rt: HostRuntime) -> Result<(), Fail> {
    let Some(zone) = Zone::of_rule(rule()) else {
        return Err(Fail::from("no zone"));
    };
    let zone = OwnedZone::new(rt.alloc(), &zone)?;
    let twice = UtcDateTime::from_unix_timestamp_nanos(1_729_996_200_000_000_007)?;
    let first = UtcDateTime::from_unix_timestamp_nanos(1_729_989_000_000_000_007)?;
    is(&rt, instant_in(&zone, twice), Ok(first));
    let skipped = UtcDateTime::from_unix_timestamp(1_711_852_200)?;
    is(&rt, instant_in(&zone, skipped), Err(NoInstant::Skipped));
    is(
        &rt,
        instant_in(&zone, UtcDateTime::MIN),
        Err(NoInstant::OutOfRange),
    );
    earliest_holds();
    clocks_show_it();
    skipped_is_never_shown();
    Ok(())
}

#[test]
fn wall_clocks_shown_once_twice_and_never(rt: HostRuntime) -> Result<(), Fail> {
    let Some(zone) = Zone::of_rule(rule()) else {
        return Err(Fail::from("no zone"));
    };
    let zone = OwnedZone::new(rt.alloc(), &zone)?;
    let skipped = Showing::Never(1_711_850_400, 1_711_854_000);
    let rows = [
        (1_711_850_399, Showing::Once),
        (1_711_850_400, skipped),
        (1_711_853_999, skipped),
        (1_711_854_000, Showing::Once),
        (1_729_994_399, Showing::Once),
        (1_729_994_400, Showing::Twice),
        (1_729_997_999, Showing::Twice),
        (1_729_998_000, Showing::Once),
    ];
    for (second, showing) in rows {
        let wall = UtcDateTime::from_unix_timestamp(second)?;
        is(&rt, showing_in(&zone, wall), showing);
    }
    Ok(())
}
