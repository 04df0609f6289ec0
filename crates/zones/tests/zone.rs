//! Zones with a rule, with a table, and with one offset.
use super::is;
use calendar_values::Month;
use std::test::Fail;
use zones::{
    Cycle, LocalInstants, Moment, OwnedZone, RuleDay, TimeType, Transition, Zone, ZoneError,
};

pub(super) const STANDARD: TimeType = TimeType {
    offset: 3_600,
    is_daylight: false,
    designation: 0,
};

pub(super) const SUMMER: TimeType = TimeType {
    offset: 7_200,
    is_daylight: true,
    designation: 1,
};

// The rule `CET-1CEST,M3.5.0,M10.5.0/3`.
pub(super) fn rule() -> Cycle {
    Cycle {
        first: Moment {
            day: RuleDay::Weekday(Month::March, 5, 0),
            time: 7_200,
        },
        second: Moment {
            day: RuleDay::Weekday(Month::October, 5, 0),
            time: 10_800,
        },
        after_first: SUMMER,
        after_second: STANDARD,
    }
}

// Standard time up to the spring of 2024, and summer time from then on.
pub(super) const SPRING: Transition = Transition {
    second: 1_711_846_800,
    before: STANDARD,
    after: SUMMER,
};

#[test]
fn offsets_by_the_rule(rt: HostRuntime) -> Result<(), Fail> {
    let Some(zone) = Zone::of_rule(rule()) else {
        return Err(Fail::from("no zone"));
    };
    is(
        &rt,
        (zone.offset_at(1_711_846_799), zone.offset_at(1_711_846_800)),
        (3_600, 7_200),
    );
    is(
        &rt,
        (zone.offset_at(1_729_990_799), zone.offset_at(1_729_990_800)),
        (7_200, 3_600),
    );
    is(
        &rt,
        (zone.offset_at(4_109_878_799), zone.offset_at(4_109_878_800)),
        (3_600, 7_200),
    );
    is(
        &rt,
        (zone.type_at(0).is_daylight, zone.type_at(0).designation),
        (false, 0),
    );
    Ok(())
}

// The earlier and the later second of a wall clock, and the number of seconds at which clocks show it.
fn both(found: LocalInstants) -> (i64, i64, u8) {
    match found {
        LocalInstants::Single(second) => (second, second, 1),
        LocalInstants::Gap(earlier, later, _) => (earlier, later, 0),
        LocalInstants::Fold(earlier, later) => (earlier, later, 2),
    }
}

#[test]
fn seconds_of_wall_clocks(rt: HostRuntime) -> Result<(), Fail> {
    let Ok(zone) = Zone::new(STANDARD, &[SPRING], Some(rule())) else {
        return Err(Fail::from("no zone"));
    };
    is(
        &rt,
        both(zone.instants_of(1_719_835_200)),
        (1_719_828_000, 1_719_828_000, 1),
    );
    is(
        &rt,
        both(zone.instants_of(1_711_852_200)),
        (1_711_845_000, 1_711_848_600, 0),
    );
    is(
        &rt,
        both(zone.instants_of(1_729_996_200)),
        (1_729_989_000, 1_729_992_600, 2),
    );
    is(&rt, zone.first_at(1_711_852_200), 1_711_846_800);
    Ok(())
}

#[test]
fn zones_that_keep_their_transitions(rt: HostRuntime) -> Result<(), Fail> {
    let Ok(zone) = Zone::new(STANDARD, &[SPRING], Some(rule())) else {
        return Err(Fail::from("no zone"));
    };
    let owned = OwnedZone::new(rt.alloc(), &zone)?;
    let kept = owned.zone();
    is(
        &rt,
        (kept.offset_at(1_711_846_799), kept.offset_at(1_711_846_800)),
        (3_600, 7_200),
    );
    is(
        &rt,
        (kept.offset_at(1_729_990_800), kept.offset_at(4_109_878_800)),
        (3_600, 7_200),
    );
    Ok(())
}

#[test]
fn transitions_next_to_a_second(rt: HostRuntime) -> Result<(), Fail> {
    let Ok(zone) = Zone::new(STANDARD, &[SPRING], Some(rule())) else {
        return Err(Fail::from("no zone"));
    };
    let next = zone.next_transition(1_711_846_799).map(|row| row.second);
    let autumn = zone.next_transition(1_711_846_800).map(|row| row.second);
    is(
        &rt,
        (next, autumn),
        (Some(1_711_846_800), Some(1_729_990_800)),
    );
    let before = zone
        .previous_transition(1_729_990_800)
        .map(|row| row.second);
    let none = zone
        .previous_transition(1_711_846_800)
        .map(|row| row.second);
    is(&rt, (before, none), (Some(1_711_846_800), None));
    Ok(())
}

#[test]
fn transitions_of_two_years(rt: HostRuntime) -> Result<(), Fail> {
    let Some(zone) = Zone::of_rule(rule()) else {
        return Err(Fail::from("no zone"));
    };
    let mut room = [SPRING; 5];
    let count = zone.transitions_between(1_704_067_200, 1_767_225_599, &mut room);
    let seconds = (
        room[0].second,
        room[1].second,
        room[2].second,
        room[3].second,
    );
    is(
        &rt,
        (count, seconds),
        (
            4,
            (1_711_846_800, 1_729_990_800, 1_743_296_400, 1_761_440_400),
        ),
    );
    let mut small = [SPRING; 1];
    is(
        &rt,
        zone.transitions_between(1_711_846_800, 1_767_225_599, &mut small),
        1,
    );
    is(&rt, small[0].second, 1_729_990_800);
    Ok(())
}

#[test]
fn days_of_23_24_and_25_hours(rt: HostRuntime) -> Result<(), Fail> {
    let Ok(zone) = Zone::new(STANDARD, &[], Some(rule())) else {
        return Err(Fail::from("no zone"));
    };
    is(
        &rt,
        (zone.start_of_day(19_813), zone.length_of_day(19_813)),
        (1_711_839_600, 82_800),
    );
    is(
        &rt,
        (zone.start_of_day(20_023), zone.length_of_day(20_023)),
        (1_729_980_000, 90_000),
    );
    is(
        &rt,
        (zone.start_of_day(19_905), zone.length_of_day(19_905)),
        (1_719_784_800, 86_400),
    );
    Ok(())
}

const APIA: Transition = Transition {
    second: 1_325_239_200,
    before: TimeType {
        offset: -36_000,
        is_daylight: false,
        designation: 0,
    },
    after: TimeType {
        offset: 50_400,
        is_daylight: false,
        designation: 1,
    },
};

const SAO_PAULO: Transition = Transition {
    second: 1_541_300_400,
    before: TimeType {
        offset: -10_800,
        is_daylight: false,
        designation: 0,
    },
    after: TimeType {
        offset: -7_200,
        is_daylight: false,
        designation: 1,
    },
};

// Apia had no 30 December 2011.
#[test]
fn day_that_clocks_skip(rt: HostRuntime) -> Result<(), Fail> {
    let Ok(zone) = Zone::new(APIA.before, &[APIA], None) else {
        return Err(Fail::from("no zone"));
    };
    is(
        &rt,
        (zone.start_of_day(15_338), zone.length_of_day(15_338)),
        (1_325_239_200, 0),
    );
    is(
        &rt,
        (
            zone.start_of_day(15_339),
            zone.next_transition(1_325_239_200).is_none(),
        ),
        (1_325_239_200, true),
    );
    Ok(())
}

// In São Paulo 4 November 2018 began at 1:00.
#[test]
fn day_that_begins_at_1(rt: HostRuntime) -> Result<(), Fail> {
    let Ok(zone) = Zone::new(SAO_PAULO.before, &[SAO_PAULO], None) else {
        return Err(Fail::from("no zone"));
    };
    is(
        &rt,
        (zone.start_of_day(17_839), zone.length_of_day(17_839)),
        (1_541_300_400, 82_800),
    );
    Ok(())
}

#[test]
fn one_offset(rt: HostRuntime) -> Result<(), Fail> {
    let zone = Zone::of_type(STANDARD);
    is(
        &rt,
        (zone.offset_at(0), both(zone.instants_of(0))),
        (3_600, (-3_600, -3_600, 1)),
    );
    is(
        &rt,
        (
            zone.next_transition(0).is_none(),
            zone.previous_transition(0).is_none(),
        ),
        (true, true),
    );
    Ok(())
}

// The error of a zone, if it is refused.
fn refusal(first: TimeType, rows: &[Transition], rule: Option<Cycle>) -> Option<ZoneError> {
    match Zone::new(first, rows, rule) {
        Ok(_) => None,
        Err(error) => Some(error),
    }
}

#[test]
fn transitions_out_of_order(rt: HostRuntime) -> Result<(), Fail> {
    is(
        &rt,
        refusal(SUMMER, &[SPRING], None),
        Some(ZoneError::Row(0)),
    );
    is(
        &rt,
        refusal(STANDARD, &[SPRING, SPRING], None),
        Some(ZoneError::Row(1)),
    );
    is(
        &rt,
        refusal(SUMMER, &[], Some(rule())),
        Some(ZoneError::Rule),
    );
    is(&rt, refusal(STANDARD, &[SPRING], Some(rule())), None);
    Ok(())
}

#[test]
fn parts_of_a_zone(rt: HostRuntime) -> Result<(), Fail> {
    let Ok(zone) = Zone::new(STANDARD, &[SPRING], Some(rule())) else {
        return Err(Fail::from("no zone"));
    };
    is(&rt, zone.first_type().offset, 3_600);
    is(&rt, zone.table().len(), 1);
    is(&rt, zone.rule().is_some(), true);
    let fixed = Zone::of_type(SUMMER);
    is(&rt, fixed.first_type().offset, 7_200);
    is(&rt, fixed.table().is_empty(), true);
    is(&rt, fixed.rule().is_none(), true);
    Ok(())
}
