//! Offsets that a zone has at hand, by Python's `zoneinfo`.
use super::is;
use super::zone::{SPRING, STANDARD, rule};
use std::test::Fail;
use zones::{OwnedZone, TimeType, Transition, Zone};

// The two kinds of Africa/Casablanca.
const WINTER: TimeType = TimeType {
    offset: 0,
    is_daylight: false,
    designation: 0,
};

const SUMMER: TimeType = TimeType {
    offset: 3_600,
    is_daylight: true,
    designation: 1,
};

// The clocks of 2012, which changed three times in one slot.
const RAMADAN: Transition = Transition {
    second: 1_342_749_600,
    before: SUMMER,
    after: WINTER,
};

const AUGUST: Transition = Transition {
    second: 1_345_428_000,
    before: WINTER,
    after: SUMMER,
};

const SEPTEMBER: Transition = Transition {
    second: 1_348_970_400,
    before: SUMMER,
    after: WINTER,
};

// What both zones, with slots and without, have at a second.
fn both(owned: &OwnedZone, zone: &Zone, second: i64) -> (i32, i32) {
    let kept = owned.zone().utc_offset_at(second);
    (
        kept.whole_seconds(),
        zone.utc_offset_at(second).whole_seconds(),
    )
}

#[test]
fn slots_of_a_rule(rt: HostRuntime) -> Result<(), Fail> {
    let Ok(zone) = Zone::new(STANDARD, &[SPRING], Some(rule())) else {
        return Err(Fail::from("no zone"));
    };
    let owned = OwnedZone::new(rt.alloc(), &zone)?;
    is(&rt, both(&owned, &zone, 1_711_846_799), (3_600, 3_600));
    is(&rt, both(&owned, &zone, 1_711_846_800), (7_200, 7_200));
    is(&rt, both(&owned, &zone, 1_729_990_800), (3_600, 3_600));
    is(&rt, both(&owned, &zone, 4_109_878_800), (7_200, 7_200));
    is(&rt, both(&owned, &zone, -1), (3_600, 3_600));
    Ok(())
}

#[test]
fn three_changes_in_a_slot(rt: HostRuntime) -> Result<(), Fail> {
    let Ok(zone) = Zone::new(SUMMER, &[RAMADAN, AUGUST, SEPTEMBER], None) else {
        return Err(Fail::from("no zone"));
    };
    let owned = OwnedZone::new(rt.alloc(), &zone)?;
    is(&rt, both(&owned, &zone, 1_342_749_599), (3_600, 3_600));
    is(&rt, both(&owned, &zone, 1_342_749_600), (0, 0));
    is(&rt, both(&owned, &zone, 1_345_427_999), (0, 0));
    is(&rt, both(&owned, &zone, 1_345_428_000), (3_600, 3_600));
    is(&rt, both(&owned, &zone, 1_348_970_399), (3_600, 3_600));
    is(&rt, both(&owned, &zone, 1_348_970_400), (0, 0));
    is(&rt, both(&owned, &zone, 2_147_483_648), (0, 0));
    Ok(())
}
