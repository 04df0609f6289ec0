//! Intervals between transitions, by Python's `zoneinfo`.
use super::is;
use super::zone::{SPRING, STANDARD, rule};
use std::test::Fail;
use zones::{Interval, Zone};

// The ends of an interval, and its offset.
fn parts(found: Interval) -> (i64, i64, i32) {
    (found.from, found.until, found.kind.offset)
}

#[test]
fn intervals_of_a_rule(rt: HostRuntime) -> Result<(), Fail> {
    let Some(zone) = Zone::of_rule(rule()) else {
        return Err(Fail::from("no zone"));
    };
    let summer = zone.interval_at(1_720_000_000);
    is(&rt, parts(summer), (1_711_846_800, 1_729_990_800, 7_200));
    is(
        &rt,
        parts(zone.interval_at(1_729_990_800)),
        (1_729_990_800, 1_743_296_400, 3_600),
    );
    is(
        &rt,
        (
            summer.contains(1_711_846_799),
            summer.contains(1_711_846_800),
            summer.contains(1_729_990_799),
            summer.contains(1_729_990_800),
        ),
        (false, true, true, false),
    );
    Ok(())
}

#[test]
fn intervals_of_a_table(rt: HostRuntime) -> Result<(), Fail> {
    let Ok(zone) = Zone::new(STANDARD, &[SPRING], None) else {
        return Err(Fail::from("no zone"));
    };
    is(
        &rt,
        parts(zone.interval_at(0)),
        (-34_560_000_000_000, 1_711_846_800, 3_600),
    );
    is(
        &rt,
        parts(zone.interval_at(1_711_846_800)),
        (1_711_846_800, 34_560_000_000_001, 7_200),
    );
    Ok(())
}

#[test]
fn offsets_of_many_seconds(rt: HostRuntime) -> Result<(), Fail> {
    let Ok(zone) = Zone::new(STANDARD, &[SPRING], None) else {
        return Err(Fail::from("no zone"));
    };
    let seconds = [1_711_846_800, 1_711_846_799, 0, 1_720_000_000];
    let mut room = [1, 1, 1];
    is(&rt, zone.offsets_at(&seconds, &mut room), 3);
    is(&rt, room, [7_200, 3_600, 3_600]);
    let mut wide = [1, 1, 1];
    is(&rt, zone.offsets_at(&seconds[..1], &mut wide), 1);
    is(&rt, wide, [7_200, 1, 1]);
    Ok(())
}
