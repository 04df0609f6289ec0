//! Instants in zones, by Python's `zoneinfo`.
use super::is;
use super::zones::{BERLIN, MINUS_2, PLUS_0, PLUS_1, PLUS_2, begin, parts, zone};
use offset_times::OffsetDateTime;
use plain_times::PlainDateTime;
use stamp_times::Timestamp;
use std::test::Fail;
use utc_times::UtcDateTime;
use zoned_times::{AtZone, LocalRefusal, LocalTimes, ToZone};
use zones::{Transition, Zone};

// Two hours west of UTC until 1970, and then an hour east.
const EPOCH: [Transition; 1] = [Transition {
    second: 0,
    before: MINUS_2,
    after: PLUS_1,
}];

#[test]
fn offsets_to_the_nanosecond(rt: HostRuntime) -> Result<(), Fail> {
    let zone = zone(&BERLIN)?;
    for (nanoseconds, offset) in [
        (1_711_846_799_999_999_999, 3_600),
        (1_711_846_800_000_000_000, 7_200),
        (1_729_990_799_999_999_999, 7_200),
        (1_729_990_800_000_000_000, 3_600),
    ] {
        let stamp = Timestamp::from_nanoseconds(nanoseconds)?;
        let wanted = Some((nanoseconds, offset));
        is(&rt, stamp.to_zone(&zone).map(parts), wanted);
        is(&rt, stamp.to_utc().to_zone(&zone).map(parts), wanted);
        is(
            &rt,
            OffsetDateTime::from(stamp).to_zone(&zone).map(parts),
            wanted,
        );
    }
    Ok(())
}

#[test]
fn the_nanosecond_before_1970(rt: HostRuntime) -> Result<(), Fail> {
    let zone = zone(&EPOCH)?;
    let last = Timestamp::from_nanoseconds(-1)?;
    is(&rt, last.to_zone(&zone).map(parts), Some((-1, -7_200)));
    is(
        &rt,
        Timestamp::UNIX_EPOCH.to_zone(&zone).map(parts),
        Some((0, 3_600)),
    );
    Ok(())
}

#[test]
fn ends_of_the_range(rt: HostRuntime) -> Result<(), Fail> {
    let zone = Zone::of_type(PLUS_1);
    is(&rt, UtcDateTime::MAX.to_zone(&zone).map(parts), None);
    is(&rt, Timestamp::MAX.to_zone(&zone).map(parts), None);
    is(&rt, UtcDateTime::MIN.to_zone(&zone).is_some(), true);
    let first = PlainDateTime::MIN.at_zone(&zone).reject().ok();
    let Some(first) = first else {
        return Err(Fail::from("no first date-time"));
    };
    is(&rt, first.checked_to_utc(), None);
    is(&rt, first.to_zone(&zone).map(parts), Some(parts(first)));
    is(
        &rt,
        UtcDateTime::MAX
            .checked_add_days_in_zone(-9, &zone)
            .is_none(),
        true,
    );
    is(
        &rt,
        first.checked_add_days_in_zone(-1, &zone).is_none(),
        true,
    );
    is(
        &rt,
        first.checked_add_months_in_zone(-1, &zone).is_none(),
        true,
    );
    Ok(())
}

// Zones that put their clocks forward by two hours: an hour before the end of the range, and at its
// beginning.
const LATE: [Transition; 1] = [Transition {
    second: 31_494_784_777_200,
    before: PLUS_0,
    after: PLUS_2,
}];

const EARLY: [Transition; 1] = [Transition {
    second: -31_619_087_596_800,
    before: PLUS_0,
    after: PLUS_2,
}];

#[test]
fn gaps_at_the_ends_of_the_range(rt: HostRuntime) -> Result<(), Fail> {
    let late = PlainDateTime::MAX.at_zone(&zone(&LATE)?);
    is(&rt, late.later().err(), Some(LocalRefusal::OutOfRange));
    is(&rt, late.compatible().err(), Some(LocalRefusal::OutOfRange));
    is(&rt, late.earlier().is_ok(), true);
    let early = PlainDateTime::MIN.at_zone(&zone(&EARLY)?);
    is(&rt, early.earlier().err(), Some(LocalRefusal::OutOfRange));
    is(&rt, early.compatible().is_ok(), true);
    Ok(())
}

// The instant and the offset that the choice for calendars makes of some date-times.
fn compatible(times: Option<LocalTimes>) -> Option<(i128, i32)> {
    Some(parts(times?.compatible().ok()?))
}

#[test]
fn days_over_a_change_of_time(rt: HostRuntime) -> Result<(), Fail> {
    let zone = zone(&BERLIN)?;
    for (second, days, sum, offset) in [
        (1_711_762_200, 1, 1_711_848_600, 7_200),
        (1_729_902_600, 1, 1_729_989_000, 7_200),
        (1_730_016_000, -1, 1_729_926_000, 7_200),
    ] {
        let at = Timestamp::from_seconds(second)?;
        let wanted = begin(sum, offset);
        is(
            &rt,
            compatible(at.checked_add_days_in_zone(days, &zone)),
            wanted,
        );
        is(
            &rt,
            compatible(at.to_utc().checked_add_days_in_zone(days, &zone)),
            wanted,
        );
    }
    Ok(())
}

#[test]
fn months_over_a_change_of_time(rt: HostRuntime) -> Result<(), Fail> {
    let zone = zone(&BERLIN)?;
    for (months, sum, offset) in [
        (1, 1_709_193_600, 3_600),
        (2, 1_711_868_400, 7_200),
        (3, 1_714_460_400, 7_200),
    ] {
        let at = OffsetDateTime::from_unix_timestamp(1_706_688_000)?;
        let shown = compatible(at.checked_add_months_in_zone(months, &zone));
        is(&rt, shown, begin(sum, offset));
    }
    Ok(())
}

// The seconds of the transitions next to an instant.
fn next_to<T: ToZone + Copy>(at: T, zone: &Zone) -> (Option<i64>, Option<i64>) {
    let before = at.previous_transition_in_zone(zone).map(|row| row.second);
    (
        before,
        at.next_transition_in_zone(zone).map(|row| row.second),
    )
}

#[test]
fn transitions_next_to_an_instant(rt: HostRuntime) -> Result<(), Fail> {
    let zone = zone(&BERLIN)?;
    let (spring, autumn) = (Some(1_711_846_800), Some(1_729_990_800));
    for (nanoseconds, wanted) in [
        (1_711_846_799_999_999_999, (None, spring)),
        (1_711_846_800_000_000_000, (None, autumn)),
        (1_711_846_800_000_000_001, (spring, autumn)),
        (1_729_990_800_000_000_000, (spring, None)),
        (1_729_990_800_000_000_001, (autumn, None)),
    ] {
        let stamp = Timestamp::from_nanoseconds(nanoseconds)?;
        is(&rt, next_to(stamp, &zone), wanted);
        is(&rt, next_to(stamp.to_utc(), &zone), wanted);
        is(&rt, next_to(OffsetDateTime::from(stamp), &zone), wanted);
    }
    Ok(())
}
