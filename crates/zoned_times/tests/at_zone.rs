//! Wall clocks in zones, as Python's `zoneinfo` reads them: by the offset before a transition and
//! by that after it.
use super::is;
use super::zones::{APIA, BERLIN, CASABLANCA, LORD_HOWE, SAO_PAULO, TROLL, parts, wall, zone};
use calendar_values::Month;
use std::process::Abort;
use std::test::Fail;
use zoned_times::{AtZone, LocalRefusal, LocalTimes};
use zones::Transition;

// The nanosecond of each wall clock, which is kept.
const NANOSECOND: u32 = 123_456_789;

// How many date-times a wall clock is, and the earlier and the later of them.
fn told(times: LocalTimes) -> (u8, Option<(i128, i32)>, Option<(i128, i32)>) {
    let count = match times {
        LocalTimes::Single(_) => 1,
        LocalTimes::Gap(_, _, _) => 0,
        LocalTimes::Fold(_, _) => 2,
    };
    (
        count,
        times.earlier().ok().map(parts),
        times.later().ok().map(parts),
    )
}

// The instant of a second, with that nanosecond, and the offset.
fn after(row: (i64, i32)) -> Option<(i128, i32)> {
    Some((row.0 as i128 * 1_000_000_000 + NANOSECOND as i128, row.1))
}

// A month, a day and a clock, how many date-times of the zone it is, and the earlier and the later.
type Row = (Month, u8, (u8, u8, u8), u8, (i64, i32), (i64, i32));

// Compares the date-times of wall clocks of a year in the zone of these transitions.
fn are_times(
    rt: &impl Abort,
    transitions: &[Transition],
    year: i32,
    rows: &[Row],
) -> Result<(), Fail> {
    let zone = zone(transitions)?;
    for row in rows {
        let (month, day, clock, count, earlier, later) = *row;
        let wall = wall((year, month, day), (clock.0, clock.1, clock.2, NANOSECOND))?;
        is(
            rt,
            told(wall.at_zone(&zone)),
            (count, after(earlier), after(later)),
        );
    }
    Ok(())
}

#[test]
fn an_hour_in_berlin(rt: HostRuntime) -> Result<(), Fail> {
    are_times(
        &rt,
        &BERLIN,
        2024,
        &[
            (
                Month::March,
                31,
                (1, 59, 59),
                1,
                (1_711_846_799, 3_600),
                (1_711_846_799, 3_600),
            ),
            (
                Month::March,
                31,
                (2, 0, 0),
                0,
                (1_711_843_200, 3_600),
                (1_711_846_800, 7_200),
            ),
            (
                Month::March,
                31,
                (2, 30, 0),
                0,
                (1_711_845_000, 3_600),
                (1_711_848_600, 7_200),
            ),
            (
                Month::March,
                31,
                (2, 59, 59),
                0,
                (1_711_846_799, 3_600),
                (1_711_850_399, 7_200),
            ),
            (
                Month::March,
                31,
                (3, 0, 0),
                1,
                (1_711_846_800, 7_200),
                (1_711_846_800, 7_200),
            ),
            (
                Month::October,
                27,
                (1, 59, 59),
                1,
                (1_729_987_199, 7_200),
                (1_729_987_199, 7_200),
            ),
            (
                Month::October,
                27,
                (2, 0, 0),
                2,
                (1_729_987_200, 7_200),
                (1_729_990_800, 3_600),
            ),
            (
                Month::October,
                27,
                (2, 59, 59),
                2,
                (1_729_990_799, 7_200),
                (1_729_994_399, 3_600),
            ),
            (
                Month::October,
                27,
                (3, 0, 0),
                1,
                (1_729_994_400, 3_600),
                (1_729_994_400, 3_600),
            ),
        ],
    )
}

#[test]
fn midnight_in_sao_paulo(rt: HostRuntime) -> Result<(), Fail> {
    are_times(
        &rt,
        &SAO_PAULO,
        2018,
        &[
            (
                Month::February,
                17,
                (22, 59, 59),
                1,
                (1_518_915_599, -7_200),
                (1_518_915_599, -7_200),
            ),
            (
                Month::February,
                17,
                (23, 0, 0),
                2,
                (1_518_915_600, -7_200),
                (1_518_919_200, -10_800),
            ),
            (
                Month::February,
                18,
                (0, 0, 0),
                1,
                (1_518_922_800, -10_800),
                (1_518_922_800, -10_800),
            ),
            (
                Month::November,
                4,
                (0, 0, 0),
                0,
                (1_541_296_800, -10_800),
                (1_541_300_400, -7_200),
            ),
            (
                Month::November,
                4,
                (0, 59, 59),
                0,
                (1_541_300_399, -10_800),
                (1_541_303_999, -7_200),
            ),
            (
                Month::November,
                4,
                (1, 0, 0),
                1,
                (1_541_300_400, -7_200),
                (1_541_300_400, -7_200),
            ),
        ],
    )
}

#[test]
fn a_lost_day_in_apia(rt: HostRuntime) -> Result<(), Fail> {
    are_times(
        &rt,
        &APIA,
        2011,
        &[
            (
                Month::April,
                3,
                (3, 0, 0),
                1,
                (1_301_839_200, -39_600),
                (1_301_839_200, -39_600),
            ),
            (
                Month::December,
                29,
                (23, 59, 59),
                1,
                (1_325_239_199, -36_000),
                (1_325_239_199, -36_000),
            ),
            (
                Month::December,
                30,
                (0, 0, 0),
                0,
                (1_325_152_800, -36_000),
                (1_325_239_200, 50_400),
            ),
            (
                Month::December,
                30,
                (12, 0, 0),
                0,
                (1_325_196_000, -36_000),
                (1_325_282_400, 50_400),
            ),
            (
                Month::December,
                31,
                (0, 0, 0),
                1,
                (1_325_239_200, 50_400),
                (1_325_239_200, 50_400),
            ),
        ],
    )
}

#[test]
fn ramadan_in_casablanca(rt: HostRuntime) -> Result<(), Fail> {
    are_times(
        &rt,
        &CASABLANCA,
        2024,
        &[
            (
                Month::March,
                10,
                (2, 30, 0),
                2,
                (1_710_034_200, 3_600),
                (1_710_037_800, 0),
            ),
            (
                Month::April,
                14,
                (2, 30, 0),
                0,
                (1_713_058_200, 0),
                (1_713_061_800, 3_600),
            ),
        ],
    )
}

#[test]
fn two_hours_at_troll(rt: HostRuntime) -> Result<(), Fail> {
    are_times(
        &rt,
        &TROLL,
        2024,
        &[
            (
                Month::March,
                31,
                (1, 0, 0),
                0,
                (1_711_839_600, 0),
                (1_711_846_800, 7_200),
            ),
            (
                Month::March,
                31,
                (2, 59, 59),
                0,
                (1_711_846_799, 0),
                (1_711_853_999, 7_200),
            ),
            (
                Month::March,
                31,
                (3, 0, 0),
                1,
                (1_711_846_800, 7_200),
                (1_711_846_800, 7_200),
            ),
            (
                Month::October,
                27,
                (1, 0, 0),
                2,
                (1_729_983_600, 7_200),
                (1_729_990_800, 0),
            ),
        ],
    )
}

#[test]
fn half_an_hour_at_lord_howe(rt: HostRuntime) -> Result<(), Fail> {
    are_times(
        &rt,
        &LORD_HOWE,
        2024,
        &[
            (
                Month::April,
                7,
                (1, 29, 59),
                1,
                (1_712_413_799, 39_600),
                (1_712_413_799, 39_600),
            ),
            (
                Month::April,
                7,
                (1, 30, 0),
                2,
                (1_712_413_800, 39_600),
                (1_712_415_600, 37_800),
            ),
            (
                Month::April,
                7,
                (1, 59, 59),
                2,
                (1_712_415_599, 39_600),
                (1_712_417_399, 37_800),
            ),
            (
                Month::October,
                6,
                (2, 0, 0),
                0,
                (1_728_140_400, 37_800),
                (1_728_142_200, 39_600),
            ),
            (
                Month::October,
                6,
                (2, 30, 0),
                1,
                (1_728_142_200, 39_600),
                (1_728_142_200, 39_600),
            ),
        ],
    )
}

#[test]
fn choices(rt: HostRuntime) -> Result<(), Fail> {
    let zone = zone(&BERLIN)?;
    let skipped = wall((2024, Month::March, 31), (2, 30, 0, 1))?.at_zone(&zone);
    let twice = wall((2024, Month::October, 27), (2, 30, 0, 1))?.at_zone(&zone);
    let once = wall((2024, Month::July, 1), (2, 30, 0, 1))?.at_zone(&zone);
    for (times, wanted) in [
        (skipped, Some((1_711_848_600_000_000_001, 7_200))),
        (twice, Some((1_729_989_000_000_000_001, 7_200))),
        (once, Some((1_719_793_800_000_000_001, 7_200))),
    ] {
        is(&rt, times.compatible().ok().map(parts), wanted);
    }
    let one = Some((1_719_793_800_000_000_001, 7_200));
    is(&rt, once.reject().ok().map(parts), one);
    is(&rt, twice.reject().err(), Some(LocalRefusal::Fold));
    is(&rt, told(once), (1, one, one));
    Ok(())
}

#[test]
fn ends_of_a_gap(rt: HostRuntime) -> Result<(), Fail> {
    let zone = zone(&LORD_HOWE)?;
    let times = wall((2024, Month::October, 6), (2, 15, 0, 0))?.at_zone(&zone);
    let Err(LocalRefusal::Gap(gap)) = times.reject() else {
        return Err(Fail::from("no gap"));
    };
    let offsets = (gap.before.whole_seconds(), gap.after.whole_seconds());
    is(
        &rt,
        (gap.second, offsets),
        (1_728_142_200, (37_800, 39_600)),
    );
    let start = wall((2024, Month::October, 6), (2, 0, 0, 0))?;
    let end = wall((2024, Month::October, 6), (2, 30, 0, 0))?;
    is(&rt, (gap.start(), gap.end()), (Some(start), Some(end)));
    Ok(())
}
