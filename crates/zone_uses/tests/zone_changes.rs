//! Changes of the clocks of Berlin in 2024, and days and months on them, by Python's `zoneinfo`.
use super::is;
use super::zone_meetings::{BERLIN, berlin, day, parts, wall};
use calendar_values::{Month, SignedDuration};
use stamp_times::Timestamp;
use std::test::Fail;
use zone_uses::zone_changes::{
    change_after, change_before, day_length, day_start, earlier, later, only, payment_after,
};
use zone_uses::zone_meetings::at;

#[test]
fn changes_of_a_year(rt: HostRuntime) -> Result<(), Fail> {
    let zone = berlin(&BERLIN)?;
    let summer = Timestamp::from_seconds(1_719_828_000)?;
    let next = change_after(summer, &zone).map(|row| row.second);
    is(&rt, next, Some(1_729_990_800));
    let last = change_before(summer, &zone).map(|row| row.second);
    is(&rt, last, Some(1_711_846_800));
    let winter = Timestamp::from_seconds(1_729_990_800)?;
    is(&rt, change_after(winter, &zone).is_none(), true);
    Ok(())
}

#[test]
fn months_and_days_of_a_zone(rt: HostRuntime) -> Result<(), Fail> {
    let zone = berlin(&BERLIN)?;
    for (month, date, second, offset) in [
        (Month::February, 29, 1_711_675_800, 3_600),
        (Month::September, 27, 1_729_989_000, 7_200),
    ] {
        let Some(payment) = at(wall(day(month, date)?, 2, 30)?, &zone) else {
            return Err(Fail::from("no payment"));
        };
        let next = payment_after(payment, &zone).map(parts);
        is(&rt, next, Some((second, offset)));
    }
    let spring = day(Month::March, 31)?;
    is(
        &rt,
        day_start(spring, &zone).map(parts),
        Some((1_711_839_600, 3_600)),
    );
    is(&rt, day_length(spring, &zone), SignedDuration::hours(23));
    Ok(())
}

#[test]
fn choices_of_a_wall_clock(rt: HostRuntime) -> Result<(), Fail> {
    let zone = berlin(&BERLIN)?;
    for (month, date, first, last) in [
        (
            Month::October,
            27,
            (1_729_989_000, 7_200),
            (1_729_992_600, 3_600),
        ),
        (
            Month::March,
            31,
            (1_711_845_000, 3_600),
            (1_711_848_600, 7_200),
        ),
    ] {
        let wall = wall(day(month, date)?, 2, 30)?;
        is(&rt, earlier(wall, &zone).map(parts), Some(first));
        is(&rt, later(wall, &zone).map(parts), Some(last));
        is(&rt, only(wall, &zone).is_none(), true);
    }
    let noon = wall(day(Month::July, 1)?, 12, 0)?;
    is(
        &rt,
        only(noon, &zone).map(parts),
        Some((1_719_828_000, 7_200)),
    );
    Ok(())
}
