//! Days of each year.
use super::is;
use calendar_values::Month;
use std::test::Fail;
use zones::RuleDay;

#[test]
fn last_sunday_of_march(rt: HostRuntime) -> Result<(), Fail> {
    let day = RuleDay::Weekday(Month::March, 5, 0);
    is(
        &rt,
        (day.in_year(2024), day.in_year(2100)),
        (19_813, 47_568),
    );
    Ok(())
}

#[test]
fn day_60_with_29_february_and_without(rt: HostRuntime) -> Result<(), Fail> {
    let common = RuleDay::Common(60);
    let counted = RuleDay::Counted(60);
    is(
        &rt,
        (common.in_year(2024), common.in_year(2023)),
        (19_783, 19_417),
    );
    is(
        &rt,
        (counted.in_year(2024), counted.in_year(2023)),
        (19_783, 19_418),
    );
    Ok(())
}
