//! Four dates at once.
use super::is;
use lanes::dates::{Date, are_days, dates};
use std::process::Abort;
use std::test::Fail;

fn shows(rt: &impl Abort, shown: Date, date: (i32, u8, u8)) {
    is(rt, (shown.year, shown.month, shown.day), date);
}

#[test]
fn dates_of_four_days(rt: HostRuntime) -> Result<(), Fail> {
    let at = dates(0, -1, 11_016, 19_675);
    shows(&rt, at[0], (1970, 1, 1));
    shows(&rt, at[1], (1969, 12, 31));
    shows(&rt, at[2], (2000, 2, 29));
    shows(&rt, at[3], (2023, 11, 14));
    Ok(())
}

#[test]
fn first_and_last_date(rt: HostRuntime) -> Result<(), Fail> {
    let at = dates(-365_961_662, 364_522_971, -25_508, 47_540);
    shows(&rt, at[0], (-999_999, 1, 1));
    shows(&rt, at[1], (999_999, 12, 31));
    shows(&rt, at[2], (1900, 3, 1));
    shows(&rt, at[3], (2100, 2, 28));
    Ok(())
}

#[test]
fn days_past_the_ends(rt: HostRuntime) -> Result<(), Fail> {
    is(&rt, are_days(-365_961_662, 0, 0, 364_522_971), true);
    is(&rt, are_days(-365_961_663, 0, 0, 0), false);
    is(&rt, are_days(0, 364_522_972, 0, 0), false);
    is(&rt, are_days(0, 0, i32::MIN, 0), false);
    is(&rt, are_days(0, 0, 0, i32::MAX), false);
    Ok(())
}
