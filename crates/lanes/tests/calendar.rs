//! Years, months, days and times of day of four lanes.
use super::is;
use lanes::calendar::{clocks, month_and_day, years_leap_ordinal};
use std::simd::prelude::*;
use std::test::Fail;

// 1970-01-01, counted from 1 January of the year -2379600.
const EPOCH: u32 = 869_850_581;

#[test]
fn years_of_four_days(rt: HostRuntime) -> Result<(), Fail> {
    let days = u32x4::from_array([
        EPOCH + 10_957,
        EPOCH + 11_322,
        EPOCH - 25_203,
        EPOCH + 12_418,
    ]);
    let (years, leap, ordinal) = years_leap_ordinal(days);
    is(
        &rt,
        years.to_array(),
        [2_381_600, 2_381_600, 2_381_500, 2_381_604],
    );
    is(&rt, leap.to_array(), [1, 1, 0, 1]);
    is(&rt, ordinal.to_array(), [1, 366, 365, 1]);
    Ok(())
}

#[test]
fn months_of_four_days(rt: HostRuntime) -> Result<(), Fail> {
    let leap = u32x4::from_array([1, 0, 1, 0]);
    let ordinal = u32x4::from_array([60, 60, 366, 1]);
    let (month, day) = month_and_day(leap, ordinal);
    is(&rt, month.to_array(), [2, 3, 12, 1]);
    is(&rt, day.to_array(), [29, 1, 31, 1]);
    Ok(())
}

#[test]
fn clocks_of_four_seconds(rt: HostRuntime) -> Result<(), Fail> {
    let (hour, minute, second) = clocks(u32x4::from_array([0, 3_599, 45_296, 86_399]));
    is(&rt, hour.to_array(), [0, 0, 12, 23]);
    is(&rt, minute.to_array(), [0, 59, 34, 59]);
    is(&rt, second.to_array(), [0, 59, 56, 59]);
    Ok(())
}
