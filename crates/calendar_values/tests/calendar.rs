//! Leap years, lengths of years and months.
use super::is;
use calendar_values::{
    Month, day_and_second, days_in_month, days_in_year, is_leap_year, leap_ordinal_to_month_day,
};

#[test]
fn leap_years_are_those_of_the_gregorian_rule(rt: HostRuntime) {
    for (year, is_leap) in [(0, true), (-4, true), (-100, false), (i32::MIN, true)] {
        is(&rt, is_leap_year(year), is_leap);
    }
    for (year, days) in [(1900, 365), (2000, 366)] {
        is(&rt, days_in_year(year), days);
    }
}

#[test]
fn months_have_their_days(rt: HostRuntime) {
    for (year, month, days) in [
        (2000, Month::February, 29),
        (1900, Month::February, 28),
        (2022, Month::September, 30),
    ] {
        is(&rt, days_in_month(year, month), days);
    }
    for (shown, wanted) in [
        (leap_ordinal_to_month_day(true, 60), (Month::February, 29)),
        (leap_ordinal_to_month_day(false, 60), (Month::March, 1)),
        (leap_ordinal_to_month_day(true, 366), (Month::December, 31)),
    ] {
        is(&rt, shown, wanted);
    }
}

#[test]
fn seconds_lie_in_their_days(rt: HostRuntime) {
    for (second, day) in [
        (0, (0, 0)),
        (-1, (-1, 86_399)),
        (951_782_400, (11_016, 0)),
        (-31_619_087_596_800, (-365_961_662, 0)),
        (31_494_784_780_799, (364_522_971, 86_399)),
    ] {
        is(&rt, day_and_second(second), day);
    }
}
