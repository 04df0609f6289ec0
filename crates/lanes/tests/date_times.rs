//! Four date-times at once.
use super::is;
use lanes::date_times::{DateTime, date_times};
use std::process::Abort;
use std::test::Fail;

fn shows(
    rt: &impl Abort,
    at: DateTime,
    date: (i32, u8, u8),
    time: (u8, u8, u8),
    offset_seconds: i32,
) {
    is(rt, (at.year, at.month, at.day), date);
    is(rt, (at.hour, at.minute, at.second), time);
    is(rt, (at.nanosecond, at.offset_seconds), (0, offset_seconds));
}

#[test]
fn four_seconds(rt: HostRuntime) -> Result<(), Fail> {
    let at = date_times(0, -1, 951_782_400, 1_700_000_000, 0);
    shows(&rt, at[0], (1970, 1, 1), (0, 0, 0), 0);
    shows(&rt, at[1], (1969, 12, 31), (23, 59, 59), 0);
    shows(&rt, at[2], (2000, 2, 29), (0, 0, 0), 0);
    shows(&rt, at[3], (2023, 11, 14), (22, 13, 20), 0);
    Ok(())
}

#[test]
fn ends_of_the_range(rt: HostRuntime) -> Result<(), Fail> {
    let at = date_times(
        -31_619_087_596_800,
        31_494_784_780_799,
        -2_203_891_200,
        4_107_542_400,
        -3_600,
    );
    shows(&rt, at[0], (-999_999, 1, 1), (0, 0, 0), -3_600);
    shows(&rt, at[1], (999_999, 12, 31), (23, 59, 59), -3_600);
    shows(&rt, at[2], (1900, 3, 1), (0, 0, 0), -3_600);
    shows(&rt, at[3], (2100, 3, 1), (0, 0, 0), -3_600);
    Ok(())
}
