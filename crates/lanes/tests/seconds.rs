//! Seconds of four date-times at once.
use super::is;
use lanes::date_times::DateTime;
use lanes::seconds::{are_inside, seconds};
use std::test::Fail;

fn at(date: (i32, u8, u8), time: (u8, u8, u8), offset_seconds: i32) -> DateTime {
    DateTime {
        year: date.0,
        month: date.1,
        day: date.2,
        hour: time.0,
        minute: time.1,
        second: time.2,
        nanosecond: 999_999_999,
        offset_seconds,
    }
}

// The seconds of four date-times whose parts are all in their ranges.
fn seconds_of(a: DateTime, b: DateTime, c: DateTime, d: DateTime) -> Option<[i64; 4]> {
    if are_inside(a, b, c, d) {
        return Some(seconds(a, b, c, d));
    }
    None
}

#[test]
fn four_date_times(rt: HostRuntime) -> Result<(), Fail> {
    let a = at((1970, 1, 1), (0, 0, 0), 60);
    let b = at((1969, 12, 31), (23, 59, 59), 0);
    let c = at((2000, 2, 29), (0, 0, 0), 0);
    let d = at((2023, 11, 14), (22, 13, 20), -3_600);
    is(
        &rt,
        seconds_of(a, b, c, d),
        Some([-60, -1, 951_782_400, 1_700_003_600]),
    );
    Ok(())
}

#[test]
fn years_next_to_the_ends(rt: HostRuntime) -> Result<(), Fail> {
    let a = at((-999_998, 1, 1), (0, 0, 0), 93_599);
    let b = at((999_998, 12, 31), (23, 59, 59), -93_599);
    let c = at((1900, 3, 1), (0, 0, 0), 0);
    let d = at((2100, 2, 28), (0, 0, 0), 0);
    is(
        &rt,
        seconds_of(a, b, c, d),
        Some([
            -31_619_056_154_399,
            31_494_753_338_398,
            -2_203_891_200,
            4_107_456_000,
        ]),
    );
    Ok(())
}

#[test]
fn parts_out_of_their_ranges(rt: HostRuntime) -> Result<(), Fail> {
    let day = (2024, 2, 29);
    let time = (23, 59, 59);
    let kept = at(day, time, 0);
    let mut nanosecond = kept;
    nanosecond.nanosecond = 1_000_000_000;
    for other in [
        nanosecond,
        at((-999_999, 1, 1), time, 0),
        at((999_999, 1, 1), time, 0),
        at((2024, 0, 1), time, 0),
        at((2024, 13, 1), time, 0),
        at((2024, 2, 0), time, 0),
        at((2024, 2, 30), time, 0),
        at((2023, 2, 29), time, 0),
        at((1900, 2, 29), time, 0),
        at((2024, 4, 31), time, 0),
        at((2024, 12, 32), time, 0),
        at(day, (24, 0, 0), 0),
        at(day, (0, 60, 0), 0),
        at(day, (0, 0, 60), 0),
        at(day, time, 93_600),
        at(day, time, -93_600),
    ] {
        is(&rt, are_inside(other, kept, kept, kept), false);
        is(&rt, are_inside(kept, other, kept, kept), false);
        is(&rt, are_inside(kept, kept, other, kept), false);
        is(&rt, are_inside(kept, kept, kept, other), false);
    }
    is(&rt, are_inside(kept, kept, kept, kept), true);
    Ok(())
}
