use super::{LAST, at, is, lasting};
use crate::timestamps::{
    muxandu_timestamp_add, muxandu_timestamp_check, muxandu_timestamp_compare,
    muxandu_timestamp_difference, muxandu_timestamp_from_microseconds,
    muxandu_timestamp_from_milliseconds, muxandu_timestamp_from_nanoseconds,
    muxandu_timestamp_saturating_add, muxandu_timestamp_saturating_subtract,
    muxandu_timestamp_subtract, muxandu_timestamp_to_microseconds,
    muxandu_timestamp_to_milliseconds, muxandu_timestamp_to_nanoseconds,
    muxandu_timestamp_truncate,
};

#[test]
fn timestamps(rt: HostRuntime) {
    is(&rt, muxandu_timestamp_check(at(-1, 500_000_000)), 0);
    is(
        &rt,
        muxandu_timestamp_check(at(LAST + 1, 1_000_000_000)),
        15,
    );
    let second = at(1, 0);
    is(
        &rt,
        muxandu_timestamp_compare(at(0, 1_000_000_000), second),
        0,
    );
}

#[test]
fn timestamps_later(rt: HostRuntime) {
    for (from, expected) in [
        (at(-1, 500_000_000), (0, 0, 0)),
        (at(LAST, 999_999_999), (19, 7, 7)),
        (at(0, 1_000_000_000), (13, 7, 7)),
    ] {
        let half = lasting(0, 500_000_000);
        let (status, out) = called!(muxandu_timestamp_add(from, half), at(7, 7));
        is(&rt, (status, out.seconds, out.nanoseconds), expected);
    }
}

#[test]
fn timestamps_earlier(rt: HostRuntime) {
    let half = lasting(0, 500_000_000);
    let (status, out) = called!(muxandu_timestamp_subtract(at(0, 0), half), at(7, 7));
    is(
        &rt,
        (status, out.seconds, out.nanoseconds),
        (0, -1, 500_000_000),
    );
    let (status, apart) = called!(
        muxandu_timestamp_difference(at(-1, 500_000_000), at(0, 0)),
        lasting(7, 7)
    );
    is(
        &rt,
        (status, apart.seconds, apart.nanoseconds),
        (0, 0, -500_000_000),
    );
}

#[test]
fn timestamps_no_later_than_the_last(rt: HostRuntime) {
    let last = at(LAST, 0);
    let (status, out) = called!(
        muxandu_timestamp_saturating_add(last, lasting(1, 0)),
        at(7, 7)
    );
    is(
        &rt,
        (status, out.seconds, out.nanoseconds),
        (0, LAST, 999_999_999),
    );
    let (status, out) = called!(
        muxandu_timestamp_saturating_subtract(last, lasting(-1, 0)),
        at(7, 7)
    );
    is(
        &rt,
        (status, out.seconds, out.nanoseconds),
        (0, LAST, 999_999_999),
    );
}

#[test]
fn timestamps_at_the_begin_of_a_unit(rt: HostRuntime) {
    for (unit, expected) in [
        (1, (0, -86_400, 0)),
        (2, (0, -3_600, 0)),
        (3, (0, -60, 0)),
        (4, (0, -1, 0)),
        (5, (0, -1, 987_000_000)),
        (6, (0, -1, 987_654_000)),
        (7, (0, -1, 987_654_321)),
        (8, (18, 7, 7)),
    ] {
        let (status, out) = called!(
            muxandu_timestamp_truncate(at(-1, 987_654_321), unit),
            at(7, 7)
        );
        is(&rt, (status, out.seconds, out.nanoseconds), expected);
    }
}

#[test]
fn timestamps_of_counts(rt: HostRuntime) {
    for (milliseconds, expected) in [(-1, (0, -1, 999_000_000)), (i64::MAX, (15, 7, 7))] {
        let (status, out) = called!(muxandu_timestamp_from_milliseconds(milliseconds), at(7, 7));
        is(&rt, (status, out.seconds, out.nanoseconds), expected);
    }
    let micro = muxandu_timestamp_from_microseconds(-1);
    is(&rt, (micro.seconds, micro.nanoseconds), (-1, 999_999_000));
    let nano = muxandu_timestamp_from_nanoseconds(-1);
    is(&rt, (nano.seconds, nano.nanoseconds), (-1, 999_999_999));
}

#[test]
fn counts_of_timestamps(rt: HostRuntime) {
    let half = at(-1, 500_000_000);
    is(
        &rt,
        called!(muxandu_timestamp_to_milliseconds(half), 7),
        (0, -500),
    );
    is(
        &rt,
        called!(muxandu_timestamp_to_microseconds(half), 7),
        (0, -500_000),
    );
    for (from, expected) in [(half, (0, -500_000_000)), (at(LAST, 0), (19, 7))] {
        is(
            &rt,
            called!(muxandu_timestamp_to_nanoseconds(from), 7),
            expected,
        );
    }
}
