use super::{LAST, at, is, lasting, midnight};
use crate::date_times::{
    muxandu_date_time_add, muxandu_date_time_check, muxandu_date_time_compare,
    muxandu_date_time_day, muxandu_date_time_difference, muxandu_date_time_from_timestamp,
    muxandu_date_time_saturating_add, muxandu_date_time_saturating_subtract,
    muxandu_date_time_subtract, muxandu_date_time_to_offset, muxandu_date_time_truncate,
    muxandu_timestamp_from_date_time,
};

#[test]
fn date_times(rt: HostRuntime) {
    let leap_day = midnight(2024, 2, 29, 0);
    is(&rt, muxandu_date_time_check(leap_day), 0);
    is(&rt, muxandu_date_time_check(midnight(2023, 2, 29, 0)), 4);
    is(
        &rt,
        called!(muxandu_date_time_day(leap_day), 7),
        (0, 19_782),
    );
    let (status, stamp) = called!(
        muxandu_timestamp_from_date_time(midnight(2024, 2, 29, 19_800)),
        at(7, 7)
    );
    is(&rt, (status, stamp.seconds), (0, 1_709_145_000));
}

#[test]
fn date_times_apart(rt: HostRuntime) {
    let (leap_day, earlier) = (midnight(2024, 2, 29, 0), midnight(2024, 2, 29, 60));
    let (status, apart) = called!(
        muxandu_date_time_difference(leap_day, earlier),
        lasting(7, 7)
    );
    is(&rt, (status, apart.seconds), (0, 60));
    is(
        &rt,
        called!(muxandu_date_time_compare(leap_day, earlier), 7),
        (0, 1),
    );
}

#[test]
fn date_times_of_timestamps(rt: HostRuntime) {
    for (from, offset_seconds, expected) in [
        (at(1_709_231_399, 0), -28_800, (0, 2024, 2, 29, 10, -28_800)),
        (at(0, 0), 93_600, (14, 7, 7, 7, 0, 7)),
        (at(LAST, 0), 1, (19, 7, 7, 7, 0, 7)),
    ] {
        let (status, out) = called!(
            muxandu_date_time_from_timestamp(from, offset_seconds),
            midnight(7, 7, 7, 7)
        );
        is(
            &rt,
            (
                status,
                out.year,
                out.month,
                out.day,
                out.hour,
                out.offset_seconds,
            ),
            expected,
        );
    }
}

#[test]
fn date_times_at_an_offset(rt: HostRuntime) {
    let (status, out) = called!(
        muxandu_date_time_to_offset(midnight(2024, 2, 29, 0), -28_800),
        midnight(7, 7, 7, 7)
    );
    is(
        &rt,
        (status, out.year, out.month, out.day),
        (0, 2024, 2, 28),
    );
    is(&rt, (out.hour, out.offset_seconds), (16, -28_800));
}

#[test]
fn date_times_later(rt: HostRuntime) {
    for (from, expected) in [
        (midnight(2024, 2, 29, 0), (0, 2024, 3, 1, 0, 0)),
        (midnight(999_999, 12, 31, 0), (19, 7, 7, 7, 0, 7)),
    ] {
        let (status, out) = called!(
            muxandu_date_time_add(from, lasting(86_400, 0)),
            midnight(7, 7, 7, 7)
        );
        is(
            &rt,
            (
                status,
                out.year,
                out.month,
                out.day,
                out.hour,
                out.offset_seconds,
            ),
            expected,
        );
    }
}

#[test]
fn date_times_earlier(rt: HostRuntime) {
    let leap_day = midnight(2024, 2, 29, 0);
    let there = midnight(7, 7, 7, 7);
    let (status, out) = called!(
        muxandu_date_time_subtract(leap_day, lasting(86_400, 0)),
        there
    );
    is(
        &rt,
        (status, out.year, out.month, out.day),
        (0, 2024, 2, 28),
    );
    let (status, out) = called!(muxandu_date_time_truncate(leap_day, 7), there);
    is(
        &rt,
        (status, out.year, out.month, out.day),
        (0, 2024, 2, 29),
    );
}

#[test]
fn date_times_no_later_than_the_last(rt: HostRuntime) {
    let (status, out) = called!(
        muxandu_date_time_saturating_add(midnight(999_999, 12, 31, 0), lasting(86_400, 0)),
        midnight(7, 7, 7, 7)
    );
    is(
        &rt,
        (status, out.year, out.month, out.day, out.hour),
        (0, 999_999, 12, 31, 23),
    );
}

#[test]
fn date_times_no_earlier_than_the_first(rt: HostRuntime) {
    let (status, out) = called!(
        muxandu_date_time_saturating_subtract(midnight(-999_999, 1, 1, 0), lasting(86_400, 0)),
        midnight(7, 7, 7, 7)
    );
    is(
        &rt,
        (status, out.year, out.month, out.day, out.hour),
        (0, -999_999, 1, 1, 0),
    );
}
