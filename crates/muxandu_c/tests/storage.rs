use super::{LAST, at, is, midnight};
use crate::date_times::muxandu_timestamp_from_date_time;
use crate::storage::{
    muxandu_date_time_check_rfc3339, muxandu_timestamp_from_microseconds_2000,
    muxandu_timestamp_to_microseconds_2000, muxandu_timestamp_truncate_digits,
};

#[test]
fn microseconds_from_2000(rt: HostRuntime) {
    let micro = muxandu_timestamp_from_microseconds_2000(-1);
    is(
        &rt,
        (micro.seconds, micro.nanoseconds),
        (946_684_799, 999_999_000),
    );
    let start = muxandu_timestamp_from_microseconds_2000(0);
    let (status, out) = called!(
        muxandu_timestamp_from_date_time(midnight(2000, 1, 1, 0)),
        at(7, 7)
    );
    is(
        &rt,
        (status, out.seconds, out.nanoseconds),
        (0, start.seconds, start.nanoseconds),
    );
}

#[test]
fn microseconds_to_2000(rt: HostRuntime) {
    for (from, expected) in [
        (at(946_684_799, 999_999_999), (0, -1)),
        (at(0, 0), (0, -946_684_800_000_000)),
        (at(LAST, 0), (19, 7)),
        (at(0, 1_000_000_000), (13, 7)),
    ] {
        is(
            &rt,
            called!(muxandu_timestamp_to_microseconds_2000(from), 7),
            expected,
        );
    }
}

#[test]
fn digits_of_timestamps(rt: HostRuntime) {
    for (digits, expected) in [
        (0, (0, -1, 0)),
        (3, (0, -1, 987_000_000)),
        (8, (0, -1, 987_654_320)),
        (300, (0, -1, 987_654_321)),
    ] {
        let (status, out) = called!(
            muxandu_timestamp_truncate_digits(at(-1, 987_654_321), digits),
            at(7, 7)
        );
        is(&rt, (status, out.seconds, out.nanoseconds), expected);
    }
}

#[test]
fn date_times_with_a_text(rt: HostRuntime) {
    for (date_time, expected) in [
        (midnight(0, 1, 1, 86_340), 0),
        (midnight(9_999, 12, 31, -86_340), 0),
        (midnight(-1, 12, 31, 0), 25),
        (midnight(10_000, 1, 1, 0), 25),
        (midnight(2024, 1, 1, 61), 25),
        (midnight(2024, 1, 1, -86_400), 25),
        (midnight(2023, 2, 29, 0), 4),
    ] {
        is(&rt, muxandu_date_time_check_rfc3339(date_time), expected);
    }
}
