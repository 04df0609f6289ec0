use super::{LAST, at, is, midnight};
use crate::clocks::muxandu_time_check;
use crate::offsets::{MuxanduOffset, muxandu_offset_from_parts, muxandu_offset_to_parts};
use crate::replacements::{muxandu_date_time_replace, muxandu_timestamp_replace};

fn offset(hours: i8, minutes: i8, seconds: i8) -> MuxanduOffset {
    MuxanduOffset {
        hours,
        minutes,
        seconds,
    }
}

#[test]
fn parts_of_offsets(rt: HostRuntime) {
    for (parts, expected) in [
        (offset(1, -2, -3), (0, 3_723)),
        (offset(0, -2, 3), (0, -123)),
        (offset(26, 60, 60), (23, 7)),
        (offset(25, 60, 60), (24, 7)),
        (offset(25, 59, -60), (14, 7)),
    ] {
        is(&rt, called!(muxandu_offset_from_parts(parts), 7), expected);
    }
    for (offset_seconds, expected) in [(-12_601, (0, -3, -30, -1)), (93_600, (14, 7, 7, 7))] {
        let (status, out) = called!(muxandu_offset_to_parts(offset_seconds), offset(7, 7, 7));
        is(&rt, (status, out.hours, out.minutes, out.seconds), expected);
    }
}

#[test]
fn parts_are_replaced(rt: HostRuntime) {
    let leap = midnight(2024, 2, 29, 60);
    for (part, value, expected) in [
        (1, 2020, (0, 2020, 2, 29)),
        (1, 2023, (4, 7, 7, 7)),
        (1, 1_000_000, (1, 7, 7, 7)),
        (2, 3, (0, 2024, 3, 29)),
        (2, 13, (2, 7, 7, 7)),
        (3, 1, (0, 2024, 2, 1)),
        (3, 32, (3, 7, 7, 7)),
        (4, 366, (0, 2024, 12, 31)),
        (4, 0, (5, 7, 7, 7)),
        (5, 24, (10, 7, 7, 7)),
        (6, -1, (11, 7, 7, 7)),
        (7, 60, (12, 7, 7, 7)),
        (8, 1_000_000_000, (13, 7, 7, 7)),
        (9, 1, (18, 7, 7, 7)),
    ] {
        let there = midnight(7, 7, 7, 7);
        let (status, out) = called!(muxandu_date_time_replace(leap, part, value), there);
        is(&rt, (status, out.year, out.month, out.day), expected);
    }
    let (status, out) = called!(muxandu_date_time_replace(leap, 6, 59), leap);
    is(&rt, (status, out.minute, out.offset_seconds), (0, 59, 60));
}

#[test]
fn parts_of_timestamps_are_replaced(rt: HostRuntime) {
    for (from, part, expected) in [(at(-1, 5), 5, (0, -82_801, 5)), (at(LAST, 0), 3, (3, 7, 7))] {
        let (status, out) = called!(muxandu_timestamp_replace(from, part, 0), at(7, 7));
        is(&rt, (status, out.seconds, out.nanoseconds), expected);
    }
}

#[test]
fn times_of_day(rt: HostRuntime) {
    for (status, expected) in [
        (muxandu_time_check(23, 59, 59, 999_999_999), 0),
        (muxandu_time_check(24, 60, 60, u32::MAX), 10),
        (muxandu_time_check(0, 60, 60, u32::MAX), 11),
        (muxandu_time_check(0, 0, 60, u32::MAX), 12),
        (muxandu_time_check(0, 0, 0, 1_000_000_000), 13),
        (muxandu_time_check(256, 0, 0, 0), 10),
        (muxandu_time_check(0, 256, 0, 0), 11),
        (muxandu_time_check(0, 0, 256, 0), 12),
    ] {
        is(&rt, status, expected);
    }
}
