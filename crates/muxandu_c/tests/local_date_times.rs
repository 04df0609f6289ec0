//! Texts without an offset: the seconds are those of Python's `datetime`.
use super::{is, midnight};
use crate::full_times::{
    muxandu_full_time_fault, muxandu_full_time_from_rfc3339, muxandu_offset_from_rfc3339,
};
use crate::local_batches::{
    muxandu_date_times_from_each_local, muxandu_date_times_from_each_local_at,
    muxandu_date_times_from_local, muxandu_date_times_from_local_at,
    muxandu_moments_from_each_local, muxandu_moments_from_each_local_at,
    muxandu_moments_from_local, muxandu_moments_from_local_at,
};
use crate::local_date_times::{
    MuxanduTime, muxandu_date_time_from_local, muxandu_date_time_from_plain, muxandu_plain_fault,
    muxandu_time_fault, muxandu_time_from_rfc3339,
};
use crate::moments::MuxanduMoment;
use crate::values::{MuxanduBatch, MuxanduSpan};
use std::process::Abort;

const NO_TIME: MuxanduTime = MuxanduTime {
    hour: 7,
    minute: 7,
    second: 7,
    nanosecond: 7,
};

#[test]
fn one_text(rt: HostRuntime) {
    let mut at = midnight(1970, 1, 1, 7);
    is(
        &rt,
        muxandu_date_time_from_plain(b"2024-02-29 12:34:56.5", &mut at),
        0,
    );
    is(
        &rt,
        (at.hour, at.nanosecond, at.offset_seconds),
        (12, 500_000_000, 0),
    );
    is(
        &rt,
        muxandu_date_time_from_plain(b"2024-02-29T12:34:56Z", &mut at),
        22,
    );
    is(
        &rt,
        muxandu_date_time_from_plain(b"2023-02-29T12:34:56", &mut at),
        4,
    );
    is(
        &rt,
        muxandu_date_time_from_local(b"2024-02-29T00:00:00", 19_800, &mut at),
        0,
    );
    is(&rt, (at.day, at.hour, at.offset_seconds), (29, 0, 19_800));
    is(
        &rt,
        muxandu_date_time_from_local(b"2024-02-29T00:00:00-08:00", 19_800, &mut at),
        0,
    );
    is(&rt, at.offset_seconds, -28_800);
    is(
        &rt,
        muxandu_date_time_from_local(b"2024-02-29T00:00:00", 93_600, &mut at),
        14,
    );
    is(
        &rt,
        muxandu_date_time_from_local(b"2024-02-29", 0, &mut at),
        22,
    );
    is(&rt, at.offset_seconds, -28_800);
}

#[test]
fn times(rt: HostRuntime) {
    let mut time = NO_TIME;
    is(&rt, muxandu_time_from_rfc3339(b"23:20:50.52", &mut time), 0);
    is(&rt, (time.hour, time.minute, time.second), (23, 20, 50));
    is(&rt, time.nanosecond, 520_000_000);
    is(&rt, muxandu_time_from_rfc3339(b"24:00:00", &mut time), 10);
    is(&rt, muxandu_time_from_rfc3339(b"23:20", &mut time), 22);
    is(&rt, muxandu_time_fault(b"23:20"), 5);
    is(&rt, muxandu_plain_fault(b"1985-04-12T23:20:50Z"), 19);
}

#[test]
fn times_with_an_offset(rt: HostRuntime) {
    let (mut time, mut offset) = (NO_TIME, 7);
    is(&rt, muxandu_full_time_fault(b"23:20:50+1:00"), 10);
    is(&rt, muxandu_full_time_fault(b"23:20:50"), 8);
    is(
        &rt,
        muxandu_full_time_from_rfc3339(b"16:39:57.5-08:00", &mut time, &mut offset),
        0,
    );
    is(&rt, (time.hour, time.minute, time.second), (16, 39, 57));
    is(&rt, (time.nanosecond, offset), (500_000_000, -28_800));
    for (text, status) in [
        ("24:00:00Z", 10),
        ("23:60:00Z", 11),
        ("23:59:60Z", 12),
        ("23:59:59", 22),
        ("23:59:59+24:00", 23),
        ("23:59:59-00:60", 24),
    ] {
        is(
            &rt,
            muxandu_full_time_from_rfc3339(text.as_bytes(), &mut time, &mut offset),
            status,
        );
    }
    is(&rt, (time.hour, offset), (16, -28_800));
}

#[test]
fn offsets_alone(rt: HostRuntime) {
    let mut offset = 7;
    for (text, status, seconds) in [
        ("+05:30", 0, 19_800),
        ("Z", 0, 0),
        ("-23:59", 0, -86_340),
        ("+24:00", 23, -86_340),
        ("+00:60", 24, -86_340),
        ("+0100", 22, -86_340),
    ] {
        is(
            &rt,
            muxandu_offset_from_rfc3339(text.as_bytes(), &mut offset),
            status,
        );
        is(&rt, offset, seconds);
    }
}

const BLOCK: &[u8] = b"1970-01-01T05:30:001970-01-01T05:30:00Z1970-01-01";

const SPANS: [MuxanduSpan; 3] = [
    MuxanduSpan {
        start: 0,
        length: 19,
    },
    MuxanduSpan {
        start: 19,
        length: 20,
    },
    MuxanduSpan {
        start: 39,
        length: 10,
    },
];

const OFFSETS: [i32; 3] = [3_600, 19_800, 0];

fn is_batch(rt: &impl Abort, done: MuxanduBatch, count: usize, status: u32) {
    is(rt, (done.count, done.status), (count, status));
}

#[test]
fn columns_of_date_times(rt: HostRuntime) {
    let mut out = [midnight(1, 1, 1, 7); 3];
    let mut statuses = [7; 3];
    is_batch(
        &rt,
        muxandu_date_times_from_local(BLOCK, &SPANS, 19_800, &mut out),
        2,
        22,
    );
    is(
        &rt,
        (
            out[0].offset_seconds,
            out[1].offset_seconds,
            out[2].offset_seconds,
        ),
        (19_800, 0, 7),
    );
    is_batch(
        &rt,
        muxandu_date_times_from_local_at(BLOCK, &SPANS, &OFFSETS, &mut out),
        2,
        22,
    );
    is(
        &rt,
        (
            out[0].offset_seconds,
            out[1].offset_seconds,
            out[2].offset_seconds,
        ),
        (3_600, 0, 7),
    );
    let done = muxandu_date_times_from_each_local(BLOCK, &SPANS, 0, &mut out, &mut statuses);
    is_batch(&rt, done, 2, 0);
    is(&rt, statuses, [0, 0, 22]);
    let done = muxandu_date_times_from_each_local_at(
        BLOCK,
        &SPANS,
        &OFFSETS[..2],
        &mut out,
        &mut statuses,
    );
    is_batch(&rt, done, 0, 20);
}

#[test]
fn columns_of_moments(rt: HostRuntime) {
    let mut out = [MuxanduMoment {
        seconds: 7,
        nanoseconds: 7,
        offset_seconds: 7,
    }; 3];
    let mut statuses = [7; 3];
    is_batch(
        &rt,
        muxandu_moments_from_local(BLOCK, &SPANS, 19_800, &mut out),
        2,
        22,
    );
    is(
        &rt,
        (out[0].seconds, out[1].seconds, out[2].seconds),
        (0, 19_800, 7),
    );
    is_batch(
        &rt,
        muxandu_moments_from_local_at(BLOCK, &SPANS, &OFFSETS, &mut out),
        2,
        22,
    );
    is(
        &rt,
        (out[0].seconds, out[1].seconds, out[2].seconds),
        (16_200, 19_800, 7),
    );
    let done = muxandu_moments_from_each_local(BLOCK, &SPANS, 0, &mut out, &mut statuses);
    is_batch(&rt, done, 2, 0);
    is(&rt, statuses, [0, 0, 22]);
    let done = muxandu_moments_from_each_local_at(BLOCK, &SPANS, &OFFSETS, &mut out, &mut statuses);
    is_batch(&rt, done, 2, 0);
    is(&rt, (out[0].seconds, out[2].seconds), (16_200, 7));
}
