//! Items that vector lanes take together.
use crate::batches::muxandu_seconds_from_date_times;
use crate::exchange::muxandu_timestamp_from_rfc3339;
use crate::values::{MuxanduDateTime, MuxanduTimestamp};
use std::process::Abort;

// 2000-02-29T00:00:00Z.
const LEAP_DAY: MuxanduDateTime = MuxanduDateTime {
    year: 2000,
    month: 2,
    day: 29,
    hour: 0,
    minute: 0,
    second: 0,
    nanosecond: 999_999_999,
    offset_seconds: 0,
};

fn seconds(rt: &impl Abort, items: &[MuxanduDateTime], expected: [i64; 6], answer: (usize, u32)) {
    let mut out = [7; 6];
    let done = muxandu_seconds_from_date_times(items, &mut out);
    assert_eq!(rt; (done.count, done.status), answer);
    assert_eq!(rt; out, expected);
}

#[test]
fn groups_of_date_times(rt: HostRuntime) {
    let kept = LEAP_DAY;
    let refused = MuxanduDateTime {
        month: 13,
        ..LEAP_DAY
    };
    let first = MuxanduDateTime {
        year: -999_999,
        month: 1,
        day: 1,
        ..LEAP_DAY
    };
    let a = 951_782_400;
    let b = -31_619_087_596_800;
    seconds(
        &rt,
        &[kept, kept, kept, kept, kept, kept],
        [a, a, a, a, a, a],
        (6, 0),
    );
    seconds(
        &rt,
        &[kept, kept, first, kept, kept, kept],
        [a, a, b, a, a, a],
        (6, 0),
    );
    seconds(
        &rt,
        &[kept, kept, refused, kept, kept, kept],
        [a, a, 7, 7, 7, 7],
        (2, 2),
    );
    seconds(
        &rt,
        &[kept, kept, kept, kept, kept, refused],
        [a, a, a, a, a, 7],
        (5, 2),
    );
}

fn text(rt: &impl Abort, text: &[u8], status: u32, expected: i64) {
    let mut out = MuxanduTimestamp {
        seconds: 7,
        nanoseconds: 0,
    };
    assert_eq!(rt; muxandu_timestamp_from_rfc3339(text, &mut out), status);
    assert_eq!(rt; (out.seconds, out.nanoseconds), (expected, 0));
}

#[test]
fn texts_of_twenty_bytes(rt: HostRuntime) {
    text(&rt, b"1985-04-12T23:20:50Z", 0, 482_196_050);
    text(&rt, b"1985-04-12t23:20:50z", 0, 482_196_050);
    text(&rt, b"1985-13-12T23:20:50Z", 2, 7);
    text(&rt, b"1985-04-32T23:20:50Z", 3, 7);
    text(&rt, b"1985-02-29T23:20:50Z", 4, 7);
    text(&rt, b"1985-04-12T24:20:50Z", 10, 7);
    text(&rt, b"1985-04-12T23:60:50Z", 11, 7);
    text(&rt, b"1985-04-12T23:20:60Z", 12, 7);
    text(&rt, b"1985-04-12T23:20:5:Z", 22, 7);
    text(&rt, b"1985-04-12T23:20:50X", 22, 7);
    text(&rt, b"1985-04-12T23:20:500", 22, 7);
    text(&rt, b"1985-04-1:T23:20:50Z", 22, 7);
}
