use crate::values::{MuxanduDate, MuxanduDateTime, MuxanduDuration, MuxanduTimestamp};
use std::fmt::Debug;
use std::process::Abort;

// Ends the test unless the two values are equal.
fn is<T: Copy + PartialEq + Debug>(rt: &impl Abort, shown: T, wanted: T) {
    assert_eq!(rt; shown, wanted);
}

const LAST: i64 = 31_494_784_780_799;

// The status of a call, and what is then where its result goes.
macro_rules! called {
    ($call:ident($($argument:expr),*), $out:expr) => {{
        let mut out = $out;
        let status = $call($($argument,)* &mut out);
        (status, out)
    }};
}

fn at(seconds: i64, nanoseconds: u32) -> MuxanduTimestamp {
    MuxanduTimestamp {
        seconds,
        nanoseconds,
    }
}

fn lasting(seconds: i64, nanoseconds: i32) -> MuxanduDuration {
    MuxanduDuration {
        seconds,
        nanoseconds,
    }
}

fn date(year: i32, month: u8, day: u8) -> MuxanduDate {
    MuxanduDate { year, month, day }
}

fn midnight(year: i32, month: u8, day: u8, offset_seconds: i32) -> MuxanduDateTime {
    MuxanduDateTime {
        year,
        month,
        day,
        hour: 0,
        minute: 0,
        second: 0,
        nanosecond: 0,
        offset_seconds,
    }
}

mod batches;
mod date_times;
mod dates;
mod descriptions;
mod field_spans;
mod gaps;
mod groups;
mod local_date_times;
mod moments;
mod parts;
mod storage;
mod texts;
mod timestamps;
mod zone_types;
mod zones;
