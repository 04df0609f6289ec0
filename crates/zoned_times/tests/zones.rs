//! Zones in some years: the transitions that Python's `zoneinfo` has, and their wall clocks.
use calendar_values::{Date, Month, Time};
use offset_times::OffsetDateTime;
use plain_times::PlainDateTime;
use std::test::Fail;
use zones::{TimeType, Transition, Zone};

// Kinds of local time, by their offset. Whether it is summer time does not count here.
pub(super) const MINUS_11: TimeType = TimeType {
    offset: -39_600,
    is_daylight: false,
    designation: 0,
};

pub(super) const MINUS_10: TimeType = TimeType {
    offset: -36_000,
    is_daylight: false,
    designation: 0,
};

pub(super) const MINUS_3: TimeType = TimeType {
    offset: -10_800,
    is_daylight: false,
    designation: 0,
};

pub(super) const MINUS_2: TimeType = TimeType {
    offset: -7_200,
    is_daylight: false,
    designation: 0,
};

pub(super) const PLUS_0: TimeType = TimeType {
    offset: 0,
    is_daylight: false,
    designation: 0,
};

pub(super) const PLUS_1: TimeType = TimeType {
    offset: 3_600,
    is_daylight: false,
    designation: 0,
};

pub(super) const PLUS_2: TimeType = TimeType {
    offset: 7_200,
    is_daylight: false,
    designation: 0,
};

pub(super) const PLUS_10_30: TimeType = TimeType {
    offset: 37_800,
    is_daylight: false,
    designation: 0,
};

pub(super) const PLUS_11: TimeType = TimeType {
    offset: 39_600,
    is_daylight: false,
    designation: 0,
};

pub(super) const PLUS_14: TimeType = TimeType {
    offset: 50_400,
    is_daylight: false,
    designation: 0,
};

// Europe/Berlin in 2024.
pub(super) const BERLIN: [Transition; 2] = [
    Transition {
        second: 1_711_846_800,
        before: PLUS_1,
        after: PLUS_2,
    },
    Transition {
        second: 1_729_990_800,
        before: PLUS_2,
        after: PLUS_1,
    },
];

// America/Sao_Paulo in 2018.
pub(super) const SAO_PAULO: [Transition; 2] = [
    Transition {
        second: 1_518_919_200,
        before: MINUS_2,
        after: MINUS_3,
    },
    Transition {
        second: 1_541_300_400,
        before: MINUS_3,
        after: MINUS_2,
    },
];

// Pacific/Apia in 2011.
pub(super) const APIA: [Transition; 3] = [
    Transition {
        second: 1_301_752_800,
        before: MINUS_10,
        after: MINUS_11,
    },
    Transition {
        second: 1_316_872_800,
        before: MINUS_11,
        after: MINUS_10,
    },
    Transition {
        second: 1_325_239_200,
        before: MINUS_10,
        after: PLUS_14,
    },
];

// Africa/Casablanca in 2024.
pub(super) const CASABLANCA: [Transition; 2] = [
    Transition {
        second: 1_710_036_000,
        before: PLUS_1,
        after: PLUS_0,
    },
    Transition {
        second: 1_713_060_000,
        before: PLUS_0,
        after: PLUS_1,
    },
];

// Antarctica/Troll in 2024.
pub(super) const TROLL: [Transition; 2] = [
    Transition {
        second: 1_711_846_800,
        before: PLUS_0,
        after: PLUS_2,
    },
    Transition {
        second: 1_729_990_800,
        before: PLUS_2,
        after: PLUS_0,
    },
];

// Australia/Lord_Howe in 2024.
pub(super) const LORD_HOWE: [Transition; 2] = [
    Transition {
        second: 1_712_415_600,
        before: PLUS_11,
        after: PLUS_10_30,
    },
    Transition {
        second: 1_728_142_200,
        before: PLUS_10_30,
        after: PLUS_11,
    },
];

// The zone of transitions.
pub(super) fn zone<'a>(rows: &'a [Transition]) -> Result<Zone<'a>, Fail> {
    let Some(row) = rows.first() else {
        return Err(Fail::from("no transition"));
    };
    match Zone::new(row.before, rows, None) {
        Ok(zone) => Ok(zone),
        Err(_) => Err(Fail::from("no zone")),
    }
}

// The instant of a second, and the offset.
pub(super) fn begin(second: i64, offset: i32) -> Option<(i128, i32)> {
    Some((second as i128 * 1_000_000_000, offset))
}

// The wall clock of a date and a time of day.
pub(super) fn wall(
    date: (i32, Month, u8),
    clock: (u8, u8, u8, u32),
) -> Result<PlainDateTime, Fail> {
    let date = Date::from_calendar_date(date.0, date.1, date.2)?;
    let time = Time::from_hms_nano(clock.0, clock.1, clock.2, clock.3)?;
    Ok(PlainDateTime::new(date, time))
}

// The instant and the offset of a date-time.
pub(super) fn parts(at: OffsetDateTime) -> (i128, i32) {
    (at.unix_timestamp_nanos(), at.offset().whole_seconds())
}
