//! Kinds of local time, abbreviations and columns of date-times, as Python's zoneinfo has them.
use super::zones::{BERLIN, berlin};
use super::{at, is, midnight};
use crate::values::MuxanduDateTime;
use crate::zone_batches::{muxandu_date_times_at_zone, muxandu_timestamps_to_zone};
use crate::zone_names::muxandu_zone_name_check;
use crate::zone_types::{
    MuxanduTimeType, muxandu_zone_abbreviation_from_text, muxandu_zone_abbreviation_from_tzif,
    muxandu_zone_type_at,
};
use std::process::Abort;

// Ends the test unless Berlin has this kind of local time at a second.
fn has_type(rt: &impl Abort, second: i64, wanted: (u32, i32, u16, u8)) {
    let mut found = MuxanduTimeType {
        offset_seconds: 7,
        designation: 7,
        is_daylight: 7,
    };
    let status = muxandu_zone_type_at(berlin(rt), &[], at(second, 5), &mut found);
    let numbers = (found.offset_seconds, found.designation, found.is_daylight);
    is(rt, (status, numbers.0, numbers.1, numbers.2), wanted);
}

#[test]
fn kinds_of_local_time(rt: HostRuntime) {
    has_type(&rt, 1_711_846_799, (0, 3_600, 256, 0));
    has_type(&rt, 1_711_846_800, (0, 7_200, 257, 1));
    has_type(&rt, 1_729_990_800, (0, 3_600, 256, 0));
    has_type(&rt, 31_494_784_780_800, (15, 7, 7, 7));
}

#[test]
fn abbreviations_of_rules(rt: HostRuntime) {
    let rule = b"CET-1CEST,M3.5.0,M10.5.0/3";
    let mut buffer = *b".....";
    let found = muxandu_zone_abbreviation_from_text(rule, 257, &mut buffer);
    is(&rt, (found.size, found.status, buffer), (4, 0, *b"CEST."));
    let found = muxandu_zone_abbreviation_from_text(rule, 256, &mut buffer);
    is(&rt, (found.size, found.status, buffer), (3, 0, *b"CETT."));
    let found = muxandu_zone_abbreviation_from_text(rule, 4, &mut buffer);
    is(&rt, (found.size, found.status, buffer), (0, 0, *b"CETT."));
    let found = muxandu_zone_abbreviation_from_text(b"EST5", 257, &mut buffer);
    is(&rt, (found.size, found.status), (0, 0));
    let found = muxandu_zone_abbreviation_from_text(rule, 257, &mut buffer[..3]);
    is(&rt, (found.size, found.status, buffer), (4, 20, *b"CETT."));
    let found = muxandu_zone_abbreviation_from_text(b"CET", 256, &mut buffer);
    is(&rt, (found.size, found.status, found.reason), (3, 22, 55));
}

#[test]
fn abbreviations_of_files(rt: HostRuntime) {
    let mut buffer = *b".....";
    let found = muxandu_zone_abbreviation_from_tzif(BERLIN, 4, &mut buffer);
    is(&rt, (found.size, found.status, buffer), (4, 0, *b"CEST."));
    let found = muxandu_zone_abbreviation_from_tzif(BERLIN, 0, &mut buffer[..2]);
    is(&rt, (found.size, found.status, buffer), (3, 20, *b"CEST."));
    let found = muxandu_zone_abbreviation_from_tzif(b"TZip", 0, &mut buffer);
    is(&rt, (found.size, found.status, found.reason), (4, 22, 44));
}

#[test]
fn names(rt: HostRuntime) {
    is(&rt, muxandu_zone_name_check(b"America/Port-au-Prince"), 0);
    is(&rt, muxandu_zone_name_check(b"../Europe/Berlin"), 22);
    is(&rt, muxandu_zone_name_check(b"/etc/localtime"), 22);
}

// Ends the test unless an item of a column has this hour and offset.
fn has(rt: &impl Abort, item: MuxanduDateTime, wanted: (u8, i32)) {
    is(rt, (item.hour, item.offset_seconds), wanted);
}

#[test]
fn column_of_instants(rt: HostRuntime) {
    let instants = [
        at(1_711_846_799, 0),
        at(1_711_846_800, 0),
        at(0, 1_000_000_000),
    ];
    let mut out = [midnight(1, 1, 1, 7); 3];
    let found = muxandu_timestamps_to_zone(&instants, berlin(&rt), &[], &mut out);
    is(&rt, (found.count, found.status), (2, 13));
    has(&rt, out[0], (1, 3_600));
    has(&rt, out[1], (3, 7_200));
    has(&rt, out[2], (0, 7));
    let found = muxandu_timestamps_to_zone(&instants, berlin(&rt), &[], &mut out[..2]);
    is(&rt, (found.count, found.status), (0, 20));
}

#[test]
fn column_of_wall_clocks(rt: HostRuntime) {
    let half_past_two = MuxanduDateTime {
        hour: 2,
        minute: 30,
        ..midnight(2024, 10, 27, 0)
    };
    let skipped = MuxanduDateTime {
        month: 3,
        day: 31,
        ..half_past_two
    };
    let mut out = [midnight(1, 1, 1, 7); 2];
    let locals = [half_past_two, skipped];
    let found = muxandu_date_times_at_zone(&locals, berlin(&rt), &[], 3, &mut out);
    is(&rt, (found.count, found.status), (2, 0));
    has(&rt, out[0], (2, 3_600));
    has(&rt, out[1], (3, 7_200));
    let found = muxandu_date_times_at_zone(&locals, berlin(&rt), &[], 4, &mut out);
    is(&rt, (found.count, found.status), (0, 28));
    let found = muxandu_date_times_at_zone(&locals, berlin(&rt), &[], 5, &mut out);
    is(&rt, (found.count, found.status), (0, 18));
    let found = muxandu_date_times_at_zone(&locals, berlin(&rt), &[], 3, &mut out[..1]);
    is(&rt, (found.count, found.status), (0, 20));
}
