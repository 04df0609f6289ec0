//! Time zones as numbers. The file is a short one for Berlin, and Python's zoneinfo has these
//! offsets of it.
use super::{at, is, midnight};
use crate::values::MuxanduDateTime;
use crate::zone_batches::muxandu_zone_offsets_at;
use crate::zone_instants::{
    MuxanduZoneInstants, muxandu_date_time_at_zone, muxandu_zone_instants_of,
};
use crate::zone_numbers::{MuxanduTransition, MuxanduZone};
use crate::zone_offsets::muxandu_zone_offset_at;
use crate::zone_reads::{muxandu_zone_from_text, muxandu_zone_from_tzif};
use crate::zone_times::{
    muxandu_timestamp_to_zone, muxandu_zone_next_transition, muxandu_zone_previous_transition,
};
use std::process::Abort;

// Standard time up to the spring of 2024, and `CET-1CEST,M3.5.0,M10.5.0/3` from then on.
pub(super) const BERLIN: &[u8] =
    b"TZif2\x00\x00\x00\x00\x00\x00\x00\x00\x00\x00\x00\x00\x00\x00\x00\x00\x00\x00\x00\x00\
    \x00\x00\x00\x00\x00\x00\x00\x00\x00\x00\x00\x00\x00\x00\x00\x00\x00\x00\x00TZif2\x00\
    \x00\x00\x00\x00\x00\x00\x00\x00\x00\x00\x00\x00\x00\x00\x00\x00\x00\x00\x00\x00\x00\x00\
    \x00\x00\x00\x00\x00\x00\x00\x01\x00\x00\x00\x02\x00\x00\x00\x09\x00\x00\x00\x00f\x08\
    \xb5\x90\x01\x00\x00\x0e\x10\x00\x00\x00\x00\x1c \x01\x04CET\x00CEST\x00\nCET-1CEST,M3.5\
    .0,M10.5.0/3\n";

const NO_ZONE: MuxanduZone = MuxanduZone {
    offset_seconds: 0,
    first_time: 0,
    first_offset_seconds: 0,
    second_time: 0,
    second_offset_seconds: 0,
    designation: 0,
    first_day: 0,
    first_designation: 0,
    second_day: 0,
    second_designation: 0,
    is_daylight: 0,
    has_rule: 0,
    first_kind: 0,
    first_month: 0,
    first_week: 0,
    first_weekday: 0,
    first_is_daylight: 0,
    second_kind: 0,
    second_month: 0,
    second_week: 0,
    second_weekday: 0,
    second_is_daylight: 0,
};

const NO_TRANSITION: MuxanduTransition = MuxanduTransition {
    second: 0,
    before_offset_seconds: 0,
    after_offset_seconds: 0,
    before_designation: 0,
    after_designation: 0,
    before_is_daylight: 0,
    after_is_daylight: 0,
};

// Ends the test unless the call has this status and writes this offset.
fn has_offset(
    rt: &impl Abort,
    zone: MuxanduZone,
    transitions: &[MuxanduTransition],
    second: i64,
    wanted: (u32, i32),
) {
    let mut offset = 7;
    let status = muxandu_zone_offset_at(zone, transitions, at(second, 0), &mut offset);
    is(rt, (status, offset), wanted);
}

#[test]
fn offsets_of_a_file(rt: HostRuntime) {
    let mut zone = NO_ZONE;
    let mut transitions = [NO_TRANSITION; 2];
    let found = muxandu_zone_from_tzif(BERLIN, &mut zone, &mut transitions);
    is(&rt, (found.size, found.status, found.reason), (1, 0, 0));
    has_offset(&rt, zone, &transitions[..1], 0, (0, 3_600));
    has_offset(&rt, zone, &transitions[..1], 1_711_846_799, (0, 3_600));
    has_offset(&rt, zone, &transitions[..1], 1_711_846_800, (0, 7_200));
    has_offset(&rt, zone, &transitions[..1], 1_729_990_799, (0, 7_200));
    has_offset(&rt, zone, &transitions[..1], 1_729_990_800, (0, 3_600));
}

#[test]
fn errors_of_files(rt: HostRuntime) {
    let mut zone = NO_ZONE;
    let found = muxandu_zone_from_tzif(BERLIN, &mut zone, &mut []);
    is(&rt, (found.size, found.status, found.reason), (1, 20, 0));
    let found = muxandu_zone_from_tzif(b"TZip", &mut zone, &mut []);
    is(&rt, found.status, 22);
    is(&rt, zone.has_rule, 0);
}

#[test]
fn numbers_of_no_zone(rt: HostRuntime) {
    let mut zone = NO_ZONE;
    let mut transitions = [NO_TRANSITION; 1];
    muxandu_zone_from_tzif(BERLIN, &mut zone, &mut transitions);
    let week_of_none = MuxanduZone {
        first_week: 6,
        ..zone
    };
    has_offset(&rt, week_of_none, &transitions, 0, (26, 7));
    transitions[0].after_is_daylight = 2;
    has_offset(&rt, zone, &transitions, 0, (26, 7));
    transitions[0].after_is_daylight = 0;
    has_offset(&rt, zone, &transitions, 0, (26, 7));
}

#[test]
fn date_times_and_transitions(rt: HostRuntime) {
    let mut zone = NO_ZONE;
    let mut rows = [NO_TRANSITION; 1];
    muxandu_zone_from_tzif(BERLIN, &mut zone, &mut rows);
    let mut shown: MuxanduDateTime = midnight(1, 1, 1, 0);
    let status = muxandu_timestamp_to_zone(at(1_711_846_800, 5), zone, &rows, &mut shown);
    is(&rt, (status, shown.month, shown.day), (0, 3, 31));
    is(
        &rt,
        (shown.hour, shown.nanosecond, shown.offset_seconds),
        (3, 5, 7_200),
    );
    let mut row = NO_TRANSITION;
    let status = muxandu_zone_next_transition(zone, &rows, at(1_711_846_800, 0), &mut row);
    is(&rt, (status, row.second), (0, 1_729_990_800));
    is(
        &rt,
        (row.before_offset_seconds, row.after_offset_seconds),
        (7_200, 3_600),
    );
    let status = muxandu_zone_previous_transition(zone, &rows, at(1_711_846_800, 1), &mut row);
    is(&rt, (status, row.second), (0, 1_711_846_800));
    let status = muxandu_zone_previous_transition(zone, &rows, at(1_711_846_800, 0), &mut row);
    is(&rt, (status, row.second), (19, 1_711_846_800));
}

// The zone of `CET-1CEST,M3.5.0,M10.5.0/3`.
pub(super) fn berlin(rt: &impl Abort) -> MuxanduZone {
    let mut zone = NO_ZONE;
    let found = muxandu_zone_from_text(b"CET-1CEST,M3.5.0,M10.5.0/3", &mut zone);
    is(rt, (found.size, found.status, found.reason), (0, 0, 0));
    zone
}

#[test]
fn rules_of_texts(rt: HostRuntime) {
    let mut zone = berlin(&rt);
    has_offset(&rt, zone, &[], 1_711_846_800, (0, 7_200));
    has_offset(&rt, zone, &[], 1_729_990_800, (0, 3_600));
    is(&rt, (zone.designation, zone.first_designation), (256, 257));
    let found = muxandu_zone_from_text(b"CET-1CEST,M13.5.0,M10.5.0/3", &mut zone);
    is(&rt, (found.size, found.status, found.reason), (11, 22, 56));
    let found = muxandu_zone_from_text(b"AAA0BBB,J60,60", &mut zone);
    is(&rt, (found.size, found.status, found.reason), (0, 22, 59));
    is(&rt, (zone.offset_seconds, zone.first_month), (3_600, 3));
}

const NO_INSTANTS: MuxanduZoneInstants = MuxanduZoneInstants {
    earlier_seconds: 7,
    later_seconds: 7,
    gap_second: 7,
    nanoseconds: 7,
    earlier_offset_seconds: 7,
    later_offset_seconds: 7,
    count: 7,
};

// Ends the test unless a clock in Berlin shows 2:30 of a day at these two seconds.
fn has_instants(rt: &impl Abort, month: u8, day: u8, wanted: (u32, i64, i64, i64)) {
    let local = MuxanduDateTime {
        hour: 2,
        minute: 30,
        nanosecond: 5,
        ..midnight(2024, month, day, 0)
    };
    let mut found = NO_INSTANTS;
    let status = muxandu_zone_instants_of(berlin(rt), &[], local, &mut found);
    is(rt, (status, found.nanoseconds), (0, 5));
    let seconds = (found.earlier_seconds, found.later_seconds);
    is(
        rt,
        (found.count, seconds.0, seconds.1, found.gap_second),
        wanted,
    );
}

#[test]
fn instants_of_wall_clocks(rt: HostRuntime) {
    has_instants(&rt, 7, 1, (1, 1_719_793_800, 1_719_793_800, 0));
    has_instants(&rt, 10, 27, (2, 1_729_989_000, 1_729_992_600, 0));
    has_instants(&rt, 3, 31, (0, 1_711_845_000, 1_711_848_600, 1_711_846_800));
}

// Ends the test unless a choice for 2:30 of a day in Berlin has this status, hour and offset.
fn is_chosen(rt: &impl Abort, day: (u8, u8), choice: u32, wanted: (u32, u8, i32)) {
    let local = MuxanduDateTime {
        hour: 2,
        minute: 30,
        ..midnight(2024, day.0, day.1, 0)
    };
    let mut found = midnight(1, 1, 1, 7);
    let status = muxandu_date_time_at_zone(local, berlin(rt), &[], choice, &mut found);
    is(rt, (status, found.hour, found.offset_seconds), wanted);
}

#[test]
fn choices_of_date_times(rt: HostRuntime) {
    is_chosen(&rt, (10, 27), 1, (0, 2, 7_200));
    is_chosen(&rt, (10, 27), 2, (0, 2, 7_200));
    is_chosen(&rt, (10, 27), 3, (0, 2, 3_600));
    is_chosen(&rt, (10, 27), 4, (28, 0, 7));
    is_chosen(&rt, (3, 31), 1, (0, 3, 7_200));
    is_chosen(&rt, (3, 31), 2, (0, 1, 3_600));
    is_chosen(&rt, (3, 31), 3, (0, 3, 7_200));
    is_chosen(&rt, (3, 31), 4, (27, 0, 7));
    is_chosen(&rt, (7, 1), 4, (0, 2, 7_200));
    is_chosen(&rt, (7, 1), 5, (18, 0, 7));
}

#[test]
fn offsets_of_a_column(rt: HostRuntime) {
    let seconds = [
        1_711_846_799,
        1_711_846_800,
        1_729_990_799,
        0,
        31_494_784_780_800,
    ];
    let mut out = [7; 5];
    let found = muxandu_zone_offsets_at(berlin(&rt), &[], &seconds, &mut out);
    is(&rt, (found.count, found.status), (4, 15));
    is(&rt, out, [3_600, 7_200, 7_200, 3_600, 7]);
    let found = muxandu_zone_offsets_at(berlin(&rt), &[], &seconds, &mut out[..4]);
    is(&rt, (found.count, found.status), (0, 20));
}
