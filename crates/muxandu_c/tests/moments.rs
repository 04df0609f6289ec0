use super::{LAST, is, lasting, midnight};
use crate::each_moment_batches::{
    muxandu_date_times_from_each_moment, muxandu_each_moment_add_months,
    muxandu_each_moment_to_offset, muxandu_each_moment_truncate,
    muxandu_moments_from_each_date_time, muxandu_moments_from_each_rfc3339,
};
use crate::moment_batches::{
    muxandu_date_times_from_moments, muxandu_moments_add_months, muxandu_moments_from_date_times,
    muxandu_moments_from_rfc3339, muxandu_moments_to_offset, muxandu_moments_truncate,
};
use crate::moment_pair_batches::{
    muxandu_each_moment_add, muxandu_each_moment_compare, muxandu_each_moment_difference,
    muxandu_each_moment_subtract, muxandu_moments_add, muxandu_moments_compare,
    muxandu_moments_difference, muxandu_moments_subtract,
};
use crate::moments::MuxanduMoment;
use crate::values::MuxanduSpan;

const NONE: MuxanduMoment = MuxanduMoment {
    seconds: i64::MIN,
    nanoseconds: 0,
    offset_seconds: 0,
};

fn moment(seconds: i64, nanoseconds: u32, offset_seconds: i32) -> MuxanduMoment {
    MuxanduMoment {
        seconds,
        nanoseconds,
        offset_seconds,
    }
}

fn numbers(at: MuxanduMoment) -> (i64, u32, i32) {
    (at.seconds, at.nanoseconds, at.offset_seconds)
}

#[test]
fn date_times_of_moments(rt: HostRuntime) {
    let there = midnight(7, 7, 7, 7);
    let mut shown = [there, there, there];
    let moments = [moment(1_709_145_930, 7, 19_800), moment(LAST, 0, 60), NONE];
    let batch = muxandu_date_times_from_moments(&moments, &mut shown);
    is(&rt, (batch.count, batch.status, shown[1].year), (1, 19, 7));
    let first = shown[0];
    is(&rt, (first.month, first.day, first.hour), (2, 29, 0));
    is(
        &rt,
        (first.minute, first.second, first.nanosecond),
        (15, 30, 7),
    );
    is(&rt, first.offset_seconds, 19_800);
    let batch = muxandu_date_times_from_moments(&moments, &mut shown[..2]);
    is(&rt, (batch.count, batch.status), (0, 20));
}

#[test]
fn date_times_of_each_moment(rt: HostRuntime) {
    let there = midnight(7, 7, 7, 7);
    let mut shown = [there, there];
    let mut statuses = [9, 9];
    let moments = [NONE, moment(-1, 0, -3_600)];
    let batch = muxandu_date_times_from_each_moment(&moments, &mut shown, &mut statuses);
    is(&rt, (batch.count, batch.status), (1, 0));
    is(&rt, (statuses[0], statuses[1], shown[0].year), (15, 0, 7));
    is(
        &rt,
        (shown[1].year, shown[1].hour, shown[1].second),
        (1969, 22, 59),
    );
}

#[test]
fn moments_of_date_times(rt: HostRuntime) {
    let date_times = [midnight(2024, 2, 29, 19_800), midnight(2023, 2, 29, 0)];
    let mut moments = [NONE, NONE];
    let batch = muxandu_moments_from_date_times(&date_times, &mut moments);
    is(&rt, (batch.count, batch.status), (1, 4));
    is(&rt, numbers(moments[0]), (1_709_145_000, 0, 19_800));
    let mut statuses = [9, 9];
    let batch = muxandu_moments_from_each_date_time(&date_times, &mut moments, &mut statuses);
    is(&rt, (batch.count, statuses[0], statuses[1]), (1, 0, 4));
}

#[test]
fn moments_of_texts(rt: HostRuntime) {
    let block = b"1969-12-31T23:59:59.5-01:00,2024-02-30T00:00:00Z";
    let spans = [
        MuxanduSpan {
            start: 28,
            length: 20,
        },
        MuxanduSpan {
            start: 0,
            length: 27,
        },
    ];
    let mut moments = [NONE, NONE];
    let batch = muxandu_moments_from_rfc3339(block, &spans, &mut moments);
    is(&rt, (batch.count, batch.status), (0, 4));
    let mut statuses = [9, 9];
    let batch = muxandu_moments_from_each_rfc3339(block, &spans, &mut moments, &mut statuses);
    is(&rt, (batch.count, statuses[0], statuses[1]), (1, 4, 0));
    is(&rt, numbers(moments[1]), (3_599, 500_000_000, -3_600));
}

#[test]
fn offsets_of_moments(rt: HostRuntime) {
    let moments = [moment(5, 7, 60), moment(LAST, 0, 0)];
    let mut out = [NONE, NONE];
    let batch = muxandu_moments_to_offset(&moments, 3_600, &mut out);
    is(&rt, (batch.count, batch.status), (1, 19));
    is(&rt, numbers(out[0]), (5, 7, 3_600));
    let mut statuses = [9, 9];
    let batch = muxandu_each_moment_to_offset(&moments, 93_600, &mut out, &mut statuses);
    is(&rt, (batch.count, statuses[0], statuses[1]), (0, 14, 14));
}

#[test]
fn moments_in_a_unit(rt: HostRuntime) {
    let moments = [moment(1_709_145_930, 7, 19_800), moment(-1, 5, 0)];
    let mut out = [NONE, NONE];
    for (unit, first, second) in [
        (1, 1_709_145_000, -86_400),
        (2, 1_709_145_000, -3_600),
        (3, 1_709_145_900, -60),
    ] {
        let batch = muxandu_moments_truncate(&moments, unit, &mut out);
        is(&rt, (batch.count, batch.status), (2, 0));
        is(&rt, numbers(out[0]), (first, 0, 19_800));
        is(&rt, numbers(out[1]), (second, 0, 0));
    }
    let mut statuses = [9, 9];
    let batch = muxandu_each_moment_truncate(&moments, 8, &mut out, &mut statuses);
    is(&rt, (batch.count, statuses[0], statuses[1]), (0, 18, 18));
}

#[test]
fn moments_in_less_than_a_second(rt: HostRuntime) {
    let moments = [
        moment(-1, 987_654_321, 19_800),
        moment(LAST, 987_654_321, 0),
    ];
    let mut out = [NONE, NONE];
    for (unit, nanoseconds) in [(5, 987_000_000), (6, 987_654_000), (7, 987_654_321)] {
        let batch = muxandu_moments_truncate(&moments, unit, &mut out);
        is(&rt, (batch.count, batch.status), (2, 0));
        is(&rt, numbers(out[0]), (-1, nanoseconds, 19_800));
        is(&rt, numbers(out[1]), (LAST, nanoseconds, 0));
    }
}

#[test]
fn months_after_moments(rt: HostRuntime) {
    // 31 January 2024, 23:30 at +05:30.
    let moments = [moment(1_706_724_000, 5, 19_800), moment(LAST, 0, 0)];
    let mut out = [NONE, NONE];
    let batch = muxandu_moments_add_months(&moments, 1, &mut out);
    is(&rt, (batch.count, batch.status), (1, 19));
    is(&rt, numbers(out[0]), (1_709_229_600, 5, 19_800));
    let mut statuses = [9, 9];
    let batch = muxandu_each_moment_add_months(&moments, -11, &mut out, &mut statuses);
    is(&rt, (batch.count, statuses[0], statuses[1]), (2, 0, 0));
    is(&rt, numbers(out[0]), (1_677_607_200, 5, 19_800));
}

#[test]
fn sums_of_moments(rt: HostRuntime) {
    let moments = [moment(5, 999_999_999, 60), moment(LAST, 0, 0)];
    let durations = [lasting(1, 1), lasting(1, 0), lasting(0, 0)];
    let mut out = [NONE, NONE];
    let batch = muxandu_moments_add(&moments, &durations, &mut out);
    is(&rt, (batch.count, batch.status), (1, 19));
    is(&rt, numbers(out[0]), (7, 0, 60));
    let batch = muxandu_moments_add(&moments, &durations[..1], &mut out);
    is(&rt, (batch.count, batch.status), (0, 20));
    let mut statuses = [9, 9];
    let batch = muxandu_each_moment_add(&moments, &durations, &mut out, &mut statuses);
    is(&rt, (batch.count, statuses[0], statuses[1]), (1, 0, 19));
    let batch = muxandu_each_moment_add(&moments, &durations, &mut out, &mut statuses[..1]);
    is(&rt, (batch.count, batch.status), (0, 20));
}

#[test]
fn differences_of_moments_and_durations(rt: HostRuntime) {
    let moments = [moment(5, 0, 60), moment(LAST, 0, 0)];
    let durations = [lasting(1, 1), lasting(1, 0)];
    let mut out = [NONE, NONE];
    let batch = muxandu_moments_subtract(&moments, &durations, &mut out);
    is(&rt, (batch.count, batch.status), (2, 0));
    is(&rt, numbers(out[0]), (3, 999_999_999, 60));
    is(&rt, numbers(out[1]), (LAST - 1, 0, 0));
    let mut statuses = [9, 9];
    let batch = muxandu_each_moment_subtract(&[NONE], &durations, &mut out, &mut statuses);
    is(&rt, (batch.count, statuses[0], statuses[1]), (0, 15, 9));
}

#[test]
fn order_of_moments(rt: HostRuntime) {
    let firsts = [moment(5, 0, 60), moment(5, 0, 60), moment(5, 1, -60)];
    let others = [moment(5, 0, 0), moment(4, 0, 0), moment(5, 2, 0)];
    let mut orders = [9, 9, 9];
    let batch = muxandu_moments_compare(&firsts, &others, &mut orders);
    is(&rt, (batch.count, batch.status), (3, 0));
    is(&rt, (orders[0], orders[1], orders[2]), (0, 1, -1));
    let mut statuses = [9];
    let batch = muxandu_each_moment_compare(&[NONE], &others, &mut orders, &mut statuses);
    is(&rt, (batch.count, statuses[0], orders[0]), (0, 15, 0));
}

#[test]
fn durations_between_moments(rt: HostRuntime) {
    let later = [moment(5, 0, 60), moment(-1, 1, 0)];
    let earlier = [moment(4, 1, 0), moment(0, 0, 0)];
    let mut lengths = [lasting(9, 9), lasting(9, 9)];
    let batch = muxandu_moments_difference(&later, &earlier, &mut lengths);
    is(&rt, (batch.count, batch.status), (2, 0));
    is(
        &rt,
        (lengths[0].seconds, lengths[0].nanoseconds),
        (0, 999_999_999),
    );
    is(
        &rt,
        (lengths[1].seconds, lengths[1].nanoseconds),
        (0, -999_999_999),
    );
    let mut statuses = [9, 9];
    let batch = muxandu_each_moment_difference(
        &later,
        &[later[1], NONE],
        &mut lengths,
        &mut statuses,
    );
    is(&rt, (batch.count, statuses[0], statuses[1]), (1, 0, 15));
    is(
        &rt,
        (lengths[0].seconds, lengths[0].nanoseconds),
        (5, 999_999_999),
    );
}
