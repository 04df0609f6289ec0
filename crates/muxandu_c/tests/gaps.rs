use super::{LAST, is, lasting, midnight};
use crate::gap_moment_batches::{
    muxandu_date_times_past_gaps, muxandu_moments_add_months_past_gaps,
    muxandu_moments_add_past_gaps, muxandu_moments_compare_past_gaps,
    muxandu_moments_difference_past_gaps, muxandu_moments_subtract_past_gaps,
    muxandu_moments_to_offset_past_gaps, muxandu_moments_truncate_past_gaps,
};
use crate::moments::MuxanduMoment;
use crate::values::MuxanduDuration;

const GAP: MuxanduMoment = MuxanduMoment {
    seconds: i64::MIN,
    nanoseconds: 7,
    offset_seconds: 60,
};

const NO_DURATION: MuxanduDuration = MuxanduDuration {
    seconds: i64::MAX,
    nanoseconds: i32::MAX,
};

fn moment(seconds: i64, nanoseconds: u32, offset_seconds: i32) -> MuxanduMoment {
    MuxanduMoment {
        seconds,
        nanoseconds,
        offset_seconds,
    }
}

fn numbers(at: MuxanduMoment) -> (i64, u32, i32) {
    (at.seconds, at.nanoseconds, at.offset_seconds)
}

#[test]
fn date_times_past_gaps(rt: HostRuntime) {
    let moments = [
        GAP,
        moment(1_709_145_930, 7, 19_800),
        GAP,
        moment(LAST, 0, 60),
        GAP,
    ];
    let mut shown = [midnight(7, 7, 7, 7); 5];
    let mut gaps = 9;
    let batch = muxandu_date_times_past_gaps(&moments, &mut shown, &mut gaps);
    is(&rt, (batch.count, batch.status, gaps), (3, 19, 2));
    is(
        &rt,
        (shown[0].year, shown[0].month, shown[0].day),
        (0, 0, 0),
    );
    is(
        &rt,
        (shown[1].year, shown[1].month, shown[1].day),
        (2024, 2, 29),
    );
    is(&rt, (shown[2].month, shown[3].month), (0, 7));
    let batch = muxandu_date_times_past_gaps(&moments, &mut shown[..4], &mut gaps);
    is(&rt, (batch.count, batch.status, gaps), (0, 20, 0));
}

#[test]
fn offsets_past_gaps(rt: HostRuntime) {
    let moments = [moment(5, 7, 60), GAP, moment(LAST, 0, 0), GAP];
    let mut out = [moment(9, 9, 9); 4];
    let mut gaps = 9;
    let batch = muxandu_moments_to_offset_past_gaps(&moments, 3_600, &mut out, &mut gaps);
    is(&rt, (batch.count, batch.status, gaps), (2, 19, 1));
    is(&rt, numbers(out[0]), (5, 7, 3_600));
    is(&rt, numbers(out[1]), (i64::MIN, 0, 0));
    is(&rt, numbers(out[2]), (9, 9, 9));
}

#[test]
fn units_past_gaps(rt: HostRuntime) {
    let moments = [GAP, moment(1_709_145_930, 7, 19_800), moment(-1, 5, 0), GAP];
    let mut out = [moment(9, 9, 9); 4];
    let mut gaps = 9;
    let batch = muxandu_moments_truncate_past_gaps(&moments, 2, &mut out, &mut gaps);
    is(&rt, (batch.count, batch.status, gaps), (4, 0, 2));
    is(&rt, numbers(out[0]), (i64::MIN, 0, 0));
    is(&rt, numbers(out[1]), (1_709_145_000, 0, 19_800));
    is(&rt, numbers(out[2]), (-3_600, 0, 0));
    is(&rt, numbers(out[3]), (i64::MIN, 0, 0));
    let batch = muxandu_moments_truncate_past_gaps(&moments, 8, &mut out, &mut gaps);
    is(&rt, (batch.count, batch.status, gaps), (1, 18, 1));
}

#[test]
fn months_past_gaps(rt: HostRuntime) {
    // 31 January 2024, 23:30 at +05:30.
    let moments = [moment(1_706_724_000, 5, 19_800), GAP, moment(LAST, 0, 0)];
    let mut out = [moment(9, 9, 9); 3];
    let mut gaps = 9;
    let batch = muxandu_moments_add_months_past_gaps(&moments, 1, &mut out, &mut gaps);
    is(&rt, (batch.count, batch.status, gaps), (2, 19, 1));
    is(&rt, numbers(out[0]), (1_709_229_600, 5, 19_800));
    is(&rt, out[1].seconds, i64::MIN);
}

#[test]
fn sums_past_gaps(rt: HostRuntime) {
    let moments = [
        moment(5, 999_999_999, 60),
        GAP,
        moment(5, 0, 0),
        moment(LAST, 0, 0),
    ];
    let durations = [lasting(1, 1), lasting(1, 0), NO_DURATION, lasting(1, 0)];
    let mut out = [moment(9, 9, 9); 4];
    let mut gaps = 9;
    let batch = muxandu_moments_add_past_gaps(&moments, &durations, &mut out, &mut gaps);
    is(&rt, (batch.count, batch.status, gaps), (3, 19, 2));
    is(&rt, numbers(out[0]), (7, 0, 60));
    is(&rt, (out[1].seconds, out[2].seconds), (i64::MIN, i64::MIN));
    let batch = muxandu_moments_subtract_past_gaps(&moments, &durations, &mut out, &mut gaps);
    is(&rt, (batch.count, batch.status, gaps), (4, 0, 2));
    is(&rt, numbers(out[0]), (4, 999_999_998, 60));
    is(&rt, numbers(out[3]), (LAST - 1, 0, 0));
    let batch = muxandu_moments_add_past_gaps(&moments, &durations[..3], &mut out, &mut gaps);
    is(&rt, (batch.count, batch.status, gaps), (0, 20, 0));
}

#[test]
fn orders_and_differences_past_gaps(rt: HostRuntime) {
    let firsts = [moment(5, 0, 60), GAP, moment(5, 1, -60), GAP];
    let others = [moment(5, 0, 0), moment(4, 0, 0), GAP, GAP];
    let mut orders = [9; 4];
    let mut gaps = 9;
    let batch = muxandu_moments_compare_past_gaps(&firsts, &others, &mut orders, &mut gaps);
    is(&rt, (batch.count, batch.status, gaps), (4, 0, 3));
    is(&rt, (orders[0], orders[1]), (0, 2));
    is(&rt, (orders[2], orders[3]), (2, 2));
    let mut lengths = [lasting(9, 9); 4];
    let batch = muxandu_moments_difference_past_gaps(&others, &firsts, &mut lengths, &mut gaps);
    is(&rt, (batch.count, batch.status, gaps), (4, 0, 3));
    is(&rt, (lengths[0].seconds, lengths[0].nanoseconds), (0, 0));
    is(
        &rt,
        (lengths[1].seconds, lengths[1].nanoseconds),
        (i64::MAX, i32::MAX),
    );
    let batch = muxandu_moments_difference_past_gaps(
        &[GAP, moment(0, 1_000_000_000, 0)],
        &others,
        &mut lengths,
        &mut gaps,
    );
    is(&rt, (batch.count, batch.status, gaps), (1, 13, 1));
}
