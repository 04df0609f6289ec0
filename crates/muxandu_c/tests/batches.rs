use super::{LAST, at, date, is, midnight};
use crate::batches::{
    muxandu_date_times_from_seconds, muxandu_dates_from_days, muxandu_days_from_dates,
    muxandu_seconds_from_date_times, muxandu_timestamps_from_rfc3339,
};
use crate::each_text_blocks::muxandu_each_date_time_to_rfc3339;
use crate::text_batches::{muxandu_date_times_from_each_rfc3339, muxandu_date_times_from_rfc3339};
use crate::text_blocks::muxandu_date_times_to_rfc3339;
use crate::values::MuxanduSpan;

const BLOCK: &[u8] = b"1970-01-01T00:00:01Z,1970-01-01T00:00:61Z";

#[test]
fn date_times_of_seconds(rt: HostRuntime) {
    let there = midnight(7, 7, 7, 7);
    let mut date_times = [there, there, there];
    let batch = muxandu_date_times_from_seconds(&[0, -1, i64::MAX], 0, &mut date_times);
    is(&rt, (batch.count, batch.status), (2, 15));
    is(
        &rt,
        (date_times[0].year, date_times[1].year, date_times[2].year),
        (1970, 1969, 7),
    );
}

#[test]
fn date_times_of_more_seconds(rt: HostRuntime) {
    let there = midnight(7, 7, 7, 7);
    let mut date_times = [there, there, there, there, there, there, there];
    let seconds = [951_782_400, -1, 0, 4_107_542_400, 1_709_164_800, LAST + 1];
    let batch = muxandu_date_times_from_seconds(&seconds, 3_600, &mut date_times);
    is(&rt, (batch.count, batch.status), (5, 15));
    for (place, year, month, day, second) in [
        (0, 2000, 2, 29, 0),
        (1, 1970, 1, 1, 59),
        (2, 1970, 1, 1, 0),
        (3, 2100, 3, 1, 0),
        (4, 2024, 2, 29, 0),
        (5, 7, 7, 7, 0),
    ] {
        let shown = date_times[place];
        is(
            &rt,
            (shown.year, shown.month, shown.day, shown.second),
            (year, month, day, second),
        );
    }
}

#[test]
fn seconds_of_date_times(rt: HostRuntime) {
    let date_times = [midnight(2024, 2, 29, 19_800), midnight(2024, 2, 29, 0)];
    let mut seconds = [7, 7, 7];
    let batch = muxandu_seconds_from_date_times(&date_times, &mut seconds[..1]);
    is(&rt, (batch.count, batch.status, seconds[0]), (0, 20, 7));
    let batch = muxandu_seconds_from_date_times(&date_times, &mut seconds);
    is(
        &rt,
        (batch.count, batch.status, seconds[0], seconds[2]),
        (2, 0, 1_709_145_000, 7),
    );
}

#[test]
fn dates_of_days(rt: HostRuntime) {
    let mut dates = [date(7, 7, 7), date(7, 7, 7)];
    let batch = muxandu_dates_from_days(&[19_782], &mut dates);
    is(
        &rt,
        (batch.count, batch.status, dates[0].day, dates[1].day),
        (1, 0, 29, 7),
    );
    let mut days = [7, 7];
    let batch = muxandu_days_from_dates(&dates, &mut days);
    is(&rt, (batch.count, batch.status, days[0]), (2, 0, 19_782));
}

#[test]
fn dates_of_groups_of_days(rt: HostRuntime) {
    let mut dates = [date(7, 7, 7); 6];
    let days = [11_016, -1, 19_675, 364_522_971, 47_540, 364_522_972];
    let batch = muxandu_dates_from_days(&days, &mut dates);
    is(
        &rt,
        (batch.count, batch.status, dates[4].day, dates[5].day),
        (5, 16, 28, 7),
    );
    is(
        &rt,
        (dates[0].month, dates[1].day, dates[2].year, dates[3].day),
        (2, 31, 2_023, 31),
    );
    let batch = muxandu_dates_from_days(&[0, 0, -365_961_663, 0], &mut dates);
    is(
        &rt,
        (batch.count, batch.status, dates[1].year, dates[2].year),
        (2, 16, 1_970, 2_023),
    );
}

fn span(start: usize) -> MuxanduSpan {
    MuxanduSpan { start, length: 20 }
}

#[test]
fn timestamps_of_a_block(rt: HostRuntime) {
    let mut stamps = [at(7, 7), at(7, 7)];
    for (start, expected) in [
        (0, (2, 0)),
        (21, (1, 12)),
        (22, (1, 21)),
        (usize::MAX, (1, 21)),
    ] {
        let spans = [span(0), span(start)];
        let batch = muxandu_timestamps_from_rfc3339(BLOCK, &spans, &mut stamps);
        is(&rt, (batch.count, batch.status), expected);
    }
    is(&rt, (stamps[0].seconds, stamps[1].seconds), (1, 1));
}

#[test]
fn timestamps_of_a_block_without_room(rt: HostRuntime) {
    let mut stamps = [at(7, 7)];
    let batch = muxandu_timestamps_from_rfc3339(BLOCK, &[span(0), span(0)], &mut stamps);
    is(
        &rt,
        (batch.count, batch.status, stamps[0].seconds),
        (0, 20, 7),
    );
}

#[test]
fn date_times_of_a_block(rt: HostRuntime) {
    let there = midnight(1996, 12, 19, 1);
    let mut shown = [there, there];
    let batch = muxandu_date_times_from_rfc3339(BLOCK, &[span(0), span(21)], &mut shown);
    is(&rt, (batch.count, batch.status), (1, 12));
    is(
        &rt,
        (shown[0].second, shown[0].offset_seconds, shown[1].year),
        (1, 0, 1996),
    );
}

#[test]
fn texts_into_a_block(rt: HostRuntime) {
    let items = [midnight(1970, 1, 1, 0), midnight(1970, 1, 1, 3_600)];
    let none = MuxanduSpan {
        start: 0,
        length: 0,
    };
    let (mut block, mut spans) = ([b'!'; 46], [none, none]);
    let batch = muxandu_date_times_to_rfc3339(&items, &mut block, &mut spans);
    is(&rt, (batch.count, batch.status), (2, 0));
    is(&rt, (spans[1].start, spans[1].length), (20, 25));
    is(&rt, (block[44], block[45]), (b'0', b'!'));
}

#[test]
fn each_text_of_a_block(rt: HostRuntime) {
    let there = midnight(7, 7, 7, 7);
    let (mut shown, mut statuses) = ([there, there], [99, 99]);
    let spans = [
        MuxanduSpan {
            start: 0,
            length: 0,
        },
        MuxanduSpan {
            start: 0,
            length: 25,
        },
    ];
    let batch = muxandu_date_times_from_each_rfc3339(
        b"1970-01-01T00:00:00+01:00",
        &spans,
        &mut shown,
        &mut statuses,
    );
    is(&rt, (batch.count, batch.status), (1, 0));
    is(
        &rt,
        (
            statuses[0],
            statuses[1],
            shown[0].year,
            shown[1].offset_seconds,
        ),
        (22, 0, 7, 3_600),
    );
}

#[test]
fn texts_into_a_block_without_room(rt: HostRuntime) {
    let items = [midnight(1970, 1, 1, 0), midnight(1970, 1, 1, 3_600)];
    let none = MuxanduSpan {
        start: 0,
        length: 0,
    };
    let (mut block, mut spans) = ([b'!'; 44], [none, none]);
    let batch = muxandu_date_times_to_rfc3339(&items, &mut block, &mut spans);
    is(&rt, (batch.count, batch.status), (1, 20));
    is(&rt, (spans[0].length, spans[1].length), (20, 0));
    is(&rt, (block[19], block[20]), (b'Z', b'!'));
}

#[test]
fn each_text_into_a_block(rt: HostRuntime) {
    let items = [
        midnight(10_000, 1, 1, 0),
        midnight(1970, 1, 1, 0),
        midnight(1970, 1, 1, 3_600),
        midnight(1970, 1, 1, 0),
    ];
    let none = MuxanduSpan {
        start: 7,
        length: 7,
    };
    let (mut block, mut spans) = ([b'!'; 44], [none; 4]);
    let mut statuses = [99; 4];
    let batch = muxandu_each_date_time_to_rfc3339(&items, &mut block, &mut spans, &mut statuses);
    is(&rt, (batch.count, batch.status), (2, 0));
    is(&rt, (statuses[0], statuses[1]), (25, 0));
    is(&rt, (statuses[2], statuses[3]), (20, 0));
    is(&rt, (spans[0].start, spans[0].length), (0, 0));
    is(&rt, (spans[1].start, spans[1].length), (0, 20));
    is(&rt, (spans[2].start, spans[2].length), (20, 0));
    is(&rt, (spans[3].start, spans[3].length), (20, 20));
    is(&rt, (block[39], block[40]), (b'Z', b'!'));
    let batch = muxandu_each_date_time_to_rfc3339(&items, &mut block, &mut spans, &mut [99; 3]);
    is(&rt, (batch.count, batch.status), (0, 20));
    is(&rt, (block[0], block[40]), (b'1', b'!'));
}
