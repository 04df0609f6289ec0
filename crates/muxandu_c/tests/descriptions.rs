use super::{date, is, midnight};
use crate::description_items::MuxanduItem;
use crate::descriptions::{muxandu_description_parse, muxandu_description_text};
use crate::formats::{muxandu_format, muxandu_format_all, muxandu_format_items};
use crate::parse_fronts::{muxandu_parse_front, muxandu_parse_items_front};
use crate::parses::{muxandu_parse, muxandu_parse_all, muxandu_parse_each, muxandu_parse_items};
use crate::values::{MuxanduDateTime, MuxanduSpan};

const NONE: MuxanduItem = MuxanduItem {
    kind: 0,
    first: 0,
    second: 0,
    third: 0,
    fourth: 0,
    number: 0,
};

const FORM: &[u8] = b"[year]-[month]-[day]";

// The items of a date.
fn day_items() -> [MuxanduItem; 5] {
    let mut items = [NONE; 5];
    muxandu_description_parse(2, FORM, &mut items);
    items
}

// 29 February 2024, 12:34:56.5 at +05:30.
fn leap_day() -> MuxanduDateTime {
    MuxanduDateTime {
        hour: 12,
        minute: 34,
        second: 56,
        nanosecond: 500_000_000,
        ..midnight(2024, 2, 29, 19_800)
    }
}

#[test]
fn items_of_descriptions(rt: HostRuntime) {
    let mut items = [NONE; 8];
    let found = muxandu_description_parse(2, FORM, &mut items);
    is(&rt, (found.size, found.status, found.reason), (5, 0, 0));
    let found = muxandu_description_parse(2, FORM, &mut [NONE; 4]);
    is(&rt, (found.size, found.status, found.reason), (5, 20, 0));
    let found = muxandu_description_parse(2, b"[year]-[mouth]", &mut items);
    is(&rt, (found.size, found.status, found.reason), (8, 22, 4));
    let found = muxandu_description_parse(2, b"[day", &mut items);
    is(&rt, (found.size, found.status, found.reason), (0, 22, 1));
    let found = muxandu_description_parse(3, FORM, &mut items);
    is(&rt, (found.size, found.status, found.reason), (0, 18, 0));
}

#[test]
fn texts_of_items(rt: HostRuntime) {
    let mut items = [NONE; 5];
    let mut buffer = [7; 40];
    muxandu_description_parse(2, b"[day padding:none]\\[ [optional [[hour]]]", &mut items);
    let found = muxandu_description_text(2, &items, &mut buffer);
    is(&rt, (found.size, found.status, found.reason), (40, 0, 0));
    let whole = buffer == *b"[day padding:none]\\[ [optional [[hour]]]";
    is(&rt, whole, true);
    let found = muxandu_description_text(0, &items, &mut buffer);
    is(&rt, (found.size, found.status, found.reason), (0, 18, 0));
    let found = muxandu_description_text(1, &[NONE; 6], &mut buffer);
    is(&rt, (found.size, found.status, found.reason), (0, 18, 0));
}

#[test]
fn text_of_an_item_without_room(rt: HostRuntime) {
    let mut items = [NONE; 1];
    muxandu_description_parse(2, b"[day padding:none]", &mut items);
    let found = muxandu_description_text(1, &items, &mut [7; 17]);
    is(&rt, (found.size, found.status, found.reason), (0, 20, 12));
}

#[test]
fn formats_by_items(rt: HostRuntime) {
    let items = day_items();
    let others = [NONE; 6];
    let mut buffer = [7; 64];
    let mut size = 7;
    let status = muxandu_format_items(3, &items, leap_day(), &mut buffer, &mut size);
    is(&rt, (status, size), (0, 10));
    is(&rt, &buffer[..10] == b"2024-02-29".as_slice(), true);
    let status = muxandu_format_items(3, &items, leap_day(), &mut [7; 9], &mut size);
    is(&rt, (status, size), (20, 10));
    let status = muxandu_format_items(4, &items, leap_day(), &mut buffer, &mut size);
    is(&rt, (status, size), (25, 10));
    let status = muxandu_format_items(6, &items, leap_day(), &mut buffer, &mut size);
    is(&rt, (status, size), (18, 10));
    let status = muxandu_format_items(1, &others, leap_day(), &mut buffer, &mut size);
    is(&rt, (status, size), (18, 10));
    let wrong = midnight(2024, 2, 30, 0);
    let status = muxandu_format_items(1, &items, wrong, &mut buffer, &mut size);
    is(&rt, (status, size), (4, 10));
}

#[test]
fn formats_of_kinds(rt: HostRuntime) {
    let mut buffer = [7; 64];
    let mut size = 7;
    for (kind, form, text) in [
        (
            1,
            b"[hour][offset_hour sign:mandatory]".as_slice(),
            b"12+05".as_slice(),
        ),
        (
            1,
            b"[unix_timestamp precision:millisecond]",
            b"1709190296500",
        ),
        (2, b"[weekday repr:short] [minute]", b"Thu 34"),
        (3, b"[ordinal]", b"060"),
        (4, b"[hour repr:12] [period case:lower]", b"12 pm"),
        (5, b"[offset_hour]:[offset_minute]", b"05:30"),
    ] {
        let status = muxandu_format(kind, form, leap_day(), &mut buffer, &mut size);
        is(&rt, (status, size), (0, text.len()));
        is(&rt, buffer.starts_with(text), true);
    }
    for (kind, form, status) in [
        (2, b"[offset_hour]".as_slice(), 25),
        (1, b"[hour]\xc3", 25),
        (1, b"[hour", 22),
    ] {
        size = 7;
        let found = muxandu_format(kind, form, leap_day(), &mut buffer, &mut size);
        is(&rt, (found, size), (status, 7));
    }
    let status = muxandu_format(1, b"[hour]", leap_day(), &mut buffer[..1], &mut size);
    is(&rt, (status, size), (20, 2));
}

#[test]
fn formats_of_many(rt: HostRuntime) {
    let items = day_items();
    let others = [NONE; 6];
    let mut texts = [7; 25];
    let mut spans = [MuxanduSpan {
        start: 7,
        length: 7,
    }; 3];
    let values = [leap_day(), midnight(1, 1, 1, 0), leap_day()];
    let batch = muxandu_format_all(3, &items, &values, &mut texts, &mut spans);
    is(&rt, (batch.count, batch.status), (2, 20));
    is(
        &rt,
        &texts[..21] == b"2024-02-290001-01-01\x07".as_slice(),
        true,
    );
    is(
        &rt,
        (spans[1].start, spans[1].length, spans[2].start),
        (10, 10, 7),
    );
    let batch = muxandu_format_all(3, &others, &values, &mut texts, &mut spans);
    is(&rt, (batch.count, batch.status), (0, 18));
    let batch = muxandu_format_all(
        3,
        &items,
        &values,
        &mut texts,
        &mut [MuxanduSpan {
            start: 7,
            length: 7,
        }; 2],
    );
    is(&rt, (batch.count, batch.status), (0, 20));
}

#[test]
fn parses_by_items(rt: HostRuntime) {
    let items = day_items();
    let others = [NONE; 6];
    let mut out = midnight(7, 7, 7, 7);
    let found = muxandu_parse_items(3, &items, b"2024-02-29", &mut out);
    is(&rt, (found.size, found.status, found.reason), (10, 0, 0));
    is(
        &rt,
        (out.year, out.month, out.day, out.hour, out.offset_seconds),
        (2024, 2, 29, 0, 0),
    );
    out = midnight(7, 7, 7, 7);
    let found = muxandu_parse_items(3, &items, b"2024-2-29", &mut out);
    is(&rt, (found.size, found.status, found.reason), (5, 22, 0));
    let found = muxandu_parse_items(3, &items, b"2023-02-29", &mut out);
    is(&rt, (found.size, found.status, found.reason), (8, 19, 25));
    let found = muxandu_parse_items(4, &items, b"2023-02-28", &mut out);
    is(&rt, (found.size, found.status, found.reason), (0, 22, 31));
    let found = muxandu_parse_items(9, &items, b"2023-02-28", &mut out);
    is(&rt, (found.size, found.status, found.reason), (0, 18, 0));
    let found = muxandu_parse_items(3, &others, b"2023-02-28", &mut out);
    is(&rt, (found.size, found.status, found.reason), (0, 18, 0));
    is(&rt, (out.year, out.day), (7, 7));
}

#[test]
fn parses_of_fronts(rt: HostRuntime) {
    let items = day_items();
    let mut out = midnight(7, 7, 7, 7);
    let found = muxandu_parse_items_front(3, &items, b"2024-02-29 INFO", &mut out);
    is(&rt, (found.size, found.status, found.reason), (10, 0, 0));
    is(&rt, (out.year, out.month, out.day), (2024, 2, 29));
    out = midnight(7, 7, 7, 7);
    let found = muxandu_parse_items_front(3, &items, b"2023-02-29 INFO", &mut out);
    is(&rt, (found.size, found.status, found.reason), (8, 19, 25));
    let found = muxandu_parse_items_front(3, &items, b"INFO", &mut out);
    is(&rt, (found.size, found.status, found.reason), (0, 22, 0));
    let found = muxandu_parse_items_front(3, &[NONE; 6], b"2023-02-28", &mut out);
    is(&rt, (found.size, found.status, found.reason), (0, 18, 0));
    let form = b"[unix_timestamp] [year]";
    let found = muxandu_parse_front(1, form, b"1709190296 2023 INFO", &mut out);
    is(&rt, (found.size, found.status, found.reason), (15, 19, 25));
    is(&rt, (out.year, out.day), (7, 7));
    let found = muxandu_parse_front(1, form, b"1709190296 2024 INFO", &mut out);
    is(&rt, (found.size, found.status, found.reason), (15, 0, 0));
    is(&rt, (out.month, out.day, out.hour), (2, 29, 7));
}

#[test]
fn parses_of_kinds(rt: HostRuntime) {
    let mut out = midnight(7, 7, 7, 7);
    let form = b"[year]-[ordinal] [hour]:[minute]:[second].[subsecond][offset_hour][offset_minute]";
    let found = muxandu_parse(1, form, b"2024-060 12:34:56.5-0130", &mut out);
    is(&rt, (found.size, found.status, found.reason), (24, 0, 0));
    is(
        &rt,
        (out.month, out.day, out.nanosecond),
        (2, 29, 500_000_000),
    );
    is(&rt, (out.hour, out.offset_seconds), (12, -5_400));
    let found = muxandu_parse(2, b"[year][month][day]T[hour]", b"20240229T09", &mut out);
    is(
        &rt,
        (found.status, out.day, out.hour, out.offset_seconds),
        (0, 29, 9, 0),
    );
    let found = muxandu_parse(4, b"[hour repr:12][period]", b"12AM", &mut out);
    is(&rt, (found.status, out.year, out.hour), (0, 1970, 0));
    let found = muxandu_parse(5, b"[offset_hour]", b"-01", &mut out);
    is(&rt, (found.status, out.offset_seconds), (0, -3_600));
    let found = muxandu_parse(1, b"[unix_timestamp] [offset_hour]", b"-1 +01", &mut out);
    is(
        &rt,
        (found.status, out.year, out.hour, out.minute),
        (0, 1970, 0, 59),
    );
    let found = muxandu_parse(1, b"[unix_timestamp] [hour]", b"3600 01", &mut out);
    is(&rt, (found.status, out.hour, out.offset_seconds), (0, 1, 0));
    let found = muxandu_parse(1, b"[unix_timestamp] [hour]", b"3600 02", &mut out);
    is(&rt, (found.size, found.status, found.reason), (0, 19, 40));
    let found = muxandu_parse(1, b"[hour", b"02", &mut out);
    is(&rt, (found.size, found.status, found.reason), (0, 22, 1));
    let found = muxandu_parse(1, b"[year]", b"2024", &mut out);
    is(&rt, (found.size, found.status, found.reason), (0, 22, 24));
    is(&rt, date(out.year, out.month, out.day).year, 1970);
}

#[test]
fn places_of_parts(rt: HostRuntime) {
    let mut out = midnight(7, 7, 7, 7);
    let weekday = b"[year]-[month]-[day][optional [ [weekday repr:short]]]";
    let found = muxandu_parse(3, weekday, b"2024-02-29 Fri", &mut out);
    is(&rt, (found.size, found.status, found.reason), (11, 19, 27));
    let found = muxandu_parse(5, b"[offset_hour]:[offset_minute]", b"+01:60", &mut out);
    is(&rt, (found.size, found.status, found.reason), (4, 19, 38));
    let found = muxandu_parse(1, b"[unix_timestamp] [hour]", b"3600 25", &mut out);
    is(&rt, (found.size, found.status, found.reason), (5, 19, 31));
    let form = b"[hour] [unix_timestamp precision:millisecond]";
    let found = muxandu_parse(1, form, b"02 3600000", &mut out);
    is(&rt, (found.size, found.status, found.reason), (3, 19, 41));
    // The day of the timestamp, 2024-02-29, is none of the year in the text.
    let found = muxandu_parse(1, b"[unix_timestamp] [year]", b"1709190296 2023", &mut out);
    is(&rt, (found.size, found.status, found.reason), (15, 19, 25));
    is(&rt, (out.year, out.day), (7, 7));
}

#[test]
fn parses_of_many(rt: HostRuntime) {
    let items = day_items();
    let others = [NONE; 6];
    let there = midnight(7, 7, 7, 7);
    let mut out = [there; 3];
    let mut statuses = [7; 3];
    let texts = b"2024-02-29,2024-13-01,1999-12-31";
    let spans = [
        MuxanduSpan {
            start: 0,
            length: 10,
        },
        MuxanduSpan {
            start: 11,
            length: 10,
        },
        MuxanduSpan {
            start: 22,
            length: 10,
        },
    ];
    let batch = muxandu_parse_each(3, &items, texts, &spans, &mut out, &mut statuses);
    is(&rt, (batch.count, batch.status), (2, 0));
    is(&rt, (statuses[0], statuses[1], statuses[2]), (0, 19, 0));
    is(&rt, (out[0].day, out[1].day, out[2].day), (29, 7, 31));
    out = [there; 3];
    let batch = muxandu_parse_all(3, &items, texts, &spans, &mut out);
    is(&rt, (batch.count, batch.status), (1, 19));
    is(&rt, (out[0].day, out[2].day), (29, 7));
    let batch = muxandu_parse_all(3, &items, b"2024-02-2", &spans, &mut out);
    is(&rt, (batch.count, batch.status), (0, 21));
    let batch = muxandu_parse_all(3, &items, texts, &spans, &mut [there; 2]);
    is(&rt, (batch.count, batch.status), (0, 20));
    let batch = muxandu_parse_all(3, &others, texts, &spans, &mut out);
    is(&rt, (batch.count, batch.status), (0, 18));
    let batch = muxandu_parse_each(3, &others, texts, &spans, &mut out, &mut statuses);
    is(&rt, (batch.count, batch.status), (0, 18));
    let batch = muxandu_parse_each(3, &items, texts, &spans, &mut out, &mut [7]);
    is(&rt, (batch.count, batch.status), (0, 20));
}
