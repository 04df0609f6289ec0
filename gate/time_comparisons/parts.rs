//! Date-times made of any parts, and parts that are replaced.
use crate::source::{LONGEST, MONTHS, Source};
use crate::sys::{self, MuxanduDateTime};
use crate::{Answer, Compared, answer_of, compare_marks, name, named, parts_of};
use time::error::ComponentRange;
use time::{Date, Month, OffsetDateTime, Time, UtcOffset};

/// The date-time of the parts, by `time`. It has no months of numbers, so the month is one that there is.
fn with_month(date_time: MuxanduDateTime, month: Month) -> Result<OffsetDateTime, ComponentRange> {
    let date = Date::from_calendar_date(date_time.year, month, date_time.day)?;
    let time = Time::from_hms_nano(date_time.hour, date_time.minute, date_time.second, date_time.nanosecond)?;
    Ok(date.with_time(time).assume_offset(UtcOffset::from_whole_seconds(date_time.offset_seconds)?))
}

/// Whether some month has the day.
fn is_day(day: u8) -> bool {
    (1..=31).contains(&day)
}

/// A number of a part of a date or a clock, mostly one that there is.
fn some_part(source: &mut Source, first: i64, last: i64) -> u8 {
    match source.one_of(16) {
        0 => source.near(first, last, 1) as u8,
        1 => source.any_number() as u8,
        _ => source.between(first, last) as u8,
    }
}

pub fn compare_parts(source: &mut Source, of: &mut Compared) {
    let month = MONTHS[source.one_of(12) as usize];
    let date_time = MuxanduDateTime {
        year: source.any_year(),
        month: month.into(),
        day: some_part(source, 1, 31),
        hour: some_part(source, 0, 23),
        minute: some_part(source, 0, 59),
        second: some_part(source, 0, 59),
        nanosecond: source.any_nanosecond(),
        offset_seconds: source.any_offset().clamp(-LONGEST - 1, LONGEST + 1),
    };
    let status = sys::muxandu_date_time_check(date_time);
    let theirs = with_month(date_time, month);
    let longest = LONGEST.unsigned_abs();
    let is_too_long = status == sys::OK && date_time.offset_seconds.unsigned_abs() > longest;
    let foretold = if is_too_long { "seconds" } else { name(status) };
    let refused = theirs.map_or_else(named, |_| "nothing");
    let stated = "0.3.9 has no offsets of 24 hours and more";
    of.foretold("date_time_check", date_time, stated, (name(status), foretold, refused));
    match theirs {
        Ok(at) => of.same("date_time_check", date_time, date_time, parts_of(at)),
        Err(refusal) => compare_marks(of, "date_time_check", date_time, (status, is_day(date_time.day)), refusal),
    }
}

/// The date-time with a part written over, as docs/guide/C.md says, and what it is refused for.
fn write_part(date_time: MuxanduDateTime) -> Answer<MuxanduDateTime> {
    answer_of(|_: &mut ()| sys::muxandu_date_time_check(date_time)).map(|()| date_time)
}

type Replaced = Result<OffsetDateTime, ComponentRange>;

fn compare_replaced(of: &mut Compared, call: &str, date_time: MuxanduDateTime, theirs: Replaced) {
    of.same(call, date_time, write_part(date_time), theirs.map(parts_of).map_err(named));
    if let Err(refusal) = theirs {
        compare_marks(of, call, date_time, (sys::muxandu_date_time_check(date_time), is_day(date_time.day)), refusal);
    }
}

pub fn compare_replacements(source: &mut Source, of: &mut Compared) {
    let at = source.at_offset();
    let date_time = parts_of(at);
    let year = source.any_year();
    compare_replaced(of, "replace_year", MuxanduDateTime { year, ..date_time }, at.replace_year(year));
    let month = MONTHS[source.one_of(12) as usize];
    compare_replaced(of, "replace_month", MuxanduDateTime { month: month.into(), ..date_time }, at.replace_month(month));
    let day = some_part(source, 1, 31);
    compare_replaced(of, "replace_day", MuxanduDateTime { day, ..date_time }, at.replace_day(day));
    let hour = some_part(source, 0, 23);
    compare_replaced(of, "replace_hour", MuxanduDateTime { hour, ..date_time }, at.replace_hour(hour));
    let minute = some_part(source, 0, 59);
    compare_replaced(of, "replace_minute", MuxanduDateTime { minute, ..date_time }, at.replace_minute(minute));
    let second = some_part(source, 0, 59);
    compare_replaced(of, "replace_second", MuxanduDateTime { second, ..date_time }, at.replace_second(second));
    let nanosecond = source.any_nanosecond();
    compare_replaced(of, "replace_nanosecond", MuxanduDateTime { nanosecond, ..date_time }, at.replace_nanosecond(nanosecond));
    compare_fractions(source, of, at);
    compare_wholes(source, of, at);
}

/// Milliseconds and microseconds of a second, which are nanoseconds in the library.
fn compare_fractions(source: &mut Source, of: &mut Compared, at: OffsetDateTime) {
    let date_time = parts_of(at);
    let millisecond = source.between(0, 1_001) as u16;
    let replaced = MuxanduDateTime { nanosecond: u32::from(millisecond) * 1_000_000, ..date_time };
    let theirs = at.replace_millisecond(millisecond).map(parts_of).map_err(|_| "nanosecond");
    of.same("replace_millisecond", replaced, write_part(replaced), theirs);
    let microsecond = source.between(0, 1_000_001) as u32;
    let replaced = MuxanduDateTime { nanosecond: microsecond * 1_000, ..date_time };
    let theirs = at.replace_microsecond(microsecond).map(parts_of).map_err(|_| "nanosecond");
    of.same("replace_microsecond", replaced, write_part(replaced), theirs);
}

/// Dates, times of day and offsets.
fn compare_wholes(source: &mut Source, of: &mut Compared, at: OffsetDateTime) {
    let date_time = parts_of(at);
    let (date, time, offset) = (source.date(), source.time(), source.utc_offset());
    let (year, month, day) = (date.year(), date.month().into(), date.day());
    let dated = MuxanduDateTime { year, month, day, ..date_time };
    of.same("replace_date", (date_time, date), write_part(dated), Ok(parts_of(at.replace_date(date))));
    let (hour, minute, second, nanosecond) = time.as_hms_nano();
    let timed = MuxanduDateTime { hour, minute, second, nanosecond, ..date_time };
    of.same("replace_time", (date_time, time), write_part(timed), Ok(parts_of(at.replace_time(time))));
    let both = MuxanduDateTime { year, month, day, ..timed };
    let theirs = at.replace_date_time(date.with_time(time));
    of.same("replace_date_time", (date_time, date, time), write_part(both), Ok(parts_of(theirs)));

    let offset_seconds = offset.whole_seconds();
    let moved = MuxanduDateTime { offset_seconds, ..date_time };
    let foretold = MuxanduDateTime { offset_seconds, ..parts_of(at.to_offset(UtcOffset::UTC)) };
    let stated = "0.3.9 replaces an offset and moves the clock to what UTC shows";
    let answers = (write_part(moved), Ok(foretold), Ok(parts_of(at.replace_offset(offset))));
    of.foretold("replace_offset", (date_time, offset), stated, answers);
    let by_parts = at.date().with_time(at.time()).assume_offset(offset);
    of.same("replace_offset", (date_time, offset), write_part(moved), Ok(parts_of(by_parts)));
}
