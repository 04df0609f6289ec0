//! Instants: timestamps of the library beside date-times of `time` in UTC.
use crate::source::Source;
use crate::sys::{self, MuxanduTimestamp};
use crate::{Answer, Compared, answer_of, instant, lasting, named, parts_of};
use std::cmp::Ordering;
use time::error::ComponentRange;
use time::{Duration, OffsetDateTime, Time};

/// The instant that `time` makes of a second and a nanosecond.
pub fn instant_of(at: MuxanduTimestamp) -> Result<OffsetDateTime, ComponentRange> {
    OffsetDateTime::from_unix_timestamp(at.seconds)?.replace_nanosecond(at.nanoseconds)
}

/// A timestamp of the library for an instant of `time` in the range.
pub fn stamp(at: OffsetDateTime) -> MuxanduTimestamp {
    MuxanduTimestamp { seconds: at.unix_timestamp(), nanoseconds: at.nanosecond() }
}

/// -1, 0 or 1.
pub fn sign(order: Ordering) -> i32 {
    order as i32
}

pub fn compare_parts(source: &mut Source, of: &mut Compared) {
    let at = source.any_timestamp();
    let theirs = instant_of(at).map_err(named);
    let checked = answer_of(|_: &mut ()| sys::muxandu_timestamp_check(at));
    of.same("timestamp_check", at, checked, theirs.map(|_| ()));
    let date_time = answer_of(|out| sys::muxandu_date_time_from_timestamp(at, 0, out));
    of.same("date_time_from_timestamp", at, date_time, theirs.map(parts_of));
    if let (Ok(date_time), Ok(theirs)) = (date_time, theirs) {
        let back = answer_of(|out| sys::muxandu_timestamp_from_date_time(date_time, out));
        of.same("timestamp_from_date_time", date_time, back, instant(theirs));
    }
}

/// A count of units of so many nanoseconds, as `time` reads it.
fn instant_of_count(count: i64, unit: i128) -> Answer<MuxanduTimestamp> {
    OffsetDateTime::from_unix_timestamp_nanos(i128::from(count) * unit).map(stamp).map_err(named)
}

/// The whole units of an instant, refused where 64 bits do not hold them.
fn whole_units(at: OffsetDateTime, unit: i128) -> Answer<i64> {
    at.unix_timestamp_nanos().div_euclid(unit).try_into().map_err(|_| "result")
}

pub fn compare_counts(source: &mut Source, of: &mut Compared) {
    let count = match source.one_of(4) {
        0 => source.any_second().saturating_mul(1_000).saturating_add(source.between(-1_001, 1_001)),
        _ => source.any_number(),
    };
    let read = answer_of(|out| sys::muxandu_timestamp_from_milliseconds(count, out));
    of.same("timestamp_from_milliseconds", count, read, instant_of_count(count, 1_000_000));
    let read = Ok(sys::muxandu_timestamp_from_microseconds(count));
    of.same("timestamp_from_microseconds", count, read, instant_of_count(count, 1_000));
    let read = Ok(sys::muxandu_timestamp_from_nanoseconds(count));
    of.same("timestamp_from_nanoseconds", count, read, instant_of_count(count, 1));

    let at = source.instant();
    let asked = stamp(at);
    let milliseconds = answer_of(|out| sys::muxandu_timestamp_to_milliseconds(asked, out));
    of.same("timestamp_to_milliseconds", asked, milliseconds, whole_units(at, 1_000_000));
    let microseconds = answer_of(|out| sys::muxandu_timestamp_to_microseconds(asked, out));
    of.same("timestamp_to_microseconds", asked, microseconds, whole_units(at, 1_000));
    let nanoseconds = answer_of(|out| sys::muxandu_timestamp_to_nanoseconds(asked, out));
    of.same("timestamp_to_nanoseconds", asked, nanoseconds, whole_units(at, 1));
}

pub fn compare_durations(source: &mut Source, of: &mut Compared) {
    let lasts = source.any_duration();
    let theirs = Duration::seconds(lasts.seconds).checked_add(Duration::nanoseconds(lasts.nanoseconds.into()));
    let (zero, epoch) = (MuxanduTimestamp::default(), OffsetDateTime::UNIX_EPOCH);
    let added = answer_of(|out| sys::muxandu_timestamp_add(zero, lasts, out));
    let sum = theirs.ok_or("duration").and_then(|lasts| epoch.checked_add(lasts).map(stamp).ok_or("result"));
    of.same("timestamp_add to 0", lasts, added, sum);
    let nearest = answer_of(|out| sys::muxandu_timestamp_saturating_add(zero, lasts, out));
    let sum = theirs.ok_or("duration").map(|lasts| stamp(epoch.saturating_add(lasts)));
    of.same("timestamp_saturating_add to 0", lasts, nearest, sum);
}

pub fn compare_sums(source: &mut Source, of: &mut Compared) {
    let at = source.instant();
    let duration = source.duration_from(at);
    let (asked, lasts) = (stamp(at), lasting(duration));
    let input = (asked, lasts);
    let added = answer_of(|out| sys::muxandu_timestamp_add(asked, lasts, out));
    of.same("timestamp_add", input, added, at.checked_add(duration).map(stamp).ok_or("result"));
    let taken = answer_of(|out| sys::muxandu_timestamp_subtract(asked, lasts, out));
    of.same("timestamp_subtract", input, taken, at.checked_sub(duration).map(stamp).ok_or("result"));
    let nearest = answer_of(|out| sys::muxandu_timestamp_saturating_add(asked, lasts, out));
    of.same("timestamp_saturating_add", input, nearest, Ok(stamp(at.saturating_add(duration))));
    let nearest = answer_of(|out| sys::muxandu_timestamp_saturating_subtract(asked, lasts, out));
    of.same("timestamp_saturating_subtract", input, nearest, Ok(stamp(at.saturating_sub(duration))));
}

/// An instant, and another that is often near or equal.
fn two(source: &mut Source) -> (OffsetDateTime, OffsetDateTime) {
    let first = source.instant();
    let second = match source.one_of(4) {
        0 => first.saturating_add(Duration::nanoseconds(source.between(-1, 1))),
        1 => first.saturating_add(Duration::seconds(source.between(-100_000, 100_000))),
        _ => source.instant(),
    };
    (first, second)
}

pub fn compare_two(source: &mut Source, of: &mut Compared) {
    let (first, second) = two(source);
    let (later, earlier) = (stamp(first), stamp(second));
    let lasts = answer_of(|out| sys::muxandu_timestamp_difference(later, earlier, out));
    of.same("timestamp_difference", (later, earlier), lasts, Ok(lasting(first - second)));
    let order = sys::muxandu_timestamp_compare(later, earlier);
    of.same("timestamp_compare", (later, earlier), order, sign(first.cmp(&second)));
}

pub const UNITS: [u32; 6] =
    [sys::UNIT_DAY, sys::UNIT_HOUR, sys::UNIT_MINUTE, sys::UNIT_SECOND, sys::UNIT_MILLISECOND, sys::UNIT_MICROSECOND];

/// A date-time rounded down to a unit: 0.3.9 has no call for it, so its time of day is replaced by one of fewer parts.
pub fn round_down(at: OffsetDateTime, unit: u32) -> OffsetDateTime {
    let (hour, minute, second, nanosecond) = at.to_hms_nano();
    let time = match unit {
        sys::UNIT_DAY => Ok(Time::MIDNIGHT),
        sys::UNIT_HOUR => Time::from_hms(hour, 0, 0),
        sys::UNIT_MINUTE => Time::from_hms(hour, minute, 0),
        sys::UNIT_SECOND => Time::from_hms(hour, minute, second),
        sys::UNIT_MILLISECOND => Time::from_hms_milli(hour, minute, second, (nanosecond / 1_000_000) as u16),
        _ => Time::from_hms_micro(hour, minute, second, nanosecond / 1_000),
    };
    at.replace_time(time.expect("a time of day"))
}

pub fn compare_truncations(source: &mut Source, of: &mut Compared) {
    let at = source.instant();
    for unit in UNITS {
        let ours = answer_of(|out| sys::muxandu_timestamp_truncate(stamp(at), unit, out));
        of.same("timestamp_truncate", (stamp(at), unit), ours, Ok(stamp(round_down(at, unit))));
    }
}
