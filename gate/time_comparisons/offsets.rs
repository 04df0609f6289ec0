//! Date-times at offsets.
use crate::instants::{UNITS, instant_of, round_down, sign};
use crate::source::{LONGEST, Source};
use crate::sys::{self, MuxanduBatch, MuxanduDateTime, MuxanduTimestamp};
use crate::{Answer, Compared, answer_of, instant, lasting, name, named, parts_of, shown_in_range};
use time::{Duration, OffsetDateTime, UtcOffset};

const TOO_LONG: &str = "0.3.9 has no offsets of 24 hours and more";

/// What clocks at an offset show, by `time`: the instant is refused first, then the offset, then what they would show.
fn at_offset(at: Answer<OffsetDateTime>, offset: i32) -> Answer<MuxanduDateTime> {
    let at = at?;
    shown_in_range(at.to_offset(UtcOffset::from_whole_seconds(offset).map_err(named)?))
}

/// What 0.3.9 answers where we answer so: it refuses offsets of 24 hours and more.
fn foretold(ours: Answer<MuxanduDateTime>, at: Answer<OffsetDateTime>, offset: i32) -> Answer<MuxanduDateTime> {
    let is_too_long = at.is_ok() && offset.unsigned_abs() > LONGEST.unsigned_abs();
    if is_too_long && offset.unsigned_abs() <= 93_599 { Err("seconds") } else { ours }
}

pub fn compare_conversions(source: &mut Source, of: &mut Compared) {
    let (stamp, offset) = (source.any_timestamp(), source.any_offset());
    let at = instant_of(stamp).map_err(named);
    let ours = answer_of(|out| sys::muxandu_date_time_from_timestamp(stamp, offset, out));
    let answers = (ours, foretold(ours, at, offset), at_offset(at, offset));
    of.foretold("date_time_from_timestamp", (stamp, offset), TOO_LONG, answers);

    let (at, offset) = (source.at_offset(), source.any_offset());
    let date_time = parts_of(at);
    let back = answer_of(|out| sys::muxandu_timestamp_from_date_time(date_time, out));
    of.same("timestamp_from_date_time", date_time, back, instant(at));
    let ours = answer_of(|out| sys::muxandu_date_time_to_offset(date_time, offset, out));
    let answers = (ours, foretold(ours, Ok(at), offset), at_offset(Ok(at), offset));
    of.foretold("date_time_to_offset", (date_time, offset), TOO_LONG, answers);
}

pub fn compare_sums(source: &mut Source, of: &mut Compared) {
    let at = source.at_offset();
    let duration = source.duration_from(at);
    let (date_time, lasts) = (parts_of(at), lasting(duration));
    let input = (date_time, lasts);
    let added = answer_of(|out| sys::muxandu_date_time_add(date_time, lasts, out));
    of.same("date_time_add", input, added, at.checked_add(duration).map(parts_of).ok_or("result"));
    let taken = answer_of(|out| sys::muxandu_date_time_subtract(date_time, lasts, out));
    of.same("date_time_subtract", input, taken, at.checked_sub(duration).map(parts_of).ok_or("result"));
    let nearest = answer_of(|out| sys::muxandu_date_time_saturating_add(date_time, lasts, out));
    of.same("date_time_saturating_add", input, nearest, Ok(parts_of(at.saturating_add(duration))));
    let nearest = answer_of(|out| sys::muxandu_date_time_saturating_subtract(date_time, lasts, out));
    of.same("date_time_saturating_subtract", input, nearest, Ok(parts_of(at.saturating_sub(duration))));
}

/// A date-time, and another that is often of the same instant or near it.
fn two(source: &mut Source) -> (OffsetDateTime, OffsetDateTime) {
    let first = source.at_offset();
    let elsewhere = first.to_offset(source.utc_offset());
    let second = match source.one_of(4) {
        0 => elsewhere,
        1 => elsewhere.saturating_add(Duration::nanoseconds(source.between(-1, 1))),
        2 => first.saturating_add(Duration::seconds(source.between(-100_000, 100_000))),
        _ => source.at_offset(),
    };
    (first, if shown_in_range(second).is_ok() { second } else { first })
}

pub fn compare_two(source: &mut Source, of: &mut Compared) {
    let (first, second) = two(source);
    let (later, earlier) = (parts_of(first), parts_of(second));
    let lasts = answer_of(|out| sys::muxandu_date_time_difference(later, earlier, out));
    of.same("date_time_difference", (later, earlier), lasts, Ok(lasting(first - second)));
    let order = answer_of(|out| sys::muxandu_date_time_compare(later, earlier, out));
    of.same("date_time_compare", (later, earlier), order, Ok(sign(first.cmp(&second))));
    let is_same = order.map(|order| order == 0);
    of.same("date_time_compare", (later, earlier), is_same, Ok(first == second));
}

pub fn compare_truncations(source: &mut Source, of: &mut Compared) {
    let at = source.at_offset();
    for unit in UNITS {
        let ours = answer_of(|out| sys::muxandu_date_time_truncate(parts_of(at), unit, out));
        of.same("date_time_truncate", (parts_of(at), unit), ours, Ok(parts_of(round_down(at, unit))));
    }
}

/// What a call over many items must have done, from the answers of `time` to each: it ends at the first refusal.
pub fn up_to_refusal<T>(answers: Vec<Answer<T>>) -> (Vec<T>, &'static str) {
    let mut done = Vec::new();
    for answer in answers {
        match answer {
            Ok(item) => done.push(item),
            Err(refused) => return (done, refused),
        }
    }
    (done, "nothing")
}

/// What a call over many items did, in the same form.
pub fn done<T>(batch: MuxanduBatch, mut out: Vec<T>) -> (Vec<T>, &'static str) {
    out.truncate(batch.count);
    (out, name(batch.status))
}

pub fn compare_many(source: &mut Source, of: &mut Compared) {
    const COUNT: usize = 4;
    let offset = source.offset();
    let seconds: Vec<i64> = (0..COUNT).map(|_| source.any_second()).collect();
    let mut date_times = vec![MuxanduDateTime::default(); COUNT];
    let batch = unsafe { sys::muxandu_date_times_from_seconds(seconds.as_ptr(), COUNT, offset, date_times.as_mut_ptr(), COUNT) };
    let at = |seconds| instant_of(MuxanduTimestamp { seconds, nanoseconds: 0 }).map_err(named);
    let theirs = up_to_refusal(seconds.iter().map(|second| at_offset(at(*second), offset)).collect());
    of.same("date_times_from_seconds", (&seconds, offset), done(batch, date_times), theirs);

    let held: Vec<OffsetDateTime> = (0..COUNT).map(|_| source.at_offset()).collect();
    let date_times: Vec<MuxanduDateTime> = held.iter().map(|at| parts_of(*at)).collect();
    let mut seconds = vec![0; COUNT];
    let batch = unsafe { sys::muxandu_seconds_from_date_times(date_times.as_ptr(), COUNT, seconds.as_mut_ptr(), COUNT) };
    let theirs = up_to_refusal(held.iter().map(|at| instant(*at).map(|at| at.seconds)).collect());
    of.same("seconds_from_date_times", &date_times, done(batch, seconds), theirs);

    crate::dates::compare_many(source, of);
    crate::texts::compare_many(source, of);
}
