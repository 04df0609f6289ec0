// The same by the crate `time`.
use crate::loops::loops;
use crate::{CALLS, call_of, delta, nanosecond_after, sum_of_parts, told_replies, word};
use std::fmt::Write as _;
use time::error::ComponentRange;
use time::format_description::well_known::Rfc3339;
use time::{Date, Duration, OffsetDateTime, Time, UtcOffset};

type Call = crate::Call<Duration, UtcOffset>;
type Reply = crate::Reply<(Date, Time), (Date, Time, UtcOffset)>;

loops!(OffsetDateTime, OffsetDateTime, unix_timestamp, checked_add, checked_sub);

fn at_second(second: i64) -> Option<OffsetDateTime> {
    OffsetDateTime::from_unix_timestamp(second).ok()
}

fn at_offset(second: i64, nanosecond: u32, offset: i32) -> OffsetDateTime {
    let nanoseconds = i128::from(second) * 1_000_000_000 + i128::from(nanosecond);
    let offset = UtcOffset::from_whole_seconds(offset).unwrap();
    OffsetDateTime::from_unix_timestamp_nanos(nanoseconds).unwrap().to_offset(offset)
}

#[inline(never)]
pub fn parts(seconds: &[i64], _offsets: &[i32], rounds: u32, _out: &mut [u8]) -> u64 {
    let mut sum = 0_u64;
    for _ in 0..rounds {
        for second in seconds {
            if let Ok(at) = OffsetDateTime::from_unix_timestamp(*second) {
                let (year, month, day) = at.to_calendar_date();
                let (hour, minute, second) = at.to_hms();
                sum = sum.wrapping_add(word(year, u8::from(month).into(), day, hour, minute, second));
            }
        }
    }
    sum
}

#[inline(never)]
pub fn shown_at_offset(seconds: &[i64], offsets: &[i32], rounds: u32, _out: &mut [u8]) -> u64 {
    let held: Vec<(OffsetDateTime, UtcOffset)> = seconds
        .iter()
        .zip(offsets)
        .map(|(second, offset)| (at_offset(*second, 0, 0), UtcOffset::from_whole_seconds(*offset).unwrap()))
        .collect();
    let mut sum = 0_u64;
    for _ in 0..rounds {
        for (at, offset) in &held {
            let shown = at.to_offset(*offset);
            sum = sum.wrapping_add(word(shown.year(), shown.ordinal(), 0, shown.hour(), 0, 0));
        }
    }
    sum
}

#[inline(never)]
pub fn write(seconds: &[i64], offsets: &[i32], rounds: u32, out: &mut [u8]) -> u64 {
    let held = values_of(seconds, offsets, true);
    let mut sum = 0_u64;
    for _ in 0..rounds {
        for at in &held {
            let mut place = &mut *out;
            sum = sum.wrapping_add(at.format_into(&mut place, &Rfc3339).unwrap_or(0) as u64);
        }
    }
    sum
}

#[inline(never)]
pub fn read(texts: &[&[u8]], rounds: u32) -> u64 {
    let mut held = vec![OffsetDateTime::UNIX_EPOCH; texts.len()];
    for _ in 0..rounds {
        for (place, text) in held.iter_mut().zip(texts) {
            if let Ok(Ok(at)) = std::str::from_utf8(text).map(|text| OffsetDateTime::parse(text, &Rfc3339)) {
                *place = at;
            }
        }
    }
    held.iter()
        .fold(0, |sum, at| sum.wrapping_add(sum_of_parts(at.unix_timestamp(), at.nanosecond(), at.offset().whole_seconds())))
}

fn refused_part(refusal: ComponentRange) -> Reply {
    Reply::RefusedPart(refusal.name())
}

// What a call replies, and where the run goes on.
fn step(at: &mut OffsetDateTime, call: Call) -> Reply {
    let moved = match call {
        Call::CalendarDate => {
            let (year, month, day) = at.to_calendar_date();
            return Reply::Date(year, month.into(), day);
        }
        Call::IsoWeekDate => {
            let (year, week, weekday) = at.to_iso_week_date();
            return Reply::Date(year, week, weekday.number_days_from_monday());
        }
        Call::Weekday => return Reply::Number(at.weekday().number_days_from_monday().into()),
        Call::Hms => {
            let (hour, minute, second) = at.to_hms();
            return Reply::Hms(hour, minute, second);
        }
        Call::Nanosecond => return Reply::Number(at.nanosecond()),
        Call::Add(duration) => at.checked_add(duration).ok_or(Reply::Refused),
        Call::Subtract(duration) => at.checked_sub(duration).ok_or(Reply::Refused),
        Call::Day(day) => at.replace_day(day).map_err(refused_part),
        Call::Hour(hour) => at.replace_hour(hour).map_err(refused_part),
        // No item lies so near to an end of the range that this could be refused.
        Call::Shown(offset) => {
            let shown = at.to_offset(offset);
            return Reply::Shown((shown.date(), shown.time(), offset));
        }
    };
    match moved {
        Ok(moved) => {
            *at = moved;
            Reply::Now((at.date(), at.time()))
        }
        Err(refused) => refused,
    }
}

#[inline(never)]
fn replies(start: OffsetDateTime, calls: &[Call]) -> Vec<Reply> {
    let mut at = start;
    calls.iter().map(|call| step(&mut at, *call)).collect()
}

fn told_date_time(date: Date, time: Time) -> u64 {
    let (year, ordinal) = date.to_ordinal_date();
    let (hour, minute, second, nanosecond) = time.as_hms_nano();
    word(year, ordinal, 0, hour, minute, second).wrapping_add(u64::from(nanosecond))
}

#[inline(never)]
pub fn run(seconds: &[i64], offsets: &[i32], rounds: u32, _out: &mut [u8]) -> u64 {
    let at_offset = |offset| UtcOffset::from_whole_seconds(offset).unwrap();
    let held: Vec<Call> =
        seconds.iter().zip(offsets).map(|(second, offset)| call_of(*second, *offset, Duration::seconds, at_offset)).collect();
    let mut sum = 0_u64;
    for _ in 0..rounds {
        for (calls, second) in held.chunks(CALLS).zip(seconds.iter().step_by(CALLS)) {
            let start = OffsetDateTime::from_unix_timestamp(*second)
                .and_then(|start| start.replace_nanosecond(nanosecond_after(*second)));
            if let Ok(start) = start {
                let told_now = |(date, time): &(Date, Time)| told_date_time(*date, *time);
                let told_shown = |(date, time, offset): &(Date, Time, UtcOffset)| {
                    told_date_time(*date, *time).wrapping_add(u64::from(offset.is_negative()))
                };
                sum = sum.wrapping_add(told_replies(&replies(start, calls), told_now, told_shown));
            }
        }
    }
    sum
}
