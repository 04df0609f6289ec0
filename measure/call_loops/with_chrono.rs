// The same by the crate chrono.
use crate::loops::loops;
use crate::{delta, nanosecond_after, sum_of_parts, word};
use chrono::{DateTime, Datelike, Duration, FixedOffset, NaiveDateTime, Offset, TimeZone, Timelike, Utc};
use std::fmt::Write as _;

loops!(DateTime<Utc>, DateTime<FixedOffset>, timestamp, checked_add_signed, checked_sub_signed);

fn at_second(second: i64) -> Option<DateTime<Utc>> {
    Utc.timestamp_opt(second, 0).single()
}

fn at_offset(second: i64, nanosecond: u32, offset: i32) -> DateTime<FixedOffset> {
    let offset = FixedOffset::east_opt(offset).unwrap();
    Utc.timestamp_opt(second, nanosecond).unwrap().with_timezone(&offset)
}

#[inline(never)]
pub fn parts(seconds: &[i64], _offsets: &[i32], rounds: u32, _out: &mut [u8]) -> u64 {
    let mut sum = 0_u64;
    for _ in 0..rounds {
        for second in seconds {
            if let Some(at) = NaiveDateTime::from_timestamp_opt(*second, 0) {
                let (month, day) = (at.month() as u16, at.day() as u8);
                let (hour, minute, second) = (at.hour() as u8, at.minute() as u8, at.second() as u8);
                sum = sum.wrapping_add(word(at.year(), month, day, hour, minute, second));
            }
        }
    }
    sum
}

#[inline(never)]
pub fn shown_at_offset(seconds: &[i64], offsets: &[i32], rounds: u32, _out: &mut [u8]) -> u64 {
    let held: Vec<(DateTime<Utc>, FixedOffset)> = seconds
        .iter()
        .zip(offsets)
        .map(|(second, offset)| (Utc.timestamp_opt(*second, 0).unwrap(), FixedOffset::east_opt(*offset).unwrap()))
        .collect();
    let mut sum = 0_u64;
    for _ in 0..rounds {
        for (at, offset) in &held {
            let shown = at.with_timezone(offset);
            sum = sum.wrapping_add(word(shown.year(), shown.ordinal() as u16, 0, shown.hour() as u8, 0, 0));
        }
    }
    sum
}

#[inline(never)]
pub fn write(seconds: &[i64], offsets: &[i32], rounds: u32, out: &mut [u8]) -> u64 {
    let held = values_of(seconds, offsets, true);
    let mut sum = 0_u64;
    for _ in 0..rounds {
        for at in &held {
            let text = at.to_rfc3339();
            out[..text.len()].copy_from_slice(text.as_bytes());
            sum = sum.wrapping_add(text.len() as u64);
        }
    }
    sum
}

#[inline(never)]
pub fn read(texts: &[&[u8]], rounds: u32) -> u64 {
    let mut held = vec![at_offset(0, 0, 0); texts.len()];
    for _ in 0..rounds {
        for (place, text) in held.iter_mut().zip(texts) {
            if let Ok(Ok(at)) = std::str::from_utf8(text).map(DateTime::parse_from_rfc3339) {
                *place = at;
            }
        }
    }
    held.iter().fold(0, |sum, at| {
        let offset = at.offset().fix().local_minus_utc();
        sum.wrapping_add(sum_of_parts(at.timestamp(), at.timestamp_subsec_nanos(), offset))
    })
}
