// What a caller would write for these numbers alone: whole numbers, eras of 400 years, no library.
use crate::{CALLS, call_of, delta, nanosecond_after, sum_of_parts, told_replies, word};

type Call = crate::Call<i64, i32>;
type Reply = crate::Reply<Local, Local>;

const FIRST_SECOND: i64 = -31_619_087_596_800;
const LAST_SECOND: i64 = 31_494_784_780_799;

fn in_range(second: i64) -> Option<i64> {
    (FIRST_SECOND..=LAST_SECOND).contains(&second).then_some(second)
}

// The year of a day number, 0 for 1970-01-01, and the day of that year, both counted from 1 March.
fn year_from_march(day: i64) -> (i64, u32) {
    let shifted = day + 719_468;
    let era = shifted.div_euclid(146_097);
    let day_of_era = shifted.rem_euclid(146_097) as u32;
    let year_of_era = (day_of_era - day_of_era / 1_460 + day_of_era / 36_524 - day_of_era / 146_096) / 365;
    let day_of_year = day_of_era - (365 * year_of_era + year_of_era / 4 - year_of_era / 100);
    (i64::from(year_of_era) + 400 * era, day_of_year)
}

fn civil_date(day: i64) -> (i32, u8, u8) {
    let (year, day_of_year) = year_from_march(day);
    let month_from_march = (5 * day_of_year + 2) / 153;
    let day_of_month = day_of_year - (153 * month_from_march + 2) / 5 + 1;
    let month = if month_from_march < 10 { month_from_march + 3 } else { month_from_march - 9 };
    ((year + i64::from(month <= 2)) as i32, month as u8, day_of_month as u8)
}

fn is_leap_year(year: i32) -> bool {
    year % 4 == 0 && (year % 100 != 0 || year % 400 == 0)
}

fn ordinal_date(day: i64) -> (i32, u16) {
    let (year, day_of_year) = year_from_march(day);
    if day_of_year >= 306 {
        ((year + 1) as i32, (day_of_year - 305) as u16)
    } else {
        let year = year as i32;
        (year, day_of_year as u16 + 60 + u16::from(is_leap_year(year)))
    }
}

fn clock(second: i64) -> (u8, u8, u8) {
    let rest = second.rem_euclid(86_400) as u32;
    ((rest / 3_600) as u8, (rest / 60 % 60) as u8, (rest % 60) as u8)
}

#[inline(never)]
pub fn parts(seconds: &[i64], _offsets: &[i32], rounds: u32, _out: &mut [u8]) -> u64 {
    let mut sum = 0_u64;
    for _ in 0..rounds {
        for second in seconds {
            if let Some(second) = in_range(*second) {
                let (year, month, day) = civil_date(second.div_euclid(86_400));
                let (hour, minute, second) = clock(second);
                sum = sum.wrapping_add(word(year, month.into(), day, hour, minute, second));
            }
        }
    }
    sum
}

#[inline(never)]
pub fn seconds_again(seconds: &[i64], _offsets: &[i32], rounds: u32, _out: &mut [u8]) -> u64 {
    let mut sum = 0_u64;
    for _ in 0..rounds {
        for second in seconds {
            if let Some(second) = in_range(*second) {
                let (year, month, day) = civil_date(second.div_euclid(86_400));
                let (hour, minute, second) = clock(second);
                let year = i64::from(year) - i64::from(month <= 2);
                let era = year.div_euclid(400);
                let year_of_era = year.rem_euclid(400);
                let month_from_march = (i64::from(month) + 9) % 12;
                let day_of_year = (153 * month_from_march + 2) / 5 + i64::from(day) - 1;
                let day = era * 146_097 + year_of_era * 365 + year_of_era / 4 - year_of_era / 100 + day_of_year - 719_468;
                let clock = i64::from(hour) * 3_600 + i64::from(minute) * 60 + i64::from(second);
                sum = sum.wrapping_add((day * 86_400 + clock).unsigned_abs());
            }
        }
    }
    sum
}

#[inline(never)]
pub fn shown_at_offset(seconds: &[i64], offsets: &[i32], rounds: u32, _out: &mut [u8]) -> u64 {
    let mut sum = 0_u64;
    for _ in 0..rounds {
        for (second, offset) in seconds.iter().zip(offsets) {
            if let Some(second) = in_range(*second + i64::from(*offset)) {
                let (year, ordinal) = ordinal_date(second.div_euclid(86_400));
                let hour = (second.rem_euclid(86_400) as u32 / 3_600) as u8;
                sum = sum.wrapping_add(word(year, ordinal, 0, hour, 0, 0));
            }
        }
    }
    sum
}

#[inline(never)]
pub fn sums(seconds: &[i64], offsets: &[i32], rounds: u32, _out: &mut [u8]) -> u64 {
    let mut held = seconds.to_vec();
    for round in 0..rounds {
        for (at, offset) in held.iter_mut().zip(offsets) {
            let moved = if round % 2 == 0 { *at + delta(*offset) } else { *at - delta(*offset) };
            if let Some(moved) = in_range(moved) {
                *at = moved;
            }
        }
    }
    held.iter().fold(0, |sum, at| sum.wrapping_add(at.unsigned_abs()))
}

fn digit(number: u32) -> u8 {
    b'0' + (number % 10) as u8
}

fn put_bytes(out: &mut [u8], place: &mut usize, bytes: &[u8]) {
    out[*place..*place + bytes.len()].copy_from_slice(bytes);
    *place += bytes.len();
}

#[inline(never)]
pub fn texts(seconds: &[i64], _offsets: &[i32], rounds: u32, out: &mut [u8]) -> u64 {
    let mut sum = 0_u64;
    for _ in 0..rounds {
        for second in seconds {
            let Some(second) = in_range(*second) else {
                continue;
            };
            let (year, month, day) = civil_date(second.div_euclid(86_400));
            let (hour, minute, second) = clock(second);
            let mut end = 0;
            let absolute = year.unsigned_abs();
            if year < 0 {
                put_bytes(out, &mut end, b"-");
            } else if year > 9_999 {
                put_bytes(out, &mut end, b"+");
            }
            if absolute >= 100_000 {
                put_bytes(out, &mut end, &[digit(absolute / 100_000)]);
            }
            if absolute >= 10_000 {
                put_bytes(out, &mut end, &[digit(absolute / 10_000)]);
            }
            let (month, day) = (u32::from(month), u32::from(day));
            put_bytes(
                out,
                &mut end,
                &[
                    digit(absolute / 1_000),
                    digit(absolute / 100),
                    digit(absolute / 10),
                    digit(absolute),
                    b'-',
                    digit(month / 10),
                    digit(month),
                    b'-',
                    digit(day / 10),
                    digit(day),
                    b' ',
                ],
            );
            let (hour, minute, second) = (u32::from(hour), u32::from(minute), u32::from(second));
            if hour >= 10 {
                put_bytes(out, &mut end, &[digit(hour / 10)]);
            }
            put_bytes(
                out,
                &mut end,
                &[digit(hour), b':', digit(minute / 10), digit(minute), b':', digit(second / 10), digit(second)],
            );
            put_bytes(out, &mut end, b".0 +00");
            sum = sum.wrapping_add(end as u64);
        }
    }
    sum
}

#[inline(never)]
pub fn compare(seconds: &[i64], _offsets: &[i32], rounds: u32, _out: &mut [u8]) -> u64 {
    let mut sum = 0_u64;
    for _ in 0..rounds {
        for (first, second) in seconds.iter().zip(seconds.iter().skip(1)) {
            sum = sum.wrapping_add(u64::from(std::hint::black_box(first) < second));
        }
    }
    sum
}

#[inline(never)]
pub fn sorted(seconds: &[i64], offsets: &[i32], rounds: u32, _out: &mut [u8]) -> u64 {
    let held: Vec<(i64, i32)> = seconds.iter().copied().zip(offsets.iter().copied()).collect();
    let mut sum = 0_u64;
    for _ in 0..rounds {
        let mut sorted = held.clone();
        sorted.sort_unstable_by_key(|(second, _)| *second);
        for (place, (second, _)) in sorted.iter().enumerate().step_by(9_973) {
            sum = sum.wrapping_add((place as u64).wrapping_mul(second.unsigned_abs()));
        }
    }
    sum
}

// The parts that clocks at an offset show, and the offset.
#[derive(Clone, Copy, Default)]
struct Local {
    year: i32,
    ordinal: u16,
    hour: u8,
    minute: u8,
    second: u8,
    nanosecond: u32,
    offset: i32,
}

const DAYS_BEFORE: [u16; 12] = [0, 31, 59, 90, 120, 151, 181, 212, 243, 273, 304, 334];
const LENGTHS: [u8; 12] = [31, 28, 31, 30, 31, 30, 31, 31, 30, 31, 30, 31];

fn month_length(year: i32, month: u8) -> u8 {
    LENGTHS[usize::from(month) - 1] + u8::from(month == 2 && is_leap_year(year))
}

fn shown_at(second: i64, nanosecond: u32, offset: i32) -> Local {
    let shown = second + i64::from(offset);
    let (year, ordinal) = ordinal_date(shown.div_euclid(86_400));
    let (hour, minute, second) = clock(shown);
    Local { year, ordinal, hour, minute, second, nanosecond, offset }
}

impl Local {
    fn unix_timestamp(&self) -> i64 {
        let years = i64::from(self.year) - 1;
        let days = 365 * years + years.div_euclid(4) - years.div_euclid(100) + years.div_euclid(400);
        let day = days - 719_162 + i64::from(self.ordinal) - 1;
        let clock = i64::from(self.hour) * 3_600 + i64::from(self.minute) * 60 + i64::from(self.second);
        day * 86_400 + clock - i64::from(self.offset)
    }

    fn month_day(&self) -> (u32, u32) {
        let is_leap = is_leap_year(self.year);
        let until_march = if is_leap { 60 } else { 59 };
        let ordinal = u32::from(self.ordinal);
        let (from, day) = if ordinal <= until_march { (0, ordinal) } else { (2, ordinal - until_march) };
        let month = (day * 268 + 8_031) / 8_192;
        (month + from, day - (month * 3_917 - 3_866) / 128)
    }
}

#[inline(never)]
pub fn write(seconds: &[i64], offsets: &[i32], rounds: u32, out: &mut [u8]) -> u64 {
    let held: Vec<Local> =
        seconds.iter().zip(offsets).map(|(second, offset)| shown_at(*second, nanosecond_after(*second), *offset)).collect();
    let mut sum = 0_u64;
    for _ in 0..rounds {
        for at in &held {
            sum = sum.wrapping_add(write_local(at, out).unwrap_or(0) as u64);
        }
    }
    sum
}

fn write_local(at: &Local, out: &mut [u8]) -> Option<usize> {
    let size = at.offset.unsigned_abs();
    if at.year < 0 || at.year > 9_999 || !size.is_multiple_of(60) || size >= 86_400 {
        return None;
    }
    let (month, day) = at.month_day();
    let year = at.year as u32;
    let (hour, minute, second) = (u32::from(at.hour), u32::from(at.minute), u32::from(at.second));
    let mut end = 0;
    put_bytes(
        out,
        &mut end,
        &[
            digit(year / 1_000),
            digit(year / 100),
            digit(year / 10),
            digit(year),
            b'-',
            digit(month / 10),
            digit(month),
            b'-',
            digit(day / 10),
            digit(day),
            b'T',
            digit(hour / 10),
            digit(hour),
            b':',
            digit(minute / 10),
            digit(minute),
            b':',
            digit(second / 10),
            digit(second),
        ],
    );
    if at.nanosecond != 0 {
        let fraction = at.nanosecond;
        let digits = [
            b'.',
            digit(fraction / 100_000_000),
            digit(fraction / 10_000_000),
            digit(fraction / 1_000_000),
            digit(fraction / 100_000),
            digit(fraction / 10_000),
            digit(fraction / 1_000),
            digit(fraction / 100),
            digit(fraction / 10),
            digit(fraction),
        ];
        let mut count = 9;
        while digits[count] == b'0' {
            count -= 1;
        }
        put_bytes(out, &mut end, &digits[..=count]);
    }
    if size == 0 {
        put_bytes(out, &mut end, b"Z");
    } else {
        let (hours, minutes) = (size / 3_600, size / 60 % 60);
        let sign = if at.offset < 0 { b'-' } else { b'+' };
        put_bytes(out, &mut end, &[sign, digit(hours / 10), digit(hours), b':', digit(minutes / 10), digit(minutes)]);
    }
    Some(end)
}

// The number of the two digits from a place on.
fn two_digits(text: &[u8], place: usize) -> Option<u8> {
    let (tens, units) = (text[place].wrapping_sub(b'0'), text[place + 1].wrapping_sub(b'0'));
    (tens < 10 && units < 10).then(|| tens * 10 + units)
}

fn parse(text: &[u8]) -> Option<Local> {
    if text.len() < 20 || text[4] != b'-' || text[7] != b'-' || text[13] != b':' || text[16] != b':' {
        return None;
    }
    if !matches!(text[10], b'T' | b't' | b' ') {
        return None;
    }
    let year = i32::from(two_digits(text, 0)?) * 100 + i32::from(two_digits(text, 2)?);
    let (month, day) = (two_digits(text, 5)?, two_digits(text, 8)?);
    let (hour, minute, second) = (two_digits(text, 11)?, two_digits(text, 14)?, two_digits(text, 17)?);
    let mut place = 19;
    let mut nanosecond = 0;
    if text[place] == b'.' {
        place += 1;
        let mut unit = 100_000_000;
        let first = place;
        while let Some(digit) = text.get(place).map(|byte| byte.wrapping_sub(b'0')).filter(|digit| *digit < 10) {
            nanosecond += u32::from(digit) * unit;
            unit /= 10;
            place += 1;
        }
        if place == first {
            return None;
        }
    }
    let (mut is_west, mut hours, mut minutes) = (false, 0, 0);
    match &text[place..] {
        [b'Z' | b'z'] => {}
        zone @ [b'+' | b'-', _, _, b':', _, _] => {
            is_west = zone[0] == b'-';
            (hours, minutes) = (two_digits(zone, 1)?, two_digits(zone, 4)?);
        }
        _ => return None,
    }
    if !(1..=12).contains(&month) {
        return None;
    }
    let is_leap = is_leap_year(year);
    let length = LENGTHS[usize::from(month) - 1] + u8::from(month == 2 && is_leap);
    if day == 0 || day > length || hour > 23 || minute > 59 || second > 59 || hours > 23 || minutes > 59 {
        return None;
    }
    let ordinal = DAYS_BEFORE[usize::from(month) - 1] + u16::from(month > 2 && is_leap) + u16::from(day);
    let offset = i32::from(hours) * 3_600 + i32::from(minutes) * 60;
    let offset = if is_west { -offset } else { offset };
    Some(Local { year, ordinal, hour, minute, second, nanosecond, offset })
}

#[inline(never)]
pub fn read(texts: &[&[u8]], rounds: u32) -> u64 {
    let mut held = vec![Local { year: 1970, ordinal: 1, ..Local::default() }; texts.len()];
    for _ in 0..rounds {
        for (place, text) in held.iter_mut().zip(texts) {
            if let Some(at) = parse(text) {
                *place = at;
            }
        }
    }
    held.iter().fold(0, |sum, at| sum.wrapping_add(sum_of_parts(at.unix_timestamp(), at.nanosecond, at.offset)))
}

// What a call replies, and where the run goes on.
fn step(second: &mut i64, nanosecond: u32, call: Call) -> Reply {
    let day = second.div_euclid(86_400);
    let moved = match call {
        Call::CalendarDate => {
            let (year, month, day) = civil_date(day);
            return Reply::Date(year, month, day);
        }
        Call::IsoWeekDate => {
            let weekday = (day + 3).rem_euclid(7);
            let (year, ordinal) = ordinal_date(day - weekday + 3);
            return Reply::Date(year, ((ordinal - 1) / 7 + 1) as u8, weekday as u8);
        }
        Call::Weekday => return Reply::Number((day + 3).rem_euclid(7) as u32),
        Call::Hms => {
            let (hour, minute, second) = clock(*second);
            return Reply::Hms(hour, minute, second);
        }
        Call::Nanosecond => return Reply::Number(nanosecond),
        Call::Add(seconds) => in_range(*second + seconds),
        Call::Subtract(seconds) => in_range(*second - seconds),
        Call::Day(wanted) => {
            let (year, month, day) = civil_date(day);
            if wanted == 0 || wanted > month_length(year, month) {
                return Reply::RefusedPart("day");
            }
            Some(*second + (i64::from(wanted) - i64::from(day)) * 86_400)
        }
        Call::Hour(wanted) => {
            if wanted > 23 {
                return Reply::RefusedPart("hour");
            }
            Some(*second + (i64::from(wanted) - second.rem_euclid(86_400) / 3_600) * 3_600)
        }
        Call::Shown(offset) => {
            return match in_range(*second + i64::from(offset)) {
                Some(_) => Reply::Shown(shown_at(*second, nanosecond, offset)),
                None => Reply::Refused,
            };
        }
    };
    match moved {
        Some(moved) => {
            *second = moved;
            Reply::Now(shown_at(moved, nanosecond, 0))
        }
        None => Reply::Refused,
    }
}

#[inline(never)]
fn replies(start: i64, nanosecond: u32, calls: &[Call]) -> Vec<Reply> {
    let mut at = start;
    calls.iter().map(|call| step(&mut at, nanosecond, *call)).collect()
}

fn told_local(at: &Local) -> u64 {
    word(at.year, at.ordinal, 0, at.hour, at.minute, at.second)
        .wrapping_add(u64::from(at.nanosecond))
        .wrapping_add(u64::from(at.offset < 0))
}

#[inline(never)]
pub fn run(seconds: &[i64], offsets: &[i32], rounds: u32, _out: &mut [u8]) -> u64 {
    let held: Vec<Call> = seconds
        .iter()
        .zip(offsets)
        .map(|(second, offset)| call_of(*second, *offset, |seconds| seconds, |offset| offset))
        .collect();
    let mut sum = 0_u64;
    for _ in 0..rounds {
        for (calls, second) in held.chunks(CALLS).zip(seconds.iter().step_by(CALLS)) {
            if let Some(start) = in_range(*second) {
                let replies = replies(start, nanosecond_after(*second), calls);
                sum = sum.wrapping_add(told_replies(&replies, told_local, told_local));
            }
        }
    }
    sum
}
