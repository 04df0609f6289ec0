// The work of times_bench on lines of all kinds, by the crate `time` 0.3.9 with its feature `large-dates`. measure/speed
// builds it twice, with the texts of `time` and, by the feature `by_hand`, with digits written by hand, and compares
// times_bench with either, in what is written and in processor time.
//
// What that crate does not have is made of what it has: `replace_ordinal` of `from_ordinal_date`; and since `to_offset`
// refuses nothing and no offset has 24 hours, `checked_add` moves what clocks show near the ends of the range and for such
// offsets, whose texts are written here too. An instant is held as what clocks in UTC show, a `PrimitiveDateTime`, whose
// calls take less than those of `OffsetDateTime`.
mod bench_lines;

use bench_lines::{LONGEST_LINE, answer_lines, digit, push_digits, whole_number};
use std::fmt::Display;
use std::io::{self, Write};
use time::error::ComponentRange;
use time::{Date, Duration, Month, OffsetDateTime, PrimitiveDateTime, Time, UtcOffset};

const BY_HAND: bool = cfg!(feature = "by_hand");

// What a call of a run does.
enum Call {
    Read(fn(&mut Vec<u8>, PrimitiveDateTime)),
    CheckedAdd(Duration),
    CheckedSub(Duration),
    SaturatingAdd(Duration),
    SaturatingSub(Duration),
    Time(Time),
    Date(Date),
    Year(i32),
    Month(Month),
    Day(u8),
    Ordinal(u16),
    Hour(u8),
    Minute(u8),
    Second(u8),
    Millisecond(u16),
    Microsecond(u32),
    Nanosecond(u32),
    ToOffset(i32),
}

// What holds the instant in a chain.
#[derive(Clone, Copy)]
enum Step {
    Stamp,
    Utc,
    Offset(i32),
}

impl Step {
    fn offset(self) -> i32 {
        if let Step::Offset(offset) = self { offset } else { 0 }
    }
}

fn number<T: TryFrom<i64>>(word: &[u8]) -> Option<T> {
    T::try_from(whole_number(word)?).ok()
}

fn two_digits(tens: u8, units: u8, last: i32) -> Option<i32> {
    let (tens, units) = (tens.wrapping_sub(b'0'), units.wrapping_sub(b'0'));
    let number = i32::from(tens) * 10 + i32::from(units);
    (tens < 10 && units < 10 && number <= last).then_some(number)
}

fn offset_of(word: &[u8]) -> Option<i32> {
    let [sign @ (b'+' | b'-'), h, i, b':', m, n, b':', s, t] = word else {
        return None;
    };
    let size = (two_digits(*h, *i, 25)? * 60 + two_digits(*m, *n, 59)?) * 60 + two_digits(*s, *t, 59)?;
    Some(if *sign == b'-' { -size } else { size })
}

fn duration_of(numbers: &[u8]) -> Option<Duration> {
    let comma = numbers.iter().position(|byte| *byte == b',')?;
    let (seconds, nanoseconds) = (number::<i64>(&numbers[..comma])?, number::<i32>(&numbers[comma + 1..])?);
    let is_one_sign = seconds.signum() * i64::from(nanoseconds.signum()) >= 0;
    (is_one_sign && nanoseconds.abs() < 1_000_000_000).then(|| Duration::new(seconds, nanoseconds))
}

fn month_of(word: &[u8]) -> Option<Month> {
    Month::try_from(number::<u8>(word)?).ok()
}

fn date_of(numbers: &[u8]) -> Option<Date> {
    let mut words = numbers.split(|byte| *byte == b',');
    let (year, month, day) = (number(words.next()?)?, month_of(words.next()?)?, number(words.next()?)?);
    if words.next().is_some() {
        return None;
    }
    Date::from_calendar_date(year, month, day).ok()
}

fn time_of(numbers: &[u8]) -> Option<Time> {
    let mut words = numbers.split(|byte| *byte == b',');
    let (hour, minute) = (number(words.next()?)?, number(words.next()?)?);
    let (second, nanosecond) = (number(words.next()?)?, number(words.next()?)?);
    if words.next().is_some() {
        return None;
    }
    Time::from_hms_nano(hour, minute, second, nanosecond).ok()
}

fn read_of(name: &[u8]) -> Option<Call> {
    Some(Call::Read(match name {
        b"date" => |out, at| push_date(out, at.date()),
        b"year" => |out, at| push_number(out, at.year()),
        b"month" => |out, at| push(out, at.month()),
        b"day" => |out, at| push_number(out, at.day()),
        b"ordinal" => |out, at| push_number(out, at.ordinal()),
        b"iso_week" => |out, at| push_number(out, at.iso_week()),
        b"sunday_based_week" => |out, at| push_number(out, at.sunday_based_week()),
        b"monday_based_week" => |out, at| push_number(out, at.monday_based_week()),
        b"to_calendar_date" => |out, at| {
            let (year, month, day) = at.to_calendar_date();
            push_number(out, year);
            out.push(b' ');
            push(out, month);
            push_next(out, day);
        },
        b"to_ordinal_date" => |out, at| {
            let (year, ordinal) = at.to_ordinal_date();
            push_number(out, year);
            push_next(out, ordinal);
        },
        b"to_iso_week_date" => |out, at| {
            let (year, week, weekday) = at.to_iso_week_date();
            push_number(out, year);
            push_next(out, week);
            out.push(b' ');
            push(out, weekday);
        },
        b"weekday" => |out, at| push(out, at.weekday()),
        b"to_julian_day" => |out, at| push_number(out, at.to_julian_day()),
        b"time" => |out, at| push_time(out, at.time()),
        b"as_hms" => |out, at| push_hms(out, at.as_hms()),
        b"as_hms_milli" => |out, at| {
            let (hour, minute, second, millisecond) = at.as_hms_milli();
            push_hms(out, (hour, minute, second));
            push_next(out, millisecond);
        },
        b"as_hms_micro" => |out, at| {
            let (hour, minute, second, microsecond) = at.as_hms_micro();
            push_hms(out, (hour, minute, second));
            push_next(out, microsecond);
        },
        b"as_hms_nano" => |out, at| {
            let (hour, minute, second, nanosecond) = at.as_hms_nano();
            push_hms(out, (hour, minute, second));
            push_next(out, nanosecond);
        },
        b"hour" => |out, at| push_number(out, at.hour()),
        b"minute" => |out, at| push_number(out, at.minute()),
        b"second" => |out, at| push_number(out, at.second()),
        b"millisecond" => |out, at| push_number(out, at.millisecond()),
        b"microsecond" => |out, at| push_number(out, at.microsecond()),
        b"nanosecond" => |out, at| push_number(out, at.nanosecond()),
        _ => return None,
    }))
}

fn call_of(word: &[u8]) -> Option<Call> {
    let Some(equals) = word.iter().position(|byte| *byte == b'=') else {
        return read_of(word);
    };
    let (name, numbers) = (&word[..equals], &word[equals + 1..]);
    Some(match name {
        b"checked_add" => Call::CheckedAdd(duration_of(numbers)?),
        b"checked_sub" => Call::CheckedSub(duration_of(numbers)?),
        b"saturating_add" => Call::SaturatingAdd(duration_of(numbers)?),
        b"saturating_sub" => Call::SaturatingSub(duration_of(numbers)?),
        b"replace_time" => Call::Time(time_of(numbers)?),
        b"replace_date" => Call::Date(date_of(numbers)?),
        b"replace_year" => Call::Year(number(numbers)?),
        b"replace_month" => Call::Month(month_of(numbers)?),
        b"replace_day" => Call::Day(number(numbers)?),
        b"replace_ordinal" => Call::Ordinal(number(numbers)?),
        b"replace_hour" => Call::Hour(number(numbers)?),
        b"replace_minute" => Call::Minute(number(numbers)?),
        b"replace_second" => Call::Second(number(numbers)?),
        b"replace_millisecond" => Call::Millisecond(number(numbers)?),
        b"replace_microsecond" => Call::Microsecond(number(numbers)?),
        b"replace_nanosecond" => Call::Nanosecond(number(numbers)?),
        b"checked_to_offset" => Call::ToOffset(offset_of(numbers)?),
        _ => return None,
    })
}

fn step_of(word: &[u8]) -> Option<Step> {
    match word {
        b"stamp" => Some(Step::Stamp),
        b"utc" => Some(Step::Utc),
        word => offset_of(word).map(Step::Offset),
    }
}

fn push(out: &mut Vec<u8>, text: impl Display) {
    write!(out, "{text}").expect("a vector takes all");
}

fn push_number(out: &mut Vec<u8>, number: impl Into<i64>) {
    let number = number.into();
    if !BY_HAND {
        return push(out, number);
    }
    if number < 0 {
        out.push(b'-');
    }
    let (mut digits, mut first, mut rest) = ([0; 20], 20, number.unsigned_abs());
    while rest > 0 || first == 20 {
        first -= 1;
        digits[first] = b'0' + (rest % 10) as u8;
        rest /= 10;
    }
    out.extend_from_slice(&digits[first..]);
}

fn push_next(out: &mut Vec<u8>, number: impl Into<i64>) {
    out.push(b' ');
    push_number(out, number);
}

fn push_hms(out: &mut Vec<u8>, (hour, minute, second): (u8, u8, u8)) {
    push_number(out, hour);
    push_next(out, minute);
    push_next(out, second);
}

fn push_date(out: &mut Vec<u8>, date: Date) {
    if !BY_HAND {
        return push(out, date);
    }
    let (year, month, day) = date.to_calendar_date();
    push_digits(out, year, u8::from(month).into(), day.into());
}

// A point, and the digits of a nanosecond without the zeros at the end, but at least one.
fn push_fraction(out: &mut Vec<u8>, nanosecond: u32) {
    let (mut digits, mut rest) = ([0; 9], nanosecond);
    for place in digits.iter_mut().rev() {
        *place = digit(rest);
        rest /= 10;
    }
    let count = digits.iter().rposition(|digit| *digit != b'0').map_or(1, |last| last + 1);
    out.push(b'.');
    out.extend_from_slice(&digits[..count]);
}

fn push_time(out: &mut Vec<u8>, time: Time) {
    if !BY_HAND {
        return push(out, time);
    }
    let (hour, minute, second, nanosecond) = time.as_hms_nano();
    let (hour, minute, second) = (u32::from(hour), u32::from(minute), u32::from(second));
    if hour >= 10 {
        out.push(digit(hour / 10));
    }
    out.extend_from_slice(&[digit(hour), b':', digit(minute / 10), digit(minute), b':', digit(second / 10), digit(second)]);
    push_fraction(out, nanosecond);
}

fn push_date_time(out: &mut Vec<u8>, at: PrimitiveDateTime) {
    push_date(out, at.date());
    out.push(b' ');
    push_time(out, at.time());
}

fn push_offset(out: &mut Vec<u8>, offset: i32) {
    let size = offset.unsigned_abs();
    let (hour, minute, second) = (size / 3_600, size / 60 % 60, size % 60);
    let sign = if offset < 0 { '-' } else { '+' };
    if !BY_HAND {
        return push(out, format_args!(" {sign}{hour:02}:{minute:02}:{second:02}"));
    }
    out.extend_from_slice(&[
        b' ',
        sign as u8,
        digit(hour / 10),
        digit(hour),
        b':',
        digit(minute / 10),
        digit(minute),
        b':',
        digit(second / 10),
        digit(second),
    ]);
}

// The decimal of the Unix time.
fn push_timestamp(out: &mut Vec<u8>, at: PrimitiveDateTime) {
    let (second, nanosecond) = (at.assume_utc().unix_timestamp(), at.nanosecond());
    let (second, nanosecond) = match (second, nanosecond) {
        (..0, 1..) => (second + 1, 1_000_000_000 - nanosecond),
        same => same,
    };
    if second == 0 && at.year() < 1970 {
        out.push(b'-');
    }
    push_number(out, second);
    if nanosecond > 0 {
        push_fraction(out, nanosecond);
    }
}

fn push_refused(out: &mut Vec<u8>, part: &str) {
    out.extend_from_slice(b"refused ");
    out.extend_from_slice(part.as_bytes());
}

fn at_second(second: i64) -> Result<PrimitiveDateTime, ComponentRange> {
    let at = OffsetDateTime::from_unix_timestamp(second)?;
    Ok(PrimitiveDateTime::new(at.date(), at.time()))
}

// The start of a run or a chain, or the part that is refused.
fn start_of(second: i64, nanosecond: u32) -> Result<PrimitiveDateTime, &'static str> {
    let at = at_second(second).map_err(|_| "seconds")?;
    at.replace_nanosecond(nanosecond).map_err(|_| "nanoseconds")
}

// What clocks at an offset show while those at another show this.
fn shown_at(shown: PrimitiveDateTime, from: i32, to: i32) -> Option<PrimitiveDateTime> {
    if from == to {
        return Some(shown);
    }
    match (UtcOffset::from_whole_seconds(from), UtcOffset::from_whole_seconds(to)) {
        (Ok(from), Ok(to)) if shown.year().abs() < Date::MAX.year() => {
            let at = shown.assume_offset(from).to_offset(to);
            Some(PrimitiveDateTime::new(at.date(), at.time()))
        }
        _ => shown.checked_add(Duration::seconds(i64::from(to - from))),
    }
}

// The instant after a call that moves it: with no instant, and no part, it is refused.
fn shift(at: PrimitiveDateTime, call: Call) -> Result<PrimitiveDateTime, Option<ComponentRange>> {
    match call {
        Call::CheckedAdd(duration) => return at.checked_add(duration).ok_or(None),
        Call::CheckedSub(duration) => return at.checked_sub(duration).ok_or(None),
        Call::SaturatingAdd(duration) => Ok(at.saturating_add(duration)),
        Call::SaturatingSub(duration) => Ok(at.saturating_sub(duration)),
        Call::Time(time) => Ok(at.replace_time(time)),
        Call::Date(date) => Ok(at.replace_date(date)),
        Call::Year(year) => at.replace_year(year),
        Call::Month(month) => at.replace_month(month),
        Call::Day(day) => at.replace_day(day),
        Call::Ordinal(ordinal) => Date::from_ordinal_date(at.year(), ordinal).map(|date| at.replace_date(date)),
        Call::Hour(hour) => at.replace_hour(hour),
        Call::Minute(minute) => at.replace_minute(minute),
        Call::Second(second) => at.replace_second(second),
        Call::Millisecond(millisecond) => at.replace_millisecond(millisecond),
        Call::Microsecond(microsecond) => at.replace_microsecond(microsecond),
        Call::Nanosecond(nanosecond) => at.replace_nanosecond(nanosecond),
        Call::Read(_) | Call::ToOffset(_) => Ok(at),
    }
    .map_err(Some)
}

// Writes what a call replies, and gives the instant after it.
fn push_reply(out: &mut Vec<u8>, at: PrimitiveDateTime, call: Call) -> PrimitiveDateTime {
    match call {
        Call::Read(read) => read(out, at),
        Call::ToOffset(offset) => match shown_at(at, 0, offset) {
            Some(shown) => {
                push_date_time(out, shown);
                push_offset(out, offset);
            }
            None => out.extend_from_slice(b"refused"),
        },
        call => match shift(at, call) {
            Ok(moved) => {
                push_date_time(out, moved);
                return moved;
            }
            Err(Some(refusal)) => push_refused(out, refusal.name()),
            Err(None) => out.extend_from_slice(b"refused"),
        },
    }
    at
}

fn push_unix(out: &mut Vec<u8>, second: i64) {
    match at_second(second) {
        Ok(at) => {
            push_date_time(out, at);
            out.extend_from_slice(b" +00");
        }
        Err(_) => push_refused(out, "timestamp"),
    }
}

fn push_stamp(out: &mut Vec<u8>, second: i64, nanosecond: u32) {
    match at_second(second).map(|at| at.replace_nanosecond(nanosecond)) {
        Ok(Ok(at)) => {
            push_date_time(out, at);
            out.extend_from_slice(b" +00");
            push_next(out, at.ordinal());
            out.push(b' ');
            push(out, at.weekday());
            push_next(out, at.to_julian_day());
        }
        Ok(Err(_)) => push_refused(out, "nanosecond"),
        Err(_) => push_refused(out, "timestamp"),
    }
}

fn push_run<'a>(out: &mut Vec<u8>, start: Result<PrimitiveDateTime, &str>, words: impl Iterator<Item = &'a [u8]>) -> Option<()> {
    let mut held = start;
    for word in words {
        let call = call_of(word)?;
        if let Ok(at) = held {
            held = Ok(push_reply(out, at, call));
            out.extend_from_slice(b"; ");
        }
    }
    match held {
        Ok(at) => {
            out.extend_from_slice(b"end ");
            push_timestamp(out, at);
        }
        Err(part) => push_refused(out, part),
    }
    Some(())
}

fn push_chain<'a>(
    out: &mut Vec<u8>,
    start: Result<PrimitiveDateTime, &str>,
    mut words: impl Iterator<Item = &'a [u8]>,
) -> Option<()> {
    let mut held = step_of(words.next()?)?;
    let mut shown = start;
    let mut stopped = None;
    for (index, word) in words.enumerate() {
        let step = step_of(word)?;
        if let (Ok(at), None) = (shown, stopped) {
            match shown_at(at, held.offset(), step.offset()) {
                Some(at) => (shown, held) = (Ok(at), step),
                None => stopped = Some(index),
            }
        }
    }
    match shown {
        Ok(at) => {
            if let Some(index) = stopped {
                out.extend_from_slice(b"stopped ");
                push_number(out, index as i64);
                out.push(b' ');
            }
            push_held(out, held, at);
        }
        Err(part) => push_refused(out, part),
    }
    Some(())
}

fn push_held(out: &mut Vec<u8>, held: Step, shown: PrimitiveDateTime) {
    match held {
        Step::Stamp => {
            out.extend_from_slice(b"stamp ");
            push_timestamp(out, shown);
        }
        Step::Utc => {
            out.extend_from_slice(b"utc ");
            push_date_time(out, shown);
            out.extend_from_slice(b" +00");
        }
        Step::Offset(offset) => {
            out.extend_from_slice(b"offset ");
            push_date_time(out, shown);
            push_offset(out, offset);
        }
    }
}

// Writes the answer to a line, or a part of it and None where the line is a bad one.
fn push_good(out: &mut Vec<u8>, line: &[u8]) -> Option<()> {
    let mut words = line.split(|byte| *byte == b' ');
    let (kind, second) = (words.next()?, number(words.next()?)?);
    match kind {
        b"unix" => push_unix(out, second),
        b"stamp" => push_stamp(out, second, number(words.next()?)?),
        b"run" => return push_run(out, start_of(second, number(words.next()?)?), words),
        b"chain" => return push_chain(out, start_of(second, number(words.next()?)?), words),
        _ => return None,
    }
    if words.next().is_some() { None } else { Some(()) }
}

fn push_answer(out: &mut Vec<u8>, line: &[u8]) {
    let start = out.len();
    if line.len() > LONGEST_LINE || push_good(out, line).is_none() {
        out.truncate(start);
        out.extend_from_slice(b"bad line");
    }
    out.push(b'\n');
}

fn main() -> io::Result<()> {
    answer_lines(push_answer)
}
