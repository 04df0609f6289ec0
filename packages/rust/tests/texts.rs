//! Texts of all types beside a reader of their forms that is written here, with a calendar that counts months one by one: what
//! is read, and what is refused by which name, of random texts near those that are written, and of others.

use std::fmt::Debug;
use std::str::FromStr;

use muxandu::{
    Date, OffsetDateTime, PlainDateTime, Refusal, SignedDuration, Time, Timestamp, UtcDateTime,
    UtcOffset,
};

/// How many texts of each type are read.
const TEXTS: u32 = 30_000;

/// What a text is read as: days, nanoseconds, seconds of an offset. None where it has not the form.
type Reading = Option<Result<Vec<i128>, Refusal>>;

const DAY: i128 = 86_400_000_000_000;

/// The numbers of a text, if it has the form, in which each `0` stands for a digit and nothing else for more than itself.
fn numbers(text: &str, form: &str) -> Option<Vec<i128>> {
    let fits = |(byte, shown): (u8, u8)| {
        byte == shown || (shown == b'0' && byte.is_ascii_digit()) || (shown == b'+' && byte == b'-')
    };
    if text.len() != form.len() || !text.bytes().zip(form.bytes()).all(fits) {
        return None;
    }
    let digits = text.split(|letter: char| !letter.is_ascii_digit());
    Some(digits.filter_map(|digits| digits.parse().ok()).collect())
}

fn length(year: i128, month: i128) -> i128 {
    match month {
        2 if year % 4 == 0 && (year % 100 != 0 || year % 400 == 0) => 29,
        2 => 28,
        4 | 6 | 9 | 11 => 30,
        _ => 31,
    }
}

fn day(year: i128, month: i128, day: i128) -> Result<i128, Refusal> {
    let refusals = [
        (!(1..=12).contains(&month), Refusal::OutOfRange("month")),
        (year.abs() > 999_999, Refusal::OutOfRange("year")),
        (!(1..=31).contains(&day), Refusal::OutOfRange("day")),
        (day > length(year, month), Refusal::OutOfRange("day")),
    ];
    if let Some((_, refusal)) = refusals.into_iter().find(|(is_refused, _)| *is_refused) {
        return Err(refusal);
    }
    let mut days = day - 1 + (1..month).map(|month| length(year, month)).sum::<i128>();
    // Whole cycles of 400 years, and then one year after another.
    days += (year - 1970).div_euclid(400) * 146_097;
    let first = 1970 + (year - 1970).rem_euclid(400);
    for year in 1970..first {
        days += 337 + length(year, 2);
    }
    Ok(days)
}

fn clock(parts: &[i128], nanosecond: i128) -> Result<i128, Refusal> {
    let ends = [
        (24, Refusal::OutOfRange("hour")),
        (60, Refusal::OutOfRange("minute")),
        (60, Refusal::OutOfRange("second")),
    ];
    for (part, (end, refusal)) in parts.iter().zip(ends) {
        if *part >= end {
            return Err(refusal);
        }
    }
    Ok(((parts[0] * 60 + parts[1]) * 60 + parts[2]) * 1_000_000_000 + nanosecond)
}

/// The nanoseconds of the digits of a fraction.
fn nanoseconds(digits: &str) -> Option<i128> {
    let are_digits = !digits.is_empty() && digits.bytes().all(|byte| byte.is_ascii_digit());
    let nine: String = digits.chars().chain("000000000".chars()).take(9).collect();
    are_digits.then(|| nine.parse().ok())?
}

/// The same, of a fraction as short as it can be.
fn shortest(digits: &str, least: &str) -> Option<i128> {
    let is_shortest = digits == least || !digits.ends_with('0');
    (is_shortest && digits.len() <= 9).then(|| nanoseconds(digits))?
}

fn date_text(text: &str) -> Option<Result<i128, Refusal>> {
    let (year, rest) = text.split_at_checked(text.rfind('-')?.checked_sub(3)?)?;
    let rest = numbers(rest, "-00-00").filter(|_| rest.starts_with('-'))?;
    let number: i128 = year.parse().ok()?;
    let written = match number {
        -9_999_999..0 => format!("-{:04}", -number),
        0..10_000 => format!("{number:04}"),
        10_000..10_000_000 => format!("+{number}"),
        _ => return None,
    };
    (written == year).then(|| day(number, rest[0], rest[1]))
}

fn time_text(text: &str) -> Option<Result<i128, Refusal>> {
    let (text, fraction) = text.split_once('.')?;
    let parts = match text.len() {
        7 => numbers(text, "0:00:00"),
        _ => numbers(text, "00:00:00").filter(|_| !text.starts_with('0')),
    }?;
    Some(clock(&parts, shortest(fraction, "0")?))
}

fn offset_text(text: &str) -> Option<Result<i128, Refusal>> {
    let parts = numbers(text, "+00:00:00")?;
    let ends = [
        (25, Refusal::OutOfRange("hours")),
        (59, Refusal::OutOfRange("minutes")),
        (59, Refusal::OutOfRange("seconds")),
    ];
    if let Some((_, (_, refusal))) = parts.iter().zip(ends).find(|(part, end)| **part > end.0) {
        return Some(Err(refusal));
    }
    let seconds = (parts[0] * 60 + parts[1]) * 60 + parts[2];
    match (text.starts_with('-'), seconds) {
        (true, 0) => None,
        (true, _) => Some(Ok(-seconds)),
        (false, _) => Some(Ok(seconds)),
    }
}

fn date(text: &str) -> Reading {
    Some(date_text(text)?.map(|day| vec![day]))
}

fn time(text: &str) -> Reading {
    Some(time_text(text)?.map(|nanosecond| vec![nanosecond]))
}

fn offset(text: &str) -> Reading {
    Some(offset_text(text)?.map(|seconds| vec![seconds]))
}

fn plain(text: &str) -> Reading {
    let (date, time) = text.split_once(' ')?;
    let (date, time) = (date_text(date)?, time_text(time)?);
    Some(date.and_then(|day| Ok(vec![day, time?])))
}

/// Days, nanoseconds and seconds of the offset of a text of RFC 3339.
fn exchanged(text: &str) -> Option<Result<[i128; 3], Refusal>> {
    let (front, rest) = text.split_at_checked(19)?;
    let date = numbers(front.get(..10)?, "0000-00-00").filter(|_| !front[..10].contains('+'))?;
    let time = numbers(front.get(11..)?, "00:00:00")?;
    if !["T", "t", " "].contains(&&front[10..11]) || front.matches('-').count() != 2 {
        return None;
    }
    let end = rest.find(['Z', 'z', '+', '-'])?;
    let nanosecond = match rest[..end].strip_prefix('.') {
        Some(digits) => nanoseconds(digits)?,
        None => (end == 0).then_some(0)?,
    };
    let offset = match &rest[end..] {
        "Z" | "z" => vec![0, 0],
        offset => numbers(offset, "+00:00")?,
    };
    let sign = if rest[end..].starts_with('-') { -1 } else { 1 };
    Some(day(date[0], date[1], date[2]).and_then(|day| {
        let nanosecond = clock(&time, nanosecond)?;
        if offset[0] > 23 {
            return Err(Refusal::OutOfRange("hours"));
        }
        if offset[1] > 59 {
            return Err(Refusal::OutOfRange("minutes"));
        }
        let seconds = sign * (offset[0] * 60 + offset[1]) * 60;
        Ok([day, nanosecond, seconds])
    }))
}

fn instant(parts: [i128; 3]) -> i128 {
    parts[0] * DAY + parts[1] - parts[2] * 1_000_000_000
}

fn utc(text: &str) -> Reading {
    if let Some(reading) = text.strip_suffix(" +00").and_then(plain) {
        return Some(reading);
    }
    let at = exchanged(text)?.map(instant);
    Some(at.map(|at| vec![at.div_euclid(DAY), at.rem_euclid(DAY)]))
}

fn date_time(text: &str) -> Reading {
    let parts = text.rsplit_once(' ').map(|(shown, end)| (plain(shown), offset_text(end)));
    if let Some((Some(shown), Some(offset))) = parts {
        return Some(shown.and_then(|shown| Ok(vec![shown[0], shown[1], offset?])));
    }
    Some(exchanged(text)?.map(Vec::from))
}

/// A number with a point and as few digits as there can be.
fn decimal(text: &str) -> Option<i128> {
    let (whole, fraction) = text.split_once('.').unwrap_or((text, ""));
    let nanoseconds = match text.contains('.') {
        true => shortest(fraction, "").filter(|nanoseconds| *nanoseconds > 0)?,
        false => 0,
    };
    let seconds: u64 = whole.strip_prefix('-').unwrap_or(whole).parse().ok()?;
    let seconds = i128::from(seconds);
    let count = seconds * 1_000_000_000 + nanoseconds;
    let (sign, count) = match whole.starts_with('-') {
        true => ("-", -count),
        false => ("", count),
    };
    let is_written = whole == format!("{sign}{seconds}") && (count != 0 || sign.is_empty());
    (is_written && seconds < 10_i128.pow(19)).then_some(count)
}

fn timestamp(text: &str) -> Reading {
    let Some(count) = decimal(text) else {
        return Some(exchanged(text)?.map(|parts| vec![instant(parts)]));
    };
    let (first, last) = (day(-999_999, 1, 1).unwrap(), day(999_999, 12, 31).unwrap());
    let is_held = (first * DAY..(last + 1) * DAY).contains(&count);
    Some(is_held.then(|| vec![count]).ok_or(Refusal::OutOfRange("seconds")))
}

/// The names of the units of durations, and their nanoseconds.
const UNITS: [(&[&str], i128); 7] = [
    (&["d", "day", "days"], DAY),
    (&["h", "hour", "hours"], 3_600_000_000_000),
    (&["m", "minute", "minutes"], 60_000_000_000),
    (&["s", "second", "seconds"], 1_000_000_000),
    (&["ms", "millisecond", "milliseconds"], 1_000_000),
    (&["us", "µs", "microsecond", "microseconds"], 1_000),
    (&["ns", "nanosecond", "nanoseconds"], 1),
];

/// What the letters in front of a text are, and what follows them.
fn split(text: &str, is_one: fn(char) -> bool) -> (&str, &str) {
    text.split_at(text.find(|letter| !is_one(letter)).unwrap_or(text.len()))
}

/// A number of a unit, in nanoseconds. None if they are not whole.
fn of_unit(whole: &str, fraction: &str, unit: i128) -> Option<Result<i128, Refusal>> {
    let fraction = fraction.trim_end_matches('0');
    let scale = 10_i128.checked_pow(fraction.len() as u32)?;
    let scaled = format!("0{fraction}").parse::<i128>().ok()?.checked_mul(unit)?;
    if scaled % scale != 0 {
        return None;
    }
    let count = whole.parse::<i128>().ok().and_then(|whole| whole.checked_mul(unit));
    Some(count.map(|count| count + scaled / scale).ok_or(Refusal::OutOfRange("duration")))
}

fn duration(text: &str) -> Reading {
    let (mut rest, mut is_negative, mut sum) = (text.trim_start_matches(' '), false, 0_i128);
    for number in 0.. {
        if let Some(after) = rest.strip_prefix(['-', '+']) {
            (is_negative, rest) = (rest.starts_with('-'), after);
        }
        let (whole, after) = split(rest, |letter| letter.is_ascii_digit());
        let (fraction, after) = match after.strip_prefix('.') {
            Some(after) => split(after, |letter| letter.is_ascii_digit()),
            None => ("0", after),
        };
        if whole.is_empty() || fraction.is_empty() {
            return None;
        }
        let word = after.trim_start_matches(' ');
        let (name, after) =
            split(word, |letter| letter.is_ascii_alphabetic() || !letter.is_ascii());
        let name = match name {
            "" if number == 0 && word.is_empty() => String::from("s"),
            name => name.to_ascii_lowercase(),
        };
        let (_, unit) = UNITS.iter().find(|(names, _)| names.contains(&name.as_str()))?;
        let Ok(count) = of_unit(whole, fraction, *unit)? else {
            return Some(Err(Refusal::OutOfRange("duration")));
        };
        sum += if is_negative { -count } else { count };
        if i64::try_from(sum / 1_000_000_000).is_err() {
            return Some(Err(Refusal::OutOfRange("duration")));
        }
        rest = after.trim_start_matches(' ');
        if rest.is_empty() {
            break;
        }
        is_negative &= rest.len() == after.len();
    }
    Some(Ok(vec![sum]))
}

struct Source(u64);

impl Source {
    fn below(&mut self, end: u64) -> u64 {
        self.0 ^= self.0 << 13;
        self.0 ^= self.0 >> 7;
        self.0 ^= self.0 << 17;
        (self.0 >> 11) % end
    }

    fn of<'a>(&mut self, all: &[&'a str]) -> &'a str {
        all[self.below(all.len() as u64) as usize]
    }

    /// A text of a form, in which each `0` stands for a digit.
    fn like(&mut self, form: &str) -> String {
        let mut letters: Vec<char> = form.chars().collect();
        for letter in letters.iter_mut().filter(|letter| **letter == '0') {
            let end = [2, 6, 10][self.below(3) as usize];
            *letter = char::from(b'0' + self.below(end) as u8);
        }
        letters.into_iter().collect()
    }

    /// A text of one of the forms, with up to three places changed.
    fn text(&mut self, forms: &[&str]) -> String {
        const LETTERS: &[&str] = &[
            "0", "1", "2", "3", "5", "6", "9", "-", "+", ":", ".", " ", "T", "Z", "_", "d", "h",
            "m", "s", "ms", "µs", "n", "W", "\0", "\t", "é", "00", "-0",
        ];
        let form = self.of(forms);
        let mut letters: Vec<String> = self.like(form).chars().map(String::from).collect();
        for _ in 0..self.below(4) {
            let at = self.below(letters.len() as u64 + 1) as usize;
            match (self.below(3), letters.get_mut(at)) {
                (0, Some(letter)) => letter.clear(),
                (1, Some(letter)) => *letter = String::from(self.of(LETTERS)),
                _ => letters.insert(at, String::from(self.of(LETTERS))),
            }
        }
        letters.concat()
    }
}

/// Reads texts near these forms both ways. At least one in a hundred must be read, and as many be refused by a part.
fn compare<T: FromStr<Err = Refusal> + Debug>(
    forms: &[&str],
    read: fn(&str) -> Reading,
    shown: fn(T) -> Vec<i128>,
) {
    let mut source = Source(88_172_645_463_325_252);
    let (mut read_count, mut refused) = (0, 0);
    for _ in 0..TEXTS {
        let text = source.text(forms);
        let wanted = read(&text).unwrap_or(Err(Refusal::Syntax));
        assert_eq!(text.parse().map(shown), wanted, "{text:?}");
        match wanted {
            Ok(_) => read_count += 1,
            Err(Refusal::Syntax) => {}
            Err(_) => refused += 1,
        }
    }
    assert!(read_count > TEXTS / 100 && refused > TEXTS / 100, "{read_count} {refused}");
}

const EXCHANGED: [&str; 3] =
    ["0000-00-00T00:00:00Z", "0000-00-00T00:00:00.000+00:00", "2024-02-20 00:00:00-00:00"];

fn day_of(date: Date) -> i128 {
    let (year, month, of_month) = date.to_calendar_date();
    day(year.into(), u8::from(month).into(), of_month.into()).unwrap()
}

fn nanosecond_of(time: Time) -> i128 {
    let (hour, minute, second, nanosecond) = time.as_hms_nano();
    clock(&[hour.into(), minute.into(), second.into()], nanosecond.into()).unwrap()
}

#[test]
fn dates() {
    let forms = ["0000-00-00", "-0000-00-10", "+100000-10-00", "-900000-00-20", "+1000000-10-10"];
    compare(&forms, date, |date: Date| vec![day_of(date)]);
}

#[test]
fn times() {
    compare(&["0:00:00.0", "10:00:00.000", "20:00:00.000000000"], time, |time: Time| {
        vec![nanosecond_of(time)]
    });
}

#[test]
fn offsets() {
    compare(&["+00:00:00", "-00:00:00"], offset, |offset: UtcOffset| {
        vec![offset.whole_seconds().into()]
    });
}

#[test]
fn plain_date_times() {
    let forms = ["2000-00-00 0:00:00.0", "-0000-00-00 10:00:00.01", "+900000-10-00 0:00:00.5"];
    compare(&forms, plain, |at: PlainDateTime| vec![day_of(at.date()), nanosecond_of(at.time())]);
}

#[test]
fn instants_in_utc() {
    let forms = ["2000-00-00 0:00:00.0 +00", "-0000-00-00 10:00:00.01 +00"];
    compare(&[&forms[..], &EXCHANGED].concat(), utc, |at: UtcDateTime| {
        vec![day_of(at.date()), nanosecond_of(at.time())]
    });
}

#[test]
fn date_times_at_an_offset() {
    let forms = ["2000-00-00 0:00:00.0 +00:00:00", "-0000-00-00 10:00:00.01 -20:00:00"];
    compare(&[&forms[..], &EXCHANGED].concat(), date_time, |at: OffsetDateTime| {
        let offset = at.offset().whole_seconds();
        vec![day_of(at.date()), nanosecond_of(at.time()), offset.into()]
    });
}

#[test]
fn timestamps() {
    let forms = ["0", "-1000", "0.00", "-0.000000000", "40000000000000", "9200000000000000000"];
    compare(&[&forms[..], &EXCHANGED].concat(), timestamp, |at: Timestamp| {
        vec![at.as_nanoseconds()]
    });
}

#[test]
fn durations() {
    let forms = [
        "0s",
        "1d2h5m0s",
        "-1s500ms",
        "1ms1µs100ns",
        "106751991160000d10h",
        "-5d10h20m3ns",
        "00 days -0.5 seconds",
        " 0.250 ",
        "1 hour 00 minutes",
        "106751991160000 days",
    ];
    compare(&forms, duration, |duration: SignedDuration| vec![duration.whole_nanoseconds()]);
}
