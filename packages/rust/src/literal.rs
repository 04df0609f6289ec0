//! The forms of literals, and of the texts that `FromStr` reads. The macros read a literal when a
//! program is compiled, and `FromStr` reads a text when the program runs. This module is no part of
//! the interface.

use core::fmt;

use crate::error::ComponentRange;
use crate::proved::Part;
use crate::{
    Date, Month, OffsetDateTime, PlainDateTime, RangeResult, Time, Timestamp, UtcDateTime,
    UtcOffset, Weekday,
};

macro_rules! some {
    ($option:expr) => {
        match $option {
            Some(value) => value,
            None => return None,
        }
    };
}

/// How the text that `Display` writes of an instant ends.
const AT_UTC: &str = " +00";

/// A number without a sign, and how many digits it has.
#[derive(Clone, Copy)]
struct Number {
    value: u64,
    digits: u32,
}

impl Number {
    /// The number, or 255 for a greater one, which no part has.
    const fn part(self) -> u8 {
        if self.value > 255 { 255 } else { self.value as u8 }
    }
}

/// The rest of a text.
#[derive(Clone, Copy)]
struct Rest<'a> {
    bytes: &'a [u8],
    at: usize,
}

impl<'a> Rest<'a> {
    const fn new(text: &'a str) -> Rest<'a> {
        Rest { bytes: text.as_bytes(), at: 0 }
    }

    /// The next byte, spaces left out, and 0 at the end.
    const fn next(&mut self) -> u8 {
        while self.at < self.bytes.len() && self.bytes[self.at].is_ascii_whitespace() {
            self.at += 1;
        }
        if self.at < self.bytes.len() { self.bytes[self.at] } else { 0 }
    }

    const fn is_at_end(&mut self) -> bool {
        self.next() == 0
    }

    /// Whether the next byte is this one, which is then taken.
    const fn takes(&mut self, byte: u8) -> bool {
        let is = self.next() == byte;
        if is {
            self.at += 1;
        }
        is
    }

    /// Digits, with `_` between them.
    const fn number(&mut self) -> Option<Number> {
        if !self.next().is_ascii_digit() {
            return None;
        }
        let mut number = Number { value: 0, digits: 0 };
        while self.at < self.bytes.len() {
            let byte = self.bytes[self.at];
            if byte.is_ascii_digit() {
                if number.digits == 19 {
                    return None;
                }
                number.value = number.value * 10 + (byte - b'0') as u64;
                number.digits += 1;
            } else if byte != b'_' {
                break;
            }
            self.at += 1;
        }
        Some(number)
    }

    /// The nanoseconds of the digits after a point, if one is next.
    const fn fraction(&mut self) -> Option<u32> {
        if !self.takes(b'.') {
            return Some(0);
        }
        let number = some!(self.number());
        if number.digits > 9 {
            return None;
        }
        let mut nanosecond = number.value;
        let mut digits = number.digits;
        while digits < 9 {
            nanosecond *= 10;
            digits += 1;
        }
        Some(nanosecond as u32)
    }

    const fn date(&mut self) -> Option<DateLiteral> {
        let is_negative = self.takes(b'-');
        if !is_negative {
            self.takes(b'+');
        }
        let number = some!(self.number());
        if number.value > 9_999_999 {
            return None;
        }
        let year = if is_negative { -(number.value as i32) } else { number.value as i32 };
        if !self.takes(b'-') {
            return None;
        }
        if self.takes(b'W') {
            let week = some!(self.number()).part();
            if !self.takes(b'-') {
                return None;
            }
            let number = some!(self.number()).part().wrapping_sub(1);
            let weekday = some!(Weekday::from_number_days_from_monday(number));
            return Some(DateLiteral::Week(year, week, weekday));
        }
        let second = some!(self.number());
        if self.takes(b'-') {
            return Some(DateLiteral::Calendar(year, second.part(), some!(self.number()).part()));
        }
        let ordinal = if second.value > 999 { 999 } else { second.value as u16 };
        Some(DateLiteral::Ordinal(year, ordinal))
    }

    const fn time(&mut self) -> Option<TimeLiteral> {
        let hour = some!(self.number()).part();
        if !self.takes(b':') {
            return None;
        }
        let minute = some!(self.number()).part();
        let mut time = TimeLiteral { hour, minute, second: 0, nanosecond: 0 };
        if self.takes(b':') {
            time.second = some!(self.number()).part();
            time.nanosecond = some!(self.fraction());
        }
        Some(time)
    }

    const fn offset(&mut self) -> Option<OffsetLiteral> {
        if self.takes(b'U') || self.takes(b'u') {
            let is_utc =
                (self.takes(b'T') || self.takes(b't')) && (self.takes(b'C') || self.takes(b'c'));
            return if is_utc {
                Some(OffsetLiteral { is_negative: false, parts: [0; 3] })
            } else {
                None
            };
        }
        let is_negative = self.takes(b'-');
        if !is_negative && !self.takes(b'+') {
            return None;
        }
        let mut parts = [some!(self.number()).part(), 0, 0];
        if self.takes(b':') {
            parts[1] = some!(self.number()).part();
            if self.takes(b':') {
                parts[2] = some!(self.number()).part();
            }
        }
        Some(OffsetLiteral { is_negative, parts })
    }

    const fn timestamp(&mut self) -> Option<TimestampLiteral> {
        let is_negative = self.takes(b'-');
        if !is_negative {
            self.takes(b'+');
        }
        let number = some!(self.number());
        let nanosecond = some!(self.fraction());
        let seconds = number.value as i128;
        Some(match (is_negative, nanosecond) {
            (false, _) => TimestampLiteral { seconds, nanosecond },
            (true, 0) => TimestampLiteral { seconds: -seconds, nanosecond },
            (true, _) => {
                TimestampLiteral { seconds: -seconds - 1, nanosecond: 1_000_000_000 - nanosecond }
            }
        })
    }
}

/// The parts of a date.
#[derive(Clone, Copy, Debug)]
pub enum DateLiteral {
    /// A year, a month and a day of the month.
    Calendar(i32, u8, u8),
    /// A year and a day of the year.
    Ordinal(i32, u16),
    /// An ISO year, an ISO week, and a day of the week.
    Week(i32, u8, Weekday),
}

/// The parts of a time of day.
#[derive(Clone, Copy)]
pub struct TimeLiteral {
    pub(crate) hour: u8,
    pub(crate) minute: u8,
    pub(crate) second: u8,
    pub(crate) nanosecond: u32,
}

/// The parts of an offset.
#[derive(Clone, Copy)]
pub struct OffsetLiteral {
    pub(crate) is_negative: bool,
    pub(crate) parts: [u8; 3],
}

/// The parts of a date and a time of day.
#[derive(Clone, Copy)]
pub struct PlainLiteral {
    pub(crate) date: DateLiteral,
    pub(crate) time: TimeLiteral,
}

/// The parts of a date and a time of day in UTC.
#[derive(Clone, Copy)]
pub struct UtcLiteral(PlainLiteral);

/// The parts of a date and a time of day at an offset.
#[derive(Clone, Copy)]
pub struct DateTimeLiteral {
    pub(crate) plain: PlainLiteral,
    pub(crate) offset: OffsetLiteral,
}

/// The parts of a timestamp.
#[derive(Clone, Copy)]
pub struct TimestampLiteral {
    pub(crate) seconds: i128,
    pub(crate) nanosecond: u32,
}

const fn only_value<T: Copy>(mut rest: Rest<'_>, value: T) -> Option<T> {
    if rest.is_at_end() { Some(value) } else { None }
}

/// The literal that is a whole text, by the parts that come one after another.
macro_rules! whole_texts {
    ($($name:ident: $Literal:ty, $($part:ident: $read:ident),+ => $literal:expr;)+) => {
        $(
            #[must_use]
            pub const fn $name(text: &str) -> Option<$Literal> {
                let mut rest = Rest::new(text);
                $(let $part = some!(rest.$read());)+
                only_value(rest, $literal)
            }
        )+
    };
}

whole_texts! {
    date: DateLiteral, date: date => date;
    time: TimeLiteral, time: time => time;
    offset: OffsetLiteral, offset: offset => offset;
    plain_literal: PlainLiteral, date: date, time: time => PlainLiteral { date, time };
    date_time: DateTimeLiteral, date: date, time: time, offset: offset
        => DateTimeLiteral { plain: PlainLiteral { date, time }, offset };
    timestamp: TimestampLiteral, timestamp: timestamp => timestamp;
}

/// The parts of the text that `Display` writes of an instant, in which UTC is `+00`.
#[must_use]
pub(crate) fn utc(text: &str) -> Option<UtcLiteral> {
    plain_literal(text.strip_suffix(AT_UTC)?).map(UtcLiteral)
}

/// The literal. Another form ends the compilation with the message.
pub const fn of_form<T: Copy>(literal: Option<T>, message: &str) -> T {
    match literal {
        Some(literal) => literal,
        None => panic!("{}", message),
    }
}

/// Ends the compilation, and says which part is out of its range.
const fn refuse(refused: ComponentRange) -> ! {
    let sentence = match (refused.part(), refused.is_conditional()) {
        (Part::Year, _) => "the year is out of the range, -999999 to 999999",
        (Part::Month, _) => "the month is not 1 to 12",
        (Part::Day, false) => "the day is not 1 to 31",
        (Part::Day, true) => "the month of that year does not have the day",
        (Part::Ordinal, false) => "the day of the year is not 1 to 366",
        (Part::Ordinal, true) => "the year does not have 366 days",
        (Part::Week, false) => "the week is not 1 to 53",
        (Part::Week, true) => "the year does not have 53 weeks",
        (Part::Hour, _) => "the hour is not 0 to 23",
        (Part::Minute, _) => "the minute is not 0 to 59",
        (Part::Second, _) => "the second is not 0 to 59",
        (Part::Hours, _) => "the hours of the offset are not -25 to 25",
        (Part::Minutes, _) => "the minutes of the offset are not -59 to 59",
        (Part::Seconds, _) => "the seconds are out of their range",
        _ => "a part is out of its range",
    };
    panic!("{}", sentence)
}

/// The value of a result, or its error as it is.
macro_rules! tried {
    ($result:expr) => {
        match $result {
            Ok(value) => value,
            Err(refused) => return Err(refused),
        }
    };
}

macro_rules! values {
    ($($Literal:ident => $Value:ident,)+) => {
        $(
            impl $Literal {
                /// The value. A part that is out of its range ends the compilation.
                #[must_use]
                pub const fn value(self) -> $Value {
                    match self.check() {
                        Ok(value) => value,
                        Err(refused) => refuse(refused),
                    }
                }
            }
        )+
    };
}

values! {
    DateLiteral => Date,
    TimeLiteral => Time,
    OffsetLiteral => UtcOffset,
    PlainLiteral => PlainDateTime,
    UtcLiteral => UtcDateTime,
    DateTimeLiteral => OffsetDateTime,
    TimestampLiteral => Timestamp,
}

impl DateLiteral {
    pub(crate) const fn check(self) -> RangeResult<Date> {
        match self {
            DateLiteral::Calendar(year, month, day) => {
                Date::from_calendar_date(year, tried!(Month::from_number(month)), day)
            }
            DateLiteral::Ordinal(year, ordinal) => Date::from_ordinal_date(year, ordinal),
            DateLiteral::Week(year, week, weekday) => Date::from_iso_week_date(year, week, weekday),
        }
    }
}

impl TimeLiteral {
    pub(crate) const fn check(self) -> RangeResult<Time> {
        Time::from_hms_nano(self.hour, self.minute, self.second, self.nanosecond)
    }
}

impl OffsetLiteral {
    pub(crate) const fn check(self) -> RangeResult<UtcOffset> {
        let [hours, minutes, seconds] = self.parts;
        UtcOffset::from_hms(self.signed(hours), self.signed(minutes), self.signed(seconds))
    }

    /// A part with the sign, or 127 for a greater one, which no part has.
    const fn signed(self, part: u8) -> i8 {
        match (part, self.is_negative) {
            (128.., _) => i8::MAX,
            (part, false) => part as i8,
            (part, true) => -(part as i8),
        }
    }
}

impl PlainLiteral {
    pub(crate) const fn check(self) -> RangeResult<PlainDateTime> {
        let date = tried!(self.date.check());
        Ok(PlainDateTime::new(date, tried!(self.time.check())))
    }

    /// As one in UTC.
    #[must_use]
    pub const fn in_utc(self) -> UtcLiteral {
        UtcLiteral(self)
    }
}

impl UtcLiteral {
    pub(crate) const fn check(self) -> RangeResult<UtcDateTime> {
        Ok(tried!(self.0.check()).as_utc())
    }
}

impl DateTimeLiteral {
    pub(crate) const fn check(self) -> RangeResult<OffsetDateTime> {
        let plain = tried!(self.plain.check());
        Ok(plain.assume_offset(tried!(self.offset.check())))
    }
}

impl TimestampLiteral {
    pub(crate) const fn check(self) -> RangeResult<Timestamp> {
        let is_held = self.seconds >= i64::MIN as i128 && self.seconds <= i64::MAX as i128;
        let seconds = if is_held { self.seconds as i64 } else { i64::MAX };
        Timestamp::new(seconds, self.nanosecond)
    }
}

/// A part of two digits, or of one too where there need be no more.
fn write_part(f: &mut fmt::Formatter<'_>, part: u8, digits: usize) -> fmt::Result {
    if part > 99 {
        return Err(fmt::Error);
    }
    write!(f, "{part:0digits$}")
}

/// The digits of the fraction after a point, of which zeros at the end are left out, but for the
/// first.
fn write_fraction(f: &mut fmt::Formatter<'_>, nanosecond: u32) -> fmt::Result {
    let (mut fraction, mut width) = (nanosecond, 9);
    while width > 1 && fraction % 10 == 0 {
        fraction /= 10;
        width -= 1;
    }
    write!(f, ".{fraction:0width$}")
}

/// As `Display` writes a date of the parts, in the range or not. Other forms than that of a
/// calendar date have no such text.
impl fmt::Display for DateLiteral {
    fn fmt(&self, f: &mut fmt::Formatter<'_>) -> fmt::Result {
        let DateLiteral::Calendar(year, month, day) = *self else {
            return Err(fmt::Error);
        };
        let sign = match year {
            ..0 => "-",
            0..10_000 => "",
            _ => "+",
        };
        write!(f, "{sign}{:04}-", year.unsigned_abs())?;
        write_part(f, month, 2)?;
        f.write_str("-")?;
        write_part(f, day, 2)
    }
}

/// As `Display` writes a time of day of the parts, in their ranges or not.
impl fmt::Display for TimeLiteral {
    fn fmt(&self, f: &mut fmt::Formatter<'_>) -> fmt::Result {
        write_part(f, self.hour, 1)?;
        f.write_str(":")?;
        write_part(f, self.minute, 2)?;
        f.write_str(":")?;
        write_part(f, self.second, 2)?;
        write_fraction(f, self.nanosecond)
    }
}

/// As `Display` writes an offset of the parts, in their ranges or not.
impl fmt::Display for OffsetLiteral {
    fn fmt(&self, f: &mut fmt::Formatter<'_>) -> fmt::Result {
        let [hours, minutes, seconds] = self.parts;
        f.write_str(if self.is_negative { "-" } else { "+" })?;
        write_part(f, hours, 2)?;
        f.write_str(":")?;
        write_part(f, minutes, 2)?;
        f.write_str(":")?;
        write_part(f, seconds, 2)
    }
}

impl fmt::Display for PlainLiteral {
    fn fmt(&self, f: &mut fmt::Formatter<'_>) -> fmt::Result {
        write!(f, "{} {}", self.date, self.time)
    }
}

impl fmt::Display for UtcLiteral {
    fn fmt(&self, f: &mut fmt::Formatter<'_>) -> fmt::Result {
        write!(f, "{}{AT_UTC}", self.0)
    }
}

impl fmt::Display for DateTimeLiteral {
    fn fmt(&self, f: &mut fmt::Formatter<'_>) -> fmt::Result {
        write!(f, "{} {}", self.plain, self.offset)
    }
}

/// As `Display` writes a timestamp of the parts, in the range or not.
impl fmt::Display for TimestampLiteral {
    fn fmt(&self, f: &mut fmt::Formatter<'_>) -> fmt::Result {
        if self.nanosecond == 0 {
            return write!(f, "{}", self.seconds);
        }
        if self.seconds >= 0 {
            write!(f, "{}", self.seconds)?;
            return write_fraction(f, self.nanosecond);
        }
        write!(f, "-{}", -(self.seconds + 1))?;
        write_fraction(f, 1_000_000_000 - self.nanosecond)
    }
}
