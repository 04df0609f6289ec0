// Made by make/erase of crates/rfc3339/src/write.rt. Do not edit.
//! Texts written.
use crate::proved::calendar_values::Text;
use crate::proved::offset_times::OffsetDateTime;

// The shortest text of RFC 3339, if there is one.
/// # Contract
///
/// ```text
/// ensures text { SomeIff result (HasText at) (rfc3339_text at) }
/// ensures length { IfSome result (λ text. length text ≤ 35) }
/// ```
///
/// [docs/proofs/STATEMENT.md](crate::proved#contracts) explains the words.
#[inline(always)]
pub(crate) fn text_of(at: OffsetDateTime) -> Option<Text> {
    text_with(at, None)
}

// The text of RFC 3339, if there is one: with this number of digits of the fraction, or with those that it takes.
/// # Contract
///
/// ```text
/// ensures text { SomeIff result (HasText at) (text_with digits at) }
/// ensures length { IfSome result (λ text. length text ≤ 35) }
/// ```
///
/// [docs/proofs/STATEMENT.md](crate::proved#contracts) explains the words.
#[inline(always)]
pub(crate) fn text_with(at: OffsetDateTime, digits: Option<u8>) -> Option<Text> {
    let (date, time, offset) = at.parts();
    let (year, month, day) = date.to_calendar_date();
    let (hours, minutes, seconds) = offset.as_hms();
    if year < 0 || year > 9_999 || seconds != 0 || hours.unsigned_abs() > 23 {
        return None;
    }
    let (hour, minute, second, nanosecond) = time.as_hms_nano();
    let mut text = Text::new();
    push_wall(
        &mut text,
        year as u32,
        u8::from(month),
        day,
        hour,
        minute,
        second,
    );
    push_digits(&mut text, nanosecond, digits);
    push_offset(&mut text, hours, minutes);
    Some(text)
}

// A date, a `T` and a time of day to the second, as one group of bytes.
/// # Contract
///
/// ```text
/// requires { length text.old + 19 ≤ text_capacity }
/// ensures value { text.new ≡ text.old
///     ++ (last_digits 4 year ++ codes "-" ++ last_digits 2 month
///     ++ codes "-" ++ last_digits 2 day) ++ codes "T" ++ (last_digits 2 hour ++ codes ":"
///     ++ last_digits 2 minute ++ codes ":" ++ last_digits 2 second) }
/// ensures length { length text.new ≡ length text.old + 19 }
/// ```
///
/// [docs/proofs/STATEMENT.md](crate::proved#contracts) explains the words.
#[inline]
pub(crate) fn push_wall(
    text: &mut Text,
    year: u32,
    month: u8,
    day: u8,
    hour: u8,
    minute: u8,
    second: u8,
) {
    text.push_bytes(&[
        b'0' + (year / 1_000 % 10) as u8,
        b'0' + (year / 100 % 10) as u8,
        b'0' + (year / 10 % 10) as u8,
        b'0' + (year % 10) as u8,
        b'-',
        b'0' + month / 10 % 10,
        b'0' + month % 10,
        b'-',
        b'0' + day / 10 % 10,
        b'0' + day % 10,
        b'T',
        b'0' + hour / 10 % 10,
        b'0' + hour % 10,
        b':',
        b'0' + minute / 10 % 10,
        b'0' + minute % 10,
        b':',
        b'0' + second / 10 % 10,
        b'0' + second % 10,
    ]);
}

// Adds the date.
/// # Contract
///
/// ```text
/// requires { length text.old + 10 ≤ text_capacity }
/// ensures value { text.new ≡ text.old
///     ++ (last_digits 4 year ++ codes "-" ++ last_digits 2 month
///     ++ codes "-" ++ last_digits 2 day) }
/// ensures length { length text.new ≡ length text.old + 10 }
/// ```
///
/// [docs/proofs/STATEMENT.md](crate::proved#contracts) explains the words.
#[inline]
pub(crate) fn push_date(text: &mut Text, year: u32, month: u8, day: u8) {
    text.push_four_digits(year);
    text.push_part(b'-', month);
    text.push_part(b'-', day);
}

// Adds the hour, the minute and the second.
/// # Contract
///
/// ```text
/// requires { length text.old + 8 ≤ text_capacity }
/// ensures value { text.new ≡ text.old
///     ++ (last_digits 2 hour ++ codes ":" ++ last_digits 2 minute
///     ++ codes ":" ++ last_digits 2 second) }
/// ensures length { length text.new ≡ length text.old + 8 }
/// ```
///
/// [docs/proofs/STATEMENT.md](crate::proved#contracts) explains the words.
#[inline]
pub(crate) fn push_clock(text: &mut Text, hour: u8, minute: u8, second: u8) {
    text.push_two_digits(hour);
    text.push_part(b':', minute);
    text.push_part(b':', second);
}

// Adds the fraction, if there is one.
/// # Contract
///
/// ```text
/// requires { length text.old + 10 ≤ text_capacity }
/// ensures value { text.new ≡ text.old ++ fraction_text nanosecond }
/// ensures length { length text.new ≤ length text.old + 10 }
/// ```
///
/// [docs/proofs/STATEMENT.md](crate::proved#contracts) explains the words.
#[inline]
pub(crate) fn push_fraction(text: &mut Text, nanosecond: u32) {
    if nanosecond != 0 {
        text.push(b'.');
        text.push_fraction(nanosecond);
    }
}

// Adds the fraction, of this number of digits or of those that it takes.
/// # Contract
///
/// ```text
/// requires { length text.old + 10 ≤ text_capacity }
/// ensures value { text.new ≡ text.old ++ fraction_with digits nanosecond }
/// ensures length { length text.new ≤ length text.old + 10 }
/// ```
///
/// [docs/proofs/STATEMENT.md](crate::proved#contracts) explains the words.
#[inline(always)]
fn push_digits(text: &mut Text, nanosecond: u32, digits: Option<u8>) {
    match digits {
        None => push_fraction(text, nanosecond),
        Some(digits) => push_first_digits(text, nanosecond, digits),
    }
}

// Adds the point and this number of the nine digits, or nothing for none.
/// # Contract
///
/// ```text
/// requires { length text.old + 10 ≤ text_capacity }
/// ensures value { text.new ≡ text.old ++ fraction_of_digits digits nanosecond }
/// ensures length { length text.new ≤ length text.old + 10 }
/// ```
///
/// [docs/proofs/STATEMENT.md](crate::proved#contracts) explains the words.
#[inline(never)]
fn push_first_digits(text: &mut Text, nanosecond: u32, digits: u8) {
    if digits == 0 {
        return;
    }
    let mut nine = Text::new();
    push_nine_digits(&mut nine, nanosecond);
    text.push(b'.');
    text.push_bytes(&nine.as_bytes()[..(digits as usize).min(9)]);
}

// Adds the point and nine digits.
/// # Contract
///
/// ```text
/// requires { length text.old + 10 ≤ text_capacity }
/// ensures value { text.new ≡ text.old ++ codes "." ++ last_digits 9 nanosecond }
/// ensures length { length text.new ≡ length text.old + 10 }
/// ```
///
/// [docs/proofs/STATEMENT.md](crate::proved#contracts) explains the words.
#[inline]
pub(crate) fn push_whole_fraction(text: &mut Text, nanosecond: u32) {
    text.push(b'.');
    push_nine_digits(text, nanosecond);
}

// Adds the offset of these hours and minutes, of one sign.
/// # Contract
///
/// ```text
/// requires room { length text.old + 6 ≤ text_capacity }
/// requires parts { AreSignedOffsetParts hours minutes (pos 0) }
/// ensures value { let o = seconds_of_parts hours minutes (pos 0) in
///     text.new ≡ text.old ++ time_offset_text o }
/// ensures length { length text.new ≤ length text.old + 6 }
/// ```
///
/// [docs/proofs/STATEMENT.md](crate::proved#contracts) explains the words.
#[inline]
pub(crate) fn push_offset(text: &mut Text, hours: i8, minutes: i8) {
    if hours == 0 && minutes == 0 {
        text.push(b'Z');
        return;
    }
    let is_west = (hours < 0) | (minutes < 0);
    let sign = if is_west { b'-' } else { b'+' };
    text.push_part(sign, hours.unsigned_abs());
    text.push_part(b':', minutes.unsigned_abs());
}

// Adds the last nine digits of a number.
/// # Contract
///
/// ```text
/// requires { length text.old + 9 ≤ text_capacity }
/// ensures value { text.new ≡ text.old ++ last_digits 9 number }
/// ensures length { length text.new ≡ length text.old + 9 }
/// ```
///
/// [docs/proofs/STATEMENT.md](crate::proved#contracts) explains the words.
#[inline]
fn push_nine_digits(text: &mut Text, number: u32) {
    text.push(b'0' + (number / 100_000_000 % 10) as u8);
    text.push_four_digits(number / 10_000);
    text.push_four_digits(number);
}
