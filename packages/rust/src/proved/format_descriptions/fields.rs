// Made by make/erase of crates/format_descriptions/src/fields.rt. Do not edit.
//! The number of each component, read from the front of a text.
use crate::proved::format_descriptions::fractions::{after_digits, fraction, read_digits};
use crate::proved::format_descriptions::reading::{
    after_word, digit, four, more, sign, three, two, two_digits, year,
};
use crate::proved::format_descriptions::words::{month, period, weekday, weekday_number};
use crate::proved::format_descriptions::{Component, Padding, Sign, YearRange};

// The sign and the number of a component, and what follows them.
/// # Contract
///
/// ```text
/// requires { has_large_number component ≡ false }
/// ensures value { option_map (λ read. (read.0, read.1.now)) result
///     ≡ component_at component text.now }
/// ensures below { IfSome result (λ read. read.0.1 ≤ 1_000_000_000) }
/// ensures shorter { IfSome result (λ read. length read.1.now ≤ length text.now) }
/// ```
///
/// [docs/proofs/STATEMENT.md](crate::proved#contracts) explains the words.
#[inline]
pub(crate) fn component_at(component: Component, text: &[u8]) -> Option<((bool, u32), &[u8])> {
    match component {
        Component::Year(_, sign, padding, range) => signed_year(sign, padding, range, text),
        Component::YearCentury(_, sign, padding, range) => {
            signed_century(sign, padding, range, text)
        }
        Component::Ordinal(padding) => {
            let (number, rest) = three(padding, text)?;
            unsigned(number, rest)
        }
        Component::MonthName(form, case) => {
            let (number, rest) = month(form, case, text)?;
            unsigned(number, rest)
        }
        Component::WeekdayName(form, case) | Component::IgnoreWeekday(form, case) => {
            let (number, rest) = weekday(form, case, text)?;
            unsigned(number, rest)
        }
        Component::WeekdayNumber(start, count) => {
            let (number, rest) = weekday_number(start, count, text)?;
            unsigned(number, rest)
        }
        Component::Period(case, read) => period(case, read, text),
        Component::Ignore(count) => nothing(skip_bytes(count, text)?),
        Component::End => nothing(end(text)?),
        Component::IgnoreDigits => nothing(past_digits(text)?),
        Component::OffsetWord(word, case) => nothing(after_word(case, word.letters(), text)?),
        Component::YearSince(first) => {
            let (number, rest) = year_since(first, text)?;
            unsigned(number, rest)
        }
        Component::YearSix(_) => six_year(text),
        Component::UnixTimestamp(_, _)
        | Component::HourFraction(_)
        | Component::MinuteFraction(_) => None,
        Component::Subsecond(digits) => {
            let (number, rest) = fraction(digits, text)?;
            unsigned(number, rest)
        }
        Component::OffsetHour(sign, padding) => signed_hours(sign, padding, text),
        Component::YearLastTwo(_, padding)
        | Component::WeekNumber(_, padding)
        | Component::Month(padding)
        | Component::Day(padding)
        | Component::Hour(padding)
        | Component::Hour12(padding)
        | Component::Minute(padding)
        | Component::Second(padding)
        | Component::OffsetMinute(padding)
        | Component::OffsetSecond(padding) => {
            let (number, rest) = two(padding, text)?;
            unsigned(number, rest)
        }
    }
}

// A number without a sign.
/// # Contract
///
/// ```text
/// ensures value { option_map (λ read. (read.0, read.1.now)) result
///     ≡ unsigned (Some (number, rest.now)) }
/// ensures same { IfSome result (λ read. read.0.1 ≡ number) }
/// ensures shorter { IfSome result (λ read. length read.1.now ≡ length rest.now) }
/// ```
///
/// [docs/proofs/STATEMENT.md](crate::proved#contracts) explains the words.
#[inline]
const fn unsigned(number: u32, rest: &[u8]) -> Option<((bool, u32), &[u8])> {
    Some(((false, number), rest))
}

// A year: four digits without a sign, or a sign and four digits or more. Most texts have four digits.
/// # Contract
///
/// ```text
/// ensures value { option_map (λ read. (read.0, read.1.now)) result
///     ≡ signed_year_at sign_given padding range text.now }
/// ensures below { IfSome result (λ read. read.0.1 ≤ 1_000_000_000) }
/// ensures shorter { IfSome result (λ read. length read.1.now ≤ length text.now) }
/// ```
///
/// [docs/proofs/STATEMENT.md](crate::proved#contracts) explains the words.
#[inline(always)]
pub(crate) fn signed_year(
    sign_given: Sign,
    padding: Padding,
    range: YearRange,
    text: &[u8],
) -> Option<((bool, u32), &[u8])> {
    match year(text) {
        Some((number, rest)) => match sign_given {
            Sign::Automatic => unsigned(number, rest),
            Sign::Mandatory => None,
        },
        None => year_after_sign(sign_given, padding, range, text),
    }
}

// The same of any year.
/// # Contract
///
/// ```text
/// ensures value { option_map (λ read. (read.0, read.1.now)) result
///     ≡ signed_year_at sign_given padding range text.now }
/// ensures below { IfSome result (λ read. read.0.1 ≤ 1_000_000_000) }
/// ensures shorter { IfSome result (λ read. length read.1.now ≤ length text.now) }
/// ```
///
/// [docs/proofs/STATEMENT.md](crate::proved#contracts) explains the words.
#[inline(never)]
fn year_after_sign(
    sign_given: Sign,
    padding: Padding,
    range: YearRange,
    text: &[u8],
) -> Option<((bool, u32), &[u8])> {
    match sign(text) {
        Some((is_negative, digits)) => {
            let (first, rest) = four(padding, digits)?;
            let (number, rest) = more(range, first, rest);
            Some(((is_negative, number), rest))
        }
        None => match sign_given {
            Sign::Automatic => {
                let (number, rest) = four(padding, text)?;
                unsigned(number, rest)
            }
            Sign::Mandatory => None,
        },
    }
}

// A sign and six digits.
/// # Contract
///
/// ```text
/// ensures value { option_map (λ read. (read.0, read.1.now)) result ≡ six_at text.now }
/// ensures below { IfSome result (λ read. read.0.1 ≤ 1_000_000_000) }
/// ensures shorter { IfSome result (λ read. length read.1.now ≤ length text.now) }
/// ```
///
/// [docs/proofs/STATEMENT.md](crate::proved#contracts) explains the words.
#[inline]
fn six_year(text: &[u8]) -> Option<((bool, u32), &[u8])> {
    let (is_negative, digits) = sign(text)?;
    let (number, rest) = read_digits(6, 100_000, digits)?;
    Some(((is_negative, number), rest))
}

// A year without its last two digits.
/// # Contract
///
/// ```text
/// ensures value { option_map (λ read. (read.0, read.1.now)) result
///     ≡ signed_century_at sign_given padding range text.now }
/// ensures below { IfSome result (λ read. read.0.1 ≤ 1_000_000_000) }
/// ensures shorter { IfSome result (λ read. length read.1.now ≤ length text.now) }
/// ```
///
/// [docs/proofs/STATEMENT.md](crate::proved#contracts) explains the words.
#[inline]
fn signed_century(
    sign_given: Sign,
    padding: Padding,
    range: YearRange,
    text: &[u8],
) -> Option<((bool, u32), &[u8])> {
    match sign(text) {
        Some((is_negative, digits)) => {
            let (first, rest) = two(padding, digits)?;
            let (number, rest) = more(range, first, rest);
            Some(((is_negative, number), rest))
        }
        None => match sign_given {
            Sign::Automatic => {
                let (number, rest) = two(padding, text)?;
                unsigned(number, rest)
            }
            Sign::Mandatory => None,
        },
    }
}

// The sign and the hours of an offset.
/// # Contract
///
/// ```text
/// ensures value { option_map (λ read. (read.0, read.1.now)) result
///     ≡ signed_hours_at sign_given padding text.now }
/// ensures below { IfSome result (λ read. read.0.1 ≤ 1_000_000_000) }
/// ensures shorter { IfSome result (λ read. length read.1.now ≤ length text.now) }
/// ```
///
/// [docs/proofs/STATEMENT.md](crate::proved#contracts) explains the words.
#[inline(always)]
pub(crate) fn signed_hours(
    sign_given: Sign,
    padding: Padding,
    text: &[u8],
) -> Option<((bool, u32), &[u8])> {
    match sign(text) {
        Some((is_negative, digits)) => {
            let (number, rest) = two(padding, digits)?;
            Some(((is_negative, number), rest))
        }
        None => match sign_given {
            Sign::Automatic => {
                let (number, rest) = two(padding, text)?;
                unsigned(number, rest)
            }
            Sign::Mandatory => None,
        },
    }
}

// What has no number.
/// # Contract
///
/// ```text
/// ensures value { option_map (λ read. (read.0, read.1.now)) result ≡ nothing (Some rest.now) }
/// ensures below { IfSome result (λ read. read.0.1 ≤ 1_000_000_000) }
/// ensures shorter { IfSome result (λ read. length read.1.now ≤ length rest.now) }
/// ```
///
/// [docs/proofs/STATEMENT.md](crate::proved#contracts) explains the words.
#[inline]
const fn nothing(rest: &[u8]) -> Option<((bool, u32), &[u8])> {
    Some(((false, 0), rest))
}

// What follows one digit or more.
/// # Contract
///
/// ```text
/// ensures value { option_map (λ rest. rest.now) result ≡ past_digits text.now }
/// ensures shorter { IfSome result (λ read. length read.now ≤ length text.now) }
/// ```
///
/// [docs/proofs/STATEMENT.md](crate::proved#contracts) explains the words.
#[inline]
fn past_digits(text: &[u8]) -> Option<&[u8]> {
    let (_, rest) = digit(text)?;
    Some(after_digits(rest))
}

// The year of two digits, from this one on.
/// # Contract
///
/// ```text
/// ensures value { option_map (λ read. (read.0, read.1.now)) result
///     ≡ year_since_at first text.now }
/// ensures below { IfSome result (λ read. read.0 < 100_000) }
/// ensures shorter { IfSome result (λ read. length read.1.now ≤ length text.now) }
/// ```
///
/// [docs/proofs/STATEMENT.md](crate::proved#contracts) explains the words.
#[inline]
fn year_since(first: u16, text: &[u8]) -> Option<(u32, &[u8])> {
    let (last_two, rest) = two_digits(text)?;
    let first = first as u32;
    Some((first + (last_two + 100 - first % 100) % 100, rest))
}

// What follows this number of bytes.
/// # Contract
///
/// ```text
/// ensures value { option_map (λ rest. rest.now) result ≡ ignored_at count text.now }
/// ensures shorter { IfSome result (λ read. length read.now ≤ length text.now) }
/// ```
///
/// [docs/proofs/STATEMENT.md](crate::proved#contracts) explains the words.
#[inline]
fn skip_bytes(count: u16, text: &[u8]) -> Option<&[u8]> {
    if text.len() < count as usize {
        return None;
    }
    Some(&text[count as usize..])
}

// The end of the text.
/// # Contract
///
/// ```text
/// ensures value { option_map (λ rest. rest.now) result ≡ end_at text.now }
/// ensures shorter { IfSome result (λ read. length read.now ≤ length text.now) }
/// ```
///
/// [docs/proofs/STATEMENT.md](crate::proved#contracts) explains the words.
#[inline]
const fn end(text: &[u8]) -> Option<&[u8]> {
    if text.is_empty() { Some(text) } else { None }
}
