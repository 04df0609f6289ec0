// Made by make/erase of crates/zone_files/src/numbers.rt. Do not edit.
//! The numbers of a rule's text.
use crate::proved::zone_files::faults::{RuleFault, Stop, stop_at};
use crate::proved::zone_files::pieces::{Kind, split};

// A number of a rule's text.
#[derive(Clone, Copy)]
pub(crate) enum Field {
    Month,
    Week,
    Weekday,
    Common,
    Counted,
    OffsetHours,
    TimeHours,
    Sixtieth,
}

impl Field {
    // The least number of digits.
    /// # Contract
    ///
    /// ```text
    /// ensures { result ≡ least_digits self }
    /// ```
    ///
    /// [docs/proofs/STATEMENT.md](crate::proved#contracts) explains the words.
    #[inline]
    const fn least_digits(self) -> usize {
        match self {
            Field::Sixtieth => 2,
            _ => 1,
        }
    }

    // The greatest number of digits.
    /// # Contract
    ///
    /// ```text
    /// ensures value { result ≡ most_digits self }
    /// ensures bound { result ≤ 3 }
    /// ```
    ///
    /// [docs/proofs/STATEMENT.md](crate::proved#contracts) explains the words.
    #[inline]
    const fn most_digits(self) -> usize {
        match self {
            Field::Week | Field::Weekday => 1,
            Field::Month | Field::Sixtieth => 2,
            _ => 3,
        }
    }

    // The least number.
    /// # Contract
    ///
    /// ```text
    /// ensures { result ≡ low self }
    /// ```
    ///
    /// [docs/proofs/STATEMENT.md](crate::proved#contracts) explains the words.
    #[inline]
    const fn low(self) -> u16 {
        match self {
            Field::Month | Field::Week | Field::Common => 1,
            _ => 0,
        }
    }

    // The greatest number.
    /// # Contract
    ///
    /// ```text
    /// ensures { result ≡ high self }
    /// ```
    ///
    /// [docs/proofs/STATEMENT.md](crate::proved#contracts) explains the words.
    #[inline]
    const fn high(self) -> u16 {
        match self {
            Field::Month => 12,
            Field::Week => 5,
            Field::Weekday => 6,
            Field::Common => 365,
            Field::Counted => 365,
            Field::OffsetHours => 24,
            Field::TimeHours => 167,
            Field::Sixtieth => 59,
        }
    }
}

// The number of a field in front, and what follows it.
/// # Contract
///
/// ```text
/// ensures value { result_map_both (λ read. (read.0, read.1.now)) (λ stop. stop) result
///     ≡ number_at field text.now }
/// ensures low { IfOk result (λ read. low field ≤ read.0) }
/// ensures high { IfOk result (λ read. read.0 ≤ high field) }
/// ```
///
/// [docs/proofs/STATEMENT.md](crate::proved#contracts) explains the words.
#[inline]
pub(crate) fn number(field: Field, text: &[u8]) -> Result<(u16, &[u8]), Stop> {
    let (digits, rest) = split(Kind::Digit, text);
    match number_of(field, digits) {
        Some(value) => Ok((value, rest)),
        None => Err(no_number(digits, text)),
    }
}

// The number of the digits of a field, if they are as many as it has, and in its range.
/// # Contract
///
/// ```text
/// ensures value { result ≡ number_of field digits.now }
/// ensures low { IfSome result (λ value. low field ≤ value) }
/// ensures high { IfSome result (λ value. value ≤ high field) }
/// ```
///
/// [docs/proofs/STATEMENT.md](crate::proved#contracts) explains the words.
#[inline]
const fn number_of(field: Field, digits: &[u8]) -> Option<u16> {
    if digits.len() < field.least_digits() || digits.len() > field.most_digits() {
        return None;
    }
    let value = value_of(digits);
    if value < field.low() || value > field.high() {
        return None;
    }
    Some(value)
}

// The fault of a text that does not begin with a number of a field.
/// # Contract
///
/// ```text
/// ensures { result ≡ no_number digits.now text.now }
/// ```
///
/// [docs/proofs/STATEMENT.md](crate::proved#contracts) explains the words.
#[inline]
const fn no_number(digits: &[u8], text: &[u8]) -> Stop {
    if digits.is_empty() {
        stop_at(RuleFault::Digit, text)
    } else {
        stop_at(RuleFault::Range, text)
    }
}

// The number of at most three decimal digits.
/// # Contract
///
/// ```text
/// requires { length digits.now ≤ 3 }
/// ensures { result ≡ value_of digits.now }
/// ```
///
/// [docs/proofs/STATEMENT.md](crate::proved#contracts) explains the words.
#[inline]
const fn value_of(digits: &[u8]) -> u16 {
    match digits {
        [a] => digit(*a),
        [a, b] => digit(*a) * 10 + digit(*b),
        [a, b, c] => digit(*a) * 100 + digit(*b) * 10 + digit(*c),
        _ => 0,
    }
}

// What a byte counts as a digit.
/// # Contract
///
/// ```text
/// ensures value { result ≡ byte - 48 }
/// ensures bound { result ≤ 207 }
/// ```
///
/// [docs/proofs/STATEMENT.md](crate::proved#contracts) explains the words.
#[inline]
const fn digit(byte: u8) -> u16 {
    byte.saturating_sub(b'0') as u16
}

// What follows a byte that has to stand in front.
/// # Contract
///
/// ```text
/// ensures { result_map_both (λ rest. rest.now) (λ stop. stop) result
///     ≡ after_byte wanted text.now }
/// ```
///
/// [docs/proofs/STATEMENT.md](crate::proved#contracts) explains the words.
#[inline]
pub(crate) const fn after_byte(wanted: u8, text: &[u8]) -> Result<&[u8], Stop> {
    match text.split_first() {
        Some((byte, rest)) if *byte == wanted => Ok(rest),
        _ => Err(stop_at(RuleFault::Byte, text)),
    }
}
