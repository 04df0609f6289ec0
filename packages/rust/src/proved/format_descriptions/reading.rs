// Made by make/erase of crates/format_descriptions/src/reading.rt. Do not edit.
//! Numbers, names and signs, read from the front of a text.
use crate::proved::format_descriptions::{Padding, ReadCase, YearRange};

// A number of two digits, or of one, by its padding. Two digits are read whatever the padding is.
/// # Contract
///
/// ```text
/// ensures value { option_map (λ read. (read.0, read.1.now)) result ≡ two_at padding text.now }
/// ensures below { IfSome result (λ read. read.0 < 100) }
/// ensures shorter { IfSome result (λ read. length read.1.now ≤ length text.now) }
/// ```
///
/// [docs/proofs/STATEMENT.md](crate::proved#contracts) explains the words.
#[inline(always)]
pub(crate) fn two(padding: Padding, text: &[u8]) -> Option<(u32, &[u8])> {
    match two_digits(text) {
        Some((number, rest)) => Some((number, rest)),
        None => two_padded(padding, text),
    }
}

// The same of any padding.
/// # Contract
///
/// ```text
/// ensures value { option_map (λ read. (read.0, read.1.now)) result ≡ two_at padding text.now }
/// ensures below { IfSome result (λ read. read.0 < 100) }
/// ensures shorter { IfSome result (λ read. length read.1.now ≤ length text.now) }
/// ```
///
/// [docs/proofs/STATEMENT.md](crate::proved#contracts) explains the words.
#[inline(never)]
fn two_padded(padding: Padding, text: &[u8]) -> Option<(u32, &[u8])> {
    match padding {
        Padding::Zero => two_digits(text),
        Padding::Space => match after_mark(b' ', text) {
            Some(digits) => digit(digits),
            None => two_digits(text),
        },
        Padding::Bare => {
            let (first, rest) = digit(text)?;
            Some(digit_more(first, rest))
        }
    }
}

// A number of three digits, or of fewer, by its padding.
/// # Contract
///
/// ```text
/// ensures value { option_map (λ read. (read.0, read.1.now)) result ≡ three_at padding text.now }
/// ensures below { IfSome result (λ read. read.0 < 1_000) }
/// ensures shorter { IfSome result (λ read. length read.1.now ≤ length text.now) }
/// ```
///
/// [docs/proofs/STATEMENT.md](crate::proved#contracts) explains the words.
#[inline]
pub(crate) fn three(padding: Padding, text: &[u8]) -> Option<(u32, &[u8])> {
    match padding {
        Padding::Zero => three_digits(text),
        Padding::Space => match after_mark(b' ', text) {
            Some(rest) => two(Padding::Space, rest),
            None => three_digits(text),
        },
        Padding::Bare => {
            let (first, rest) = two(Padding::Bare, text)?;
            Some(digit_more(first, rest))
        }
    }
}

// A number with another digit, if there is one.
/// # Contract
///
/// ```text
/// requires { number < 100_000 }
/// ensures value { Some (result.0, result.1.now)
///     ≡ digit_more (number, text.now) (digit_at text.now) }
/// ensures below { result.0 < 10 * number + 10 }
/// ensures shorter { length result.1.now ≤ length text.now }
/// ```
///
/// [docs/proofs/STATEMENT.md](crate::proved#contracts) explains the words.
#[inline]
fn digit_more(number: u32, text: &[u8]) -> (u32, &[u8]) {
    match digit(text) {
        Some((digit, rest)) => (number * 10 + digit, rest),
        None => (number, text),
    }
}

// A number of four digits, or of fewer, by its padding. Four digits are read whatever the padding is.
/// # Contract
///
/// ```text
/// ensures value { option_map (λ read. (read.0, read.1.now)) result ≡ four_at padding text.now }
/// ensures below { IfSome result (λ read. read.0 < 10_000) }
/// ensures shorter { IfSome result (λ read. length read.1.now ≤ length text.now) }
/// ```
///
/// [docs/proofs/STATEMENT.md](crate::proved#contracts) explains the words.
#[inline(always)]
pub(crate) fn four(padding: Padding, text: &[u8]) -> Option<(u32, &[u8])> {
    match year(text) {
        Some((number, rest)) => Some((number, rest)),
        None => four_padded(padding, text),
    }
}

// The same of any padding.
/// # Contract
///
/// ```text
/// ensures value { option_map (λ read. (read.0, read.1.now)) result ≡ four_at padding text.now }
/// ensures below { IfSome result (λ read. read.0 < 10_000) }
/// ensures shorter { IfSome result (λ read. length read.1.now ≤ length text.now) }
/// ```
///
/// [docs/proofs/STATEMENT.md](crate::proved#contracts) explains the words.
#[inline(never)]
fn four_padded(padding: Padding, text: &[u8]) -> Option<(u32, &[u8])> {
    match padding {
        Padding::Zero => year(text),
        Padding::Space => match after_mark(b' ', text) {
            Some(rest) => three(Padding::Space, rest),
            None => year(text),
        },
        Padding::Bare => {
            let (one, rest) = digit(text)?;
            let (two, rest) = digit_more(one, rest);
            let (three, rest) = digit_more(two, rest);
            Some(digit_more(three, rest))
        }
    }
}

// A number with up to two more digits, where the years of the range have them.
/// # Contract
///
/// ```text
/// requires { number < 10_000 }
/// ensures value { Some (result.0, result.1.now) ≡ more_at range (number, text.now) }
/// ensures below { result.0 < 1_000_000 }
/// ensures shorter { length result.1.now ≤ length text.now }
/// ```
///
/// [docs/proofs/STATEMENT.md](crate::proved#contracts) explains the words.
#[inline]
pub(crate) fn more(range: YearRange, number: u32, text: &[u8]) -> (u32, &[u8]) {
    if range.is_extended() {
        let (five, rest) = digit_more(number, text);
        digit_more(five, rest)
    } else {
        (number, text)
    }
}

// Four digits.
/// # Contract
///
/// ```text
/// ensures value { option_map (λ read. (read.0, read.1.now)) result ≡ year_at text.now }
/// ensures below { IfSome result (λ read. read.0 < 10_000) }
/// ensures shorter { IfSome result (λ read. length read.1.now ≤ length text.now) }
/// ```
///
/// [docs/proofs/STATEMENT.md](crate::proved#contracts) explains the words.
#[inline(always)]
pub(crate) const fn year(text: &[u8]) -> Option<(u32, &[u8])> {
    let [first, second, third, fourth, rest @ ..] = text else {
        return None;
    };
    if first.is_ascii_digit()
        && second.is_ascii_digit()
        && third.is_ascii_digit()
        && fourth.is_ascii_digit()
    {
        Some((
            number(*first, *second) * 100 + number(*third, *fourth),
            rest,
        ))
    } else {
        None
    }
}

// Three digits.
/// # Contract
///
/// ```text
/// ensures value { option_map (λ read. (read.0, read.1.now)) result ≡ three_digits_at text.now }
/// ensures below { IfSome result (λ read. read.0 < 1_000) }
/// ensures shorter { IfSome result (λ read. length read.1.now ≤ length text.now) }
/// ```
///
/// [docs/proofs/STATEMENT.md](crate::proved#contracts) explains the words.
#[inline]
fn three_digits(text: &[u8]) -> Option<(u32, &[u8])> {
    let (hundreds, text) = digit(text)?;
    let (number, text) = two_digits(text)?;
    Some((hundreds * 100 + number, text))
}

// Two digits.
/// # Contract
///
/// ```text
/// ensures value { option_map (λ read. (read.0, read.1.now)) result ≡ two_digits_at text.now }
/// ensures below { IfSome result (λ read. read.0 < 100) }
/// ensures shorter { IfSome result (λ read. length read.1.now ≤ length text.now) }
/// ```
///
/// [docs/proofs/STATEMENT.md](crate::proved#contracts) explains the words.
#[inline]
pub(crate) const fn two_digits(text: &[u8]) -> Option<(u32, &[u8])> {
    let [tens, units, rest @ ..] = text else {
        return None;
    };
    if tens.is_ascii_digit() && units.is_ascii_digit() {
        Some((number(*tens, *units), rest))
    } else {
        None
    }
}

// The number of two digits.
/// # Contract
///
/// ```text
/// requires tens { IsInRange 48 57 tens }
/// requires units { IsInRange 48 57 units }
/// ensures value { result ≡ (tens - 48) * 10 + (units - 48) }
/// ensures below { result < 100 }
/// ```
///
/// [docs/proofs/STATEMENT.md](crate::proved#contracts) explains the words.
#[inline]
const fn number(tens: u8, units: u8) -> u32 {
    tens as u32 * 10 + units as u32 - 528
}

// A digit.
/// # Contract
///
/// ```text
/// ensures value { option_map (λ read. (read.0, read.1.now)) result ≡ digit_at text.now }
/// ensures below { IfSome result (λ read. read.0 < 10) }
/// ensures shorter { IfSome result (λ read. length read.1.now ≤ length text.now) }
/// ```
///
/// [docs/proofs/STATEMENT.md](crate::proved#contracts) explains the words.
#[inline]
pub(crate) fn digit(text: &[u8]) -> Option<(u32, &[u8])> {
    let (first, text) = text.split_first()?;
    if first.is_ascii_digit() {
        Some(((*first - b'0') as u32, text))
    } else {
        None
    }
}

// The sign `-`, which gives true, or `+`.
/// # Contract
///
/// ```text
/// ensures value { option_map (λ read. (read.0, read.1.now)) result ≡ sign_at text.now }
/// ensures shorter { IfSome result (λ read. length read.1.now ≤ length text.now) }
/// ```
///
/// [docs/proofs/STATEMENT.md](crate::proved#contracts) explains the words.
#[inline]
pub(crate) fn sign(text: &[u8]) -> Option<(bool, &[u8])> {
    let (first, text) = text.split_first()?;
    match *first {
        b'-' => Some((true, text)),
        b'+' => Some((false, text)),
        _ => None,
    }
}

// What follows a word.
/// # Contract
///
/// ```text
/// ensures value { option_map (λ rest. rest.now) result ≡ word_at case word.now text.now }
/// ensures shorter { IfSome result (λ read. length read.now ≤ length text.now) }
/// ```
///
/// [docs/proofs/STATEMENT.md](crate::proved#contracts) explains the words.
#[inline]
pub(crate) fn after_word<'a>(case: ReadCase, word: &[u8], text: &'a [u8]) -> Option<&'a [u8]> {
    let mut word = word;
    let mut rest = text;
    while let Some((letter, letters)) = word.split_first() {
        let Some(more) = after_letter(case, *letter, rest) else {
            return None;
        };
        word = letters;
        rest = more;
    }
    Some(rest)
}

// What follows a letter.
/// # Contract
///
/// ```text
/// ensures value { option_map (λ rest. rest.now) result ≡ letter_at case letter text.now }
/// ensures shorter { IfSome result (λ read. length read.now ≤ length text.now) }
/// ```
///
/// [docs/proofs/STATEMENT.md](crate::proved#contracts) explains the words.
#[inline]
fn after_letter(case: ReadCase, letter: u8, text: &[u8]) -> Option<&[u8]> {
    let (first, text) = text.split_first()?;
    if is_letter(case, *first, letter) {
        Some(text)
    } else {
        None
    }
}

// Whether two letters are one, or one but for their case where any case is read.
/// # Contract
///
/// ```text
/// ensures { result ≡ is_letter case a b }
/// ```
///
/// [docs/proofs/STATEMENT.md](crate::proved#contracts) explains the words.
#[inline]
const fn is_letter(case: ReadCase, a: u8, b: u8) -> bool {
    if case.reads_any_case() {
        a.to_ascii_lowercase() == b.to_ascii_lowercase()
    } else {
        a == b
    }
}

// What follows a byte.
/// # Contract
///
/// ```text
/// ensures value { option_map (λ rest. rest.now) result ≡ mark_at mark text.now }
/// ensures shorter { IfSome result (λ read. length read.now ≤ length text.now) }
/// ```
///
/// [docs/proofs/STATEMENT.md](crate::proved#contracts) explains the words.
#[inline]
pub(crate) const fn after_mark(mark: u8, text: &[u8]) -> Option<&[u8]> {
    match text.split_first() {
        Some((first, text)) if *first == mark => Some(text),
        _ => None,
    }
}
