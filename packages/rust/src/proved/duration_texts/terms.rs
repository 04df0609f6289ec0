// Made by make/erase of crates/duration_texts/src/terms.rt. Do not edit.
//! Terms, such as `1 day -0.5 seconds`, and their sum.
use crate::proved::duration_texts::faults::{DurationFault, Stop};
use crate::proved::duration_texts::numbers::{nanoseconds, no_digit, number};
use crate::proved::duration_texts::pieces::{Kind, past_blanks, split};
use crate::proved::duration_texts::units::{is_calendar_word, unit_of};

// The least and the greatest number of nanoseconds of a duration.
const LEAST: i128 = -9_223_372_036_854_775_808_999_999_999;

const GREATEST: i128 = 9_223_372_036_854_775_807_999_999_999;

// The sum of the terms of a text.
/// # Contract
///
/// ```text
/// ensures value { result ≡ terms_from (length text.now) false (pos 0) text.now }
/// ensures in_range { IfOk result (λ sum. IsDuration sum) }
/// ```
///
/// [docs/proofs/STATEMENT.md](crate::proved#contracts) explains the words.
#[inline]
pub(crate) fn terms(text: &[u8]) -> Result<i128, Stop> {
    let mut negative = false;
    let mut sum = 0;
    let mut rest = text;
    for _ in 0..text.len() {
        let (sign, more, after) = match term(negative, sum, rest) {
            Ok(read) => read,
            Err(stop) => return Err(stop),
        };
        let next = past_blanks(after);
        if next.is_empty() {
            return Ok(more);
        }
        negative = goes_on(sign, after);
        sum = more;
        rest = next;
    }
    Err(no_digit(rest))
}

// Whether the term in front is negative, the sum with it, and what follows it.
/// # Contract
///
/// ```text
/// requires { IsDuration sum }
/// ensures value { result_map_both (λ read. (read.0, read.1, read.2.now)) (λ stop. stop) result
///     ≡ term_at negative sum text.now }
/// ensures in_range { IfOk result (λ read. IsDuration read.1) }
/// ```
///
/// [docs/proofs/STATEMENT.md](crate::proved#contracts) explains the words.
#[inline]
fn term(negative: bool, sum: i128, text: &[u8]) -> Result<(bool, i128, &[u8]), Stop> {
    let (sign, after) = sign(negative, text);
    let (whole, fraction, after) = number(after)?;
    let (unit, after) = unit(after)?;
    let more = sum_with(sign, sum, unit, whole, fraction, text)?;
    Ok((sign, more, after))
}

// Whether a sign in front makes the term negative, and what follows it.
/// # Contract
///
/// ```text
/// ensures { (result.0, result.1.now) ≡ sign_at negative text.now }
/// ```
///
/// [docs/proofs/STATEMENT.md](crate::proved#contracts) explains the words.
#[inline]
pub(crate) const fn sign(negative: bool, text: &[u8]) -> (bool, &[u8]) {
    match text.split_first() {
        Some((b'-', rest)) => (true, rest),
        Some((b'+', rest)) => (false, rest),
        _ => (negative, text),
    }
}

// Whether a sign goes on to the next term: unless a blank is between.
/// # Contract
///
/// ```text
/// ensures { result ≡ goes_on negative text.now }
/// ```
///
/// [docs/proofs/STATEMENT.md](crate::proved#contracts) explains the words.
#[inline]
const fn goes_on(negative: bool, text: &[u8]) -> bool {
    match text.split_first() {
        Some((b' ', _)) => false,
        _ => negative,
    }
}

// The unit after a number and perhaps blanks, and what follows it.
/// # Contract
///
/// ```text
/// ensures value { result_map_both (λ read. (read.0, read.1.now)) (λ stop. stop) result
///     ≡ unit_at text.now }
/// ensures bound { IfOk result (λ read. IsInRange 1 86_400_000_000_000 read.0) }
/// ```
///
/// [docs/proofs/STATEMENT.md](crate::proved#contracts) explains the words.
#[inline]
fn unit(text: &[u8]) -> Result<(u64, &[u8]), Stop> {
    let begun = past_blanks(text);
    let (word, rest) = split(Kind::Letter, begun);
    if word.is_empty() {
        return Err(stop(DurationFault::Alone, text));
    }
    match unit_of(word) {
        Some(unit) => Ok((unit, rest)),
        None if is_calendar_word(word) => Err(stop(DurationFault::Calendar, begun)),
        None => Err(stop(DurationFault::Unit, begun)),
    }
}

// A fault at the beginning of what is left of the text.
/// # Contract
///
/// ```text
/// ensures { result ≡ stop_at fault text.now }
/// ```
///
/// [docs/proofs/STATEMENT.md](crate::proved#contracts) explains the words.
#[inline]
pub(crate) const fn stop(fault: DurationFault, text: &[u8]) -> Stop {
    Stop {
        fault,
        left: text.len(),
    }
}

// The sum with a number of a unit; a fault is that of the term, which begins at the text.
/// # Contract
///
/// ```text
/// requires sum { IsDuration sum }
/// requires unit { IsInRange 1 86_400_000_000_000 unit }
/// ensures value { result ≡
///     sum_with negative sum unit (number_of whole.now fraction.now) text.now }
/// ensures in_range { IfOk result (λ sum. IsDuration sum) }
/// ```
///
/// [docs/proofs/STATEMENT.md](crate::proved#contracts) explains the words.
#[inline]
pub(crate) fn sum_with(
    negative: bool,
    sum: i128,
    unit: u64,
    whole: &[u8],
    fraction: &[u8],
    text: &[u8],
) -> Result<i128, Stop> {
    match nanoseconds(whole, fraction, unit) {
        Ok(count) => duration_sum(sum + with_sign(negative, count), text),
        Err(fault) => Err(stop(fault, text)),
    }
}

// A number with a sign.
/// # Contract
///
/// ```text
/// requires { count ≤ most_nanoseconds }
/// ensures { result ≡ with_sign negative count }
/// ```
///
/// [docs/proofs/STATEMENT.md](crate::proved#contracts) explains the words.
#[inline]
const fn with_sign(negative: bool, count: u128) -> i128 {
    if negative {
        -(count as i128)
    } else {
        count as i128
    }
}

// A sum, if it is a duration.
/// # Contract
///
/// ```text
/// ensures value { result ≡ duration_sum text.now sum }
/// ensures in_range { IfOk result (λ sum. IsDuration sum) }
/// ```
///
/// [docs/proofs/STATEMENT.md](crate::proved#contracts) explains the words.
#[inline]
const fn duration_sum(sum: i128, text: &[u8]) -> Result<i128, Stop> {
    if sum < LEAST || sum > GREATEST {
        Err(stop(DurationFault::Range, text))
    } else {
        Ok(sum)
    }
}
