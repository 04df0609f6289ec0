// Made by make/erase of crates/duration_texts/src/readings.rt. Do not edit.
//! Reading the text of a duration.
use crate::proved::duration_texts::faults::{DurationRefusal, Stop};
use crate::proved::duration_texts::iso_forms::iso;
use crate::proved::duration_texts::numbers::number;
use crate::proved::duration_texts::pieces::past_blanks;
use crate::proved::duration_texts::terms::{sign, sum_with, terms};
use crate::proved::calendar_values::SignedDuration;

// The numbers of 32 bits.
const WORD: u64 = 1 << 32;

/// Reads the text of a duration: terms such as `1 day -0.5 seconds`, `1h30m` or `90s`, a number of
/// seconds alone such as `1.5`, or the form of ISO 8601 such as `PT36H`. Blanks may precede and
/// follow it.
///
/// ```
/// # use muxandu::proved::*;
/// # fn main() -> Result<(), Box<dyn std::error::Error>> {
/// assert_eq!(duration_texts::parse_duration(b"1h30m")?, SignedDuration::minutes(90));
/// # Ok(())
/// # }
/// ```
///
/// # Contract
///
/// ```text
/// ensures derived { IfOk result (λ n. Derives text.now n) }
/// ensures all { (n : ℤ) → Derives text.now n → result ≡ Ok n }
/// ensures reading { result ≡ reading_of text.now }
/// ensures place { IfErr result (λ refusal. refusal.place ≤ length text.now) }
/// ```
///
/// [docs/proofs/STATEMENT.md](crate::proved#contracts) explains the words.
#[inline]
pub fn parse_duration(text: &[u8]) -> Result<SignedDuration, DurationRefusal> {
    reading(text)
}

// The duration of a text, which derives it, or its first fault.
/// # Contract
///
/// ```text
/// ensures derived { IfOk result (λ n. Derives text.now n) }
/// ensures reading { result ≡ reading_of text.now }
/// ensures place { IfErr result (λ refusal. refusal.place ≤ length text.now) }
/// ```
///
/// [docs/proofs/STATEMENT.md](crate::proved#contracts) explains the words.
#[inline]
fn reading(text: &[u8]) -> Result<SignedDuration, DurationRefusal> {
    match nanoseconds_in(text) {
        Ok(sum) => Ok(duration_of(sum)),
        Err(stop) => Err(refusal_of(stop, text)),
    }
}

// The duration of a number of nanoseconds.
/// # Contract
///
/// ```text
/// requires { IsDuration nanoseconds }
/// ensures { result ≡ nanoseconds }
/// ```
///
/// [docs/proofs/STATEMENT.md](crate::proved#contracts) explains the words.
#[inline]
const fn duration_of(nanoseconds: i128) -> SignedDuration {
    let (seconds, rest) = seconds_and_rest(nanoseconds.unsigned_abs());
    if nanoseconds < 0 {
        below_zero(seconds, rest)
    } else {
        SignedDuration::new(seconds as i64, rest as i32)
    }
}

// The duration that is so much less than zero.
/// # Contract
///
/// ```text
/// requires range { IsDuration (neg_ℤ (pos (seconds * nanos_per_second + nanoseconds))) }
/// requires nanoseconds { nanoseconds < nanos_per_second }
/// ensures { result ≡ neg_ℤ (pos (seconds * nanos_per_second + nanoseconds)) }
/// ```
///
/// [docs/proofs/STATEMENT.md](crate::proved#contracts) explains the words.
#[inline]
const fn below_zero(seconds: u64, nanoseconds: u32) -> SignedDuration {
    SignedDuration::new((-(seconds as i128)) as i64, -(nanoseconds as i32))
}

// The whole seconds of so many nanoseconds, and the rest. They are divided in two steps of 64 bits,
// because a division of 128 bits calls a function that the archive would then want.
/// # Contract
///
/// ```text
/// requires { nanoseconds ≤ unsigned_abs least_duration }
/// ensures value { result.0 * nanos_per_second + result.1 ≡ nanoseconds }
/// ensures rest { result.1 < nanos_per_second }
/// ```
///
/// [docs/proofs/STATEMENT.md](crate::proved#contracts) explains the words.
#[inline]
const fn seconds_and_rest(nanoseconds: u128) -> (u64, u32) {
    let high = (nanoseconds / WORD as u128) as u64;
    let low = high % 1_000_000_000 * WORD + (nanoseconds % WORD as u128) as u64;
    (
        high / 1_000_000_000 * WORD + low / 1_000_000_000,
        (low % 1_000_000_000) as u32,
    )
}

// A fault, at the index of its byte.
/// # Contract
///
/// ```text
/// ensures value { result ≡ refusal_of text.now stop }
/// ensures place { result.place ≤ length text.now }
/// ```
///
/// [docs/proofs/STATEMENT.md](crate::proved#contracts) explains the words.
#[inline]
const fn refusal_of(stop: Stop, text: &[u8]) -> DurationRefusal {
    DurationRefusal {
        fault: stop.fault,
        place: text.len().saturating_sub(stop.left),
    }
}

// The nanoseconds of a text, which derives them, or its first fault.
/// # Contract
///
/// ```text
/// ensures value { result ≡ nanoseconds_in text.now }
/// ensures in_range { IfOk result (λ sum. IsDuration sum) }
/// ensures derived { IfOk result (λ sum. Derives text.now sum) }
/// ```
///
/// [docs/proofs/STATEMENT.md](crate::proved#contracts) explains the words.
#[inline]
fn nanoseconds_in(text: &[u8]) -> Result<i128, Stop> {
    sum_in(text)
}

// The nanoseconds of a text, or its first fault.
/// # Contract
///
/// ```text
/// ensures value { result ≡ nanoseconds_in text.now }
/// ensures in_range { IfOk result (λ sum. IsDuration sum) }
/// ```
///
/// [docs/proofs/STATEMENT.md](crate::proved#contracts) explains the words.
#[inline]
fn sum_in(text: &[u8]) -> Result<i128, Stop> {
    let trimmed = past_blanks(text);
    let (negative, after) = sign(false, trimmed);
    match after.split_first() {
        Some((b'P', parts)) => iso(negative, parts),
        _ => number_or_terms(negative, after, trimmed),
    }
}

// A number alone is of seconds, and others are terms.
/// # Contract
///
/// ```text
/// ensures value { result ≡ number_or_terms negative after.now text.now }
/// ensures in_range { IfOk result (λ sum. IsDuration sum) }
/// ```
///
/// [docs/proofs/STATEMENT.md](crate::proved#contracts) explains the words.
#[inline]
fn number_or_terms(negative: bool, after: &[u8], text: &[u8]) -> Result<i128, Stop> {
    let (whole, fraction, rest) = number(after)?;
    if past_blanks(rest).is_empty() {
        sum_with(negative, 0, 1_000_000_000, whole, fraction, text)
    } else {
        terms(text)
    }
}
