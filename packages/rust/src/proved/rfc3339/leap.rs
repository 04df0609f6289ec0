// Made by make/erase of crates/rfc3339/src/leap.rt. Do not edit.
//! Texts read whose second may be 60.
use crate::proved::rfc3339::parse::date_time;
use crate::proved::rfc3339::reading::parts;
use crate::proved::rfc3339::{Component, Parts, TextRefusal};
use crate::proved::calendar_values::{SignedDuration, Time};
use crate::proved::offset_times::OffsetDateTime;

/// Reads a text as `parse_rfc3339` does, also with a second of 60, as in `2016-12-31T23:59:60Z`. A
/// leap second is valid only as the last second of a month in UTC. It becomes the last nanosecond
/// before the next month, for any fraction, and the call returns `true` with it. So values keep the
/// order of their texts. Fails as `parse_rfc3339` does, with `Second` above 60; then with `Second`
/// if no month ends with a second of 60.
///
/// ```
/// # use muxandu::proved::*;
/// # fn main() -> Result<(), Box<dyn std::error::Error>> {
/// let (at, is_leap) = rfc3339::parse_rfc3339_leap(b"1990-12-31T23:59:60Z")?;
/// assert_eq!(is_leap, true);
/// assert_eq!(at.to_hms_nano(), (23, 59, 59, 999_999_999));
/// # Ok(())
/// # }
/// ```
///
/// # Contract
///
/// ```text
/// ensures reading { result ≡ leap_reading_of text.now }
/// ensures value { (p : Parts) → IsDateTime text.now p →
///     OkIff result (AreInLeapRange p) (value_of (stand_in p), p.second == 60) }
/// ensures equation { (p : Parts) → IsDateTime text.now p → result ≡ leap_meaning p }
/// ensures syntax { (result ≡ Err Syntax) ⊎ ((p : Parts) × IsDateTime text.now p) }
/// ensures accepted { IfOk result (λ read. (p : Parts) × IsDateTime text.now p ×
///     AreInLeapRange p × (read ≡ (value_of (stand_in p), p.second == 60))) }
/// ensures marked { IfOk result (λ read. read.1 ≡ true → IsLastOfMonth (instant_of read.0)) }
/// ensures unmarked { IfOk result (λ read. read.1 ≡ false → reading_of text.now ≡ Ok read.0) }
/// ensures same { (at : Local) → reading_of text.now ≡ Ok at → result ≡ Ok (at, false) }
/// ensures no_leap_second { (p : Parts) → IsDateTime text.now p → p.second ≡ 60
///     → AreInRange (stand_in p) → ¬ IsLastOfMonth (instant_of (value_of (stand_in p)))
///     → result ≡ Err (OutOfRange Second) }
/// ensures has_text { IfOk result (λ read. HasText read.0) }
/// ensures instant { IfOk result (λ read. IsInstant (instant_of read.0)) }
/// ```
///
/// [docs/proofs/STATEMENT.md](crate::proved#contracts) explains the words.
#[inline]
pub fn parse_rfc3339_leap(text: &[u8]) -> Result<(OffsetDateTime, bool), TextRefusal> {
    read_leap(text)
}

// The same, and that what is read can be written.
/// # Contract
///
/// ```text
/// ensures reading { result ≡ leap_reading_of text.now }
/// ensures has_text { IfOk result (λ read. HasText read.0) }
/// ```
///
/// [docs/proofs/STATEMENT.md](crate::proved#contracts) explains the words.
#[inline]
fn read_leap(text: &[u8]) -> Result<(OffsetDateTime, bool), TextRefusal> {
    match parts(text) {
        Some(parts) => leap_date_time(parts),
        None => Err(TextRefusal::Syntax),
    }
}

// What the numbers of a text mean where the second may be 60.
/// # Contract
///
/// ```text
/// requires nanosecond { parts.nanosecond ≤ 999_999_999 }
/// requires year { parts.year ≤ 9_999 }
/// ensures value { result ≡ leap_meaning parts }
/// ensures has_text { IfOk result (λ read. HasText read.0) }
/// ```
///
/// [docs/proofs/STATEMENT.md](crate::proved#contracts) explains the words.
#[inline]
fn leap_date_time(parts: Parts) -> Result<(OffsetDateTime, bool), TextRefusal> {
    if parts.second == 60 {
        leap_second(parts)
    } else {
        match date_time(parts) {
            Ok(at) => Ok((at, false)),
            Err(refusal) => Err(refusal),
        }
    }
}

// The last nanosecond of the minute for a second of 60, if a month ends with it.
/// # Contract
///
/// ```text
/// requires second { parts.second ≡ 60 }
/// requires year { parts.year ≤ 9_999 }
/// ensures value { result ≡ leap_meaning parts }
/// ensures has_text { IfOk result (λ read. HasText read.0) }
/// ```
///
/// [docs/proofs/STATEMENT.md](crate::proved#contracts) explains the words.
#[inline]
fn leap_second(parts: Parts) -> Result<(OffsetDateTime, bool), TextRefusal> {
    let last = Parts {
        second: 59,
        nanosecond: 999_999_999,
        ..parts
    };
    match date_time(last) {
        Ok(at) => {
            if is_last_of_month(at) {
                Ok((at, true))
            } else {
                Err(TextRefusal::OutOfRange(Component::Second))
            }
        }
        Err(refusal) => Err(refusal),
    }
}

// Whether the next nanosecond begins a month in UTC.
/// # Contract
///
/// ```text
/// requires instant { IsInstant (instant_of at) }
/// requires next { IsInstant (instant_of at +ℤ pos 1) }
/// ensures { result ≡ is_last_of_month (instant_of at) }
/// ```
///
/// [docs/proofs/STATEMENT.md](crate::proved#contracts) explains the words.
#[inline]
fn is_last_of_month(at: OffsetDateTime) -> bool {
    let next = at.to_utc() + SignedDuration::nanoseconds(1);
    next.day() == 1 && next.time() == Time::MIDNIGHT
}
