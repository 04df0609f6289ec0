// Made by make/erase of crates/local_texts/src/readings.rt. Do not edit.
//! Texts without an offset, read.
use crate::proved::local_texts::in_utc::{UTC_ROOM, write_in_utc};
use crate::proved::calendar_values::{Time, UtcOffset};
use crate::proved::offset_times::{Assume, OffsetDateTime};
use crate::proved::plain_times::PlainDateTime;
use crate::proved::rfc3339::{TextRefusal, parse_rfc3339};

/// Reads a date-time without an offset, with nothing before or after it, as
/// `2024-02-29T12:34:56.5`: a `date-time` of RFC 3339, section 5.6, without its `time-offset`. A
/// `t` or a space can replace the `T`. Digits of the fraction past the ninth drop out. Fails as
/// `rfc3339::parse_rfc3339` does.
///
/// ```
/// # use muxandu::proved::*;
/// # fn main() -> Result<(), Box<dyn std::error::Error>> {
/// let shown = local_texts::parse_date_time(b"2024-02-29 12:34:56.5")?;
/// assert_eq!(shown.as_hms_nano(), (12, 34, 56, 500_000_000));
/// assert_eq!(local_texts::parse_date_time(b"2024-02-29T12:34:56Z"), Err(TextRefusal::Syntax));
/// # Ok(())
/// # }
/// ```
///
/// # Contract
///
/// ```text
/// ensures reading { result ≡ reading_as (λ at. at.wall) (date_time_in_utc text.now) }
/// ensures value { (p : Parts) → IsLocalDateTime text.now p →
///     OkIff result (AreInRange p) (wall_of_parts p) }
/// ensures equation { (p : Parts) → IsLocalDateTime text.now p →
///     result ≡ meaning_as (λ at. at.wall) p }
/// ensures syntax { (result ≡ Err Syntax) ⊎ ((p : Parts) × IsLocalDateTime text.now p) }
/// ensures accepted { IfOk result (λ shown.
///     (p : Parts) × IsLocalDateTime text.now p × AreInRange p × (shown ≡ wall_of_parts p)) }
/// ```
///
/// [docs/proofs/STATEMENT.md](crate::proved#contracts) explains the words.
#[inline]
pub fn parse_date_time(text: &[u8]) -> Result<PlainDateTime, TextRefusal> {
    read_date_time(text)
}

// The same by the text in UTC.
/// # Contract
///
/// ```text
/// ensures { result ≡ reading_as (λ at. at.wall) (date_time_in_utc text.now) }
/// ```
///
/// [docs/proofs/STATEMENT.md](crate::proved#contracts) explains the words.
#[inline]
fn read_date_time(text: &[u8]) -> Result<PlainDateTime, TextRefusal> {
    match read_in_utc(b"", text) {
        Ok(at) => Ok(at.date_time()),
        Err(refusal) => Err(refusal),
    }
}

/// Reads a time of day, with nothing before or after it, as `12:34:56.5`: a `partial-time` of RFC
/// 3339, section 5.6. Digits of the fraction past the ninth drop out. Fails as
/// `rfc3339::parse_rfc3339` does.
///
/// ```
/// # use muxandu::proved::*;
/// # fn main() -> Result<(), Box<dyn std::error::Error>> {
/// assert_eq!(local_texts::parse_time(b"23:20:50.52")?.nanosecond(), 520_000_000);
/// assert_eq!(
///     local_texts::parse_time(b"24:00:00"),
///     Err(TextRefusal::OutOfRange(Component::Hour))
/// );
/// # Ok(())
/// # }
/// ```
///
/// # Contract
///
/// ```text
/// ensures reading { result ≡ reading_as (λ at. wall_time at.wall) (time_in_utc text.now) }
/// ensures value { (p : Parts) → IsLocalTime text.now p →
///     OkIff result (AreInRange p) (time_of_parts p) }
/// ensures equation { (p : Parts) → IsLocalTime text.now p →
///     result ≡ meaning_as (λ at. wall_time at.wall) p }
/// ensures syntax { (result ≡ Err Syntax) ⊎ ((p : Parts) × IsLocalTime text.now p) }
/// ensures accepted { IfOk result (λ shown.
///     (p : Parts) × IsLocalTime text.now p × AreInRange p × (shown ≡ time_of_parts p)) }
/// ```
///
/// [docs/proofs/STATEMENT.md](crate::proved#contracts) explains the words.
#[inline]
pub fn parse_time(text: &[u8]) -> Result<Time, TextRefusal> {
    read_time(text)
}

// The same by the text in UTC.
/// # Contract
///
/// ```text
/// ensures { result ≡ reading_as (λ at. wall_time at.wall) (time_in_utc text.now) }
/// ```
///
/// [docs/proofs/STATEMENT.md](crate::proved#contracts) explains the words.
#[inline]
fn read_time(text: &[u8]) -> Result<Time, TextRefusal> {
    match read_in_utc(b"1970-01-01T", text) {
        Ok(at) => Ok(at.time()),
        Err(refusal) => Err(refusal),
    }
}

/// Reads a date-time with or without an offset. It reads a text with an offset as
/// `rfc3339::parse_rfc3339` does. It reads a text without one as [`parse_date_time`] does, and
/// takes the offset `assumed`. Fails as these two do.
///
/// ```
/// # use muxandu::proved::*;
/// # fn main() -> Result<(), Box<dyn std::error::Error>> {
/// let assumed = UtcOffset::from_hms(1, 0, 0)?;
/// let at = local_texts::parse_date_time_at(b"1970-01-01T01:00:00", assumed)?;
/// assert_eq!(at.unix_timestamp(), 0);
/// let at = local_texts::parse_date_time_at(b"1970-01-01T01:00:00Z", assumed)?;
/// assert_eq!(at.unix_timestamp(), 3_600);
/// # Ok(())
/// # }
/// ```
///
/// # Contract
///
/// ```text
/// ensures reading { result ≡ reading_at assumed text.now }
/// ensures own { (p : Parts) → IsDateTime text.now p → OkIff result (AreInRange p) (value_of p) }
/// ensures own_equation { (p : Parts) → IsDateTime text.now p → result ≡ meaning p }
/// ensures assumed { (p : Parts) → IsLocalDateTime text.now p →
///     OkIff result (AreInRange p) (value_at assumed p) }
/// ensures assumed_equation { (p : Parts) → IsLocalDateTime text.now p →
///     result ≡ meaning_as (λ at. wall_at at.wall assumed) p }
/// ensures syntax { (result ≡ Err Syntax)
///     ⊎ (((p : Parts) × IsDateTime text.now p) ⊎ ((p : Parts) × IsLocalDateTime text.now p)) }
/// ensures accepted { IfOk result (λ at.
///     ((p : Parts) × IsDateTime text.now p × AreInRange p × (at ≡ value_of p)) ⊎
///     ((p : Parts) × IsLocalDateTime text.now p × AreInRange p × (at ≡ value_at assumed p))) }
/// ```
///
/// [docs/proofs/STATEMENT.md](crate::proved#contracts) explains the words.
#[inline]
pub fn parse_date_time_at(text: &[u8], assumed: UtcOffset) -> Result<OffsetDateTime, TextRefusal> {
    read_date_time_at(text, assumed)
}

// The same by the readings of the text and of the text in UTC.
/// # Contract
///
/// ```text
/// ensures { result ≡ reading_at assumed text.now }
/// ```
///
/// [docs/proofs/STATEMENT.md](crate::proved#contracts) explains the words.
#[inline]
fn read_date_time_at(text: &[u8], assumed: UtcOffset) -> Result<OffsetDateTime, TextRefusal> {
    match parse_rfc3339(text) {
        Ok(at) => Ok(at),
        Err(refusal) => match refusal {
            TextRefusal::Syntax => at_offset(text, assumed),
            TextRefusal::OutOfRange(component) => Err(TextRefusal::OutOfRange(component)),
        },
    }
}

// The date-time of a text without an offset, at this one.
/// # Contract
///
/// ```text
/// ensures { result ≡ reading_as (λ at. wall_at at.wall assumed) (date_time_in_utc text.now) }
/// ```
///
/// [docs/proofs/STATEMENT.md](crate::proved#contracts) explains the words.
#[inline]
fn at_offset(text: &[u8], assumed: UtcOffset) -> Result<OffsetDateTime, TextRefusal> {
    match read_date_time(text) {
        Ok(shown) => Ok(shown.assume_offset(assumed)),
        Err(refusal) => Err(refusal),
    }
}

// The reading of a text in UTC after a date, or after nothing.
/// # Contract
///
/// ```text
/// requires { length date.now ≤ 11 }
/// ensures { result ≡ reading_of (date.now ++ text.now ++ codes "Z") }
/// ```
///
/// [docs/proofs/STATEMENT.md](crate::proved#contracts) explains the words.
#[inline]
fn read_in_utc(date: &[u8], text: &[u8]) -> Result<OffsetDateTime, TextRefusal> {
    let mut room = [0; UTC_ROOM];
    match write_in_utc(date, text, &mut room) {
        Some(length) => parse_rfc3339(&room[..length]),
        None => Err(TextRefusal::Syntax),
    }
}
