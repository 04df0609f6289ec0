// Made by make/erase of crates/format_descriptions/src/instant_values.rt. Do not edit.
//! The instant that the Unix timestamps of a text name.
use crate::proved::format_descriptions::clock_values::or_zero;
use crate::proved::format_descriptions::parts::{fits, fits_count};
use crate::proved::format_descriptions::unix::split_seconds;
use crate::proved::format_descriptions::{Field, Parts, UnixPrecision, ValueRefusal};
use crate::proved::calendar_values::{ComponentRange, Part};
use crate::proved::stamp_times::Timestamp;
use crate::proved::utc_times::UtcDateTime;

impl Parts {
    /// The instant of these parts, by the finest count of a Unix timestamp. The fraction of the
    /// second gives the digits below the unit of that count. Each other count and the fraction have
    /// to be those of the instant. So an instant that has all parts is read, if a count of
    /// nanoseconds or a fraction tells it. Fails with `Missing` if there is no count. Fails with
    /// `Wrong` for the first out of range, or other than that of the instant.
    ///
    /// ```
    /// # use muxandu::proved::*;
    /// # fn main() -> Result<(), Box<dyn std::error::Error>> {
    /// use format_descriptions::{Component, Item, Sign, UnixPrecision};
    /// let count = Component::UnixTimestamp(UnixPrecision::Seconds, Sign::Automatic);
    /// let parts = format_descriptions::parse(&[Item::Part(count)], b"-1");
    /// assert_eq!(parts.map(|parts| parts.timestamp()), Ok(Ok(Timestamp::new(-1, 0)?)));
    /// # Ok(())
    /// # }
    /// ```
    ///
    /// # Contract
    ///
    /// ```text
    /// ensures equation { result ≡ instant_of_counts self.now }
    /// ensures value { IfOk result (λ instant. HasInstantParts self.now instant) }
    /// ensures only { (i : ℤ) → IsInstant i → IsTrue (tells_instant self.now) →
    ///     HasInstantParts self.now i → result ≡ Ok i }
    /// ```
    ///
    /// [docs/proofs/STATEMENT.md](crate::proved#contracts) explains the words.
    #[inline]
    pub const fn timestamp(&self) -> Result<Timestamp, ValueRefusal> {
        named_instant(self)
    }

    /// The same as a date and a time of day in UTC.
    ///
    /// ```
    /// # use muxandu::proved::*;
    /// # fn main() -> Result<(), Box<dyn std::error::Error>> {
    /// use format_descriptions::{Component, Item, Sign, UnixPrecision};
    /// let count = Component::UnixTimestamp(UnixPrecision::Seconds, Sign::Automatic);
    /// let parts = format_descriptions::parse(&[Item::Part(count)], b"-1");
    /// let at = UtcDateTime::from_unix_timestamp(-1)?;
    /// assert_eq!(parts.map(|parts| parts.utc_date_time()), Ok(Ok(at)));
    /// # Ok(())
    /// # }
    /// ```
    ///
    /// # Contract
    ///
    /// ```text
    /// ensures equation { result ≡ instant_of_counts self.now }
    /// ensures value { IfOk result (λ instant. HasInstantParts self.now instant) }
    /// ensures only { (i : ℤ) → IsInstant i → IsTrue (tells_instant self.now) →
    ///     HasInstantParts self.now i → result ≡ Ok i }
    /// ```
    ///
    /// [docs/proofs/STATEMENT.md](crate::proved#contracts) explains the words.
    #[inline]
    pub fn utc_date_time(&self) -> Result<UtcDateTime, ValueRefusal> {
        match self.timestamp() {
            Ok(at) => Ok(UtcDateTime::from(at)),
            Err(refusal) => Err(refusal),
        }
    }
}

// The same.
/// # Contract
///
/// ```text
/// ensures { result ≡ instant_of_counts parts.now }
/// ```
///
/// [docs/proofs/STATEMENT.md](crate::proved#contracts) explains the words.
#[inline]
const fn named_instant(parts: &Parts) -> Result<Timestamp, ValueRefusal> {
    if parts.unix_nanosecond.is_some() {
        let count = or_no_count(parts.unix_nanosecond);
        return counted_instant(
            parts,
            Field::UnixNanosecond,
            UnixPrecision::Nanoseconds,
            0,
            count,
        );
    }
    if parts.unix_microsecond.is_some() {
        let count = or_no_count(parts.unix_microsecond);
        return counted_instant(
            parts,
            Field::UnixMicrosecond,
            UnixPrecision::Microseconds,
            or_zero(parts.nanosecond) % 1_000,
            count,
        );
    }
    if parts.unix_millisecond.is_some() {
        let count = or_no_count(parts.unix_millisecond);
        return counted_instant(
            parts,
            Field::UnixMillisecond,
            UnixPrecision::Milliseconds,
            or_zero(parts.nanosecond) % 1_000_000,
            count,
        );
    }
    if parts.unix_second.is_some() {
        let count = or_no_count(parts.unix_second);
        let more = or_zero(parts.nanosecond);
        return counted_instant(
            parts,
            Field::UnixSecond,
            UnixPrecision::Seconds,
            more,
            count,
        );
    }
    Err(ValueRefusal::Missing(Field::UnixSecond))
}

// A count that is 0 where it is not known.
/// # Contract
///
/// ```text
/// ensures { result ≡ or_no_count known }
/// ```
///
/// [docs/proofs/STATEMENT.md](crate::proved#contracts) explains the words.
#[inline]
const fn or_no_count(known: Option<i128>) -> i128 {
    match known {
        Some(count) => count,
        None => 0,
    }
}

// The instant of a count of a unit, and of further nanoseconds.
/// # Contract
///
/// ```text
/// ensures { result ≡ counted_instant parts.now wrong precision more count }
/// ```
///
/// [docs/proofs/STATEMENT.md](crate::proved#contracts) explains the words.
#[inline]
const fn counted_instant(
    parts: &Parts,
    wrong: Field,
    precision: UnixPrecision,
    more: u32,
    count: i128,
) -> Result<Timestamp, ValueRefusal> {
    if count < -99_999_999_999_999_999_999_999 || count > 99_999_999_999_999_999_999_999 {
        return Err(ValueRefusal::Wrong(wrong));
    }
    let instant = later(nanoseconds(precision, count), more);
    instant_at(parts, wrong, instant)
}

// A count, in nanoseconds.
/// # Contract
///
/// ```text
/// requires least { negsuc 99_999_999_999_999_999_999_998 ≤ℤ count }
/// requires most { count ≤ℤ pos 99_999_999_999_999_999_999_999 }
/// ensures value { result ≡ unix_nanoseconds precision count }
/// ensures first { negsuc 99_999_999_999_999_999_999_999_999_999_999 ≤ℤ result }
/// ensures last { result ≤ℤ pos 100_000_000_000_000_000_000_000_000_000_000 }
/// ```
///
/// [docs/proofs/STATEMENT.md](crate::proved#contracts) explains the words.
#[inline]
const fn nanoseconds(precision: UnixPrecision, count: i128) -> i128 {
    match precision {
        UnixPrecision::Seconds => count * 1_000_000_000,
        UnixPrecision::Milliseconds => count * 1_000_000,
        UnixPrecision::Microseconds => count * 1_000,
        UnixPrecision::Nanoseconds => count,
    }
}

// So many nanoseconds later.
/// # Contract
///
/// ```text
/// requires least { negsuc 99_999_999_999_999_999_999_999_999_999_999 ≤ℤ nanoseconds }
/// requires most { nanoseconds ≤ℤ pos 100_000_000_000_000_000_000_000_000_000_000 }
/// ensures { result ≡ nanoseconds +ℤ pos more }
/// ```
///
/// [docs/proofs/STATEMENT.md](crate::proved#contracts) explains the words.
#[inline]
const fn later(nanoseconds: i128, more: u32) -> i128 {
    nanoseconds + more as i128
}

// The instant of this number of nanoseconds, if each count is that of it.
/// # Contract
///
/// ```text
/// ensures { result ≡ instant_at parts.now wrong nanoseconds }
/// ```
///
/// [docs/proofs/STATEMENT.md](crate::proved#contracts) explains the words.
#[inline]
const fn instant_at(
    parts: &Parts,
    wrong: Field,
    nanoseconds: i128,
) -> Result<Timestamp, ValueRefusal> {
    match timestamp_of(nanoseconds) {
        Ok(at) => match wrong_instant(parts, at) {
            None => Ok(at),
            Some(field) => Err(ValueRefusal::Wrong(field)),
        },
        Err(_) => Err(ValueRefusal::Wrong(wrong)),
    }
}

// The instant of this number of nanoseconds.
/// # Contract
///
/// ```text
/// ensures { Gives result (instant_outcome (codes "nanoseconds") nanoseconds) }
/// ```
///
/// [docs/proofs/STATEMENT.md](crate::proved#contracts) explains the words.
#[inline]
const fn timestamp_of(nanoseconds: i128) -> Result<Timestamp, ComponentRange> {
    if nanoseconds < -31_619_087_596_800_000_000_000 || nanoseconds > 31_494_784_780_799_999_999_999
    {
        return Err(ComponentRange::of_part(Part::Nanoseconds, false));
    }
    let (second, nanosecond) = split_seconds(nanoseconds);
    match Timestamp::new(second as i64, nanosecond) {
        Ok(at) => Ok(at),
        Err(_) => Err(ComponentRange::of_part(Part::Nanoseconds, false)),
    }
}

// The first count that is not that of this instant.
/// # Contract
///
/// ```text
/// ensures { result ≡ wrong_instant parts.now at }
/// ```
///
/// [docs/proofs/STATEMENT.md](crate::proved#contracts) explains the words.
#[inline]
const fn wrong_instant(parts: &Parts, at: Timestamp) -> Option<Field> {
    if !fits_count(parts.unix_second, at.as_seconds() as i128) {
        return Some(Field::UnixSecond);
    }
    if !fits_count(parts.unix_millisecond, at.as_milliseconds() as i128) {
        return Some(Field::UnixMillisecond);
    }
    if !fits_count(parts.unix_microsecond, at.as_microseconds()) {
        return Some(Field::UnixMicrosecond);
    }
    if !fits_count(parts.unix_nanosecond, at.as_nanoseconds()) {
        return Some(Field::UnixNanosecond);
    }
    if !fits(parts.nanosecond, at.nanosecond()) {
        return Some(Field::Subsecond);
    }
    None
}
