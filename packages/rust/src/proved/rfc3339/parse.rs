// Made by make/erase of crates/rfc3339/src/parse.rt. Do not edit.
//! Texts read.
use crate::proved::rfc3339::reading::{after_second, parts};
use crate::proved::rfc3339::{Component, Parts, TextRefusal};
use crate::proved::calendar_values::{Date, Month, Time, UtcOffset};
use crate::proved::offset_times::OffsetDateTime;

/// Reads a `date-time` of RFC 3339, section 5.6, with nothing before or after it, as
/// `1985-04-12T23:20:50.52Z` or `1996-12-19T16:39:57-08:00`. A `t` or a space can replace the `T`,
/// and `z` the `Z`. Digits of the fraction past the ninth drop out, which rounds down. `-00:00` is
/// the offset 0. Fails with `Syntax` if the text has another form, else with the first part from
/// the left that is out of range. A second of 60 is out of range.
///
/// ```
/// # use muxandu::proved::*;
/// # fn main() -> Result<(), Box<dyn std::error::Error>> {
/// let at = parse_rfc3339(b"1937-01-01T12:00:27.87+00:20")?;
/// assert_eq!(at.offset().whole_seconds(), 1_200);
/// assert_eq!(at.unix_timestamp_nanos(), -1_041_337_172_130_000_000);
/// assert_eq!(parse_rfc3339(b"1937-01-01"), Err(TextRefusal::Syntax));
/// # Ok(())
/// # }
/// ```
///
/// # Contract
///
/// ```text
/// ensures reading { result ≡ reading_of text.now }
/// ensures value { (p : Parts) → IsDateTime text.now p → OkIff result (AreInRange p) (value_of p) }
/// ensures equation { (p : Parts) → IsDateTime text.now p → result ≡ meaning p }
/// ensures syntax { (result ≡ Err Syntax) ⊎ ((p : Parts) × IsDateTime text.now p) }
/// ensures accepted { IfOk result (λ at.
///     (p : Parts) × IsDateTime text.now p × AreInRange p × (at ≡ value_of p)) }
/// ensures has_text { IfOk result HasText }
/// ensures instant { IfOk result (λ at. IsInstant (instant_of at)) }
/// ensures written { (at : Local) → HasText at → text.now ≡ rfc3339_text at → result ≡ Ok at }
/// ensures written_fixed { (i : ℤ) → HasFixedText i → text.now ≡ fixed_text i →
///     result ≡ Ok (local_in_utc i) }
/// ```
///
/// [docs/proofs/STATEMENT.md](crate::proved#contracts) explains the words.
#[inline(always)]
pub fn parse_rfc3339(text: &[u8]) -> Result<OffsetDateTime, TextRefusal> {
    match parts(text) {
        Some(parts) => date_time(parts),
        None => Err(TextRefusal::Syntax),
    }
}

/// The numbers of a text whose date and time of day to the second were read already: those of
/// `parts`, and those of a fraction and an offset in `text`, which follows the second. `None` if
/// `text` has another form, or more bytes.
///
/// # Contract
///
/// ```text
/// requires { parts.year ≤ 9_999 }
/// ensures value { result ≡ parts_on parts text.now }
/// ensures equation { (p : Parts) → IsAfterSecond parts text.now p → result ≡ Some p }
/// ensures spelled { IfSome result (IsAfterSecond parts text.now) }
/// ```
///
/// [docs/proofs/STATEMENT.md](crate::proved#contracts) explains the words.
#[inline(always)]
pub(in crate::proved) fn parts_after_second(parts: Parts, text: &[u8]) -> Option<Parts> {
    let (parts, rest) = after_second(parts, text)?;
    if rest.is_empty() { Some(parts) } else { None }
}

// What the numbers of a text mean.
/// # Contract
///
/// ```text
/// requires nanosecond { parts.nanosecond ≤ 999_999_999 }
/// requires year { parts.year ≤ 9_999 }
/// ensures value { result ≡ meaning parts }
/// ```
///
/// [docs/proofs/STATEMENT.md](crate::proved#contracts) explains the words.
#[inline(always)]
pub(crate) fn date_time(parts: Parts) -> Result<OffsetDateTime, TextRefusal> {
    let Ok(month) = Month::from_number(parts.month) else {
        return Err(TextRefusal::OutOfRange(Component::Month));
    };
    let Ok(date) = Date::from_calendar_date(parts.year as i32, month, parts.day) else {
        return Err(TextRefusal::OutOfRange(Component::Day));
    };
    if parts.hour > 23 {
        return Err(TextRefusal::OutOfRange(Component::Hour));
    }
    if parts.minute > 59 {
        return Err(TextRefusal::OutOfRange(Component::Minute));
    }
    let Ok(time) = Time::from_hms_nano(parts.hour, parts.minute, parts.second, parts.nanosecond)
    else {
        return Err(TextRefusal::OutOfRange(Component::Second));
    };
    if parts.offset_hour > 23 {
        return Err(TextRefusal::OutOfRange(Component::OffsetHour));
    }
    if parts.offset_minute > 59 {
        return Err(TextRefusal::OutOfRange(Component::OffsetMinute));
    }
    let offset = offset(parts.is_west, parts.offset_hour, parts.offset_minute);
    Ok(OffsetDateTime::new_in_offset(date, time, offset))
}

// The offset of a sign, hours and minutes. Most texts are in UTC.
/// # Contract
///
/// ```text
/// requires hour { hour ≤ 23 }
/// requires minute { minute ≤ 59 }
/// ensures { result ≡ offset_of is_west hour minute }
/// ```
///
/// [docs/proofs/STATEMENT.md](crate::proved#contracts) explains the words.
#[inline(always)]
pub(crate) fn offset(is_west: bool, hour: u8, minute: u8) -> UtcOffset {
    if (hour == 0) & (minute == 0) {
        return UtcOffset::UTC;
    }
    offset_by_parts(is_west, hour, minute)
}

// The same of any hours and minutes.
/// # Contract
///
/// ```text
/// requires hour { hour ≤ 23 }
/// requires minute { minute ≤ 59 }
/// ensures { result ≡ offset_of is_west hour minute }
/// ```
///
/// [docs/proofs/STATEMENT.md](crate::proved#contracts) explains the words.
#[inline(always)]
fn offset_by_parts(is_west: bool, hour: u8, minute: u8) -> UtcOffset {
    let (hours, minutes) = (hour as i8, minute as i8);
    if is_west {
        UtcOffset::from_hms(-hours, -minutes, 0).unwrap()
    } else {
        UtcOffset::from_hms(hours, minutes, 0).unwrap()
    }
}
