// Made by make/erase of crates/rfc3339/src/write_fixed.rt. Do not edit.
//! Texts of fixed width written.
use crate::proved::rfc3339::write::{push_clock, push_date, push_whole_fraction, text_with};
use crate::proved::calendar_values::Text;
use crate::proved::offset_times::OffsetDateTime;
use crate::proved::stamp_times::Moment;

/// The text of RFC 3339 of an instant in UTC, always with nine digits of the fraction and with `Z`,
/// of 30 bytes: `1985-04-12T23:20:50.520000000Z`. None if the year in UTC is not one of 0 to 9999.
/// Such texts compare, byte by byte, as their instants do
/// (`laws::fixed_texts_keep_the_order`).
///
/// ```
/// # use muxandu::proved::*;
/// # fn main() -> Result<(), Box<dyn std::error::Error>> {
/// let text = rfc3339::to_rfc3339_nanos(Timestamp::UNIX_EPOCH).ok_or("no text")?;
/// assert_eq!(text.as_str(), "1970-01-01T00:00:00.000000000Z");
/// # Ok(())
/// # }
/// ```
///
/// # Contract
///
/// ```text
/// ensures text { SomeIff result (HasFixedText (M.instant at)) (fixed_text (M.instant at)) }
/// ensures length { IfSome result (λ text. length text ≡ 30) }
/// ```
///
/// [docs/proofs/STATEMENT.md](crate::proved#contracts) explains the words.
#[inline]
pub fn to_rfc3339_nanos<M: Moment>(at: M) -> Option<Text> {
    let (date, time) = at.parts();
    let (year, month, day) = date.to_calendar_date();
    if year < 0 || year > 9_999 {
        return None;
    }
    let (hour, minute, second, nanosecond) = time.as_hms_nano();
    let mut text = Text::new();
    push_date(&mut text, year as u32, u8::from(month), day);
    text.push(b'T');
    push_clock(&mut text, hour, minute, second);
    push_whole_fraction(&mut text, nanosecond);
    text.push(b'Z');
    Some(text)
}

/// The same at an offset, as `1985-04-13T04:50:50.520000000+05:30`, with `Z` for the offset 0: at
/// one offset all have one width, and compare as their instants do. None if
/// [`Rfc3339::to_rfc3339`](crate::proved::rfc3339::Rfc3339::to_rfc3339) has no text.
///
/// ```
/// # use muxandu::proved::*;
/// # fn main() -> Result<(), Box<dyn std::error::Error>> {
/// let at = PlainDateTime::UNIX_EPOCH.assume_offset(UtcOffset::from_hms(2, 0, 0)?);
/// let text = rfc3339::to_rfc3339_nanos_at(at).ok_or("no text")?;
/// assert_eq!(text.as_str(), "1970-01-01T00:00:00.000000000+02:00");
/// # Ok(())
/// # }
/// ```
///
/// # Contract
///
/// ```text
/// ensures text { SomeIff result (HasText at) (fixed_text_at at) }
/// ensures length { IfSome result (λ text. length text ≤ 35) }
/// ```
///
/// [docs/proofs/STATEMENT.md](crate::proved#contracts) explains the words.
#[inline]
pub fn to_rfc3339_nanos_at(at: OffsetDateTime) -> Option<Text> {
    text_with(at, Some(9))
}

/// The text at an offset with a number of digits of the fraction, 0 to 9, and nine for more: of
/// three digits `1985-04-13T04:50:50.520+05:30`, and of none `1985-04-13T04:50:50+05:30`. What lies
/// past them is left out, which rounds down
/// (`laws::texts_of_digits_truncate`). None if
/// [`Rfc3339::to_rfc3339`](crate::proved::rfc3339::Rfc3339::to_rfc3339) has no text.
///
/// ```
/// # use muxandu::proved::*;
/// # fn main() -> Result<(), Box<dyn std::error::Error>> {
/// let text = rfc3339::to_rfc3339_digits(OffsetDateTime::UNIX_EPOCH, 3).ok_or("no text")?;
/// assert_eq!(text.as_str(), "1970-01-01T00:00:00.000Z");
/// # Ok(())
/// # }
/// ```
///
/// # Contract
///
/// ```text
/// ensures text { SomeIff result (HasText at) (digits_text digits at) }
/// ensures length { IfSome result (λ text. length text ≤ 35) }
/// ```
///
/// [docs/proofs/STATEMENT.md](crate::proved#contracts) explains the words.
#[inline]
pub fn to_rfc3339_digits(at: OffsetDateTime, digits: u8) -> Option<Text> {
    text_with(at, Some(digits))
}
