// Made by make/erase of crates/rfc3339/src/full_dates.rt. Do not edit.
//! Days as texts, written and read.
use crate::proved::rfc3339::reading::{part, year};
use crate::proved::rfc3339::write::push_date;
use crate::proved::rfc3339::{Component, TextRefusal};
use crate::proved::calendar_values::{Date, Month, Text};

/// The text of a day, as RFC 3339 writes a `full-date`: `1985-04-12`, of 10 bytes. None if its year
/// is not one of 0 to 9999.
///
/// ```
/// # use muxandu::proved::*;
/// # fn main() -> Result<(), Box<dyn std::error::Error>> {
/// let text = rfc3339::date_to_rfc3339(Date::UNIX_EPOCH).ok_or("no text")?;
/// assert_eq!(text.as_str(), "1970-01-01");
/// assert_eq!(rfc3339::date_to_rfc3339(Date::MAX).is_none(), true);
/// # Ok(())
/// # }
/// ```
///
/// # Contract
///
/// ```text
/// ensures text { SomeIff result (HasFullDate date) (full_date_text date) }
/// ensures length { IfSome result (λ text. length text ≡ 10) }
/// ```
///
/// [docs/proofs/STATEMENT.md](crate::proved#contracts) explains the words.
#[inline]
pub fn date_to_rfc3339(date: Date) -> Option<Text> {
    let (year, month, day) = date.to_calendar_date();
    if year < 0 || year > 9_999 {
        return None;
    }
    let mut text = Text::new();
    push_date(&mut text, year as u32, u8::from(month), day);
    Some(text)
}

/// Reads a `full-date` of RFC 3339, section 5.6, with nothing before or after it, as `1985-04-12`.
/// Fails with `Syntax` if the text has another form, else with its month or its day, the first that
/// is out of range.
///
/// ```
/// # use muxandu::proved::*;
/// # fn main() -> Result<(), Box<dyn std::error::Error>> {
/// assert_eq!(
///     rfc3339::date_from_rfc3339(b"1937-01-01"),
///     Ok(Date::from_calendar_date(1937, Month::January, 1)?)
/// );
/// assert_eq!(
///     rfc3339::date_from_rfc3339(b"1937-13-01"),
///     Err(TextRefusal::OutOfRange(Component::Month))
/// );
/// # Ok(())
/// # }
/// ```
///
/// # Contract
///
/// ```text
/// ensures reading { result ≡ full_date_reading_of text.now }
/// ensures equation { (year month day : ℕ) → IsFullDate text.now year month day →
///     result ≡ full_date_meaning year month day }
/// ensures syntax { (result ≡ Err Syntax)
///     ⊎ ((year : ℕ) × (month : ℕ) × (day : ℕ) × IsFullDate text.now year month day) }
/// ensures written { (n : ℤ) → HasFullDate n → text.now ≡ full_date_text n → result ≡ Ok n }
/// ```
///
/// [docs/proofs/STATEMENT.md](crate::proved#contracts) explains the words.
#[inline]
pub fn date_from_rfc3339(text: &[u8]) -> Result<Date, TextRefusal> {
    match numbers(text) {
        Some((year, month, day)) => date(year, month, day),
        None => Err(TextRefusal::Syntax),
    }
}

// The year, the month and the day of a text, if it has the form.
/// # Contract
///
/// ```text
/// ensures value { result ≡ full_date_at text.now }
/// ensures in_range { IfSome result (λ read. read.0 ≤ 9_999) }
/// ```
///
/// [docs/proofs/STATEMENT.md](crate::proved#contracts) explains the words.
#[inline]
fn numbers(text: &[u8]) -> Option<(u16, u8, u8)> {
    let (year, text) = year(text)?;
    let (month, text) = part(b'-', text)?;
    let (day, text) = part(b'-', text)?;
    if text.is_empty() {
        Some((year, month, day))
    } else {
        None
    }
}

// The day that the numbers mean.
/// # Contract
///
/// ```text
/// requires year { year ≤ 9_999 }
/// ensures { result ≡ full_date_meaning year month day }
/// ```
///
/// [docs/proofs/STATEMENT.md](crate::proved#contracts) explains the words.
#[inline]
const fn date(year: u16, month: u8, day: u8) -> Result<Date, TextRefusal> {
    let Ok(month) = Month::from_number(month) else {
        return Err(TextRefusal::OutOfRange(Component::Month));
    };
    let Ok(date) = Date::from_calendar_date(year as i32, month, day) else {
        return Err(TextRefusal::OutOfRange(Component::Day));
    };
    Ok(date)
}
