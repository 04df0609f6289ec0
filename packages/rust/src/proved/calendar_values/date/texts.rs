// Made by make/erase of crates/calendar_values/src/date/texts.rt. Do not edit.
//! How dates print.
use crate::proved::calendar_values::{Date, Text};
use std::fmt;

impl Date {
    /// The text, as `1970-01-01`: a year of at least four digits, with `-` before a negative one
    /// and `+` before one above 9999, a month and a day of two digits each (ISO 8601).
    ///
    /// ```
    /// # use muxandu::proved::*;
    /// # fn main() -> Result<(), Box<dyn std::error::Error>> {
    /// let date = Date::from_calendar_date(2024, Month::March, 9)?;
    /// assert_eq!(date.text().as_str(), "2024-03-09");
    /// # Ok(())
    /// # }
    /// ```
    ///
    /// # Contract
    ///
    /// ```text
    /// ensures text { result ≡ date_text self }
    /// ensures length { length result ≤ 13 }
    /// ```
    ///
    /// [docs/proofs/STATEMENT.md](crate::proved#contracts) explains the words.
    #[inline]
    pub fn text(self) -> Text {
        let mut text = Text::new();
        self.append_to(&mut text);
        text
    }

    /// Adds the text of the date.
    ///
    /// # Contract
    ///
    /// ```text
    /// requires { length text.old + 13 ≤ text_capacity }
    /// ensures text { text.new ≡ text.old ++ date_text self }
    /// ensures length { length text.new ≤ length text.old + 13 }
    /// ```
    ///
    /// [docs/proofs/STATEMENT.md](crate::proved#contracts) explains the words.
    #[inline(always)]
    pub(in crate::proved) fn append_to(self, text: &mut Text) {
        let (month, day) = self.month_day();
        push_year(text, self.year());
        text.push_part(b'-', u8::from(month));
        text.push_part(b'-', day);
    }
}

// Adds the year with its sign, as `-0005`.
/// # Contract
///
/// ```text
/// requires year { IsYear year }
/// requires room { length text.old + 7 ≤ text_capacity }
/// ensures text { text.new ≡ text.old ++ year_text year }
/// ensures length { length text.new ≤ length text.old + 7 }
/// ```
///
/// [docs/proofs/STATEMENT.md](crate::proved#contracts) explains the words.
#[inline(always)]
fn push_year(text: &mut Text, year: i32) {
    if year < 0 {
        text.push(b'-');
    } else if year > 9_999 {
        text.push(b'+');
    }
    push_year_digits(text, year.unsigned_abs());
}

// Adds the digits of a year that is not negative, at least four of them.
/// # Contract
///
/// ```text
/// requires year { year < 1_000_000 }
/// requires room { length text.old + 6 ≤ text_capacity }
/// ensures text { text.new ≡ text.old ++ year_digits year }
/// ensures length { length text.new ≤ length text.old + 6 }
/// ```
///
/// [docs/proofs/STATEMENT.md](crate::proved#contracts) explains the words.
#[inline]
fn push_year_digits(text: &mut Text, year: u32) {
    if year < 10_000 {
        text.push_four_digits(year);
    } else {
        text.push_short_decimal((year / 10_000) as u8);
        text.push_four_digits(year);
    }
}

/// # Contract
///
/// ```text
/// ghost output = { λ n. Some (date_text n) };
/// ghost styled_output = { λ n spec. Some (padded spec (date_text n)) };
/// ```
///
/// [docs/proofs/STATEMENT.md](crate::proved#contracts) explains the words.
impl fmt::Display for Date {
    #[inline]
    fn fmt(&self, f: &mut fmt::Formatter) -> fmt::Result {
        fmt::Display::fmt(&self.text(), f)
    }
}

/// # Contract
///
/// ```text
/// ghost debug_output = { λ n. Some (date_text n) };
/// ```
///
/// [docs/proofs/STATEMENT.md](crate::proved#contracts) explains the words.
impl fmt::Debug for Date {
    #[inline]
    fn fmt(&self, f: &mut fmt::Formatter) -> fmt::Result {
        fmt::Debug::fmt(&self.text(), f)
    }
}
