// Made by make/erase of crates/calendar_values/src/time/texts.rt. Do not edit.
//! How times of day print.
use crate::proved::calendar_values::{Text, Time};
use std::fmt;

impl Time {
    /// The text of the time: the hour with no zero in front, the minute and the second with two
    /// digits each, and the fraction of the second without zeros at its end, but with at least one
    /// digit, as `9:05:00.25`.
    ///
    /// ```
    /// # use muxandu::proved::*;
    /// # fn main() -> Result<(), Box<dyn std::error::Error>> {
    /// let time = Time::from_hms_milli(9, 4, 0, 250)?;
    /// assert_eq!(time.text().as_str(), "9:04:00.25");
    /// # Ok(())
    /// # }
    /// ```
    ///
    /// # Contract
    ///
    /// ```text
    /// ensures text { result ≡ time_text self }
    /// ensures length { length result ≤ 18 }
    /// ```
    ///
    /// [docs/proofs/STATEMENT.md](crate::proved#contracts) explains the words.
    #[inline]
    pub fn text(self) -> Text {
        let mut text = Text::new();
        self.append_to(&mut text);
        text
    }

    /// Adds the text of the time.
    ///
    /// # Contract
    ///
    /// ```text
    /// requires { length text.old + 18 ≤ text_capacity }
    /// ensures text { text.new ≡ text.old ++ time_text self }
    /// ensures length { length text.new ≤ length text.old + 18 }
    /// ```
    ///
    /// [docs/proofs/STATEMENT.md](crate::proved#contracts) explains the words.
    #[inline(always)]
    pub(in crate::proved) fn append_to(self, text: &mut Text) {
        text.push_short_decimal(self.hour);
        text.push_part(b':', self.minute);
        text.push_part(b':', self.second);
        push_fraction(text, self.nanosecond);
    }
}

// Adds a point and the digits of the fraction of the second.
/// # Contract
///
/// ```text
/// requires { length text.old + 10 ≤ text_capacity }
/// ensures text { text.new ≡ text.old ++ codes "." ++ fraction_digits 9 nanosecond }
/// ensures length { length text.new ≤ length text.old + 10 }
/// ```
///
/// [docs/proofs/STATEMENT.md](crate::proved#contracts) explains the words.
#[inline(always)]
fn push_fraction(text: &mut Text, nanosecond: u32) {
    if nanosecond == 0 {
        text.push_bytes(b".0");
    } else {
        text.push(b'.');
        text.push_fraction(nanosecond);
    }
}

/// # Contract
///
/// ```text
/// ghost output = { λ c. Some (time_text c) };
/// ghost styled_output = { λ c spec. Some (padded spec (time_text c)) };
/// ```
///
/// [docs/proofs/STATEMENT.md](crate::proved#contracts) explains the words.
impl fmt::Display for Time {
    #[inline]
    fn fmt(&self, f: &mut fmt::Formatter) -> fmt::Result {
        fmt::Display::fmt(&self.text(), f)
    }
}

/// # Contract
///
/// ```text
/// ghost debug_output = { λ c. Some (time_text c) };
/// ```
///
/// [docs/proofs/STATEMENT.md](crate::proved#contracts) explains the words.
impl fmt::Debug for Time {
    #[inline]
    fn fmt(&self, f: &mut fmt::Formatter) -> fmt::Result {
        fmt::Debug::fmt(&self.text(), f)
    }
}
