// Made by make/erase of crates/plain_times/src/plain_date_time/texts.rt. Do not edit.
//! How plain date-times print.
use crate::proved::plain_times::PlainDateTime;
use crate::proved::calendar_values::Text;
use std::fmt;

impl PlainDateTime {
    /// The text, as `1970-01-01 0:00:00.0`: the text of the date, a space, and that of the time of
    /// day.
    ///
    /// ```
    /// # use muxandu::proved::*;
    /// # fn main() -> Result<(), Box<dyn std::error::Error>> {
    /// let time = Time::from_hms_nano(13, 2, 59, 480_300_002)?;
    /// let at = PlainDateTime::new(Date::from_calendar_date(2019, Month::December, 30)?, time);
    /// assert_eq!(at.text().as_str(), "2019-12-30 13:02:59.480300002");
    /// # Ok(())
    /// # }
    /// ```
    ///
    /// # Contract
    ///
    /// ```text
    /// ensures text { result ≡ plain_text self }
    /// ensures length { length result ≤ 32 }
    /// ```
    ///
    /// [docs/proofs/STATEMENT.md](crate::proved#contracts) explains the words.
    #[inline]
    pub fn text(self) -> Text {
        let mut text = Text::new();
        self.append_to(&mut text);
        text
    }

    /// Adds the text of the date-time.
    ///
    /// # Contract
    ///
    /// ```text
    /// requires { length text.old + 32 ≤ text_capacity }
    /// ensures text { text.new ≡ text.old ++ plain_text self }
    /// ensures length { length text.new ≤ length text.old + 32 }
    /// ```
    ///
    /// [docs/proofs/STATEMENT.md](crate::proved#contracts) explains the words.
    #[inline]
    pub(in crate::proved) fn append_to(self, text: &mut Text) {
        self.date().append_to(text);
        text.push(b' ');
        self.time().append_to(text);
    }
}

/// # Contract
///
/// ```text
/// ghost output = { λ w. Some (plain_text w) };
/// ghost styled_output = { λ w spec. Some (padded spec (plain_text w)) };
/// ```
///
/// [docs/proofs/STATEMENT.md](crate::proved#contracts) explains the words.
impl fmt::Display for PlainDateTime {
    #[inline]
    fn fmt(&self, f: &mut fmt::Formatter) -> fmt::Result {
        fmt::Display::fmt(&self.text(), f)
    }
}

/// # Contract
///
/// ```text
/// ghost debug_output = { λ w. Some (plain_text w) };
/// ```
///
/// [docs/proofs/STATEMENT.md](crate::proved#contracts) explains the words.
impl fmt::Debug for PlainDateTime {
    #[inline]
    fn fmt(&self, f: &mut fmt::Formatter) -> fmt::Result {
        fmt::Debug::fmt(&self.text(), f)
    }
}
