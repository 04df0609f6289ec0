// Made by make/erase of crates/utc_times/src/utc_date_time/texts.rt. Do not edit.
//! How date-times in UTC print.
use crate::proved::utc_times::UtcDateTime;
use crate::proved::calendar_values::Text;
use std::fmt;

impl UtcDateTime {
    /// The text, as `1970-01-01 0:00:00.0 +00`: the date, a space, the time of day, and ` +00`.
    ///
    /// ```
    /// # use muxandu::proved::*;
    /// # fn main() -> Result<(), Box<dyn std::error::Error>> {
    /// let at = UtcDateTime::from_unix_timestamp_nanos(1_577_710_979_480_300_002)?;
    /// assert_eq!(at.text().as_str(), "2019-12-30 13:02:59.480300002 +00");
    /// # Ok(())
    /// # }
    /// ```
    ///
    /// # Contract
    ///
    /// ```text
    /// ensures text { result ≡ utc_text self }
    /// ensures length { length result ≤ 36 }
    /// ```
    ///
    /// [docs/proofs/STATEMENT.md](crate::proved#contracts) explains the words.
    #[inline]
    pub fn text(self) -> Text {
        let mut text = Text::new();
        self.append_to(&mut text);
        text
    }

    /// Adds the text of the date-time.
    ///
    /// # Contract
    ///
    /// ```text
    /// requires { length text.old + 36 ≤ text_capacity }
    /// ensures text { text.new ≡ text.old ++ utc_text self }
    /// ensures length { length text.new ≤ length text.old + 36 }
    /// ```
    ///
    /// [docs/proofs/STATEMENT.md](crate::proved#contracts) explains the words.
    #[inline]
    pub(in crate::proved) fn append_to(self, text: &mut Text) {
        self.as_plain().append_to(text);
        text.push_bytes(b" +00");
    }
}

/// # Contract
///
/// ```text
/// ghost output = { λ i. Some (utc_text i) };
/// ghost styled_output = { λ i spec. Some (padded spec (utc_text i)) };
/// ```
///
/// [docs/proofs/STATEMENT.md](crate::proved#contracts) explains the words.
impl fmt::Display for UtcDateTime {
    #[inline]
    fn fmt(&self, f: &mut fmt::Formatter) -> fmt::Result {
        fmt::Display::fmt(&self.text(), f)
    }
}

/// # Contract
///
/// ```text
/// ghost debug_output = { λ i. Some (utc_text i) };
/// ```
///
/// [docs/proofs/STATEMENT.md](crate::proved#contracts) explains the words.
impl fmt::Debug for UtcDateTime {
    #[inline]
    fn fmt(&self, f: &mut fmt::Formatter) -> fmt::Result {
        fmt::Debug::fmt(&self.text(), f)
    }
}
