// Made by make/erase of crates/calendar_values/src/utc_offset/texts.rt. Do not edit.
//! How offsets print.
use crate::proved::calendar_values::UtcOffset;
use crate::proved::calendar_values::text::Text;
use std::fmt;

impl UtcOffset {
    /// The text: `+` or `-`, then hours, minutes and seconds of two digits each, as `+01:02:03`.
    ///
    /// ```
    /// # use muxandu::proved::*;
    /// # fn main() -> Result<(), Box<dyn std::error::Error>> {
    /// assert_eq!(UtcOffset::from_hms(-3, -30, 0)?.text().as_str(), "-03:30:00");
    /// # Ok(())
    /// # }
    /// ```
    ///
    /// # Contract
    ///
    /// ```text
    /// ensures text { result ≡ offset_text self }
    /// ensures length { length result ≡ 9 }
    /// ```
    ///
    /// [docs/proofs/STATEMENT.md](crate::proved#contracts) explains the words.
    #[inline]
    pub fn text(self) -> Text {
        let mut text = Text::new();
        self.append_to(&mut text);
        text
    }

    /// Adds the text of the offset.
    ///
    /// # Contract
    ///
    /// ```text
    /// requires { length text.old + 9 ≤ text_capacity }
    /// ensures text { text.new ≡ text.old ++ offset_text self }
    /// ensures length { length text.new ≡ length text.old + 9 }
    /// ```
    ///
    /// [docs/proofs/STATEMENT.md](crate::proved#contracts) explains the words.
    #[inline]
    pub(in crate::proved) fn append_to(self, text: &mut Text) {
        let sign = if self.is_negative() { b'-' } else { b'+' };
        text.push_part(sign, self.hours.unsigned_abs());
        text.push_part(b':', self.minutes.unsigned_abs());
        text.push_part(b':', self.seconds.unsigned_abs());
    }
}

/// # Contract
///
/// ```text
/// ghost output = { λ o. Some (offset_text o) };
/// ghost styled_output = { λ o spec. Some (padded spec (offset_text o)) };
/// ```
///
/// [docs/proofs/STATEMENT.md](crate::proved#contracts) explains the words.
impl fmt::Display for UtcOffset {
    #[inline]
    fn fmt(&self, f: &mut fmt::Formatter) -> fmt::Result {
        fmt::Display::fmt(&self.text(), f)
    }
}

/// # Contract
///
/// ```text
/// ghost debug_output = { λ o. Some (offset_text o) };
/// ```
///
/// [docs/proofs/STATEMENT.md](crate::proved#contracts) explains the words.
impl fmt::Debug for UtcOffset {
    #[inline]
    fn fmt(&self, f: &mut fmt::Formatter) -> fmt::Result {
        fmt::Debug::fmt(&self.text(), f)
    }
}
