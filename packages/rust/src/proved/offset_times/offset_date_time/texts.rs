// Made by make/erase of crates/offset_times/src/offset_date_time/texts.rt. Do not edit.
//! How date-times with an offset print.
use crate::proved::offset_times::OffsetDateTime;
use crate::proved::calendar_values::Text;
use std::fmt;

impl OffsetDateTime {
    /// The text, as `1970-01-01 0:00:00.0 +00:00:00`: the text of the date and of the time of day,
    /// a space, and that of the offset.
    ///
    /// ```
    /// # use muxandu::proved::*;
    /// # fn main() -> Result<(), Box<dyn std::error::Error>> {
    /// let time = Time::from_hms_nano(13, 2, 59, 480_300_002)?;
    /// let date = Date::from_calendar_date(2019, Month::December, 30)?;
    /// let at = OffsetDateTime::new_in_offset(date, time, UtcOffset::from_hms(9, 0, 0)?);
    /// assert_eq!(at.text().as_str(), "2019-12-30 13:02:59.480300002 +09:00:00");
    /// # Ok(())
    /// # }
    /// ```
    ///
    /// # Contract
    ///
    /// ```text
    /// ensures text { result ≡ offset_date_time_text self }
    /// ensures length { length result ≤ 42 }
    /// ```
    ///
    /// [docs/proofs/STATEMENT.md](crate::proved#contracts) explains the words.
    #[inline]
    pub fn text(self) -> Text {
        let mut text = Text::new();
        self.append_to(&mut text);
        text
    }

    /// Adds the text of the date-time.
    ///
    /// # Contract
    ///
    /// ```text
    /// requires { length text.old + 42 ≤ text_capacity }
    /// ensures text { text.new ≡ text.old ++ offset_date_time_text self }
    /// ensures length { length text.new ≤ length text.old + 42 }
    /// ```
    ///
    /// [docs/proofs/STATEMENT.md](crate::proved#contracts) explains the words.
    #[inline]
    pub(in crate::proved) fn append_to(self, text: &mut Text) {
        self.date_time().append_to(text);
        text.push(b' ');
        self.offset().append_to(text);
    }
}

/// # Contract
///
/// ```text
/// ghost output = { λ at. Some (offset_date_time_text at) };
/// ghost styled_output = { λ at spec. Some (padded spec (offset_date_time_text at)) };
/// ```
///
/// [docs/proofs/STATEMENT.md](crate::proved#contracts) explains the words.
impl fmt::Display for OffsetDateTime {
    #[inline]
    fn fmt(&self, f: &mut fmt::Formatter) -> fmt::Result {
        fmt::Display::fmt(&self.text(), f)
    }
}

/// # Contract
///
/// ```text
/// ghost debug_output = { λ at. Some (offset_date_time_text at) };
/// ```
///
/// [docs/proofs/STATEMENT.md](crate::proved#contracts) explains the words.
impl fmt::Debug for OffsetDateTime {
    #[inline]
    fn fmt(&self, f: &mut fmt::Formatter) -> fmt::Result {
        fmt::Debug::fmt(&self.text(), f)
    }
}
