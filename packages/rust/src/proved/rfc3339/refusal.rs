// Made by make/erase of crates/rfc3339/src/refusal.rt. Do not edit.
//! Why a text is refused.
use crate::proved::calendar_values::Text;
use std::error::Error;
use std::fmt;

/// A part of a text that can be out of its range.
#[derive(Clone, Copy, Debug, PartialEq, Eq)]
pub enum Component {
    /// The month, 1 to 12.
    Month,
    /// The day, from 1 to the last of that month in that year.
    Day,
    /// The hour, 0 to 23.
    Hour,
    /// The minute, 0 to 59.
    Minute,
    /// The second, 0 to 59: there are no leap seconds.
    Second,
    /// The hours of the offset, 0 to 23.
    OffsetHour,
    /// The minutes of the offset, 0 to 59.
    OffsetMinute,
}

impl Component {
    /// The name of the part, as `month` or `offset hour`.
    ///
    /// ```
    /// # use muxandu::proved::*;
    /// # fn main() -> Result<(), Box<dyn std::error::Error>> {
    /// assert_eq!(Component::OffsetMinute.name(), "offset minute");
    /// # Ok(())
    /// # }
    /// ```
    ///
    /// # Contract
    ///
    /// ```text
    /// ensures value { result.now ≡ component_name self }
    /// ensures ascii { IsAscii result.now }
    /// ensures length { length result.now ≤ 13 }
    /// ```
    ///
    /// [docs/proofs/STATEMENT.md](crate::proved#contracts) explains the words.
    #[inline]
    pub const fn name(self) -> &'static str {
        match self {
            Component::Month => "month",
            Component::Day => "day",
            Component::Hour => "hour",
            Component::Minute => "minute",
            Component::Second => "second",
            Component::OffsetHour => "offset hour",
            Component::OffsetMinute => "offset minute",
        }
    }
}

/// The error of a text.
#[derive(Clone, Copy, Debug, PartialEq, Eq)]
pub enum TextRefusal {
    /// The text is no date-time of RFC 3339.
    Syntax,
    /// The text is one by its form, and this part is the first from the left that is out of its
    /// range.
    OutOfRange(Component),
}

impl TextRefusal {
    /// The text, as `second is out of range`, or `no date-time of RFC 3339`.
    ///
    /// ```
    /// # use muxandu::proved::*;
    /// # fn main() -> Result<(), Box<dyn std::error::Error>> {
    /// let refusal = TextRefusal::OutOfRange(Component::Second);
    /// assert_eq!(refusal.text().as_str(), "second is out of range");
    /// # Ok(())
    /// # }
    /// ```
    ///
    /// # Contract
    ///
    /// ```text
    /// ensures text { result ≡ refusal_text self }
    /// ensures length { length result ≤ 29 }
    /// ```
    ///
    /// [docs/proofs/STATEMENT.md](crate::proved#contracts) explains the words.
    #[inline]
    pub fn text(self) -> Text {
        let mut text = Text::new();
        match self {
            TextRefusal::Syntax => text.push_bytes(b"no date-time of RFC 3339"),
            TextRefusal::OutOfRange(component) => {
                text.push_bytes(component.name().as_bytes());
                text.push_bytes(b" is out of range");
            }
        }
        text
    }
}

/// # Contract
///
/// ```text
/// ghost output = { λ refusal. Some (refusal_text refusal) };
/// ghost styled_output = { λ refusal spec. Some (padded spec (refusal_text refusal)) };
/// ```
///
/// [docs/proofs/STATEMENT.md](crate::proved#contracts) explains the words.
impl fmt::Display for TextRefusal {
    #[inline]
    fn fmt(&self, f: &mut fmt::Formatter) -> fmt::Result {
        fmt::Display::fmt(&self.text(), f)
    }
}

impl Error for TextRefusal {}
