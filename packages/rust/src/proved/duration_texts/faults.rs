// Made by make/erase of crates/duration_texts/src/faults.rt. Do not edit.
//! Why a text is no duration, and where.
use crate::proved::calendar_values::Text;
use std::error::Error;
use std::fmt;

/// The kind of fault in a text that is no duration.
#[derive(Clone, Copy, Debug, PartialEq, Eq)]
pub enum DurationFault {
    /// The text has no digit here, but a number must follow: also at its end.
    Digit,
    /// The word is no unit.
    Unit,
    /// The word is a month, a quarter or a year: these have no fixed length.
    Calendar,
    /// The number before the byte has no unit, and is not the whole text.
    Alone,
    /// The term is no whole number of nanoseconds.
    Fraction,
    /// The sum up to this term is out of the range of a duration.
    Range,
}

/// The error of a text that is no duration.
#[derive(Clone, Copy, Debug, PartialEq, Eq)]
pub struct DurationRefusal {
    /// The kind of fault.
    pub fault: DurationFault,
    /// The index of the byte where the part at fault begins.
    pub place: usize,
}

impl DurationFault {
    /// The words for the fault, such as `no unit`.
    ///
    /// ```
    /// # use muxandu::proved::*;
    /// # fn main() -> Result<(), Box<dyn std::error::Error>> {
    /// assert_eq!(duration_texts::DurationFault::Unit.name(), "no unit");
    /// # Ok(())
    /// # }
    /// ```
    ///
    /// # Contract
    ///
    /// ```text
    /// ensures value { result.now ≡ fault_text self }
    /// ensures ascii { IsAscii result.now }
    /// ensures length { length result.now ≤ 24 }
    /// ```
    ///
    /// [docs/proofs/STATEMENT.md](crate::proved#contracts) explains the words.
    #[inline]
    pub const fn name(self) -> &'static str {
        match self {
            DurationFault::Digit => "no digit",
            DurationFault::Unit => "no unit",
            DurationFault::Calendar => "no fixed length",
            DurationFault::Alone => "no unit after the number",
            DurationFault::Fraction => "no whole nanoseconds",
            DurationFault::Range => "duration out of range",
        }
    }
}

impl DurationRefusal {
    /// The text, such as `no unit at byte 2`.
    ///
    /// ```
    /// # use muxandu::proved::*;
    /// # fn main() -> Result<(), Box<dyn std::error::Error>> {
    /// let fault = duration_texts::DurationFault::Unit;
    /// let refusal = duration_texts::DurationRefusal { fault, place: 2 };
    /// assert_eq!(refusal.text().as_str(), "no unit at byte 2");
    /// # Ok(())
    /// # }
    /// ```
    ///
    /// # Contract
    ///
    /// ```text
    /// ensures text { result ≡ refusal_text self }
    /// ensures length { length result ≤ 53 }
    /// ```
    ///
    /// [docs/proofs/STATEMENT.md](crate::proved#contracts) explains the words.
    #[inline]
    pub fn text(self) -> Text {
        let mut text = Text::new();
        text.push_bytes(self.fault.name().as_bytes());
        text.push_bytes(b" at byte ");
        text.push_decimal(self.place as u64);
        text
    }
}

/// # Contract
///
/// ```text
/// ghost output = { λ refusal. Some (refusal_text refusal) };
/// ghost styled_output = { λ refusal spec. Some (padded spec (refusal_text refusal)) };
/// ```
///
/// [docs/proofs/STATEMENT.md](crate::proved#contracts) explains the words.
impl fmt::Display for DurationRefusal {
    #[inline]
    fn fmt(&self, f: &mut fmt::Formatter) -> fmt::Result {
        fmt::Display::fmt(&self.text(), f)
    }
}

impl Error for DurationRefusal {}

// A fault, and how many bytes of the text are left where it is.
#[derive(Clone, Copy)]
pub(crate) struct Stop {
    pub(crate) fault: DurationFault,
    pub(crate) left: usize,
}
