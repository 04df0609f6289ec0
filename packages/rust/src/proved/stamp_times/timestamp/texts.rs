// Made by make/erase of crates/stamp_times/src/timestamp/texts.rt. Do not edit.
//! The text of a timestamp.
use crate::proved::stamp_times::Timestamp;
use crate::proved::calendar_values::Text;
use crate::proved::calendar_values::units::NANOS_PER_SECOND;
use std::fmt;

impl Timestamp {
    /// The text: the signed decimal of the instant in seconds, as `-0.5`. The fraction has no zeros
    /// at its end, and is left out where it is 0.
    ///
    /// ```
    /// # use muxandu::proved::*;
    /// # fn main() -> Result<(), Box<dyn std::error::Error>> {
    /// let at = Timestamp::new(1_577_710_979, 480_300_002)?;
    /// assert_eq!(at.text().as_str(), "1577710979.480300002");
    /// # Ok(())
    /// # }
    /// ```
    ///
    /// # Contract
    ///
    /// ```text
    /// ensures text { result ≡ timestamp_text self }
    /// ensures length { length result ≤ 25 }
    /// ```
    ///
    /// [docs/proofs/STATEMENT.md](crate::proved#contracts) explains the words.
    #[inline]
    pub fn text(self) -> Text {
        let mut text = Text::new();
        self.append_to(&mut text);
        text
    }

    /// Adds the text of the instant.
    ///
    /// # Contract
    ///
    /// ```text
    /// requires { length text.old + 25 ≤ text_capacity }
    /// ensures text { text.new ≡ text.old ++ timestamp_text self }
    /// ensures length { length text.new ≤ length text.old + 25 }
    /// ```
    ///
    /// [docs/proofs/STATEMENT.md](crate::proved#contracts) explains the words.
    #[inline]
    pub(in crate::proved) fn append_to(self, text: &mut Text) {
        let (seconds, nanoseconds) = self.magnitude();
        if self.as_seconds() < 0 {
            text.push(b'-');
        }
        push_seconds(text, seconds, nanoseconds);
    }

    // The whole seconds from 1970 or to it, and the nanoseconds that they leave.
    /// # Contract
    ///
    /// ```text
    /// ensures seconds { result.0 ≡ unsigned_abs self / nanos_per_second }
    /// ensures nanoseconds { result.1 ≡ unsigned_abs self % nanos_per_second }
    /// ensures in_range { result.0 < 10 ^ 14 }
    /// ```
    ///
    /// [docs/proofs/STATEMENT.md](crate::proved#contracts) explains the words.
    #[inline]
    const fn magnitude(self) -> (u64, u32) {
        let seconds = self.as_seconds();
        let nanosecond = self.nanosecond();
        if seconds >= 0 {
            (seconds as u64, nanosecond)
        } else if nanosecond == 0 {
            ((-seconds) as u64, 0)
        } else {
            ((-seconds - 1) as u64, NANOS_PER_SECOND as u32 - nanosecond)
        }
    }
}

// Adds seconds and nanoseconds of a second as a decimal of seconds.
/// # Contract
///
/// ```text
/// requires seconds { seconds < 10 ^ 14 }
/// requires nanoseconds { nanoseconds < nanos_per_second }
/// requires room { length text.old + 24 ≤ text_capacity }
/// ensures text { text.new ≡ text.old ++ seconds_text seconds nanoseconds }
/// ensures length { length text.new ≤ length text.old + 24 }
/// ```
///
/// [docs/proofs/STATEMENT.md](crate::proved#contracts) explains the words.
#[inline]
fn push_seconds(text: &mut Text, seconds: u64, nanoseconds: u32) {
    text.push_decimal(seconds);
    if nanoseconds > 0 {
        text.push(b'.');
        text.push_fraction(nanoseconds);
    }
}

/// # Contract
///
/// ```text
/// ghost output = { λ i. Some (timestamp_text i) };
/// ghost styled_output = { λ i spec. Some (padded spec (timestamp_text i)) };
/// ```
///
/// [docs/proofs/STATEMENT.md](crate::proved#contracts) explains the words.
impl fmt::Display for Timestamp {
    #[inline]
    fn fmt(&self, f: &mut fmt::Formatter) -> fmt::Result {
        fmt::Display::fmt(&self.text(), f)
    }
}

/// # Contract
///
/// ```text
/// ghost debug_output = { λ i. Some (timestamp_text i) };
/// ```
///
/// [docs/proofs/STATEMENT.md](crate::proved#contracts) explains the words.
impl fmt::Debug for Timestamp {
    #[inline]
    fn fmt(&self, f: &mut fmt::Formatter) -> fmt::Result {
        fmt::Debug::fmt(&self.text(), f)
    }
}
