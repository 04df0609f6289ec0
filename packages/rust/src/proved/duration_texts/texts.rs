// Made by make/erase of crates/duration_texts/src/texts.rt. Do not edit.
//! The texts of durations.
use crate::proved::calendar_values::{SignedDuration, Text};

/// Returns the seconds of a duration as a decimal, such as `-0.5`. The fraction has no zeros at its
/// end, and a whole number has none.
///
/// ```
/// # use muxandu::proved::*;
/// # fn main() -> Result<(), Box<dyn std::error::Error>> {
/// let duration = SignedDuration::milliseconds(-90_500);
/// assert_eq!(duration_texts::seconds_text(duration).as_str(), "-90.5");
/// # Ok(())
/// # }
/// ```
///
/// # Contract
///
/// ```text
/// ensures text { result ≡ seconds_text duration }
/// ensures length { length result ≤ 31 }
/// ensures back { Derives result duration }
/// ```
///
/// [docs/proofs/STATEMENT.md](crate::proved#contracts) explains the words.
#[inline]
pub fn seconds_text(duration: SignedDuration) -> Text {
    written_seconds(duration)
}

// The seconds of a duration as a decimal.
/// # Contract
///
/// ```text
/// ensures in_range { IsDuration duration }
/// ensures text { result ≡ seconds_text duration }
/// ensures length { length result ≤ 31 }
/// ```
///
/// [docs/proofs/STATEMENT.md](crate::proved#contracts) explains the words.
#[inline]
fn written_seconds(duration: SignedDuration) -> Text {
    let mut text = Text::new();
    push_sign(&mut text, duration);
    let (seconds, nanoseconds) = magnitude(duration);
    push_seconds(&mut text, seconds, nanoseconds);
    text
}

// Adds a minus before a negative duration.
/// # Contract
///
/// ```text
/// requires { length text.old < text_capacity }
/// ensures text { text.new ≡ text.old ++ sign_text (sign_of duration) }
/// ensures length { length text.new ≤ length text.old + 1 }
/// ```
///
/// [docs/proofs/STATEMENT.md](crate::proved#contracts) explains the words.
#[inline]
pub(crate) const fn push_sign(text: &mut Text, duration: SignedDuration) {
    if duration.is_negative() {
        text.push(b'-');
    }
}

// The whole seconds of a duration without its sign, and the nanoseconds that they leave.
/// # Contract
///
/// ```text
/// ensures in_range { IsDuration duration }
/// ensures seconds { result.0 ≡ unsigned_abs duration / nanos_per_second }
/// ensures nanoseconds { result.1 ≡ unsigned_abs duration % nanos_per_second }
/// ```
///
/// [docs/proofs/STATEMENT.md](crate::proved#contracts) explains the words.
#[inline]
pub(crate) const fn magnitude(duration: SignedDuration) -> (u64, u32) {
    (
        duration.whole_seconds().unsigned_abs(),
        duration.subsec_nanoseconds().unsigned_abs(),
    )
}

// Adds seconds and nanoseconds of a second as a decimal of seconds.
/// # Contract
///
/// ```text
/// requires nanoseconds { nanoseconds < nanos_per_second }
/// requires room { length text.old + 30 ≤ text_capacity }
/// ensures text { text.new ≡ text.old ++ number_text (seconds_number seconds nanoseconds) }
/// ensures length { length text.new ≤ length text.old + 30 }
/// ```
///
/// [docs/proofs/STATEMENT.md](crate::proved#contracts) explains the words.
#[inline]
fn push_seconds(text: &mut Text, seconds: u64, nanoseconds: u32) {
    text.push_decimal(seconds);
    if nanoseconds > 0 {
        text.push(b'.');
        text.push_fraction(nanoseconds);
    }
}
