// Made by make/erase of crates/rfc3339/src/write_unix.rt. Do not edit.
//! Unix seconds written with a fraction of fixed width.
use crate::proved::rfc3339::write::push_whole_fraction;
use crate::proved::calendar_values::Text;
use crate::proved::utc_times::UtcDateTime;

/// The Unix seconds of an instant, as a signed decimal with a point and nine digits:
/// `1722500000.000000000`, and half a second before 1970 `-0.500000000`.
///
/// ```
/// # use muxandu::proved::*;
/// # fn main() -> Result<(), Box<dyn std::error::Error>> {
/// let before = UtcDateTime::from_unix_timestamp_nanos(-1)?;
/// assert_eq!(rfc3339::to_unix_nanos(before).as_str(), "-0.000000001");
/// # Ok(())
/// # }
/// ```
///
/// # Contract
///
/// ```text
/// ensures text { result ≡ unix_text at }
/// ensures length { length result ≤ 31 }
/// ```
///
/// [docs/proofs/STATEMENT.md](crate::proved#contracts) explains the words.
#[inline]
pub fn to_unix_nanos(at: UtcDateTime) -> Text {
    let (seconds, nanoseconds) = magnitude(at);
    let mut text = Text::new();
    if at.unix_timestamp() < 0 {
        text.push(b'-');
    }
    text.push_decimal(seconds);
    push_whole_fraction(&mut text, nanoseconds);
    text
}

// The whole seconds from 1970 or to it, and the nanoseconds that they leave.
/// # Contract
///
/// ```text
/// ensures seconds { result.0 ≡ unsigned_abs at / nanos_per_second }
/// ensures nanoseconds { result.1 ≡ unsigned_abs at % nanos_per_second }
/// ```
///
/// [docs/proofs/STATEMENT.md](crate::proved#contracts) explains the words.
#[inline]
const fn magnitude(at: UtcDateTime) -> (u64, u32) {
    let seconds = at.unix_timestamp();
    if seconds >= 0 {
        return (seconds as u64, at.nanosecond());
    }
    let size = at.unix_timestamp_nanos().unsigned_abs();
    ((size / 1_000_000_000) as u64, (size % 1_000_000_000) as u32)
}
