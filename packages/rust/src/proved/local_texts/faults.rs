// Made by make/erase of crates/local_texts/src/faults.rt. Do not edit.
//! Where a text without an offset or without a date has not the form.
use crate::proved::rfc3339::full_time_fault;

/// The index of the fault in a text that [`parse_date_time`](crate::proved::local_texts::parse_date_time) rejects with
/// `Syntax`: 19 for `1985-04-12T23:20:50Z`. No date-time without an offset continues with the byte
/// at that index; or the text ends there, too early. For a text of the form it is the length of the
/// text.
///
/// ```
/// # use muxandu::proved::*;
/// # fn main() -> Result<(), Box<dyn std::error::Error>> {
/// assert_eq!(local_texts::date_time_fault(b"1985-04-12T23:20:50Z"), 19);
/// # Ok(())
/// # }
/// ```
///
/// # Contract
///
/// ```text
/// ensures at_most { result ≤ length text.now }
/// ensures begins { (rest : List ℕ) × (p : Parts) ×
///     IsLocalDateTime (take result text.now ++ rest) p }
/// ensures longest { (n : ℕ) (rest : List ℕ) (p : Parts) → n ≤ length text.now
///     → IsLocalDateTime (take n text.now ++ rest) p → n ≤ result }
/// ```
///
/// [docs/proofs/STATEMENT.md](crate::proved#contracts) explains the words.
#[inline]
pub fn date_time_fault(text: &[u8]) -> usize {
    valid_bytes(0, text)
}

/// The index of the fault in a text that [`parse_time`](crate::proved::local_texts::parse_time) rejects with `Syntax`,
/// as [`date_time_fault`] returns it: 5 for `23:20Z`.
///
/// ```
/// # use muxandu::proved::*;
/// # fn main() -> Result<(), Box<dyn std::error::Error>> {
/// assert_eq!(local_texts::time_fault(b"23:20Z"), 5);
/// # Ok(())
/// # }
/// ```
///
/// # Contract
///
/// ```text
/// ensures at_most { result ≤ length text.now }
/// ensures begins { (rest : List ℕ) × (p : Parts) ×
///     IsLocalTime (take result text.now ++ rest) p }
/// ensures longest { (n : ℕ) (rest : List ℕ) (p : Parts) → n ≤ length text.now
///     → IsLocalTime (take n text.now ++ rest) p → n ≤ result }
/// ```
///
/// [docs/proofs/STATEMENT.md](crate::proved#contracts) explains the words.
#[inline]
pub fn time_fault(text: &[u8]) -> usize {
    valid_bytes(11, text)
}

/// The index of the fault in a text that
/// [`parse_time_with_offset`](crate::proved::local_texts::parse_time_with_offset) rejects with `Syntax`, as
/// [`date_time_fault`] returns it: 8 for `23:20:50`.
///
/// ```
/// # use muxandu::proved::*;
/// # fn main() -> Result<(), Box<dyn std::error::Error>> {
/// assert_eq!(local_texts::time_with_offset_fault(b"23:20:50+1:00"), 10);
/// # Ok(())
/// # }
/// ```
///
/// # Contract
///
/// ```text
/// ensures at_most { result ≤ length text.now }
/// ensures begins { (rest : List ℕ) × (p : Parts) ×
///     IsFullTime (take result text.now ++ rest) p }
/// ensures longest { (n : ℕ) (rest : List ℕ) (p : Parts) → n ≤ length text.now
///     → IsFullTime (take n text.now ++ rest) p → n ≤ result }
/// ```
///
/// [docs/proofs/STATEMENT.md](crate::proved#contracts) explains the words.
#[inline]
pub fn time_with_offset_fault(text: &[u8]) -> usize {
    full_time_fault(text)
}

// The number of bytes that are valid from a place on.
/// # Contract
///
/// ```text
/// requires { place ≤ 11 }
/// ensures count { result ≡ valid_bytes place text.now }
/// ensures at_most { result ≤ length text.now }
/// ```
///
/// [docs/proofs/STATEMENT.md](crate::proved#contracts) explains the words.
#[inline]
pub(crate) fn valid_bytes(place: usize, text: &[u8]) -> usize {
    for (k, byte) in text.iter().enumerate() {
        if !is_valid_at(place + k, *byte) {
            return k;
        }
    }
    text.len()
}

// Whether a byte is valid at a place.
/// # Contract
///
/// ```text
/// ensures { result ≡ is_valid_at place byte }
/// ```
///
/// [docs/proofs/STATEMENT.md](crate::proved#contracts) explains the words.
#[inline]
const fn is_valid_at(place: usize, byte: u8) -> bool {
    match place {
        4 | 7 => byte == b'-',
        10 => byte == b'T' || byte == b't' || byte == b' ',
        13 | 16 => byte == b':',
        19 => byte == b'.',
        _ => byte.is_ascii_digit(),
    }
}
