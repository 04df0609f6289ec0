// Made by make/erase of crates/rfc3339/src/fault.rt. Do not edit.
//! Where a text has not the form.
// The place after the separator of the date and the time of day.
const AFTER_SEPARATOR: u8 = 11;

// The places of the form after the 19 bytes of the date and of the time of day: before a point or an offset,
const AFTER_SECOND: u8 = 19;

// after the point,
const AFTER_POINT: u8 = 20;

// after a digit of the fraction,
const IN_FRACTION: u8 = 21;

// after the sign of an offset, with the hours, a colon and the minutes from there on,
const AFTER_SIGN: u8 = 22;

// before that colon,
const BEFORE_COLON: u8 = 24;

// and after the end. A byte that may not be where it is leads nowhere.
const END: u8 = 27;

const NOWHERE: u8 = 28;

/// The index of the fault in a text that fails with `Syntax`: 10 for `1985-04-12_23:20:50Z`. No
/// text of the form continues with the byte at that index; or the text ends there, too early. For a
/// text of the form it is the length of the text.
///
/// ```
/// # use muxandu::proved::*;
/// # fn main() -> Result<(), Box<dyn std::error::Error>> {
/// assert_eq!(rfc3339::syntax_fault(b"1937-01-01T12:00"), 16);
/// # Ok(())
/// # }
/// ```
///
/// # Contract
///
/// ```text
/// ensures place { result ≡ standing 0 text.now }
/// ensures at_most { result ≤ length text.now }
/// ensures begins { (rest : List ℕ) × (p : Parts) × IsDateTime (take result text.now ++ rest) p }
/// ensures longest { (n : ℕ) (rest : List ℕ) (p : Parts) → n ≤ length text.now
///     → IsDateTime (take n text.now ++ rest) p → n ≤ result }
/// ```
///
/// [docs/proofs/STATEMENT.md](crate::proved#contracts) explains the words.
#[inline]
pub fn syntax_fault(text: &[u8]) -> usize {
    standing(0, text)
}

/// The index of the fault in a text that has not the form of a time of day with an offset: 8 for
/// `12:34:56`. No text of the form continues with the byte at that index; or the text ends there,
/// too early. For a text of the form it is the length of the text.
///
/// ```
/// # use muxandu::proved::*;
/// # fn main() -> Result<(), Box<dyn std::error::Error>> {
/// assert_eq!(rfc3339::full_time_fault(b"23:20:50+1:00"), 10);
/// # Ok(())
/// # }
/// ```
///
/// # Contract
///
/// ```text
/// ensures at_most { result ≤ length text.now }
/// ensures begins { (rest : List ℕ) × (p : Parts) ×
///     IsDateTime (codes "1970-01-01T" ++ take result text.now ++ rest) p }
/// ensures longest { (n : ℕ) (rest : List ℕ) (p : Parts) → n ≤ length text.now
///     → IsDateTime (codes "1970-01-01T" ++ take n text.now ++ rest) p → n ≤ result }
/// ```
///
/// [docs/proofs/STATEMENT.md](crate::proved#contracts) explains the words.
#[inline]
pub fn full_time_fault(text: &[u8]) -> usize {
    standing(AFTER_SEPARATOR, text)
}

// How many bytes may stand where they do, from a place on.
/// # Contract
///
/// ```text
/// ensures place { result ≡ standing first text.now }
/// ensures at_most { result ≤ length text.now }
/// ```
///
/// [docs/proofs/STATEMENT.md](crate::proved#contracts) explains the words.
#[inline]
fn standing(first: u8, text: &[u8]) -> usize {
    let mut place = first;
    for (k, byte) in text.iter().enumerate() {
        place = next_place(place, *byte);
        if place == NOWHERE {
            return k;
        }
    }
    text.len()
}

// The place after a byte.
/// # Contract
///
/// ```text
/// ensures { result ≡ next_place place byte }
/// ```
///
/// [docs/proofs/STATEMENT.md](crate::proved#contracts) explains the words.
#[inline]
const fn next_place(place: u8, byte: u8) -> u8 {
    if place < AFTER_SECOND {
        return next_if(may_stand(place, byte), place);
    }
    match place {
        AFTER_SECOND => {
            if byte == b'.' {
                AFTER_POINT
            } else {
                place_in_offset(byte)
            }
        }
        AFTER_POINT => next_if(byte.is_ascii_digit(), AFTER_POINT),
        IN_FRACTION => {
            if byte.is_ascii_digit() {
                IN_FRACTION
            } else {
                place_in_offset(byte)
            }
        }
        BEFORE_COLON => next_if(byte == b':', BEFORE_COLON),
        AFTER_SIGN..END => next_if(byte.is_ascii_digit(), place),
        _ => NOWHERE,
    }
}

// The next place, if the byte may stand at this one.
/// # Contract
///
/// ```text
/// requires { place < 27 }
/// ensures { result ≡ if may_stand then place + 1 else 28 }
/// ```
///
/// [docs/proofs/STATEMENT.md](crate::proved#contracts) explains the words.
#[inline]
const fn next_if(may_stand: bool, place: u8) -> u8 {
    if may_stand { place + 1 } else { NOWHERE }
}

// Whether a byte may stand at one of the 19 places of the date and of the time of day.
/// # Contract
///
/// ```text
/// ensures { result ≡ may_stand place byte }
/// ```
///
/// [docs/proofs/STATEMENT.md](crate::proved#contracts) explains the words.
#[inline]
const fn may_stand(place: u8, byte: u8) -> bool {
    match place {
        4 | 7 => byte == b'-',
        10 => byte == b'T' || byte == b't' || byte == b' ',
        13 | 16 => byte == b':',
        _ => byte.is_ascii_digit(),
    }
}

// The place after the first byte of an offset.
/// # Contract
///
/// ```text
/// ensures { result ≡ place_in_offset byte }
/// ```
///
/// [docs/proofs/STATEMENT.md](crate::proved#contracts) explains the words.
#[inline]
const fn place_in_offset(byte: u8) -> u8 {
    match byte {
        b'Z' | b'z' => END,
        b'+' | b'-' => AFTER_SIGN,
        _ => NOWHERE,
    }
}
