// Made by make/erase of crates/local_texts/src/in_utc.rt. Do not edit.
//! Texts without an offset as texts in UTC, which have at most 30 bytes.
/// The bytes of the longest text that [`write_date_time_in_utc`] or [`write_time_in_utc`] writes.
pub const UTC_ROOM: usize = 30;

// The bytes up to the ninth digit of the fraction.
const TO_NINTH_DIGIT: usize = 29;

// A day for a time of day without one.
const SOME_DATE: &[u8] = b"1970-01-01T";

/// Writes the text of a date-time without an offset to the front of `room`, with a `Z` at its end,
/// and returns the length. It leaves out the digits past the ninth of the fraction. It writes texts
/// of another form too. The written text has the form of RFC 3339 if and only if `text` has it
/// without an offset. None if `text` is longer than nine digits of the fraction and cannot have the
/// form.
///
/// ```
/// # use muxandu::proved::*;
/// # fn main() -> Result<(), Box<dyn std::error::Error>> {
/// let mut room = [0; local_texts::UTC_ROOM];
/// let length = local_texts::write_date_time_in_utc(b"2024-02-29 12:34:56.5", &mut room);
/// assert_eq!(length, Some(22));
/// assert_eq!(rfc3339::parse_rfc3339(&room[..22])?.hour(), 12);
/// # Ok(())
/// # }
/// ```
///
/// # Contract
///
/// ```text
/// ensures length { IfSome result (λ n. n ≤ 30) }
/// ensures same { IfSome result (λ n.
///     parts_at (take n room.new) ≡ parts_at (date_time_in_utc text.now)) }
/// ensures other { IfNone result (parts_at (date_time_in_utc text.now) ≡ None) }
/// ensures written { IfSome result (λ n.
///     room.new ≡ date_time_in_utc (take 29 text.now) ++ drop n room.old) }
/// ensures some { SomeIff result (IsTrue (list_all is_ascii_digit (drop 29 text.now)))
///     (length (take 29 text.now) + 1) }
/// ensures unchanged { IfNone result (room.new ≡ room.old) }
/// ```
///
/// [docs/proofs/STATEMENT.md](crate::proved#contracts) explains the words.
#[inline]
pub fn write_date_time_in_utc(text: &[u8], room: &mut [u8; 30]) -> Option<usize> {
    write_in_utc(b"", text, room)
}

/// Writes the text of a time of day to the front of `room` as one of 1970-01-01 in UTC, as
/// [`write_date_time_in_utc`] does.
///
/// ```
/// # use muxandu::proved::*;
/// # fn main() -> Result<(), Box<dyn std::error::Error>> {
/// let mut room = [0; local_texts::UTC_ROOM];
/// assert_eq!(local_texts::write_time_in_utc(b"12:34:56", &mut room), Some(20));
/// assert_eq!(rfc3339::parse_rfc3339(&room[..20])?.unix_timestamp(), 45_296);
/// # Ok(())
/// # }
/// ```
///
/// # Contract
///
/// ```text
/// ensures length { IfSome result (λ n. n ≤ 30) }
/// ensures same { IfSome result (λ n.
///     parts_at (take n room.new) ≡ parts_at (time_in_utc text.now)) }
/// ensures other { IfNone result (parts_at (time_in_utc text.now) ≡ None) }
/// ensures written { IfSome result (λ n.
///     room.new ≡ time_in_utc (take 18 text.now) ++ drop n room.old) }
/// ensures some { SomeIff result (IsTrue (list_all is_ascii_digit (drop 18 text.now)))
///     (length (take 18 text.now) + 12) }
/// ensures unchanged { IfNone result (room.new ≡ room.old) }
/// ```
///
/// [docs/proofs/STATEMENT.md](crate::proved#contracts) explains the words.
#[inline]
pub fn write_time_in_utc(text: &[u8], room: &mut [u8; 30]) -> Option<usize> {
    write_in_utc(SOME_DATE, text, room)
}

// The same after a date, or after nothing.
/// # Contract
///
/// ```text
/// requires { length date.now ≤ 11 }
/// ensures length { IfSome result (λ n. n ≤ 30) }
/// ensures same { IfSome result (λ n.
///     parts_at (take n room.new) ≡ parts_at (date.now ++ text.now ++ codes "Z")) }
/// ensures other { IfNone result (parts_at (date.now ++ text.now ++ codes "Z") ≡ None) }
/// ensures written { let most = 29 - length date.now in IfSome result (λ n.
///     room.new ≡ (date.now ++ take most text.now ++ codes "Z") ++ drop n room.old) }
/// ensures some { let most = 29 - length date.now in
///     SomeIff result (IsTrue (list_all is_ascii_digit (drop most text.now)))
///     (length date.now + length (take most text.now) + 1) }
/// ensures unchanged { IfNone result (room.new ≡ room.old) }
/// ```
///
/// [docs/proofs/STATEMENT.md](crate::proved#contracts) explains the words.
#[inline]
pub(crate) fn write_in_utc(date: &[u8], text: &[u8], room: &mut [u8; 30]) -> Option<usize> {
    let most = TO_NINTH_DIGIT - date.len();
    if text.len() <= most {
        return Some(put_in_utc(date, text, room));
    }
    let (front, digits) = text.split_at(most);
    if are_digits(digits) {
        Some(put_in_utc(date, front, room))
    } else {
        None
    }
}

// Puts a date, a text and a `Z` one after the other, and returns the number of their bytes.
/// # Contract
///
/// ```text
/// requires { length date.now + length text.now ≤ 29 }
/// ensures length { result ≡ length date.now + length text.now + 1 }
/// ensures written { take result room.new ≡ date.now ++ text.now ++ codes "Z" }
/// ensures whole { room.new
///     ≡ (date.now ++ text.now ++ codes "Z") ++ drop result room.old }
/// ```
///
/// [docs/proofs/STATEMENT.md](crate::proved#contracts) explains the words.
#[inline]
fn put_in_utc(date: &[u8], text: &[u8], room: &mut [u8; 30]) -> usize {
    let end = date.len() + text.len();
    room[..date.len()].copy_from_slice(date);
    room[date.len()..end].copy_from_slice(text);
    room[end] = b'Z';
    end + 1
}

// Whether each byte is a digit.
/// # Contract
///
/// ```text
/// ensures { result ≡ list_all is_ascii_digit bytes.now }
/// ```
///
/// [docs/proofs/STATEMENT.md](crate::proved#contracts) explains the words.
#[inline]
pub(crate) fn are_digits(bytes: &[u8]) -> bool {
    bytes.iter().all(|byte| byte.is_ascii_digit())
}
