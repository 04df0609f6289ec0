// Made by make/erase of crates/calendar_values/src/text.rt. Do not edit.
//! Texts, in a table of fixed size that takes no memory of an allocator.
use std::fmt;
// The most bytes that a text has.
const CAPACITY: usize = 64;

/// An ASCII text of at most 64 bytes. A contract sees the list of its bytes.
#[derive(Clone)]
pub struct Text {
    bytes: [u8; CAPACITY],
    len: usize,
}

impl Text {
    /// The empty text.
    ///
    /// ```
    /// # use muxandu::proved::*;
    /// # fn main() -> Result<(), Box<dyn std::error::Error>> {
    /// assert_eq!(Text::new().as_str(), "");
    /// # Ok(())
    /// # }
    /// ```
    ///
    /// # Contract
    ///
    /// ```text
    /// ensures { result ≡ [] }
    /// ```
    ///
    /// [docs/proofs/STATEMENT.md](crate::proved#contracts) explains the words.
    #[inline]
    pub const fn new() -> Text {
        Text {
            bytes: [0; CAPACITY],
            len: 0,
        }
    }

    /// Adds an ASCII character.
    ///
    /// # Contract
    ///
    /// ```text
    /// requires room { length self.old < text_capacity }
    /// requires ascii { byte < 128 }
    /// ensures value { self.new ≡ self.old ++ byte ∷ [] }
    /// ensures length { length self.new ≡ length self.old + 1 }
    /// ```
    ///
    /// [docs/proofs/STATEMENT.md](crate::proved#contracts) explains the words.
    #[inline]
    pub(in crate::proved) const fn push(&mut self, byte: u8) {
        self.bytes[self.len] = byte;
        self.len += 1;
    }

    /// Adds ASCII characters.
    ///
    /// # Contract
    ///
    /// ```text
    /// requires room { length self.old + length bytes.now ≤ text_capacity }
    /// requires ascii { IsAscii bytes.now }
    /// ensures value { self.new ≡ self.old ++ bytes.now }
    /// ensures length { length self.new ≡ length self.old + length bytes.now }
    /// ```
    ///
    /// [docs/proofs/STATEMENT.md](crate::proved#contracts) explains the words.
    #[inline]
    pub(in crate::proved) fn push_bytes(&mut self, bytes: &[u8]) {
        let end = self.len + bytes.len();
        self.bytes[self.len..end].copy_from_slice(bytes);
        self.len = end;
    }

    /// Adds the last two decimal digits of a number.
    ///
    /// # Contract
    ///
    /// ```text
    /// requires { length self.old + 2 ≤ text_capacity }
    /// ensures value { self.new ≡ self.old ++ last_digits 2 number }
    /// ensures length { length self.new ≡ length self.old + 2 }
    /// ```
    ///
    /// [docs/proofs/STATEMENT.md](crate::proved#contracts) explains the words.
    #[inline]
    pub(in crate::proved) fn push_two_digits(&mut self, number: u8) {
        self.push_bytes(&[b'0' + number / 10 % 10, b'0' + number % 10]);
    }

    /// Adds the last four decimal digits of a number.
    ///
    /// # Contract
    ///
    /// ```text
    /// requires { length self.old + 4 ≤ text_capacity }
    /// ensures value { self.new ≡ self.old ++ last_digits 4 number }
    /// ensures length { length self.new ≡ length self.old + 4 }
    /// ```
    ///
    /// [docs/proofs/STATEMENT.md](crate::proved#contracts) explains the words.
    #[inline]
    pub(in crate::proved) fn push_four_digits(&mut self, number: u32) {
        self.push_bytes(&[
            b'0' + (number / 1_000 % 10) as u8,
            b'0' + (number / 100 % 10) as u8,
            b'0' + (number / 10 % 10) as u8,
            b'0' + (number % 10) as u8,
        ]);
    }

    /// Adds a number in decimal digits, with no zeros in front.
    ///
    /// # Contract
    ///
    /// ```text
    /// requires { length self.old + 20 ≤ text_capacity }
    /// ensures value { self.new ≡ self.old ++ decimal number }
    /// ensures length { length self.new ≡ length self.old + length (decimal number) }
    /// ensures at_most { length self.new ≤ length self.old + 20 }
    /// ```
    ///
    /// [docs/proofs/STATEMENT.md](crate::proved#contracts) explains the words.
    #[inline]
    pub(in crate::proved) const fn push_decimal(&mut self, number: u64) {
        if number < 10 {
            self.push(b'0' + number as u8);
        } else {
            self.push_decimal(number / 10);
            self.push(b'0' + (number % 10) as u8);
        }
    }

    /// Adds a number of one or two decimal digits, with no zero in front.
    ///
    /// # Contract
    ///
    /// ```text
    /// requires number { number < 100 }
    /// requires room { length self.old + 2 ≤ text_capacity }
    /// ensures value { self.new ≡ self.old ++ decimal number }
    /// ensures length { length self.new ≤ length self.old + 2 }
    /// ```
    ///
    /// [docs/proofs/STATEMENT.md](crate::proved#contracts) explains the words.
    #[inline]
    pub(crate) fn push_short_decimal(&mut self, number: u8) {
        if number < 10 {
            self.push(b'0' + number);
        } else {
            self.push_two_digits(number);
        }
    }

    /// Adds an ASCII mark and the last two digits of a number, as `:05`.
    ///
    /// # Contract
    ///
    /// ```text
    /// requires room { length self.old + 3 ≤ text_capacity }
    /// requires ascii { mark < 128 }
    /// ensures value { self.new ≡ self.old ++ mark ∷ [] ++ last_digits 2 number }
    /// ensures length { length self.new ≡ length self.old + 3 }
    /// ```
    ///
    /// [docs/proofs/STATEMENT.md](crate::proved#contracts) explains the words.
    #[inline]
    pub(in crate::proved) fn push_part(&mut self, mark: u8, number: u8) {
        self.push_bytes(&[mark, b'0' + number / 10 % 10, b'0' + number % 10]);
    }

    /// Adds a nanosecond of the second as the digits of a fraction: nine digits without the zeros
    /// at their end, but at least one digit.
    ///
    /// # Contract
    ///
    /// ```text
    /// requires { length self.old + 9 ≤ text_capacity }
    /// ensures value { self.new ≡ self.old ++ fraction_digits 9 nanosecond }
    /// ensures length { length self.new ≤ length self.old + 9 }
    /// ```
    ///
    /// [docs/proofs/STATEMENT.md](crate::proved#contracts) explains the words.
    #[inline]
    pub(in crate::proved) fn push_fraction(&mut self, nanosecond: u32) {
        self.push(b'0' + (nanosecond / 100_000_000 % 10) as u8);
        self.push_four_digits(nanosecond / 10_000);
        self.push_four_digits(nanosecond);
        let mut digits = nanosecond;
        let mut count = 9u32;
        while count > 1 && digits % 10 == 0 {
            digits /= 10;
            count -= 1;
            self.pop();
        }
    }

    // Takes the last character away.
    /// # Contract
    ///
    /// ```text
    /// requires { 0 < length self.old }
    /// ensures { self.new ≡ take (length self.old - 1) self.old }
    /// ```
    ///
    /// [docs/proofs/STATEMENT.md](crate::proved#contracts) explains the words.
    #[inline]
    const fn pop(&mut self) {
        self.len -= 1;
    }

    /// The bytes.
    ///
    /// ```
    /// # use muxandu::proved::*;
    /// # fn main() -> Result<(), Box<dyn std::error::Error>> {
    /// assert_eq!(Month::May.text().as_bytes(), b"May");
    /// # Ok(())
    /// # }
    /// ```
    ///
    /// # Contract
    ///
    /// ```text
    /// ensures value { result.now ≡ self.now }
    /// ensures length { length result.now ≤ text_capacity }
    /// ensures ascii { IsAscii result.now }
    /// ```
    ///
    /// [docs/proofs/STATEMENT.md](crate::proved#contracts) explains the words.
    #[inline]
    pub fn as_bytes(&self) -> &[u8] {
        &self.bytes[..self.len]
    }

    /// The text.
    ///
    /// ```
    /// # use muxandu::proved::*;
    /// # fn main() -> Result<(), Box<dyn std::error::Error>> {
    /// assert_eq!(Time::MIDNIGHT.text().as_str(), "0:00:00.0");
    /// # Ok(())
    /// # }
    /// ```
    ///
    /// # Contract
    ///
    /// ```text
    /// ensures { result.now ≡ self.now }
    /// ```
    ///
    /// [docs/proofs/STATEMENT.md](crate::proved#contracts) explains the words.
    #[inline]
    pub fn as_str(&self) -> &str {
        core::str::from_utf8(self.as_bytes()).unwrap()
    }
}

/// # Contract
///
/// ```text
/// ghost output = { λ t. Some t };
/// ghost styled_output = { λ t spec. Some (padded spec t) };
/// ```
///
/// [docs/proofs/STATEMENT.md](crate::proved#contracts) explains the words.
impl fmt::Display for Text {
    #[inline]
    fn fmt(&self, f: &mut fmt::Formatter) -> fmt::Result {
        f.pad(self.as_str())
    }
}

/// # Contract
///
/// ```text
/// ghost debug_output = { λ t. Some t };
/// ```
///
/// [docs/proofs/STATEMENT.md](crate::proved#contracts) explains the words.
impl fmt::Debug for Text {
    #[inline]
    fn fmt(&self, f: &mut fmt::Formatter) -> fmt::Result {
        f.write_str(self.as_str())
    }
}
