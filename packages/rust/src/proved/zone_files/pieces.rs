// Made by make/erase of crates/zone_files/src/pieces.rt. Do not edit.
//! A text in two pieces: the bytes in front that are of one kind, and what follows them.
// A kind of bytes.
#[derive(Clone, Copy)]
pub(crate) enum Kind {
    Digit,
    Letter,
    Quoted,
    Line,
    Named,
}

// The bytes in front that are of a kind, and what follows them.
/// # Contract
///
/// ```text
/// ensures front { result.0.now ≡ front (is_of kind) text.now }
/// ensures past { result.1.now ≡ past (is_of kind) text.now }
/// ```
///
/// [docs/proofs/STATEMENT.md](crate::proved#contracts) explains the words.
#[inline]
pub(crate) fn split(kind: Kind, text: &[u8]) -> (&[u8], &[u8]) {
    text.split_at(count(kind, text))
}

// The number of bytes in front that are of a kind.
/// # Contract
///
/// ```text
/// ensures count { result ≡ length (front (is_of kind) text.now) }
/// ensures within { result ≤ length text.now }
/// ```
///
/// [docs/proofs/STATEMENT.md](crate::proved#contracts) explains the words.
#[inline]
fn count(kind: Kind, text: &[u8]) -> usize {
    for (k, byte) in text.iter().enumerate() {
        if !is_of(kind, *byte) {
            return k;
        }
    }
    text.len()
}

// Whether a byte is of a kind.
/// # Contract
///
/// ```text
/// ensures { result ≡ is_of kind byte }
/// ```
///
/// [docs/proofs/STATEMENT.md](crate::proved#contracts) explains the words.
#[inline]
const fn is_of(kind: Kind, byte: u8) -> bool {
    match kind {
        Kind::Digit => byte.is_ascii_digit(),
        Kind::Letter => byte.is_ascii_alphabetic(),
        Kind::Quoted => is_quoted(byte),
        Kind::Line => byte != b'\n',
        Kind::Named => byte != 0,
    }
}

// Whether a byte is of a name between < and >.
/// # Contract
///
/// ```text
/// ensures { result ≡ is_quoted byte }
/// ```
///
/// [docs/proofs/STATEMENT.md](crate::proved#contracts) explains the words.
#[inline]
const fn is_quoted(byte: u8) -> bool {
    byte.is_ascii_alphanumeric() || byte == b'+' || byte == b'-'
}
