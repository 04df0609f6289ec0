// Made by make/erase of crates/zone_files/src/zone_names.rt. Do not edit.
//! The names of zones.
// Whether a byte may follow the one before it in a name.
/// # Contract
///
/// ```text
/// ensures { result ≡ may_follow before byte }
/// ```
///
/// [docs/proofs/STATEMENT.md](crate::proved#contracts) explains the words.
#[inline]
const fn may_follow(before: u8, byte: u8) -> bool {
    if byte == b'/' || byte == b'.' {
        return before != b'/';
    }
    byte.is_ascii_alphanumeric() || byte == b'+' || byte == b'-' || byte == b'_'
}

/// Returns whether the text can be the name of a zone, such as `America/Port-au-Prince`. A name has
/// parts between slashes. Each part has letters, digits, `+`, `-`, `_` and `.`, and begins with no
/// `.`. So no name is an absolute path, or leads out of its folder.
///
/// # Contract
///
/// ```text
/// ensures { IsTrue result ↔ IsZoneName text.now }
/// ```
///
/// [docs/proofs/STATEMENT.md](crate::proved#contracts) explains the words.
#[inline]
pub fn is_zone_name(text: &[u8]) -> bool {
    let mut before = b'/';
    'bytes: for k in 0..text.len() {
        if !may_follow(before, text[k]) {
            return false;
        }
        before = text[k];
    }
    before != b'/'
}
