// Made by make/erase of crates/zone_files/src/names.rt. Do not edit.
//! The names of a rule's text.
use crate::proved::zone_files::faults::{RuleFault, Stop, stop_at};
use crate::proved::zone_files::numbers::after_byte;
use crate::proved::zone_files::pieces::{Kind, split};

// A name of letters.
/// # Contract
///
/// ```text
/// ensures { result_map_both (λ read. (read.0.now, read.1.now)) (λ stop. stop) result
///     ≡ letters_at text.now }
/// ```
///
/// [docs/proofs/STATEMENT.md](crate::proved#contracts) explains the words.
#[inline]
fn letters(text: &[u8]) -> Result<(&[u8], &[u8]), Stop> {
    let (name, rest) = split(Kind::Letter, text);
    if name.len() < 3 {
        return Err(stop_at(RuleFault::Name, text));
    }
    Ok((name, rest))
}

// A name before >.
/// # Contract
///
/// ```text
/// ensures { result_map_both (λ read. (read.0.now, read.1.now)) (λ stop. stop) result
///     ≡ quoted_at text.now }
/// ```
///
/// [docs/proofs/STATEMENT.md](crate::proved#contracts) explains the words.
#[inline]
fn quoted_name(text: &[u8]) -> Result<(&[u8], &[u8]), Stop> {
    let (name, rest) = split(Kind::Quoted, text);
    if name.len() < 3 {
        return Err(stop_at(RuleFault::Name, text));
    }
    let rest = after_byte(b'>', rest)?;
    Ok((name, rest))
}

// A name: letters, or letters, digits and signs between < and >.
/// # Contract
///
/// ```text
/// ensures { result_map_both (λ read. (read.0.now, read.1.now)) (λ stop. stop) result
///     ≡ name_at text.now }
/// ```
///
/// [docs/proofs/STATEMENT.md](crate::proved#contracts) explains the words.
#[inline]
pub(crate) fn name(text: &[u8]) -> Result<(&[u8], &[u8]), Stop> {
    match text.split_first() {
        Some((b'<', rest)) => quoted_name(rest),
        _ => letters(text),
    }
}
