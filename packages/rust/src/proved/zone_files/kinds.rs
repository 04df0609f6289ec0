// Made by make/erase of crates/zone_files/src/kinds.rt. Do not edit.
//! The kinds of local time of a file.
use crate::proved::zone_files::blocks::{Block, long, signed_word};
use crate::proved::zone_files::pieces::{Kind, split};
use crate::proved::zones::TimeType;

// The abbreviation that begins at a place of their list.
/// # Contract
///
/// ```text
/// requires { k ≤ length names.now }
/// ensures { result.now ≡ name_from names.now k }
/// ```
///
/// [docs/proofs/STATEMENT.md](crate::proved#contracts) explains the words.
#[inline]
pub(crate) fn name_from(names: &[u8], k: usize) -> &[u8] {
    split(Kind::Named, &names[k..]).0
}

// The first place below a limit at which an abbreviation begins.
/// # Contract
///
/// ```text
/// requires { limit ≤ length names.now }
/// ensures place { IsPlaceOf names.now text.now limit result }
/// ensures below { IfSome result (λ k. k < limit) }
/// ```
///
/// [docs/proofs/STATEMENT.md](crate::proved#contracts) explains the words.
#[inline]
pub(crate) fn place_of(names: &[u8], text: &[u8], limit: usize) -> Option<usize> {
    'places: for k in 0..limit {
        if name_from(names, k) == text {
            return Some(k);
        }
    }
    None
}

// The first place of the abbreviation that begins at this one.
/// # Contract
///
/// ```text
/// requires within { k ≤ length names.now }
/// requires bound { k < 256 }
/// ensures named { name_from names.now result ≡ name_from names.now k }
/// ensures first { IsNowhere names.now (name_from names.now k) result }
/// ```
///
/// [docs/proofs/STATEMENT.md](crate::proved#contracts) explains the words.
#[inline]
fn number_of(names: &[u8], k: usize) -> u16 {
    match place_of(names, name_from(names, k), k) {
        Some(place) => place as u16,
        None => k as u16,
    }
}

// The kind of local time at a place.
/// # Contract
///
/// ```text
/// requires room { 6 * k + 6 ≤ length block.types.now }
/// requires kind { IsKind (block_parts block) k }
/// ensures { IsKindOf (block_parts block.entry) k result }
/// ```
///
/// [docs/proofs/STATEMENT.md](crate::proved#contracts) explains the words.
#[inline]
pub(crate) fn kind_at(block: Block<'_>, k: usize) -> TimeType {
    let name = block.types[6 * k + 5] as usize;
    TimeType {
        offset: signed_word(block.types, 6 * k) as i32,
        is_daylight: block.types[6 * k + 4] == 1,
        designation: number_of(block.names, name),
    }
}

// The second of a transition.
/// # Contract
///
/// ```text
/// requires { i * size_of is_wide + size_of is_wide ≤ length times.now }
/// ensures { result ≡ time_at is_wide times.now i }
/// ```
///
/// [docs/proofs/STATEMENT.md](crate::proved#contracts) explains the words.
#[inline]
pub(crate) const fn second_at(is_wide: bool, times: &[u8], i: usize) -> i64 {
    if is_wide {
        long(times, 8 * i)
    } else {
        signed_word(times, 4 * i)
    }
}
