// Made by make/erase of crates/zone_files/src/clocks.rt. Do not edit.
//! The clocks of a rule's text: hours, perhaps minutes and seconds, and a sign.
use crate::proved::zone_files::faults::Stop;
use crate::proved::zone_files::numbers::{Field, number};

// The seconds after a colon, or none.
/// # Contract
///
/// ```text
/// ensures value { result_map_both (λ read. (read.0, read.1.now)) (λ stop. stop) result
///     ≡ seconds_at text.now }
/// ensures bound { IfOk result (λ read. read.0 ≤ 59) }
/// ```
///
/// [docs/proofs/STATEMENT.md](crate::proved#contracts) explains the words.
#[inline]
fn seconds(text: &[u8]) -> Result<(u16, &[u8]), Stop> {
    match text.split_first() {
        Some((b':', rest)) => number(Field::Sixtieth, rest),
        _ => Ok((0, text)),
    }
}

// Minutes, and perhaps seconds, in seconds.
/// # Contract
///
/// ```text
/// ensures value { result_map_both (λ read. (read.0, read.1.now)) (λ stop. stop) result
///     ≡ sixtieths_at text.now }
/// ensures bound { IfOk result (λ read. read.0 ≤ 3_599) }
/// ```
///
/// [docs/proofs/STATEMENT.md](crate::proved#contracts) explains the words.
#[inline]
fn sixtieths(text: &[u8]) -> Result<(u16, &[u8]), Stop> {
    let (minutes, rest) = number(Field::Sixtieth, text)?;
    let (more, rest) = seconds(rest)?;
    Ok((minutes * 60 + more, rest))
}

// The minutes and seconds after a colon, or none.
/// # Contract
///
/// ```text
/// ensures value { result_map_both (λ read. (read.0, read.1.now)) (λ stop. stop) result
///     ≡ minutes_at text.now }
/// ensures bound { IfOk result (λ read. read.0 ≤ 3_599) }
/// ```
///
/// [docs/proofs/STATEMENT.md](crate::proved#contracts) explains the words.
#[inline]
fn minutes(text: &[u8]) -> Result<(u16, &[u8]), Stop> {
    match text.split_first() {
        Some((b':', rest)) => sixtieths(rest),
        _ => Ok((0, text)),
    }
}

// Hours, and perhaps minutes and seconds, in seconds.
/// # Contract
///
/// ```text
/// ensures value { result_map_both (λ read. (read.0, read.1.now)) (λ stop. stop) result
///     ≡ clock_at hours text.now }
/// ensures bound { IfOk result (λ read. read.0 ≤ high hours * 3_600 + 3_599) }
/// ```
///
/// [docs/proofs/STATEMENT.md](crate::proved#contracts) explains the words.
#[inline]
fn clock(hours: Field, text: &[u8]) -> Result<(u32, &[u8]), Stop> {
    let (count, rest) = number(hours, text)?;
    let (more, rest) = minutes(rest)?;
    Ok((count as u32 * 3_600 + more as u32, rest))
}

// Whether a minus stands in front, and what follows the sign.
/// # Contract
///
/// ```text
/// ensures { (result.0, result.1.now) ≡ sign_at text.now }
/// ```
///
/// [docs/proofs/STATEMENT.md](crate::proved#contracts) explains the words.
#[inline]
const fn sign(text: &[u8]) -> (bool, &[u8]) {
    match text.split_first() {
        Some((b'-', rest)) => (true, rest),
        Some((b'+', rest)) => (false, rest),
        _ => (false, text),
    }
}

// A number with a sign.
/// # Contract
///
/// ```text
/// requires { count ≤ 700_000 }
/// ensures value { result ≡ with_sign negative count }
/// ensures low { neg_ℤ (pos count) ≤ℤ result }
/// ensures high { result ≤ℤ pos count }
/// ```
///
/// [docs/proofs/STATEMENT.md](crate::proved#contracts) explains the words.
#[inline]
const fn with_sign(negative: bool, count: u32) -> i32 {
    if negative {
        -(count as i32)
    } else {
        count as i32
    }
}

// A clock with a sign.
/// # Contract
///
/// ```text
/// requires { high hours ≤ 167 }
/// ensures value { result_map_both (λ read. (read.0, read.1.now)) (λ stop. stop) result
///     ≡ signed_at hours text.now }
/// ensures low { IfOk result (λ read. neg_ℤ (pos (high hours * 3_600 + 3_599)) ≤ℤ read.0) }
/// ensures high { IfOk result (λ read. read.0 ≤ℤ pos (high hours * 3_600 + 3_599)) }
/// ```
///
/// [docs/proofs/STATEMENT.md](crate::proved#contracts) explains the words.
#[inline]
pub(crate) fn signed(hours: Field, text: &[u8]) -> Result<(i32, &[u8]), Stop> {
    let (negative, rest) = sign(text);
    let (count, rest) = clock(hours, rest)?;
    Ok((with_sign(negative, count), rest))
}
