// Made by make/erase of crates/zone_files/src/blocks.rt. Do not edit.
//! Headers and blocks.
use crate::proved::zone_files::counts::Counts;
use crate::proved::zone_files::file_faults::{FilePart, FileStop, stop_in_file};

// The length of a header.
const HEADER: usize = 44;

// A block without the marks.
#[derive(Clone, Copy)]
pub(crate) struct Block<'a> {
    pub(crate) times: &'a [u8],
    pub(crate) indexes: &'a [u8],
    pub(crate) types: &'a [u8],
    pub(crate) names: &'a [u8],
}

// The number of four bytes from a place on, the highest first.
/// # Contract
///
/// ```text
/// requires { k + 4 ≤ length bytes.now }
/// ensures { result ≡ word_at bytes.now k }
/// ```
///
/// [docs/proofs/STATEMENT.md](crate::proved#contracts) explains the words.
#[inline]
pub(crate) const fn word(bytes: &[u8], k: usize) -> u32 {
    bytes[k] as u32 * 16_777_216
        + bytes[k + 1] as u32 * 65_536
        + bytes[k + 2] as u32 * 256
        + bytes[k + 3] as u32
}

// The same with a sign.
/// # Contract
///
/// ```text
/// requires { k + 4 ≤ length bytes.now }
/// ensures value { result ≡ signed_word_at bytes.now k }
/// ensures low { neg_ℤ (pos 2_147_483_648) ≤ℤ result }
/// ensures high { result ≤ℤ pos 2_147_483_647 }
/// ```
///
/// [docs/proofs/STATEMENT.md](crate::proved#contracts) explains the words.
#[inline]
pub(crate) const fn signed_word(bytes: &[u8], k: usize) -> i64 {
    let number = word(bytes, k);
    if number < 2_147_483_648 {
        number as i64
    } else {
        number as i64 - 4_294_967_296
    }
}

// The number of eight bytes with a sign.
/// # Contract
///
/// ```text
/// requires { k + 8 ≤ length bytes.now }
/// ensures { result ≡ long_at bytes.now k }
/// ```
///
/// [docs/proofs/STATEMENT.md](crate::proved#contracts) explains the words.
#[inline]
pub(crate) const fn long(bytes: &[u8], k: usize) -> i64 {
    signed_word(bytes, k) * 4_294_967_296 + word(bytes, k + 4) as i64
}

// How many bytes in front, and what follows them.
/// # Contract
///
/// ```text
/// ensures value { result_map_both (λ read. (read.0.now, read.1.now)) (λ stop. stop) result
///     ≡ piece_at count bytes.now }
/// ensures length { IfOk result (λ read. length read.0.now ≡ count) }
/// ensures bound { IfOk result (λ read. count ≤ length bytes.now) }
/// ```
///
/// [docs/proofs/STATEMENT.md](crate::proved#contracts) explains the words.
#[inline]
const fn piece(count: usize, bytes: &[u8]) -> Result<(&[u8], &[u8]), FileStop> {
    if bytes.len() < count {
        return Err(FileStop {
            part: FilePart::Length,
            left: 0,
        });
    }
    Ok(bytes.split_at(count))
}

// Whether a header begins with TZif.
/// # Contract
///
/// ```text
/// requires { length header.now ≡ 44 }
/// ensures { result ≡ is_magic header.now }
/// ```
///
/// [docs/proofs/STATEMENT.md](crate::proved#contracts) explains the words.
#[inline]
const fn is_magic(header: &[u8]) -> bool {
    header[0] == b'T' && header[1] == b'Z' && header[2] == b'i' && header[3] == b'f'
}

// Whether a byte is that of a version.
/// # Contract
///
/// ```text
/// ensures { result ≡ is_version byte }
/// ```
///
/// [docs/proofs/STATEMENT.md](crate::proved#contracts) explains the words.
#[inline]
const fn is_version(byte: u8) -> bool {
    byte == 0 || byte == b'2' || byte == b'3' || byte == b'4'
}

// Whether the seconds of a file are those of Unix time, without leap seconds.
/// # Contract
///
/// ```text
/// requires { length header.now ≡ 44 }
/// ensures { result ≡ is_unix_time header.now }
/// ```
///
/// [docs/proofs/STATEMENT.md](crate::proved#contracts) explains the words.
#[inline]
const fn is_unix_time(header: &[u8]) -> bool {
    word(header, 28) == 0
}

// The counts of a header.
/// # Contract
///
/// ```text
/// requires { length header.now ≡ 44 }
/// ensures { result ≡ counts_of header.now }
/// ```
///
/// [docs/proofs/STATEMENT.md](crate::proved#contracts) explains the words.
#[inline]
const fn counts_of(header: &[u8]) -> Counts {
    Counts {
        version: header[4],
        ut: word(header, 20),
        standard: word(header, 24),
        times: word(header, 32),
        types: word(header, 36),
        names: word(header, 40),
    }
}

// The counts of a header in front, and what follows it.
/// # Contract
///
/// ```text
/// ensures { result_map_both (λ read. (read.0, read.1.now)) (λ stop. stop) result
///     ≡ header_at bytes.now }
/// ```
///
/// [docs/proofs/STATEMENT.md](crate::proved#contracts) explains the words.
#[inline]
pub(crate) fn header(bytes: &[u8]) -> Result<(Counts, &[u8]), FileStop> {
    let (header, rest) = piece(HEADER, bytes)?;
    checked_header(header, rest, bytes)
}

// The counts of a header, if it is one.
/// # Contract
///
/// ```text
/// requires header { length header.now ≡ 44 }
/// requires bytes { 44 ≤ length bytes.now }
/// ensures { result_map_both (λ read. (read.0, read.1.now)) (λ stop. stop) result
///     ≡ checked_header header.now rest.now bytes.now }
/// ```
///
/// [docs/proofs/STATEMENT.md](crate::proved#contracts) explains the words.
#[inline]
fn checked_header<'a>(
    header: &'a [u8],
    rest: &'a [u8],
    bytes: &'a [u8],
) -> Result<(Counts, &'a [u8]), FileStop> {
    if !is_magic(header) {
        return Err(stop_in_file(FilePart::Magic, bytes));
    }
    if !is_version(header[4]) {
        return Err(stop_in_file(FilePart::Version, &bytes[4..]));
    }
    unix_header(header, rest, bytes)
}

// The counts of a header, unless it counts leap seconds.
/// # Contract
///
/// ```text
/// requires header { length header.now ≡ 44 }
/// requires bytes { 44 ≤ length bytes.now }
/// ensures { result_map_both (λ read. (read.0, read.1.now)) (λ stop. stop) result
///     ≡ unix_header header.now rest.now bytes.now }
/// ```
///
/// [docs/proofs/STATEMENT.md](crate::proved#contracts) explains the words.
#[inline]
const fn unix_header<'a>(
    header: &'a [u8],
    rest: &'a [u8],
    bytes: &'a [u8],
) -> Result<(Counts, &'a [u8]), FileStop> {
    if is_unix_time(header) {
        return Ok((counts_of(header), rest));
    }
    let (_, left) = bytes.split_at(28);
    Err(stop_in_file(FilePart::LeapSeconds, left))
}

// The bytes of the marks.
/// # Contract
///
/// ```text
/// ensures { result ≡ marks counts }
/// ```
///
/// [docs/proofs/STATEMENT.md](crate::proved#contracts) explains the words.
#[inline]
const fn marks(counts: Counts) -> usize {
    counts.standard as usize + counts.ut as usize
}

// A block whose seconds have that many bytes, and what follows it.
/// # Contract
///
/// ```text
/// requires { size ≤ 8 }
/// ensures value { result_map_both (λ read. (block_parts read.0, read.1.now)) (λ stop. stop) result
///     ≡ block_at size counts bytes.now }
/// ensures times { IfOk result (λ read. length read.0.times.now ≡ counts.times * size) }
/// ensures indexes { IfOk result (λ read. length read.0.indexes.now ≡ counts.times) }
/// ensures types { IfOk result (λ read. length read.0.types.now ≡ counts.types * 6) }
/// ensures names { IfOk result (λ read. length read.0.names.now ≡ counts.names) }
/// ```
///
/// [docs/proofs/STATEMENT.md](crate::proved#contracts) explains the words.
#[inline]
pub(crate) fn block_of(
    size: usize,
    counts: Counts,
    bytes: &[u8],
) -> Result<(Block<'_>, &[u8]), FileStop> {
    let (times, rest) = piece(counts.times as usize * size, bytes)?;
    let (indexes, rest) = piece(counts.times as usize, rest)?;
    let (types, rest) = piece(counts.types as usize * 6, rest)?;
    let (names, rest) = piece(counts.names as usize, rest)?;
    let (_, rest) = piece(marks(counts), rest)?;
    Ok((
        Block {
            times,
            indexes,
            types,
            names,
        },
        rest,
    ))
}
