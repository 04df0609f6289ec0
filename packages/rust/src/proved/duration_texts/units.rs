// Made by make/erase of crates/duration_texts/src/units.rt. Do not edit.
//! The units of durations.
// The nanoseconds of the unit of this name, in letters of any case.
/// # Contract
///
/// ```text
/// ensures value { result ≡ unit_of word.now }
/// ensures bound { IfSome result (λ unit. IsInRange 1 86_400_000_000_000 unit) }
/// ```
///
/// [docs/proofs/STATEMENT.md](crate::proved#contracts) explains the words.
#[inline]
pub(crate) fn unit_of(word: &[u8]) -> Option<u64> {
    if is_one_of(word, b"d", b"day", b"days") {
        Some(86_400_000_000_000)
    } else if is_one_of(word, b"h", b"hour", b"hours") {
        Some(3_600_000_000_000)
    } else if is_one_of(word, b"m", b"minute", b"minutes") {
        Some(60_000_000_000)
    } else if is_one_of(word, b"s", b"second", b"seconds") {
        Some(1_000_000_000)
    } else {
        part_of_second(word)
    }
}

// The nanoseconds of the unit of this name, if it is less than a second.
/// # Contract
///
/// ```text
/// ensures value { result ≡ unit_among parts_of_second word.now }
/// ensures bound { IfSome result (λ unit. IsInRange 1 86_400_000_000_000 unit) }
/// ```
///
/// [docs/proofs/STATEMENT.md](crate::proved#contracts) explains the words.
#[inline]
fn part_of_second(word: &[u8]) -> Option<u64> {
    if is_one_of(word, b"ms", b"millisecond", b"milliseconds") {
        Some(1_000_000)
    } else if word.eq_ignore_ascii_case(b"us")
        || is_one_of(word, &[194, 181, 115], b"microsecond", b"microseconds")
    {
        Some(1_000)
    } else if is_one_of(word, b"ns", b"nanosecond", b"nanoseconds") {
        Some(1)
    } else {
        None
    }
}

// Whether a word is one of three, in letters of any case.
/// # Contract
///
/// ```text
/// ensures { result ≡ is_any word.now (symbol.now ∷ one.now ∷ many.now ∷ []) }
/// ```
///
/// [docs/proofs/STATEMENT.md](crate::proved#contracts) explains the words.
#[inline]
fn is_one_of(word: &[u8], symbol: &[u8], one: &[u8], many: &[u8]) -> bool {
    word.eq_ignore_ascii_case(symbol)
        || word.eq_ignore_ascii_case(one)
        || word.eq_ignore_ascii_case(many)
}

// Whether the word names a length that is not fixed.
/// # Contract
///
/// ```text
/// ensures { result ≡ is_calendar_word word.now }
/// ```
///
/// [docs/proofs/STATEMENT.md](crate::proved#contracts) explains the words.
#[inline]
pub(crate) fn is_calendar_word(word: &[u8]) -> bool {
    is_one_of(word, b"month", b"months", b"mon")
        || is_one_of(word, b"mons", b"quarter", b"quarters")
        || word.eq_ignore_ascii_case(b"year")
        || word.eq_ignore_ascii_case(b"years")
}
