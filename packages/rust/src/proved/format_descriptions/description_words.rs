// Made by make/erase of crates/format_descriptions/src/description_words.rt. Do not edit.
//! The words of descriptions.
// White space between the words of a component.
/// # Contract
///
/// ```text
/// ensures { result ≡ is_white_space byte }
/// ```
///
/// [docs/proofs/STATEMENT.md](crate::proved#contracts) explains the words.
#[inline]
pub(crate) const fn is_white_space(byte: u8) -> bool {
    byte == b' ' || byte == b'\t' || byte == b'\n' || byte == b'\x0c' || byte == b'\r'
}

// Whether a word ends before this text.
/// # Contract
///
/// ```text
/// ensures { result ≡ ends_word text.now }
/// ```
///
/// [docs/proofs/STATEMENT.md](crate::proved#contracts) explains the words.
#[inline]
pub(crate) const fn ends_word(text: &[u8]) -> bool {
    match text.split_first() {
        Some((first, _)) => *first == b'[' || *first == b']' || is_white_space(*first),
        None => true,
    }
}

// Whether the text begins with this word, and no other byte of a word follows.
/// # Contract
///
/// ```text
/// ensures { result ≡ is_word_at word.now text.now }
/// ```
///
/// [docs/proofs/STATEMENT.md](crate::proved#contracts) explains the words.
#[inline]
pub(crate) const fn is_word_at(word: &[u8], text: &[u8]) -> bool {
    let Some((letter, word)) = word.split_first() else {
        return ends_word(text);
    };
    match text.split_first() {
        Some((first, rest)) => *first == *letter && is_word_at(word, rest),
        None => false,
    }
}

// What follows this name, which a colon ends.
/// # Contract
///
/// ```text
/// ensures { option_map (λ rest. rest.now) result ≡ name_rest name.now text.now }
/// ```
///
/// [docs/proofs/STATEMENT.md](crate::proved#contracts) explains the words.
#[inline]
pub(crate) const fn after_name<'a>(name: &[u8], text: &'a [u8]) -> Option<&'a [u8]> {
    let Some((letter, name)) = name.split_first() else {
        return Some(text);
    };
    match text.split_first() {
        Some((first, rest)) if *first == *letter => after_name(name, rest),
        _ => None,
    }
}
