// Made by make/erase of crates/format_descriptions/src/description_names.rt. Do not edit.
//! The names of components in descriptions.
use crate::proved::format_descriptions::description_words::is_word_at;

// The name of a component, in the words of descriptions.
#[derive(Clone, Copy, Debug, PartialEq, Eq)]
pub(crate) enum Name {
    Year,
    Month,
    Day,
    Ordinal,
    Weekday,
    WeekNumber,
    Hour,
    Minute,
    Period,
    Second,
    Subsecond,
    OffsetHour,
    OffsetMinute,
    OffsetSecond,
    UnixTimestamp,
    Ignore,
    End,
}

// The name at the front of a text.
/// # Contract
///
/// ```text
/// ensures { result ≡ name_at text.now }
/// ```
///
/// [docs/proofs/STATEMENT.md](crate::proved#contracts) explains the words.
#[inline]
pub(crate) const fn name_at(text: &[u8]) -> Option<Name> {
    if let Some(name) = date_name_at(text) {
        return Some(name);
    }
    if let Some(name) = time_name_at(text) {
        return Some(name);
    }
    other_name_at(text)
}

// The name of a component of a date.
/// # Contract
///
/// ```text
/// ensures { result ≡ date_name_at text.now }
/// ```
///
/// [docs/proofs/STATEMENT.md](crate::proved#contracts) explains the words.
#[inline]
const fn date_name_at(text: &[u8]) -> Option<Name> {
    if is_word_at(b"year", text) {
        Some(Name::Year)
    } else if is_word_at(b"month", text) {
        Some(Name::Month)
    } else if is_word_at(b"day", text) {
        Some(Name::Day)
    } else if is_word_at(b"ordinal", text) {
        Some(Name::Ordinal)
    } else if is_word_at(b"weekday", text) {
        Some(Name::Weekday)
    } else if is_word_at(b"week_number", text) {
        Some(Name::WeekNumber)
    } else {
        None
    }
}

// The name of a component of a time of day.
/// # Contract
///
/// ```text
/// ensures { result ≡ time_name_at text.now }
/// ```
///
/// [docs/proofs/STATEMENT.md](crate::proved#contracts) explains the words.
#[inline]
const fn time_name_at(text: &[u8]) -> Option<Name> {
    if is_word_at(b"hour", text) {
        Some(Name::Hour)
    } else if is_word_at(b"minute", text) {
        Some(Name::Minute)
    } else if is_word_at(b"period", text) {
        Some(Name::Period)
    } else if is_word_at(b"second", text) {
        Some(Name::Second)
    } else if is_word_at(b"subsecond", text) {
        Some(Name::Subsecond)
    } else {
        None
    }
}

// The name of a component of an offset, or of another one.
/// # Contract
///
/// ```text
/// ensures { result ≡ other_name_at text.now }
/// ```
///
/// [docs/proofs/STATEMENT.md](crate::proved#contracts) explains the words.
#[inline]
const fn other_name_at(text: &[u8]) -> Option<Name> {
    if is_word_at(b"offset_hour", text) {
        Some(Name::OffsetHour)
    } else if is_word_at(b"offset_minute", text) {
        Some(Name::OffsetMinute)
    } else if is_word_at(b"offset_second", text) {
        Some(Name::OffsetSecond)
    } else if is_word_at(b"unix_timestamp", text) {
        Some(Name::UnixTimestamp)
    } else if is_word_at(b"ignore", text) {
        Some(Name::Ignore)
    } else if is_word_at(b"end", text) {
        Some(Name::End)
    } else {
        None
    }
}
