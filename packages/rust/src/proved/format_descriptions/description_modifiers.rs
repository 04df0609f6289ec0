// Made by make/erase of crates/format_descriptions/src/description_modifiers.rt. Do not edit.
//! The modifiers of a component.
use crate::proved::format_descriptions::DescriptionFault;
use crate::proved::format_descriptions::description_names::Name;
use crate::proved::format_descriptions::description_values::{
    Repr, base_at, case_at, count_from, first_number_at, hour_repr_at, month_repr_at, padding_at,
    precision_at, range_at, read_case_at, sign_rule_at, subsecond_digits_at, week_repr_at,
    weekday_repr_at, year_repr_at,
};
use crate::proved::format_descriptions::description_words::after_name;
use crate::proved::format_descriptions::modifiers::{
    Case, Padding, ReadCase, Sign, SubsecondDigits, UnixPrecision, WeekdayCount, YearBase,
    YearRange,
};

// The name of a modifier.
#[derive(Clone, Copy, Debug, PartialEq, Eq)]
pub(crate) enum Key {
    Padding,
    Sign,
    Repr,
    Case,
    CaseSensitive,
    OneIndexed,
    Base,
    Range,
    Digits,
    Precision,
    Count,
}

// What the modifiers of a component say.
#[derive(Clone, Copy)]
pub(crate) struct Modifiers {
    pub(crate) padding: Padding,
    pub(crate) sign: Sign,
    pub(crate) repr: Option<Repr>,
    pub(crate) case: Case,
    pub(crate) read_case: ReadCase,
    pub(crate) first_number: WeekdayCount,
    pub(crate) base: YearBase,
    pub(crate) range: YearRange,
    pub(crate) digits: SubsecondDigits,
    pub(crate) precision: UnixPrecision,
    pub(crate) count: Option<u16>,
}

impl Modifiers {
    // None is given.
    /// # Contract
    ///
    /// ```text
    /// ensures { result ≡ no_modifiers }
    /// ```
    ///
    /// [docs/proofs/STATEMENT.md](crate::proved#contracts) explains the words.
    #[inline]
    pub(crate) const fn none() -> Modifiers {
        Modifiers {
            padding: Padding::Zero,
            sign: Sign::Automatic,
            repr: None,
            case: Case::Upper,
            read_case: ReadCase::Same,
            first_number: WeekdayCount::FromOne,
            base: YearBase::Calendar,
            range: YearRange::Extended,
            digits: SubsecondDigits::OneOrMore,
            precision: UnixPrecision::Seconds,
            count: None,
        }
    }
}

// The modifiers with that at the front of a text, or what is wrong with it and how many bytes are left there.
/// # Contract
///
/// ```text
/// ensures { result ≡ modifier_at name text.now modifiers }
/// ```
///
/// [docs/proofs/STATEMENT.md](crate::proved#contracts) explains the words.
#[inline]
pub(crate) const fn modifier_at(
    name: Name,
    text: &[u8],
    modifiers: Modifiers,
) -> Result<Modifiers, (DescriptionFault, usize)> {
    let Some((key, value)) = key_at(text) else {
        return Err((DescriptionFault::UnknownModifier, text.len()));
    };
    if !takes(name, key) {
        return Err((DescriptionFault::UnknownModifier, text.len()));
    }
    match with_value(name, key, value, modifiers) {
        Some(modifiers) => Ok(modifiers),
        None => Err((DescriptionFault::WrongValue, value.len())),
    }
}

// The modifier at the front of a text, and its value.
/// # Contract
///
/// ```text
/// ensures value { option_map (λ read. (read.0, read.1.now)) result ≡ key_at text.now }
/// ```
///
/// [docs/proofs/STATEMENT.md](crate::proved#contracts) explains the words.
#[inline]
const fn key_at(text: &[u8]) -> Option<(Key, &[u8])> {
    if let Some(found) = common_key_at(text) {
        return Some(found);
    }
    if let Some(found) = word_key_at(text) {
        return Some(found);
    }
    own_key_at(text)
}

// The modifier of many components at the front of a text, and its value.
/// # Contract
///
/// ```text
/// ensures value { option_map (λ read. (read.0, read.1.now)) result ≡ common_key_at text.now }
/// ```
///
/// [docs/proofs/STATEMENT.md](crate::proved#contracts) explains the words.
#[inline]
const fn common_key_at(text: &[u8]) -> Option<(Key, &[u8])> {
    if let Some(value) = after_name(b"padding:", text) {
        return Some((Key::Padding, value));
    }
    if let Some(value) = after_name(b"sign:", text) {
        return Some((Key::Sign, value));
    }
    if let Some(value) = after_name(b"repr:", text) {
        return Some((Key::Repr, value));
    }
    None
}

// The modifier of a name or a half of the day at the front of a text, and its value.
/// # Contract
///
/// ```text
/// ensures value { option_map (λ read. (read.0, read.1.now)) result ≡ word_key_at text.now }
/// ```
///
/// [docs/proofs/STATEMENT.md](crate::proved#contracts) explains the words.
#[inline]
const fn word_key_at(text: &[u8]) -> Option<(Key, &[u8])> {
    if let Some(value) = after_name(b"case:", text) {
        return Some((Key::Case, value));
    }
    if let Some(value) = after_name(b"case_sensitive:", text) {
        return Some((Key::CaseSensitive, value));
    }
    if let Some(value) = after_name(b"one_indexed:", text) {
        return Some((Key::OneIndexed, value));
    }
    None
}

// The modifier of one component at the front of a text, and its value.
/// # Contract
///
/// ```text
/// ensures value { option_map (λ read. (read.0, read.1.now)) result ≡ own_key_at text.now }
/// ```
///
/// [docs/proofs/STATEMENT.md](crate::proved#contracts) explains the words.
#[inline]
const fn own_key_at(text: &[u8]) -> Option<(Key, &[u8])> {
    if let Some(value) = after_name(b"base:", text) {
        return Some((Key::Base, value));
    }
    if let Some(value) = after_name(b"range:", text) {
        return Some((Key::Range, value));
    }
    if let Some(value) = after_name(b"digits:", text) {
        return Some((Key::Digits, value));
    }
    if let Some(value) = after_name(b"precision:", text) {
        return Some((Key::Precision, value));
    }
    if let Some(value) = after_name(b"count:", text) {
        return Some((Key::Count, value));
    }
    None
}

// Whether a component takes a modifier.
/// # Contract
///
/// ```text
/// ensures { result ≡ takes name key }
/// ```
///
/// [docs/proofs/STATEMENT.md](crate::proved#contracts) explains the words.
#[inline]
const fn takes(name: Name, key: Key) -> bool {
    match key {
        Key::Padding => matches!(
            name,
            Name::Year
                | Name::Month
                | Name::Day
                | Name::Ordinal
                | Name::WeekNumber
                | Name::Hour
                | Name::Minute
                | Name::Second
                | Name::OffsetHour
                | Name::OffsetMinute
                | Name::OffsetSecond
        ),
        Key::Sign => matches!(name, Name::Year | Name::OffsetHour | Name::UnixTimestamp),
        Key::Repr => matches!(
            name,
            Name::Year | Name::Month | Name::Weekday | Name::WeekNumber | Name::Hour
        ),
        Key::Case => matches!(name, Name::Period),
        Key::CaseSensitive => matches!(name, Name::Month | Name::Weekday | Name::Period),
        Key::OneIndexed => matches!(name, Name::Weekday),
        Key::Base => matches!(name, Name::Year),
        Key::Range => matches!(name, Name::Year),
        Key::Digits => matches!(name, Name::Subsecond),
        Key::Precision => matches!(name, Name::UnixTimestamp),
        Key::Count => matches!(name, Name::Ignore),
    }
}

// The form of a component at the front of a text.
/// # Contract
///
/// ```text
/// ensures { result ≡ repr_at name text.now }
/// ```
///
/// [docs/proofs/STATEMENT.md](crate::proved#contracts) explains the words.
#[inline]
const fn repr_at(name: Name, text: &[u8]) -> Option<Repr> {
    match name {
        Name::Year => year_repr_at(text),
        Name::Month => month_repr_at(text),
        Name::Weekday => weekday_repr_at(text),
        Name::WeekNumber => week_repr_at(text),
        Name::Hour => hour_repr_at(text),
        Name::Day
        | Name::Ordinal
        | Name::Minute
        | Name::Period
        | Name::Second
        | Name::Subsecond
        | Name::OffsetHour
        | Name::OffsetMinute
        | Name::OffsetSecond
        | Name::UnixTimestamp
        | Name::Ignore
        | Name::End => None,
    }
}

// The modifiers with the value of one.
/// # Contract
///
/// ```text
/// ensures { result ≡ with_value name key value.now modifiers }
/// ```
///
/// [docs/proofs/STATEMENT.md](crate::proved#contracts) explains the words.
#[inline]
const fn with_value(name: Name, key: Key, value: &[u8], modifiers: Modifiers) -> Option<Modifiers> {
    match key {
        Key::Padding => match padding_at(value) {
            Some(padding) => Some(Modifiers {
                padding,
                ..modifiers
            }),
            None => None,
        },
        Key::Sign => match sign_rule_at(value) {
            Some(sign) => Some(Modifiers { sign, ..modifiers }),
            None => None,
        },
        Key::Repr => match repr_at(name, value) {
            Some(repr) => Some(Modifiers {
                repr: Some(repr),
                ..modifiers
            }),
            None => None,
        },
        Key::Case => match case_at(value) {
            Some(case) => Some(Modifiers { case, ..modifiers }),
            None => None,
        },
        Key::CaseSensitive => match read_case_at(value) {
            Some(read_case) => Some(Modifiers {
                read_case,
                ..modifiers
            }),
            None => None,
        },
        Key::OneIndexed => match first_number_at(value) {
            Some(first_number) => Some(Modifiers {
                first_number,
                ..modifiers
            }),
            None => None,
        },
        Key::Base => match base_at(value) {
            Some(base) => Some(Modifiers { base, ..modifiers }),
            None => None,
        },
        Key::Range => match range_at(value) {
            Some(range) => Some(Modifiers { range, ..modifiers }),
            None => None,
        },
        Key::Digits => match subsecond_digits_at(value) {
            Some(digits) => Some(Modifiers {
                digits,
                ..modifiers
            }),
            None => None,
        },
        Key::Precision => match precision_at(value) {
            Some(precision) => Some(Modifiers {
                precision,
                ..modifiers
            }),
            None => None,
        },
        Key::Count => match count_from(0, value) {
            Some(count) => Some(Modifiers {
                count: Some(count),
                ..modifiers
            }),
            None => None,
        },
    }
}
