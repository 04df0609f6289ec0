// Made by make/erase of crates/format_descriptions/src/description_values.rt. Do not edit.
//! The values of the modifiers of descriptions.
use crate::proved::format_descriptions::description_words::{ends_word, is_word_at};
use crate::proved::format_descriptions::modifiers::{
    Case, Padding, ReadCase, Sign, SubsecondDigits, UnixPrecision, WeekdayCount, YearBase,
    YearRange,
};

// The form of a component.
#[derive(Clone, Copy, Debug, PartialEq, Eq)]
pub(crate) enum Repr {
    Full,
    Century,
    LastTwo,
    Numerical,
    Long,
    Short,
    Sunday,
    Monday,
    Iso,
    TwentyFour,
    Twelve,
}

// The padding at the front of a text.
/// # Contract
///
/// ```text
/// ensures { result ≡ padding_at text.now }
/// ```
///
/// [docs/proofs/STATEMENT.md](crate::proved#contracts) explains the words.
#[inline]
pub(crate) const fn padding_at(text: &[u8]) -> Option<Padding> {
    if is_word_at(b"zero", text) {
        Some(Padding::Zero)
    } else if is_word_at(b"space", text) {
        Some(Padding::Space)
    } else if is_word_at(b"none", text) {
        Some(Padding::Bare)
    } else {
        None
    }
}

// The rule for the sign at the front of a text.
/// # Contract
///
/// ```text
/// ensures { result ≡ sign_rule_at text.now }
/// ```
///
/// [docs/proofs/STATEMENT.md](crate::proved#contracts) explains the words.
#[inline]
pub(crate) const fn sign_rule_at(text: &[u8]) -> Option<Sign> {
    if is_word_at(b"automatic", text) {
        Some(Sign::Automatic)
    } else if is_word_at(b"mandatory", text) {
        Some(Sign::Mandatory)
    } else {
        None
    }
}

// The case of the letters at the front of a text.
/// # Contract
///
/// ```text
/// ensures { result ≡ case_at text.now }
/// ```
///
/// [docs/proofs/STATEMENT.md](crate::proved#contracts) explains the words.
#[inline]
pub(crate) const fn case_at(text: &[u8]) -> Option<Case> {
    if is_word_at(b"upper", text) {
        Some(Case::Upper)
    } else if is_word_at(b"lower", text) {
        Some(Case::Lower)
    } else {
        None
    }
}

// The case that is read, at the front of a text.
/// # Contract
///
/// ```text
/// ensures { result ≡ read_case_at text.now }
/// ```
///
/// [docs/proofs/STATEMENT.md](crate::proved#contracts) explains the words.
#[inline]
pub(crate) const fn read_case_at(text: &[u8]) -> Option<ReadCase> {
    if is_word_at(b"true", text) {
        Some(ReadCase::Same)
    } else if is_word_at(b"false", text) {
        Some(ReadCase::Any)
    } else {
        None
    }
}

// The number of the first day of a week at the front of a text.
/// # Contract
///
/// ```text
/// ensures { result ≡ first_number_at text.now }
/// ```
///
/// [docs/proofs/STATEMENT.md](crate::proved#contracts) explains the words.
#[inline]
pub(crate) const fn first_number_at(text: &[u8]) -> Option<WeekdayCount> {
    if is_word_at(b"true", text) {
        Some(WeekdayCount::FromOne)
    } else if is_word_at(b"false", text) {
        Some(WeekdayCount::FromZero)
    } else {
        None
    }
}

// The kind of year at the front of a text.
/// # Contract
///
/// ```text
/// ensures { result ≡ base_at text.now }
/// ```
///
/// [docs/proofs/STATEMENT.md](crate::proved#contracts) explains the words.
#[inline]
pub(crate) const fn base_at(text: &[u8]) -> Option<YearBase> {
    if is_word_at(b"calendar", text) {
        Some(YearBase::Calendar)
    } else if is_word_at(b"iso_week", text) {
        Some(YearBase::IsoWeek)
    } else {
        None
    }
}

// The range of years at the front of a text.
/// # Contract
///
/// ```text
/// ensures { result ≡ range_at text.now }
/// ```
///
/// [docs/proofs/STATEMENT.md](crate::proved#contracts) explains the words.
#[inline]
pub(crate) const fn range_at(text: &[u8]) -> Option<YearRange> {
    if is_word_at(b"standard", text) {
        Some(YearRange::Standard)
    } else if is_word_at(b"extended", text) {
        Some(YearRange::Extended)
    } else {
        None
    }
}

// The count of digits at the front of a text, up to five.
/// # Contract
///
/// ```text
/// ensures { result ≡ few_digits_at text.now }
/// ```
///
/// [docs/proofs/STATEMENT.md](crate::proved#contracts) explains the words.
#[inline]
pub(crate) const fn few_digits_at(text: &[u8]) -> Option<SubsecondDigits> {
    if is_word_at(b"1+", text) {
        Some(SubsecondDigits::OneOrMore)
    } else if is_word_at(b"1", text) {
        Some(SubsecondDigits::One)
    } else if is_word_at(b"2", text) {
        Some(SubsecondDigits::Two)
    } else if is_word_at(b"3", text) {
        Some(SubsecondDigits::Three)
    } else if is_word_at(b"4", text) {
        Some(SubsecondDigits::Four)
    } else if is_word_at(b"5", text) {
        Some(SubsecondDigits::Five)
    } else {
        None
    }
}

// The count of digits at the front of a text, from six on.
/// # Contract
///
/// ```text
/// ensures { result ≡ many_digits_at text.now }
/// ```
///
/// [docs/proofs/STATEMENT.md](crate::proved#contracts) explains the words.
#[inline]
pub(crate) const fn many_digits_at(text: &[u8]) -> Option<SubsecondDigits> {
    if is_word_at(b"6", text) {
        Some(SubsecondDigits::Six)
    } else if is_word_at(b"7", text) {
        Some(SubsecondDigits::Seven)
    } else if is_word_at(b"8", text) {
        Some(SubsecondDigits::Eight)
    } else if is_word_at(b"9", text) {
        Some(SubsecondDigits::Nine)
    } else {
        None
    }
}

// The unit of a timestamp at the front of a text.
/// # Contract
///
/// ```text
/// ensures { result ≡ precision_at text.now }
/// ```
///
/// [docs/proofs/STATEMENT.md](crate::proved#contracts) explains the words.
#[inline]
pub(crate) const fn precision_at(text: &[u8]) -> Option<UnixPrecision> {
    if is_word_at(b"second", text) {
        Some(UnixPrecision::Seconds)
    } else if is_word_at(b"millisecond", text) {
        Some(UnixPrecision::Milliseconds)
    } else if is_word_at(b"microsecond", text) {
        Some(UnixPrecision::Microseconds)
    } else if is_word_at(b"nanosecond", text) {
        Some(UnixPrecision::Nanoseconds)
    } else {
        None
    }
}

// The form of a year at the front of a text.
/// # Contract
///
/// ```text
/// ensures { result ≡ year_repr_at text.now }
/// ```
///
/// [docs/proofs/STATEMENT.md](crate::proved#contracts) explains the words.
#[inline]
pub(crate) const fn year_repr_at(text: &[u8]) -> Option<Repr> {
    if is_word_at(b"full", text) {
        Some(Repr::Full)
    } else if is_word_at(b"century", text) {
        Some(Repr::Century)
    } else if is_word_at(b"last_two", text) {
        Some(Repr::LastTwo)
    } else {
        None
    }
}

// The form of a month at the front of a text.
/// # Contract
///
/// ```text
/// ensures { result ≡ month_repr_at text.now }
/// ```
///
/// [docs/proofs/STATEMENT.md](crate::proved#contracts) explains the words.
#[inline]
pub(crate) const fn month_repr_at(text: &[u8]) -> Option<Repr> {
    if is_word_at(b"numerical", text) {
        Some(Repr::Numerical)
    } else if is_word_at(b"long", text) {
        Some(Repr::Long)
    } else if is_word_at(b"short", text) {
        Some(Repr::Short)
    } else {
        None
    }
}

// The form of a day of the week at the front of a text.
/// # Contract
///
/// ```text
/// ensures { result ≡ weekday_repr_at text.now }
/// ```
///
/// [docs/proofs/STATEMENT.md](crate::proved#contracts) explains the words.
#[inline]
pub(crate) const fn weekday_repr_at(text: &[u8]) -> Option<Repr> {
    if is_word_at(b"short", text) {
        Some(Repr::Short)
    } else if is_word_at(b"long", text) {
        Some(Repr::Long)
    } else if is_word_at(b"sunday", text) {
        Some(Repr::Sunday)
    } else if is_word_at(b"monday", text) {
        Some(Repr::Monday)
    } else {
        None
    }
}

// The rule for weeks at the front of a text.
/// # Contract
///
/// ```text
/// ensures { result ≡ week_repr_at text.now }
/// ```
///
/// [docs/proofs/STATEMENT.md](crate::proved#contracts) explains the words.
#[inline]
pub(crate) const fn week_repr_at(text: &[u8]) -> Option<Repr> {
    if is_word_at(b"iso", text) {
        Some(Repr::Iso)
    } else if is_word_at(b"sunday", text) {
        Some(Repr::Sunday)
    } else if is_word_at(b"monday", text) {
        Some(Repr::Monday)
    } else {
        None
    }
}

// The clock of hours at the front of a text.
/// # Contract
///
/// ```text
/// ensures { result ≡ hour_repr_at text.now }
/// ```
///
/// [docs/proofs/STATEMENT.md](crate::proved#contracts) explains the words.
#[inline]
pub(crate) const fn hour_repr_at(text: &[u8]) -> Option<Repr> {
    if is_word_at(b"24", text) {
        Some(Repr::TwentyFour)
    } else if is_word_at(b"12", text) {
        Some(Repr::Twelve)
    } else {
        None
    }
}

// The count of digits at the front of a text.
/// # Contract
///
/// ```text
/// ensures { result ≡ subsecond_digits_at text.now }
/// ```
///
/// [docs/proofs/STATEMENT.md](crate::proved#contracts) explains the words.
#[inline]
pub(crate) const fn subsecond_digits_at(text: &[u8]) -> Option<SubsecondDigits> {
    match few_digits_at(text) {
        Some(digits) => Some(digits),
        None => many_digits_at(text),
    }
}

// Digits up to the end of the word, after those of a number: a number of 1 to 65,535.
/// # Contract
///
/// ```text
/// ensures { result ≡ count_from number text.now }
/// ```
///
/// [docs/proofs/STATEMENT.md](crate::proved#contracts) explains the words.
#[inline]
pub(crate) const fn count_from(number: u16, text: &[u8]) -> Option<u16> {
    let Some((first, rest)) = text.split_first() else {
        return if number == 0 { None } else { Some(number) };
    };
    if *first < b'0' || *first > b'9' {
        return if number == 0 || !ends_word(text) {
            None
        } else {
            Some(number)
        };
    }
    let longer = number as u32 * 10 + (*first - b'0') as u32;
    if longer > 65_535 {
        None
    } else {
        count_from(longer as u16, rest)
    }
}
