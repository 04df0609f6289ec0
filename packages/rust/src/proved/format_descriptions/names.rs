// Made by make/erase of crates/format_descriptions/src/names.rt. Do not edit.
//! Names of months, of days of the week and of halves of the day.
use crate::proved::format_descriptions::{Case, NameForm};

// The letters of the name of a month, by its number.
/// # Contract
///
/// ```text
/// requires { (1 ≤ month) × (month ≤ 12) }
/// ensures text { result.now ≡ name_in_form form (name_of_month month) }
/// ensures ascii { IsAscii result.now }
/// ensures length { length result.now ≤ 9 }
/// ```
///
/// [docs/proofs/STATEMENT.md](crate::proved#contracts) explains the words.
#[inline]
pub(crate) fn month_word(form: NameForm, month: u8) -> &'static [u8] {
    let name: &'static [u8] = match month {
        1 => b"January",
        2 => b"February",
        3 => b"March",
        4 => b"April",
        5 => b"May",
        6 => b"June",
        7 => b"July",
        8 => b"August",
        9 => b"September",
        10 => b"October",
        11 => b"November",
        _ => b"December",
    };
    name_in_form(form, name)
}

// The letters of the name of a day of the week, by its number, 0 for Monday.
/// # Contract
///
/// ```text
/// requires { weekday < 7 }
/// ensures text { result.now ≡ name_in_form form (name_of_weekday weekday) }
/// ensures ascii { IsAscii result.now }
/// ensures length { length result.now ≤ 9 }
/// ```
///
/// [docs/proofs/STATEMENT.md](crate::proved#contracts) explains the words.
#[inline]
pub(crate) fn weekday_word(form: NameForm, weekday: u8) -> &'static [u8] {
    let name: &'static [u8] = match weekday {
        0 => b"Monday",
        1 => b"Tuesday",
        2 => b"Wednesday",
        3 => b"Thursday",
        4 => b"Friday",
        5 => b"Saturday",
        _ => b"Sunday",
    };
    name_in_form(form, name)
}

// A name, or its first three letters.
/// # Contract
///
/// ```text
/// requires ascii { IsAscii name.now }
/// requires length { length name.now ≤ 9 }
/// ensures text { result.now ≡ name_in_form form name.now }
/// ensures ascii { IsAscii result.now }
/// ensures length { length result.now ≤ 9 }
/// ```
///
/// [docs/proofs/STATEMENT.md](crate::proved#contracts) explains the words.
#[inline]
fn name_in_form(form: NameForm, name: &'static [u8]) -> &'static [u8] {
    match form {
        NameForm::Long => name,
        NameForm::Short => &name[..name.len().min(3)],
    }
}

// The word for the half of the day.
/// # Contract
///
/// ```text
/// ensures text { result.now ≡ period_text case hour }
/// ensures ascii { IsAscii result.now }
/// ensures length { length result.now ≤ 2 }
/// ```
///
/// [docs/proofs/STATEMENT.md](crate::proved#contracts) explains the words.
#[inline]
pub(crate) const fn period_word(case: Case, hour: u8) -> &'static [u8] {
    match (case, hour < 12) {
        (Case::Upper, true) => b"AM",
        (Case::Upper, false) => b"PM",
        (Case::Lower, true) => b"am",
        (Case::Lower, false) => b"pm",
    }
}
