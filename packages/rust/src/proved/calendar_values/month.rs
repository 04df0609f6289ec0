// Made by make/erase of crates/calendar_values/src/month.rt. Do not edit.
//! The months.
use crate::proved::calendar_values::{ComponentRange, Part, Text};
use std::fmt;

/// A month of the year.
#[derive(Clone, Copy, PartialEq, Eq)]
pub enum Month {
    January = 1,
    February,
    March,
    April,
    May,
    June,
    July,
    August,
    September,
    October,
    November,
    December,
}

impl Month {
    /// The month of this number, 1 for January to 12 for December. Fails with `month` otherwise.
    ///
    /// ```
    /// # use muxandu::proved::*;
    /// # fn main() -> Result<(), Box<dyn std::error::Error>> {
    /// assert_eq!(Month::from_number(9), Ok(Month::September));
    /// assert_eq!(Month::from_number(13), Err(ComponentRange::new("month", false)));
    /// # Ok(())
    /// # }
    /// ```
    ///
    /// # Contract
    ///
    /// ```text
    /// ensures accepted { IsOk result ↔ ((1 ≤ number) × (number ≤ 12)) }
    /// ensures value { IfOk result (λ month. month_number month ≡ number) }
    /// ensures refused { IfErr result (λ refusal. refusal ≡ outright_refusal (codes "month")) }
    /// ```
    ///
    /// [docs/proofs/STATEMENT.md](crate::proved#contracts) explains the words.
    #[inline]
    pub const fn from_number(number: u8) -> Result<Month, ComponentRange> {
        if number == 0 || number > 12 {
            return Err(ComponentRange::of_part(Part::Month, false));
        }
        Ok(Month::of_number(number))
    }

    /// # Contract
    ///
    /// ```text
    /// requires first { 1 ≤ number }
    /// requires last { number ≤ 12 }
    /// ensures { month_number result ≡ number }
    /// ```
    ///
    /// [docs/proofs/STATEMENT.md](crate::proved#contracts) explains the words.
    #[inline]
    pub(crate) const fn of_number(number: u8) -> Month {
        match number {
            1 => Month::January,
            2 => Month::February,
            3 => Month::March,
            4 => Month::April,
            5 => Month::May,
            6 => Month::June,
            7 => Month::July,
            8 => Month::August,
            9 => Month::September,
            10 => Month::October,
            11 => Month::November,
            _ => Month::December,
        }
    }

    /// The English name.
    ///
    /// ```
    /// # use muxandu::proved::*;
    /// # fn main() -> Result<(), Box<dyn std::error::Error>> {
    /// assert_eq!(Month::May.text().as_str(), "May");
    /// # Ok(())
    /// # }
    /// ```
    ///
    /// # Contract
    ///
    /// ```text
    /// ensures text { result ≡ month_name self }
    /// ensures length { length result ≤ 9 }
    /// ```
    ///
    /// [docs/proofs/STATEMENT.md](crate::proved#contracts) explains the words.
    #[inline]
    pub fn text(self) -> Text {
        let mut text = Text::new();
        text.push_bytes(self.name());
        text
    }

    /// # Contract
    ///
    /// ```text
    /// ensures name { result.now ≡ month_name self }
    /// ensures length { length result.now ≤ 9 }
    /// ensures ascii { IsAscii result.now }
    /// ```
    ///
    /// [docs/proofs/STATEMENT.md](crate::proved#contracts) explains the words.
    #[inline]
    const fn name(self) -> &'static [u8] {
        match self {
            Month::January => b"January",
            Month::February => b"February",
            Month::March => b"March",
            Month::April => b"April",
            Month::May => b"May",
            Month::June => b"June",
            Month::July => b"July",
            Month::August => b"August",
            Month::September => b"September",
            Month::October => b"October",
            Month::November => b"November",
            Month::December => b"December",
        }
    }
}

/// # Contract
///
/// ```text
/// ghost from_gives = { λ month n. n ≡ month_number month };
/// ```
///
/// [docs/proofs/STATEMENT.md](crate::proved#contracts) explains the words.
impl From<Month> for u8 {
    #[inline]
    fn from(month: Month) -> u8 {
        month as u8
    }
}

/// # Contract
///
/// ```text
/// ghost output = { λ month. Some (month_name month) };
/// ghost styled_output = { λ month spec. Some (padded spec (month_name month)) };
/// ```
///
/// [docs/proofs/STATEMENT.md](crate::proved#contracts) explains the words.
impl fmt::Display for Month {
    #[inline]
    fn fmt(&self, f: &mut fmt::Formatter) -> fmt::Result {
        fmt::Display::fmt(&self.text(), f)
    }
}

/// # Contract
///
/// ```text
/// ghost debug_output = { λ month. Some (month_name month) };
/// ```
///
/// [docs/proofs/STATEMENT.md](crate::proved#contracts) explains the words.
impl fmt::Debug for Month {
    #[inline]
    fn fmt(&self, f: &mut fmt::Formatter) -> fmt::Result {
        fmt::Debug::fmt(&self.text(), f)
    }
}
