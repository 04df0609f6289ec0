// Made by make/erase of crates/calendar_values/src/weekday.rt. Do not edit.
//! The days of the week.
use crate::proved::calendar_values::Text;
use std::fmt;

/// A day of the week.
#[derive(Clone, Copy, PartialEq, Eq)]
pub enum Weekday {
    Monday,
    Tuesday,
    Wednesday,
    Thursday,
    Friday,
    Saturday,
    Sunday,
}

impl Weekday {
    /// The number of days from Monday: 0 for Monday to 6 for Sunday.
    ///
    /// ```
    /// # use muxandu::proved::*;
    /// # fn main() -> Result<(), Box<dyn std::error::Error>> {
    /// assert_eq!(Weekday::Monday.number_days_from_monday(), 0);
    /// assert_eq!(Weekday::Sunday.number_days_from_monday(), 6);
    /// # Ok(())
    /// # }
    /// ```
    ///
    /// # Contract
    ///
    /// ```text
    /// ensures value { result ≡ weekday_number self }
    /// ensures in_range { result < 7 }
    /// ```
    ///
    /// [docs/proofs/STATEMENT.md](crate::proved#contracts) explains the words.
    #[inline]
    pub const fn number_days_from_monday(self) -> u8 {
        self as u8
    }

    /// The day of the week at a number of days after a Monday, 0 for Monday to 6 for Sunday. None
    /// above 6.
    ///
    /// ```
    /// # use muxandu::proved::*;
    /// # fn main() -> Result<(), Box<dyn std::error::Error>> {
    /// assert_eq!(Weekday::from_number_days_from_monday(2), Some(Weekday::Wednesday));
    /// assert_eq!(Weekday::from_number_days_from_monday(7), None);
    /// # Ok(())
    /// # }
    /// ```
    ///
    /// # Contract
    ///
    /// ```text
    /// ensures accepted { IsSome result ↔ (number < 7) }
    /// ensures value { IfSome result (λ weekday. weekday_number weekday ≡ number) }
    /// ```
    ///
    /// [docs/proofs/STATEMENT.md](crate::proved#contracts) explains the words.
    #[inline]
    pub const fn from_number_days_from_monday(number: u8) -> Option<Weekday> {
        if number > 6 {
            return None;
        }
        Some(Weekday::of_number(number))
    }

    /// As [`Weekday::from_number_days_from_monday`], of a number below 7. The caller proves that it
    /// is.
    ///
    /// # Contract
    ///
    /// ```text
    /// requires { number < 7 }
    /// ensures { weekday_number result ≡ number }
    /// ```
    ///
    /// [docs/proofs/STATEMENT.md](crate::proved#contracts) explains the words.
    #[inline]
    pub(in crate::proved) const fn of_number(number: u8) -> Weekday {
        match number {
            0 => Weekday::Monday,
            1 => Weekday::Tuesday,
            2 => Weekday::Wednesday,
            3 => Weekday::Thursday,
            4 => Weekday::Friday,
            5 => Weekday::Saturday,
            _ => Weekday::Sunday,
        }
    }

    /// The English name.
    ///
    /// ```
    /// # use muxandu::proved::*;
    /// # fn main() -> Result<(), Box<dyn std::error::Error>> {
    /// assert_eq!(Weekday::Friday.text().as_str(), "Friday");
    /// # Ok(())
    /// # }
    /// ```
    ///
    /// # Contract
    ///
    /// ```text
    /// ensures text { result ≡ weekday_name self }
    /// ensures length { length result ≤ 9 }
    /// ```
    ///
    /// [docs/proofs/STATEMENT.md](crate::proved#contracts) explains the words.
    #[inline]
    pub fn text(self) -> Text {
        let mut text = Text::new();
        text.push_bytes(self.name());
        text
    }

    /// # Contract
    ///
    /// ```text
    /// ensures name { result.now ≡ weekday_name self }
    /// ensures length { length result.now ≤ 9 }
    /// ensures ascii { IsAscii result.now }
    /// ```
    ///
    /// [docs/proofs/STATEMENT.md](crate::proved#contracts) explains the words.
    #[inline]
    const fn name(self) -> &'static [u8] {
        match self {
            Weekday::Monday => b"Monday",
            Weekday::Tuesday => b"Tuesday",
            Weekday::Wednesday => b"Wednesday",
            Weekday::Thursday => b"Thursday",
            Weekday::Friday => b"Friday",
            Weekday::Saturday => b"Saturday",
            Weekday::Sunday => b"Sunday",
        }
    }
}

/// # Contract
///
/// ```text
/// ghost output = { λ weekday. Some (weekday_name weekday) };
/// ghost styled_output = { λ weekday spec. Some (padded spec (weekday_name weekday)) };
/// ```
///
/// [docs/proofs/STATEMENT.md](crate::proved#contracts) explains the words.
impl fmt::Display for Weekday {
    #[inline]
    fn fmt(&self, f: &mut fmt::Formatter) -> fmt::Result {
        fmt::Display::fmt(&self.text(), f)
    }
}

/// # Contract
///
/// ```text
/// ghost debug_output = { λ weekday. Some (weekday_name weekday) };
/// ```
///
/// [docs/proofs/STATEMENT.md](crate::proved#contracts) explains the words.
impl fmt::Debug for Weekday {
    #[inline]
    fn fmt(&self, f: &mut fmt::Formatter) -> fmt::Result {
        fmt::Debug::fmt(&self.text(), f)
    }
}
