// Made by make/erase of crates/calendar_values/src/component_range.rt. Do not edit.
//! The refusal of a part that is out of its range.
use crate::proved::calendar_values::Text;
use std::error::Error;
use std::fmt;
/// The parts that can be out of range, by the names of [`ComponentRange::name`].
#[derive(Clone, Copy, Debug, PartialEq, Eq)]
pub enum Part {
    Year,
    Month,
    Day,
    Ordinal,
    Week,
    JulianDay,
    Hour,
    Minute,
    Second,
    Millisecond,
    Microsecond,
    Nanosecond,
    Hours,
    Minutes,
    Seconds,
    OffsetSeconds,
    Timestamp,
    Milliseconds,
    Microseconds,
    Nanoseconds,
}

impl Part {
    /// # Contract
    ///
    /// ```text
    /// requires { IsTrue (is_part_name name.now) }
    /// ensures { part_name result ≡ name.now }
    /// ```
    ///
    /// [docs/proofs/STATEMENT.md](crate::proved#contracts) explains the words.
    #[inline]
    fn named(name: &str) -> Part {
        match name {
            "year" => Part::Year,
            "month" => Part::Month,
            "day" => Part::Day,
            "ordinal" => Part::Ordinal,
            "week" => Part::Week,
            "julian_day" => Part::JulianDay,
            "hour" => Part::Hour,
            "minute" => Part::Minute,
            "second" => Part::Second,
            "millisecond" => Part::Millisecond,
            "microsecond" => Part::Microsecond,
            "nanosecond" => Part::Nanosecond,
            _ => Part::count_named(name),
        }
    }

    /// # Contract
    ///
    /// ```text
    /// requires { IsTrue (is_count_name name.now) }
    /// ensures { part_name result ≡ name.now }
    /// ```
    ///
    /// [docs/proofs/STATEMENT.md](crate::proved#contracts) explains the words.
    #[inline]
    fn count_named(name: &str) -> Part {
        match name {
            "hours" => Part::Hours,
            "minutes" => Part::Minutes,
            "seconds" => Part::Seconds,
            "offset_seconds" => Part::OffsetSeconds,
            "timestamp" => Part::Timestamp,
            "milliseconds" => Part::Milliseconds,
            "microseconds" => Part::Microseconds,
            "nanoseconds" => Part::Nanoseconds,
            _ => unreachable!(),
        }
    }

    /// # Contract
    ///
    /// ```text
    /// ensures { result.now ≡ part_name self }
    /// ```
    ///
    /// [docs/proofs/STATEMENT.md](crate::proved#contracts) explains the words.
    #[inline]
    const fn name(self) -> &'static str {
        match self {
            Part::Year => "year",
            Part::Month => "month",
            Part::Day => "day",
            Part::Ordinal => "ordinal",
            Part::Week => "week",
            Part::JulianDay => "julian_day",
            Part::Hour => "hour",
            Part::Minute => "minute",
            Part::Second => "second",
            Part::Millisecond => "millisecond",
            Part::Microsecond => "microsecond",
            Part::Nanosecond => "nanosecond",
            Part::Hours => "hours",
            Part::Minutes => "minutes",
            Part::Seconds => "seconds",
            Part::OffsetSeconds => "offset_seconds",
            Part::Timestamp => "timestamp",
            Part::Milliseconds => "milliseconds",
            Part::Microseconds => "microseconds",
            Part::Nanoseconds => "nanoseconds",
        }
    }
}

/// A part is out of its range. A contract sees the part's name and the conditional mark.
#[derive(Clone, Copy, Debug)]
pub struct ComponentRange {
    part: Part,
    conditional: bool,
}

impl ComponentRange {
    /// The error for the part of this name. `conditional` says that the value is possible for some
    /// year and month, and not with the other parts.
    ///
    /// ```
    /// # use muxandu::proved::*;
    /// # fn main() -> Result<(), Box<dyn std::error::Error>> {
    /// let refusal = ComponentRange::new("hour", false);
    /// assert_eq!(Time::from_hms(24, 0, 0), Err(refusal));
    /// # Ok(())
    /// # }
    /// ```
    ///
    /// # Panics
    ///
    /// The call breaks a `requires` of the contract.
    ///
    /// # Contract
    ///
    /// ```text
    /// requires { IsTrue (is_part_name name.now) }
    /// ensures { result ≡ record { name = name.now; conditional = conditional } }
    /// ```
    ///
    /// [docs/proofs/STATEMENT.md](crate::proved#contracts) explains the words.
    #[inline]
    #[track_caller]
    pub fn new(name: &'static str, conditional: bool) -> ComponentRange {
        ComponentRange::of_part(Part::named(name), conditional)
    }

    /// The error for this part. `conditional` says that the value is possible for some year and
    /// month, and not with the other parts.
    ///
    /// ```
    /// # use muxandu::proved::*;
    /// # fn main() -> Result<(), Box<dyn std::error::Error>> {
    /// assert_eq!(ComponentRange::of_part(Part::Day, true), ComponentRange::new("day", true));
    /// # Ok(())
    /// # }
    /// ```
    ///
    /// # Contract
    ///
    /// ```text
    /// ensures { result ≡ record { name = part_name part; conditional = conditional } }
    /// ```
    ///
    /// [docs/proofs/STATEMENT.md](crate::proved#contracts) explains the words.
    #[inline(always)]
    pub const fn of_part(part: Part, conditional: bool) -> ComponentRange {
        ComponentRange { part, conditional }
    }

    /// The part.
    ///
    /// ```
    /// # use muxandu::proved::*;
    /// # fn main() -> Result<(), Box<dyn std::error::Error>> {
    /// let refusal = ComponentRange::new("minute", false);
    /// assert_eq!(refusal.part(), Part::Minute);
    /// # Ok(())
    /// # }
    /// ```
    ///
    /// # Contract
    ///
    /// ```text
    /// ensures { part_name result ≡ self.name }
    /// ```
    ///
    /// [docs/proofs/STATEMENT.md](crate::proved#contracts) explains the words.
    #[inline(always)]
    pub const fn part(self) -> Part {
        self.part
    }

    /// The name of the part: ASCII, and at most 14 bytes long.
    ///
    /// ```
    /// # use muxandu::proved::*;
    /// # fn main() -> Result<(), Box<dyn std::error::Error>> {
    /// let refusal = ComponentRange::of_part(Part::Second, false);
    /// assert_eq!(refusal.name(), "second");
    /// # Ok(())
    /// # }
    /// ```
    ///
    /// # Contract
    ///
    /// ```text
    /// ensures value { result.now ≡ self.name }
    /// ensures ascii { IsAscii result.now }
    /// ensures length { length result.now ≤ 14 }
    /// ```
    ///
    /// [docs/proofs/STATEMENT.md](crate::proved#contracts) explains the words.
    #[inline]
    pub const fn name(self) -> &'static str {
        self.part.name()
    }

    /// Whether the value is possible for some year and month, and not with the other parts.
    ///
    /// ```
    /// # use muxandu::proved::*;
    /// # fn main() -> Result<(), Box<dyn std::error::Error>> {
    /// let in_april = Date::from_calendar_date(2021, Month::April, 31);
    /// assert_eq!(in_april.map_err(|refusal| refusal.is_conditional()), Err(true));
    /// assert_eq!(
    ///     Time::from_hms(0, 60, 0).map_err(|refusal| refusal.is_conditional()),
    ///     Err(false)
    /// );
    /// # Ok(())
    /// # }
    /// ```
    ///
    /// # Contract
    ///
    /// ```text
    /// ensures { result ≡ self.conditional }
    /// ```
    ///
    /// [docs/proofs/STATEMENT.md](crate::proved#contracts) explains the words.
    #[inline]
    pub const fn is_conditional(self) -> bool {
        self.conditional
    }

    /// The text, such as `day is out of range`, with ` given the other parts` after it if the error
    /// is conditional.
    ///
    /// ```
    /// # use muxandu::proved::*;
    /// # fn main() -> Result<(), Box<dyn std::error::Error>> {
    /// let refusal = ComponentRange::new("hour", false);
    /// assert_eq!(refusal.text().as_str(), "hour is out of range");
    /// # Ok(())
    /// # }
    /// ```
    ///
    /// # Contract
    ///
    /// ```text
    /// ensures text { result ≡ refusal_text self }
    /// ensures length { length result ≤ 52 }
    /// ```
    ///
    /// [docs/proofs/STATEMENT.md](crate::proved#contracts) explains the words.
    #[inline]
    pub fn text(self) -> Text {
        let mut text = Text::new();
        text.push_bytes(self.name().as_bytes());
        text.push_bytes(b" is out of range");
        if self.is_conditional() {
            text.push_bytes(b" given the other parts");
        }
        text
    }
}

/// # Contract
///
/// ```text
/// ghost output = { λ refusal. Some (refusal_text refusal) };
/// ghost styled_output = { λ refusal spec. Some (padded spec (refusal_text refusal)) };
/// ```
///
/// [docs/proofs/STATEMENT.md](crate::proved#contracts) explains the words.
impl fmt::Display for ComponentRange {
    #[inline]
    fn fmt(&self, f: &mut fmt::Formatter) -> fmt::Result {
        fmt::Display::fmt(&self.text(), f)
    }
}

impl Error for ComponentRange {}

/// # Contract
///
/// ```text
/// ghost eq = { refusal_eq };
/// ```
///
/// [docs/proofs/STATEMENT.md](crate::proved#contracts) explains the words.
impl PartialEq for ComponentRange {
    #[inline]
    fn eq(&self, other: &ComponentRange) -> bool {
        self.part == other.part && self.conditional == other.conditional
    }
}

impl Eq for ComponentRange {}
