// Made by make/erase of crates/format_descriptions/src/modifiers.rt. Do not edit.
//! How a component is written.
/// The filler before a number that has fewer digits than its width.
#[derive(Clone, Copy, Debug, PartialEq, Eq)]
pub enum Padding {
    /// Zeros, as in `07`.
    Zero,
    /// Spaces, as in ` 7`.
    Space,
    /// Nothing, as in `7`.
    Bare,
}

/// Whether a number has a sign where it needs none.
#[derive(Clone, Copy, Debug, PartialEq, Eq)]
pub enum Sign {
    /// A sign only where the number needs one: `-`, and `+` before a year above 9999.
    Automatic,
    /// Always a sign.
    Mandatory,
}

impl Sign {
    // Whether there is always a sign.
    /// # Contract
    ///
    /// ```text
    /// ensures { result ≡ is_mandatory self }
    /// ```
    ///
    /// [docs/proofs/STATEMENT.md](crate::proved#contracts) explains the words.
    #[inline]
    pub(crate) const fn is_mandatory(self) -> bool {
        match self {
            Sign::Automatic => false,
            Sign::Mandatory => true,
        }
    }
}

/// How much of an English name is written.
#[derive(Clone, Copy, Debug, PartialEq, Eq)]
pub enum NameForm {
    /// The whole name, as `January`.
    Long,
    /// Its first three letters, as `Jan`.
    Short,
}

/// The case of the letters.
#[derive(Clone, Copy, Debug, PartialEq, Eq)]
pub enum Case {
    /// Capitals, as `AM`.
    Upper,
    /// Small letters, as `am`.
    Lower,
}

/// Which case of letters is read.
#[derive(Clone, Copy, Debug, PartialEq, Eq)]
pub enum ReadCase {
    /// The case that is written, alone.
    Same,
    /// Capitals and small letters alike.
    Any,
}

impl ReadCase {
    // Whether capitals and small letters are read alike.
    /// # Contract
    ///
    /// ```text
    /// ensures { result ≡ reads_any_case self }
    /// ```
    ///
    /// [docs/proofs/STATEMENT.md](crate::proved#contracts) explains the words.
    #[inline]
    pub(crate) const fn reads_any_case(self) -> bool {
        match self {
            ReadCase::Same => false,
            ReadCase::Any => true,
        }
    }
}

/// Which year is meant.
#[derive(Clone, Copy, Debug, PartialEq, Eq)]
pub enum YearBase {
    /// The year of the calendar.
    Calendar,
    /// The year of the ISO week.
    IsoWeek,
}

/// How many digits of a year are read after a sign.
#[derive(Clone, Copy, Debug, PartialEq, Eq)]
pub enum YearRange {
    /// Four, for the years -9999 to 9999.
    Standard,
    /// Four to six, for the years -999999 to 999999.
    Extended,
}

impl YearRange {
    // Whether a year has up to six digits after a sign.
    /// # Contract
    ///
    /// ```text
    /// ensures { result ≡ is_extended self }
    /// ```
    ///
    /// [docs/proofs/STATEMENT.md](crate::proved#contracts) explains the words.
    #[inline]
    pub(crate) const fn is_extended(self) -> bool {
        match self {
            YearRange::Standard => false,
            YearRange::Extended => true,
        }
    }
}

/// How the weeks of a year are counted.
#[derive(Clone, Copy, Debug, PartialEq, Eq)]
pub enum WeekRule {
    /// By ISO 8601: week 1 has the first Thursday of its year.
    Iso,
    /// By the Sundays of the year up to the day.
    Sunday,
    /// By the Mondays of the year up to the day.
    Monday,
}

/// The first day of a week.
#[derive(Clone, Copy, Debug, PartialEq, Eq)]
pub enum WeekStart {
    /// Sunday.
    Sunday,
    /// Monday.
    Monday,
}

impl WeekStart {
    // The number of the first day of a week, 0 for Monday.
    /// # Contract
    ///
    /// ```text
    /// ensures value { result ≡ first_weekday self }
    /// ensures below { result < 7 }
    /// ```
    ///
    /// [docs/proofs/STATEMENT.md](crate::proved#contracts) explains the words.
    #[inline]
    pub(crate) const fn weekday(self) -> u8 {
        match self {
            WeekStart::Sunday => 6,
            WeekStart::Monday => 0,
        }
    }
}

/// The number of the first day of a week.
#[derive(Clone, Copy, Debug, PartialEq, Eq)]
pub enum WeekdayCount {
    /// 0.
    FromZero,
    /// 1.
    FromOne,
}

impl WeekdayCount {
    // The number of the first day of a week.
    /// # Contract
    ///
    /// ```text
    /// ensures value { result ≡ first_number self }
    /// ensures below { result < 2 }
    /// ```
    ///
    /// [docs/proofs/STATEMENT.md](crate::proved#contracts) explains the words.
    #[inline]
    pub(crate) const fn first(self) -> u8 {
        match self {
            WeekdayCount::FromZero => 0,
            WeekdayCount::FromOne => 1,
        }
    }
}

/// The unit of a Unix timestamp.
#[derive(Clone, Copy, Debug, PartialEq, Eq)]
pub enum UnixPrecision {
    /// Seconds.
    Seconds,
    /// Milliseconds.
    Milliseconds,
    /// Microseconds.
    Microseconds,
    /// Nanoseconds.
    Nanoseconds,
}

impl UnixPrecision {
    // The most digits of the count.
    /// # Contract
    ///
    /// ```text
    /// ensures value { result ≡ unix_digits self }
    /// ensures some { 1 ≤ result }
    /// ensures at_most { result ≤ 23 }
    /// ```
    ///
    /// [docs/proofs/STATEMENT.md](crate::proved#contracts) explains the words.
    #[inline]
    pub(crate) const fn digits(self) -> u8 {
        match self {
            UnixPrecision::Seconds => 14,
            UnixPrecision::Milliseconds => 17,
            UnixPrecision::Microseconds => 20,
            UnixPrecision::Nanoseconds => 23,
        }
    }
}

/// A word for UTC.
#[derive(Clone, Copy, Debug, PartialEq, Eq)]
pub enum UtcWord {
    /// `UTC`.
    Utc,
    /// `GMT`.
    Gmt,
    /// `Z`.
    Zulu,
}

impl UtcWord {
    // The letters of the word.
    /// # Contract
    ///
    /// ```text
    /// ensures text { result.now ≡ utc_word self }
    /// ensures ascii { IsAscii result.now }
    /// ensures length { length result.now ≤ 3 }
    /// ```
    ///
    /// [docs/proofs/STATEMENT.md](crate::proved#contracts) explains the words.
    #[inline]
    pub(crate) const fn letters(self) -> &'static [u8] {
        match self {
            UtcWord::Utc => b"UTC",
            UtcWord::Gmt => b"GMT",
            UtcWord::Zulu => b"Z",
        }
    }
}

/// How many digits of a fraction are written.
#[derive(Clone, Copy, Debug, PartialEq, Eq)]
pub enum SubsecondDigits {
    /// As many as the fraction takes, but at least one.
    OneOrMore,
    /// The first digit.
    One,
    /// The first two digits.
    Two,
    /// The first three digits.
    Three,
    /// The first four digits.
    Four,
    /// The first five digits.
    Five,
    /// The first six digits.
    Six,
    /// The first seven digits.
    Seven,
    /// The first eight digits.
    Eight,
    /// All nine digits.
    Nine,
}

impl SubsecondDigits {
    // The number of digits, and 0 for as many as the fraction takes.
    /// # Contract
    ///
    /// ```text
    /// ensures value { result ≡ digit_count self }
    /// ensures at_most { result ≤ 9 }
    /// ```
    ///
    /// [docs/proofs/STATEMENT.md](crate::proved#contracts) explains the words.
    #[inline]
    pub(crate) const fn count(self) -> u8 {
        match self {
            SubsecondDigits::OneOrMore => 0,
            SubsecondDigits::One => 1,
            SubsecondDigits::Two => 2,
            SubsecondDigits::Three => 3,
            SubsecondDigits::Four => 4,
            SubsecondDigits::Five => 5,
            SubsecondDigits::Six => 6,
            SubsecondDigits::Seven => 7,
            SubsecondDigits::Eight => 8,
            SubsecondDigits::Nine => 9,
        }
    }
}
