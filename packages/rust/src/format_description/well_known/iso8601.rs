//! How texts of ISO 8601 are written: the configuration of
//! [`Iso8601`](crate::format_description::well_known::Iso8601).

use core::num::NonZero;

use crate::proved::format_descriptions as proved;
use proved::{Iso8601, Iso8601Time, SubsecondDigits};

/// The form of a date.
pub use proved::Iso8601Date as DateKind;
/// The last part of an offset.
pub use proved::Iso8601Offset as OffsetPrecision;

/// A configuration as a constant of a type.
pub type EncodedConfig = u128;

/// The parts of a value that are written.
#[derive(Clone, Copy, Debug, PartialEq, Eq)]
pub enum FormattedComponents {
    /// None: the format reads, and a program that writes by it panics.
    None,
    /// The date.
    Date,
    /// The time of day.
    Time,
    /// The offset.
    Offset,
    /// The date and the time of day.
    DateTime,
    /// The date, the time of day and the offset.
    DateTimeOffset,
    /// The time of day and the offset.
    TimeOffset,
}

use FormattedComponents as Parts;

/// The last part of a time of day, with the number of digits of its fraction, at most nine.
#[derive(Clone, Copy, Debug, PartialEq, Eq)]
pub enum TimePrecision {
    /// The hour, as `12` or `12.5`.
    Hour {
        /// The digits of the fraction, or none.
        decimal_digits: Option<NonZero<u8>>,
    },
    /// The minute, as `12:30` or `12:30.5`.
    Minute {
        /// The digits of the fraction, or none.
        decimal_digits: Option<NonZero<u8>>,
    },
    /// The second, as `12:30:45` or `12:30:45.5`.
    Second {
        /// The digits of the fraction, or none.
        decimal_digits: Option<NonZero<u8>>,
    },
}

/// How texts are written.
///
/// ```
/// use muxandu::format_description::well_known::Iso8601;
/// use muxandu::format_description::well_known::iso8601::{Config, DateKind, TimePrecision};
/// use muxandu::macros::datetime;
///
/// const WEEKS: Iso8601<
///     {
///         Config::DEFAULT
///             .set_date_kind(DateKind::Week)
///             .set_use_separators(false)
///             .set_time_precision(TimePrecision::Minute { decimal_digits: None })
///             .encode()
///     },
/// > = Iso8601;
/// assert_eq!(datetime!(2024-02-29 12:30 +1).format(&WEEKS)?, "2024W094T1230+0100");
/// # Ok::<(), muxandu::Error>(())
/// ```
#[derive(Clone, Copy, Debug, PartialEq, Eq)]
pub struct Config {
    parts: Parts,
    date: DateKind,
    time: TimePrecision,
    offset: OffsetPrecision,
    has_separators: bool,
    has_six_digit_years: bool,
}

/// The values of each part, by their numbers.
const PARTS: [Parts; 7] = [
    Parts::None,
    Parts::Date,
    Parts::Time,
    Parts::Offset,
    Parts::DateTime,
    Parts::DateTimeOffset,
    Parts::TimeOffset,
];
const DATES: [DateKind; 3] = [DateKind::Calendar, DateKind::Week, DateKind::Ordinal];
const OFFSETS: [OffsetPrecision; 2] = [OffsetPrecision::Hour, OffsetPrecision::Minute];
const DIGITS: [Option<SubsecondDigits>; 10] = [
    None,
    Some(SubsecondDigits::One),
    Some(SubsecondDigits::Two),
    Some(SubsecondDigits::Three),
    Some(SubsecondDigits::Four),
    Some(SubsecondDigits::Five),
    Some(SubsecondDigits::Six),
    Some(SubsecondDigits::Seven),
    Some(SubsecondDigits::Eight),
    Some(SubsecondDigits::Nine),
];

impl TimePrecision {
    /// The number of the last part, and the digits.
    const fn numbers(self) -> (u128, u128) {
        let (number, digits) = match self {
            TimePrecision::Hour { decimal_digits } => (0, decimal_digits),
            TimePrecision::Minute { decimal_digits } => (1, decimal_digits),
            TimePrecision::Second { decimal_digits } => (2, decimal_digits),
        };
        match digits {
            None => (number, 0),
            Some(digits) => (number, digits.get() as u128),
        }
    }
}

macro_rules! setters {
    ($($set:ident $field:ident: $Type:ty, $what:literal, $value:literal => $text:literal;)+) => {
        $(
            #[doc = concat!("The same with ", $what, ".")]
            ///
            /// ```
            /// use muxandu::format_description::well_known::{Iso8601, iso8601::*};
            /// use muxandu::macros::datetime;
            ///
            #[doc = concat!("const CONFIG: Config = Config::DEFAULT.", stringify!($set), "(", $value, ");")]
            /// let text = datetime!(2024-02-29 12:34 +2).format(&Iso8601::<{ CONFIG.encode() }>)?;
            #[doc = concat!("assert_eq!(text, \"", $text, "\");")]
            /// # Ok::<(), muxandu::Error>(())
            /// ```
            #[must_use]
            pub const fn $set(mut self, value: $Type) -> Config {
                self.$field = value;
                self
            }
        )+
    };
}

impl Config {
    /// As `2024-02-29T12:30:45.500000000+05:30`.
    pub const DEFAULT: Config = Config {
        parts: Parts::DateTimeOffset,
        date: DateKind::Calendar,
        time: TimePrecision::Second { decimal_digits: NonZero::new(9) },
        offset: OffsetPrecision::Minute,
        has_separators: true,
        has_six_digit_years: false,
    };

    setters! {
        set_formatted_components parts: FormattedComponents, "these parts",
            "FormattedComponents::Date" => "2024-02-29";
        set_date_kind date: DateKind, "dates of this form",
            "DateKind::Ordinal" => "2024-060T12:34:00.000000000+02:00";
        set_time_precision time: TimePrecision, "times of day down to this part",
            "TimePrecision::Minute { decimal_digits: None }" => "2024-02-29T12:34+02:00";
        set_offset_precision offset: OffsetPrecision, "offsets down to this part",
            "OffsetPrecision::Hour" => "2024-02-29T12:34:00.000000000+02";
        set_use_separators has_separators: bool, "`-` and `:` between the parts, or without them",
            "false" => "20240229T123400.000000000+0200";
        set_year_is_six_digits has_six_digit_years: bool, "a sign and six digits of the year, or with four digits",
            "true" => "+002024-02-29T12:34:00.000000000+02:00";
    }

    /// The constant for the type [`Iso8601`](super::Iso8601).
    ///
    /// ```
    /// use muxandu::format_description::well_known::Iso8601;
    /// use muxandu::format_description::well_known::iso8601::{Config, EncodedConfig};
    /// use muxandu::macros::date;
    ///
    /// const SIX_DIGITS: EncodedConfig = Config::DEFAULT.set_year_is_six_digits(true).encode();
    /// let at = date!(2024-02-29).midnight().assume_utc();
    /// assert_eq!(at.format(&Iso8601::<SIX_DIGITS>)?, "+002024-02-29T00:00:00.000000000Z");
    /// # Ok::<(), muxandu::Error>(())
    /// ```
    ///
    /// # Panics
    ///
    /// A fraction has more than nine digits. In a constant such a configuration does not compile.
    #[must_use]
    pub const fn encode(&self) -> EncodedConfig {
        let (time, digits) = self.time.numbers();
        assert!(digits < DIGITS.len() as u128, "a fraction must have at most nine digits");
        self.parts as u128
            | (self.date as u128) << 8
            | time << 16
            | digits << 24
            | (self.offset as u128) << 32
            | (self.has_separators as u128) << 40
            | (self.has_six_digit_years as u128) << 48
    }
}

/// The form of an encoded configuration, as the proved functions take it.
pub(crate) const fn form_of(encoded: EncodedConfig) -> Iso8601 {
    let numbers = encoded.to_le_bytes();
    let parts = PARTS[numbers[0] as usize];
    let has_date = matches!(parts, Parts::Date | Parts::DateTime | Parts::DateTimeOffset);
    let has_time =
        matches!(parts, Parts::Time | Parts::DateTime | Parts::DateTimeOffset | Parts::TimeOffset);
    let has_offset = matches!(parts, Parts::Offset | Parts::DateTimeOffset | Parts::TimeOffset);
    let has_separators = numbers[5] == 1;
    let digits = DIGITS[numbers[3] as usize];
    let time = match numbers[2] {
        0 => Iso8601Time::Hour(digits),
        1 => Iso8601Time::Minute(digits),
        _ => Iso8601Time::Second(digits),
    };
    Iso8601 {
        date: if has_date { Some(DATES[numbers[1] as usize]) } else { None },
        time: if has_time { Some(time) } else { None },
        offset: if has_offset { Some(OFFSETS[numbers[4] as usize]) } else { None },
        // As `time`: a time of day alone has its `T` only with separators.
        has_time_mark: has_date || has_separators,
        has_separators,
        has_six_digit_years: numbers[6] == 1,
    }
}
