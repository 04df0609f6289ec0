//! The refusals that have the names of `time`.

use core::fmt;
use core::hash::{Hash, Hasher};

use alloc::string::String;

use crate::Refusal;
use crate::proved::{Component, Part, TextRefusal};

pub use crate::proved::ComponentRange;

/// The errors that another error has in its variants: that error of each, and each of it.
macro_rules! kinds {
    ($Whole:ident: $($(#[$on:meta])? $Kind:ident($Error:ty))+) => {
        $(
            $(#[$on])?
            impl From<$Error> for $Whole {
                fn from(refused: $Error) -> $Whole {
                    $Whole::$Kind(refused)
                }
            }

            $(#[$on])?
            impl TryFrom<$Whole> for $Error {
                type Error = DifferentVariant;

                fn try_from(error: $Whole) -> Result<$Error, DifferentVariant> {
                    match error {
                        $Whole::$Kind(refused) => Ok(refused),
                        _ => Err(DifferentVariant),
                    }
                }
            }
        )+
    };
}

impl Hash for ComponentRange {
    fn hash<H: Hasher>(&self, state: &mut H) {
        (self.name(), self.is_conditional()).hash(state);
    }
}

/// A duration that is out of the range of the other type.
///
/// ```
/// use core::time::Duration;
/// use muxandu::SignedDuration;
/// use muxandu::error::ConversionRange;
///
/// assert_eq!(Duration::try_from(SignedDuration::seconds(-1)), Err(ConversionRange));
/// ```
pub use crate::proved::calendar_values::ConversionRange;

impl Hash for ConversionRange {
    fn hash<H: Hasher>(&self, _: &mut H) {}
}

/// A text that names no month or no day of the week.
///
/// ```
/// assert_eq!("May".parse(), Ok(muxandu::Month::May));
/// assert_eq!("may".parse::<muxandu::Month>(), Err(muxandu::error::InvalidVariant));
/// ```
#[derive(Clone, Copy, Debug, PartialEq, Eq, Hash)]
pub struct InvalidVariant;

/// Why a value is not written by a format.
///
/// ```
/// use muxandu::UtcDateTime;
/// use muxandu::error::Format;
/// use muxandu::format_description::well_known::Rfc3339;
///
/// assert_eq!(UtcDateTime::MAX.format(&Rfc3339), Err(Format::InvalidComponent("year")));
/// ```
#[non_exhaustive]
#[derive(Debug)]
pub enum Format {
    /// The value has no part for a component, as a date has none for an hour.
    InsufficientTypeInformation,
    /// The component has no text in a well-known format.
    InvalidComponent(&'static str),
    /// The writer failed.
    #[cfg(feature = "std")]
    StdIo(std::io::Error),
}

/// Failures of writers are equal if they are of one kind.
impl PartialEq for Format {
    fn eq(&self, other: &Format) -> bool {
        match (self, other) {
            (Format::InsufficientTypeInformation, Format::InsufficientTypeInformation) => true,
            (Format::InvalidComponent(name), Format::InvalidComponent(other)) => name == other,
            #[cfg(feature = "std")]
            (Format::StdIo(error), Format::StdIo(other)) => error.kind() == other.kind(),
            _ => false,
        }
    }
}

impl Eq for Format {}

impl fmt::Display for Format {
    fn fmt(&self, f: &mut fmt::Formatter<'_>) -> fmt::Result {
        match self {
            Format::InsufficientTypeInformation => {
                f.write_str("the value has no part for a component of the format")
            }
            Format::InvalidComponent(name) => {
                write!(f, "the component {name} has no text in the format")
            }
            #[cfg(feature = "std")]
            Format::StdIo(error) => error.fmt(f),
        }
    }
}

impl core::error::Error for Format {
    fn source(&self) -> Option<&(dyn core::error::Error + 'static)> {
        match self {
            #[cfg(feature = "std")]
            Format::StdIo(error) => Some(error),
            _ => None,
        }
    }
}

#[cfg(feature = "std")]
kinds! { Format: StdIo(std::io::Error) }

/// Why a text is not written as a description says.
#[non_exhaustive]
#[derive(Clone, Copy, Debug, PartialEq, Eq, Hash)]
pub enum ParseFromDescription {
    /// The text has other bytes in the place of a literal.
    InvalidLiteral,
    /// The component of this name cannot be read, or contradicts a part before it.
    InvalidComponent(&'static str),
}

impl fmt::Display for ParseFromDescription {
    fn fmt(&self, f: &mut fmt::Formatter<'_>) -> fmt::Result {
        match self {
            ParseFromDescription::InvalidLiteral => {
                f.write_str("the text has other bytes than a literal of the format")
            }
            ParseFromDescription::InvalidComponent(name) => {
                write!(f, "the component {name} cannot be read")
            }
        }
    }
}

impl core::error::Error for ParseFromDescription {}

/// Why parts are no value.
#[non_exhaustive]
#[derive(Clone, Copy, Debug, PartialEq, Eq, Hash)]
pub enum TryFromParsed {
    /// A part is missing.
    InsufficientInformation,
    /// A part is out of its range, or contradicts another.
    ComponentRange(ComponentRange),
}

impl fmt::Display for TryFromParsed {
    fn fmt(&self, f: &mut fmt::Formatter<'_>) -> fmt::Result {
        match self {
            TryFromParsed::InsufficientInformation => {
                f.write_str("the text has too few parts for the value")
            }
            TryFromParsed::ComponentRange(refused) => refused.fmt(f),
        }
    }
}

impl core::error::Error for TryFromParsed {
    fn source(&self) -> Option<&(dyn core::error::Error + 'static)> {
        match self {
            TryFromParsed::InsufficientInformation => None,
            TryFromParsed::ComponentRange(refused) => Some(refused),
        }
    }
}

kinds! { TryFromParsed: ComponentRange(ComponentRange) }

/// Why a text is not read by a format.
#[non_exhaustive]
#[derive(Clone, Copy, Debug, PartialEq, Eq, Hash)]
pub enum Parse {
    /// The parts are no value.
    TryFromParsed(TryFromParsed),
    /// The text is not written so.
    ParseFromDescription(ParseFromDescription),
    /// More follows.
    UnexpectedTrailingCharacters,
}

impl fmt::Display for Parse {
    fn fmt(&self, f: &mut fmt::Formatter<'_>) -> fmt::Result {
        match self {
            Parse::TryFromParsed(refused) => refused.fmt(f),
            Parse::ParseFromDescription(refused) => refused.fmt(f),
            Parse::UnexpectedTrailingCharacters => {
                f.write_str("more follows the text of the format")
            }
        }
    }
}

impl core::error::Error for Parse {
    fn source(&self) -> Option<&(dyn core::error::Error + 'static)> {
        match self {
            Parse::TryFromParsed(refused) => Some(refused),
            Parse::ParseFromDescription(refused) => Some(refused),
            Parse::UnexpectedTrailingCharacters => None,
        }
    }
}

kinds! { Parse: TryFromParsed(TryFromParsed) ParseFromDescription(ParseFromDescription) }

/// The errors of texts of RFC 3339.
impl From<TextRefusal> for Parse {
    fn from(refused: TextRefusal) -> Parse {
        let part = match refused {
            TextRefusal::Syntax => return ParseFromDescription::InvalidLiteral.into(),
            TextRefusal::OutOfRange(Component::Month) => Part::Month,
            TextRefusal::OutOfRange(Component::Day) => Part::Day,
            TextRefusal::OutOfRange(Component::Hour) => Part::Hour,
            TextRefusal::OutOfRange(Component::Minute) => Part::Minute,
            TextRefusal::OutOfRange(Component::Second) => Part::Second,
            TextRefusal::OutOfRange(Component::OffsetHour) => Part::Hours,
            TextRefusal::OutOfRange(Component::OffsetMinute) => Part::Minutes,
        };
        TryFromParsed::ComponentRange(ComponentRange::of_part(part, false)).into()
    }
}

/// Why a text is no format description.
///
/// ```
/// use muxandu::error::InvalidFormatDescription;
/// use muxandu::format_description::parse;
///
/// let refused = parse("[year]-[mouth]").unwrap_err();
/// assert_eq!(refused.to_string(), "there is no component `mouth` (byte 8)");
/// assert!(matches!(refused, InvalidFormatDescription::InvalidComponentName { index: 8, .. }));
/// ```
#[non_exhaustive]
#[derive(Clone, Debug, PartialEq, Eq, Hash)]
pub enum InvalidFormatDescription {
    /// A `[` has no `]`.
    UnclosedOpeningBracket {
        /// The place of the `[`, counted from 0.
        index: usize,
    },
    /// There is no component of this name.
    InvalidComponentName {
        /// The name.
        name: String,
        /// Its place.
        index: usize,
    },
    /// The component has no such modifier, or the modifier no such value.
    InvalidModifier {
        /// The modifier or the value.
        value: String,
        /// Its place.
        index: usize,
    },
    /// No name follows a `[`.
    MissingComponentName {
        /// The place of the `[`.
        index: usize,
    },
    /// A component lacks a modifier.
    MissingRequiredModifier {
        /// The modifier.
        name: &'static str,
        /// The place of the `[`.
        index: usize,
    },
    /// The description needs something else here.
    Expected {
        /// The part that it needs.
        what: &'static str,
        /// The place.
        index: usize,
    },
    /// This is not taken here.
    NotSupported {
        /// The part that is not supported.
        what: &'static str,
        /// Where it is not taken.
        context: &'static str,
        /// The place.
        index: usize,
    },
}

impl fmt::Display for InvalidFormatDescription {
    fn fmt(&self, f: &mut fmt::Formatter<'_>) -> fmt::Result {
        use InvalidFormatDescription::*;
        match self {
            UnclosedOpeningBracket { index } => write!(f, "a `[` has no `]` (byte {index})"),
            InvalidComponentName { name, index } => {
                write!(f, "there is no component `{name}` (byte {index})")
            }
            InvalidModifier { value, index } => {
                write!(f, "there is no modifier or value `{value}` (byte {index})")
            }
            MissingComponentName { index } => write!(f, "no name follows a `[` (byte {index})"),
            MissingRequiredModifier { name, index } => {
                write!(f, "the modifier `{name}` is missing (byte {index})")
            }
            Expected { what, index } => write!(f, "expected {what} (byte {index})"),
            NotSupported { what, context, index } => {
                write!(f, "{what} are not taken {context} (byte {index})")
            }
        }
    }
}

impl core::error::Error for InvalidFormatDescription {}

/// The offset of the machine's clock is not known: its zone is not found, or not read.
#[cfg(feature = "local-offset")]
#[derive(Clone, Copy, Debug, PartialEq, Eq, Hash)]
pub struct IndeterminateOffset;

/// The error of a conversion from an [`Error`] of another kind.
///
/// ```
/// use muxandu::error::{ComponentRange, ConversionRange, DifferentVariant};
///
/// let refused = muxandu::Error::from(ConversionRange);
/// assert_eq!(ComponentRange::try_from(refused), Err(DifferentVariant));
/// let refused = muxandu::Error::from(ConversionRange);
/// assert_eq!(ConversionRange::try_from(refused), Ok(ConversionRange));
/// ```
#[derive(Clone, Copy, Debug, PartialEq, Eq, Hash)]
pub struct DifferentVariant;

/// Errors of one value, by their sentences.
macro_rules! sentences {
    ($($(#[$on:meta])? $Error:ident: $sentence:literal;)+) => {
        $(
            $(#[$on])?
            impl fmt::Display for $Error {
                fn fmt(&self, f: &mut fmt::Formatter<'_>) -> fmt::Result {
                    f.write_str($sentence)
                }
            }

            $(#[$on])?
            impl core::error::Error for $Error {}
        )+
    };
}

sentences! {
    ConversionRange: "the duration is out of the range of the other type";
    DifferentVariant: "the error is of another kind";
    #[cfg(feature = "local-offset")]
    IndeterminateOffset: "the offset of the machine's clock is not known: use an offset of your own";
    InvalidVariant: "the text is not the English name of a month or of a day of the week";
}

/// Any error of the crate.
///
/// ```
/// use muxandu::{Date, Month, UtcDateTime};
///
/// fn midnight(year: i32, month: &str) -> Result<UtcDateTime, muxandu::Error> {
///     let first = Date::from_calendar_date(year, month.parse::<Month>()?, 1)?;
///     Ok(first.midnight().as_utc())
/// }
///
/// assert_eq!(midnight(1_000_000, "May").unwrap_err().to_string(), "year is out of range");
/// ```
#[derive(Debug, PartialEq, Eq)]
#[non_exhaustive]
#[allow(missing_docs)]
pub enum Error {
    ComponentRange(ComponentRange),
    ConversionRange(ConversionRange),
    DifferentVariant(DifferentVariant),
    Format(Format),
    #[cfg(feature = "local-offset")]
    IndeterminateOffset(IndeterminateOffset),
    InvalidFormatDescription(InvalidFormatDescription),
    InvalidVariant(InvalidVariant),
    ParseFromDescription(ParseFromDescription),
    Refusal(Refusal),
    TryFromParsed(TryFromParsed),
    UnexpectedTrailingCharacters,
}

impl From<Parse> for Error {
    fn from(refused: Parse) -> Error {
        match refused {
            Parse::TryFromParsed(refused) => Error::TryFromParsed(refused),
            Parse::ParseFromDescription(refused) => Error::ParseFromDescription(refused),
            Parse::UnexpectedTrailingCharacters => Error::UnexpectedTrailingCharacters,
        }
    }
}

impl TryFrom<Error> for Parse {
    type Error = DifferentVariant;

    fn try_from(error: Error) -> Result<Parse, DifferentVariant> {
        match error {
            Error::TryFromParsed(refused) => Ok(Parse::TryFromParsed(refused)),
            Error::ParseFromDescription(refused) => Ok(Parse::ParseFromDescription(refused)),
            Error::UnexpectedTrailingCharacters => Ok(Parse::UnexpectedTrailingCharacters),
            _ => Err(DifferentVariant),
        }
    }
}

macro_rules! all_kinds {
    ($($(#[$on:meta])? $Kind:ident)+) => {
        kinds! { Error: $($(#[$on])? $Kind($Kind))+ }

        impl fmt::Display for Error {
            fn fmt(&self, f: &mut fmt::Formatter<'_>) -> fmt::Result {
                match self {
                    $($(#[$on])? Error::$Kind(refused) => refused.fmt(f),)+
                    Error::UnexpectedTrailingCharacters => Parse::UnexpectedTrailingCharacters.fmt(f),
                }
            }
        }

        impl core::error::Error for Error {
            fn source(&self) -> Option<&(dyn core::error::Error + 'static)> {
                match self {
                    $($(#[$on])? Error::$Kind(refused) => Some(refused),)+
                    Error::UnexpectedTrailingCharacters => None,
                }
            }
        }
    };
}

all_kinds! {
    ComponentRange ConversionRange DifferentVariant Format
    #[cfg(feature = "local-offset")]
    IndeterminateOffset
    InvalidFormatDescription InvalidVariant ParseFromDescription Refusal TryFromParsed
}
