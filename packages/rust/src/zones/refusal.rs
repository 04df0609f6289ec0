//! Why there is no zone.

use core::error::Error;
use core::fmt;
#[cfg(feature = "std")]
use std::io::ErrorKind;

use crate::proved::zone_files::{FileRefusal, RuleRefusal};
use crate::proved::zoned_times::LocalRefusal;
use crate::proved::zones::ZoneError;

#[doc(inline)]
pub use crate::proved::zone_files::{FilePart, RuleFault};

/// Why there is no zone.
///
/// ```
/// use muxandu::zones::{Zone, ZoneRefusal};
///
/// let refused = Zone::from_tz("CET-25").unwrap_err();
/// assert_eq!(refused.to_string(), "the text is no rule: Range (byte 4)");
/// assert!(matches!(refused, ZoneRefusal::Rule { byte: 4, .. }));
/// ```
#[derive(Clone, Copy, Debug, PartialEq, Eq)]
#[non_exhaustive]
pub enum ZoneRefusal {
    /// The bytes are no file of a zone.
    File {
        /// The part at fault.
        part: FilePart,
        /// The index of the byte where it begins.
        byte: usize,
    },
    /// The text is no rule.
    Rule {
        /// The kind of fault.
        fault: RuleFault,
        /// The index of the byte where the part at fault begins.
        byte: usize,
    },
    /// A transition of the file is out of range, or does not follow the one before it.
    Transition {
        /// How many transitions are before it.
        index: usize,
    },
    /// The rule overlaps itself in some year, or does not follow the last transition.
    Overlap,
    /// An abbreviation of the file is not UTF-8.
    Abbreviation,
    /// There is no memory for the transitions.
    Memory,
    /// The text is no name of a zone: it is empty, an absolute path, has a part that begins with
    /// `.`, or a character that no name has.
    #[cfg(feature = "std")]
    Name,
    /// No folder has a zone of this name.
    #[cfg(feature = "std")]
    Unknown,
    /// The file has more than 1 MiB, so that it is no file of a zone.
    #[cfg(feature = "std")]
    TooLong,
    /// The system does not let the file be read.
    #[cfg(feature = "std")]
    Unreadable(ErrorKind),
}

impl fmt::Display for ZoneRefusal {
    fn fmt(&self, f: &mut fmt::Formatter<'_>) -> fmt::Result {
        match self {
            ZoneRefusal::File { part, byte } => {
                write!(f, "the bytes are no file of a zone: {part:?} (byte {byte})")
            }
            ZoneRefusal::Rule { fault, byte } => {
                write!(f, "the text is no rule: {fault:?} (byte {byte})")
            }
            ZoneRefusal::Transition { index } => {
                write!(f, "transition {index} is out of range or does not follow the one before it")
            }
            ZoneRefusal::Overlap => {
                f.write_str("the rule overlaps itself, or does not follow the last transition")
            }
            ZoneRefusal::Abbreviation => f.write_str("an abbreviation is not UTF-8"),
            ZoneRefusal::Memory => f.write_str("there is no memory for the transitions"),
            #[cfg(feature = "std")]
            ZoneRefusal::Name => f.write_str("the text is no name of a zone"),
            #[cfg(feature = "std")]
            ZoneRefusal::Unknown => f.write_str("no folder has a zone of this name"),
            #[cfg(feature = "std")]
            ZoneRefusal::TooLong => f.write_str("the file is too long for one of a zone"),
            #[cfg(feature = "std")]
            ZoneRefusal::Unreadable(kind) => write!(f, "the file of the zone: {kind}"),
        }
    }
}

impl Error for ZoneRefusal {}

impl From<FileRefusal> for ZoneRefusal {
    fn from(refused: FileRefusal) -> ZoneRefusal {
        ZoneRefusal::File { part: refused.part, byte: refused.place }
    }
}

impl From<RuleRefusal> for ZoneRefusal {
    fn from(refused: RuleRefusal) -> ZoneRefusal {
        ZoneRefusal::Rule { fault: refused.fault, byte: refused.place }
    }
}

impl From<ZoneError> for ZoneRefusal {
    fn from(refused: ZoneError) -> ZoneRefusal {
        match refused {
            ZoneError::Row(index) => ZoneRefusal::Transition { index },
            ZoneError::Rule => ZoneRefusal::Overlap,
        }
    }
}

impl fmt::Display for LocalRefusal {
    fn fmt(&self, f: &mut fmt::Formatter<'_>) -> fmt::Result {
        f.write_str(match self {
            LocalRefusal::Gap(_) => "clocks of the zone are put forward past the wall clock",
            LocalRefusal::Fold => "clocks of the zone show the wall clock twice",
            LocalRefusal::OutOfRange => "the wall clock in the zone is out of range",
        })
    }
}

impl Error for LocalRefusal {}
