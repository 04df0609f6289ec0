use core::error::Error;
use core::fmt;

use crate::error::ComponentRange;
use crate::proved::{Component, TextRefusal};

/// The error of a text.
///
/// ```
/// use muxandu::{Refusal, Timestamp};
///
/// let refused = "2024-02-28T24:00:00Z".parse::<Timestamp>().unwrap_err();
/// assert_eq!(refused, Refusal::OutOfRange("hour"));
/// assert_eq!(refused.to_string(), "hour is out of range");
/// assert_eq!("tomorrow".parse::<Timestamp>(), Err(Refusal::Syntax));
/// ```
#[derive(Clone, Copy, Debug, PartialEq, Eq, Hash)]
pub enum Refusal {
    /// The text has another form.
    Syntax,
    /// The part of this name is out of range, by the names of [`ComponentRange`], or the `duration`
    /// is.
    OutOfRange(&'static str),
}

impl fmt::Display for Refusal {
    fn fmt(&self, f: &mut fmt::Formatter<'_>) -> fmt::Result {
        match self {
            Refusal::Syntax => f.write_str("the text does not have the form that its type reads"),
            Refusal::OutOfRange(name) => write!(f, "{name} is out of range"),
        }
    }
}

impl Error for Refusal {}

impl From<ComponentRange> for Refusal {
    fn from(refused: ComponentRange) -> Refusal {
        Refusal::OutOfRange(refused.name())
    }
}

impl From<TextRefusal> for Refusal {
    fn from(refused: TextRefusal) -> Refusal {
        match refused {
            TextRefusal::Syntax => Refusal::Syntax,
            TextRefusal::OutOfRange(Component::OffsetHour) => Refusal::OutOfRange("hours"),
            TextRefusal::OutOfRange(Component::OffsetMinute) => Refusal::OutOfRange("minutes"),
            TextRefusal::OutOfRange(component) => Refusal::OutOfRange(component.name()),
        }
    }
}
