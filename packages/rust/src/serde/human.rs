//! The texts for people: a date, a time of day whose hour has two digits, and an offset.

use core::fmt::{self, Display};

use crate::error::{Parse, TryFromParsed};
use crate::macros::format_description;
use crate::{
    Date, Month, OffsetDateTime, PlainDateTime, Refusal, SignedDuration, Time, Timestamp,
    UtcDateTime, UtcOffset, Weekday,
};

/// A type that has a text for people.
pub(super) trait Human: Sized {
    /// Writes the text.
    fn write(&self, f: &mut fmt::Formatter<'_>) -> fmt::Result;

    /// The value of a text.
    fn read(text: &str) -> Result<Self, Refusal>;
}

/// The text of a value.
pub(super) struct Written<'a, T>(pub(super) &'a T);

impl<T: Human> Display for Written<'_, T> {
    fn fmt(&self, f: &mut fmt::Formatter<'_>) -> fmt::Result {
        self.0.write(f)
    }
}

/// The texts of descriptions, with one digit of the fraction of a second and more.
macro_rules! by_description {
    ($($Type:ident: $($part:literal)+;)+) => {
        $(impl Human for $Type {
            fn write(&self, f: &mut fmt::Formatter<'_>) -> fmt::Result {
                let text = self.format(format_description!(concat!($($part),+)));
                f.write_str(&text.map_err(|_| fmt::Error)?)
            }

            fn read(text: &str) -> Result<$Type, Refusal> {
                match $Type::parse(text, format_description!(concat!($($part),+))) {
                    Err(Parse::TryFromParsed(TryFromParsed::ComponentRange(refused))) => Err(refused.into()),
                    read => read.map_err(|_| Refusal::Syntax),
                }
            }
        })+
    };
}

by_description! {
    Date: "[year]-[month]-[day]";
    Time: "[hour]:[minute]:[second].[subsecond]";
    UtcOffset: "[offset_hour sign:mandatory]:[offset_minute]:[offset_second]";
    PlainDateTime: "[year]-[month]-[day] [hour]:[minute]:[second].[subsecond]";
    UtcDateTime: "[year]-[month]-[day] [hour]:[minute]:[second].[subsecond]";
    OffsetDateTime: "[year]-[month]-[day] [hour]:[minute]:[second].[subsecond]"
        " [offset_hour sign:mandatory]:[offset_minute]:[offset_second]";
}

impl Human for SignedDuration {
    fn write(&self, f: &mut fmt::Formatter<'_>) -> fmt::Result {
        let sign = if self.is_negative() { "-" } else { "" };
        let size = self.unsigned_abs();
        write!(f, "{sign}{}.{:09}", size.as_secs(), size.subsec_nanos())
    }

    fn read(text: &str) -> Result<SignedDuration, Refusal> {
        seconds(text).ok_or(Refusal::Syntax)
    }
}

/// The duration of seconds, a point, and nine digits.
fn seconds(text: &str) -> Option<SignedDuration> {
    let (seconds, fraction) = text.strip_prefix('-').unwrap_or(text).split_once('.')?;
    let are_digits = |text: &str| text.bytes().all(|byte| byte.is_ascii_digit());
    if fraction.len() != 9 || !are_digits(seconds) || !are_digits(fraction) {
        return None;
    }
    let size = i128::from(seconds.parse::<u64>().ok()?) * 1_000_000_000;
    let size = size + fraction.parse::<i128>().ok()?;
    SignedDuration::of_nanoseconds(if text.starts_with('-') { -size } else { size })
}

/// Texts that `Display` writes and `FromStr` reads.
macro_rules! as_displayed {
    ($($Type:ident)+) => {
        $(impl Human for $Type {
            fn write(&self, f: &mut fmt::Formatter<'_>) -> fmt::Result {
                write!(f, "{self}")
            }

            fn read(text: &str) -> Result<$Type, Refusal> {
                text.parse().map_err(|_| Refusal::Syntax)
            }
        })+
    };
}

as_displayed! { Month Timestamp Weekday }
