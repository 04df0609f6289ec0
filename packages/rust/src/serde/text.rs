//! As `Display` writes and `FromStr` reads, for fields of each type:
//! `#[serde(with = "time::serde::text")]`.

use core::fmt::{self, Display};
use core::marker::PhantomData;
use core::str::FromStr;

use ::serde::de::{Deserializer, Error, Visitor};
use ::serde::ser::Serializer;

struct Read<T>(PhantomData<T>);

impl<T: FromStr<Err: Display>> Visitor<'_> for Read<T> {
    type Value = T;

    fn expecting(&self, f: &mut fmt::Formatter<'_>) -> fmt::Result {
        f.write_str("a text of a date or a time")
    }

    fn visit_str<E: Error>(self, text: &str) -> Result<T, E> {
        text.parse().map_err(E::custom)
    }
}

/// Writes a value.
///
/// # Errors
///
/// Those of the format.
pub fn serialize<T: Display, S: Serializer>(value: &T, serializer: S) -> Result<S::Ok, S::Error> {
    serializer.collect_str(value)
}

/// Reads a value.
///
/// # Errors
///
/// That of the text, and those of the format.
pub fn deserialize<'de, T: FromStr<Err: Display>, D: Deserializer<'de>>(
    deserializer: D,
) -> Result<T, D::Error> {
    deserializer.deserialize_str(Read(PhantomData))
}

__serde_option! { [T: Display] [T: FromStr<Err: Display>] T }
