//! As texts by a format, for the modules of fields.

use alloc::string::String;
use core::fmt;
use core::marker::PhantomData;

use ::serde::de::{self, Visitor};
use ::serde::ser::Error as _;

pub use ::serde::{Deserialize, Deserializer, Serialize, Serializer};

use crate::error::{Format, Parse};
use crate::formatting::Formattable;
use crate::parsing::Parsable;
use crate::{Date, OffsetDateTime, PlainDateTime, Time, Timestamp, UtcDateTime, UtcOffset};

/// The types that a format writes and reads.
pub trait Described: Sized {
    /// The text.
    ///
    /// # Errors
    ///
    /// The value has none.
    fn write(&self, format: &impl Formattable) -> Result<String, Format>;

    /// The value of a text.
    ///
    /// # Errors
    ///
    /// The text has another form, or a part of it is out of range.
    fn read(text: &str, format: &impl Parsable) -> Result<Self, Parse>;
}

macro_rules! described {
    ($($Type:ident)+) => {
        $(impl Described for $Type {
            fn write(&self, format: &impl Formattable) -> Result<String, Format> {
                self.format(format)
            }

            fn read(text: &str, format: &impl Parsable) -> Result<$Type, Parse> {
                $Type::parse(text, format)
            }
        })+
    };
}

described! { Date OffsetDateTime PlainDateTime Time Timestamp UtcDateTime UtcOffset }

struct Read<'a, T, F>(&'a F, &'static str, PhantomData<T>);

impl<T: Described, F: Parsable> Visitor<'_> for Read<'_, T, F> {
    type Value = T;

    fn expecting(&self, f: &mut fmt::Formatter<'_>) -> fmt::Result {
        f.write_str(self.1)
    }

    fn visit_str<E: de::Error>(self, text: &str) -> Result<T, E> {
        T::read(text, self.0).map_err(E::custom)
    }
}

/// Writes a value.
///
/// # Errors
///
/// The value has no such text, and those of the format of serde.
pub fn serialize<T: Described, S: Serializer>(
    value: &T,
    format: &impl Formattable,
    serializer: S,
) -> Result<S::Ok, S::Error> {
    serializer.serialize_str(&value.write(format).map_err(S::Error::custom)?)
}

/// Reads a value of a text that an error of serde calls so.
///
/// # Errors
///
/// That of the text, and those of the format of serde.
pub fn deserialize<'de, T: Described, D: Deserializer<'de>>(
    format: &impl Parsable,
    what: &'static str,
    deserializer: D,
) -> Result<T, D::Error> {
    deserializer.deserialize_str(Read(format, what, PhantomData))
}

/// The module for a value that may be missing, over the two functions of the module around it: what
/// is generic when a value is written and when one is read, and the type.
#[macro_export]
#[doc(hidden)]
macro_rules! __serde_option {
    ([$($written:tt)*] [$($read:tt)*] $Type:ty) => {
        /// The same of a value that may be missing: `#[serde(with = "..::option", default)]`.
        pub mod option {
            use $crate::serde::described::{Deserialize, Deserializer, Serialize, Serializer};

            #[allow(unused_imports)]
            use super::*;

            struct Item<T>(T);

            impl<$($written)*> Serialize for Item<&$Type> {
                fn serialize<S: Serializer>(&self, serializer: S) -> ::core::result::Result<S::Ok, S::Error> {
                    super::serialize(self.0, serializer)
                }
            }

            impl<'de, $($read)*> Deserialize<'de> for Item<$Type> {
                fn deserialize<D: Deserializer<'de>>(deserializer: D) -> ::core::result::Result<Self, D::Error> {
                    super::deserialize(deserializer).map(Item)
                }
            }

            /// Writes a value, or none.
            ///
            /// # Errors
            ///
            /// As without `option`.
            pub fn serialize<S: Serializer, $($written)*>(
                value: &::core::option::Option<$Type>,
                serializer: S,
            ) -> ::core::result::Result<S::Ok, S::Error> {
                value.as_ref().map(Item).serialize(serializer)
            }

            /// Reads a value, or none.
            ///
            /// # Errors
            ///
            /// As without `option`.
            pub fn deserialize<'de, D: Deserializer<'de>, $($read)*>(
                deserializer: D,
            ) -> ::core::result::Result<::core::option::Option<$Type>, D::Error> {
                let item = ::core::option::Option::<Item<$Type>>::deserialize(deserializer)?;
                ::core::result::Result::Ok(item.map(|Item(value)| value))
            }
        }
    };
}

/// The module of a well-known format, for fields of instants.
macro_rules! well_known {
    ($($module:ident: $name:literal, $what:literal, $format:expr;)+) => {
        $(
            #[doc = concat!("As texts of ", $what, ", for fields of instants: `#[serde(with = \"time::serde::", $name, "\")]`.")]
            #[cfg(feature = "serde-well-known")]
            pub mod $module {
                use super::described::{self, Deserializer, Serializer};
                use super::timestamp::Instant;
                #[allow(unused_imports)]
                use crate::format_description::well_known::{Iso8601, Rfc2822, Rfc3339, iso8601::Config};

                /// Writes a value.
                ///
                /// # Errors
                ///
                /// The value has no such text, and those of the format.
                pub fn serialize<T: Instant, S: Serializer>(at: &T, serializer: S) -> Result<S::Ok, S::Error> {
                    described::serialize(at, &$format, serializer)
                }

                /// Reads a value.
                ///
                /// # Errors
                ///
                /// That of the text, and those of the format.
                pub fn deserialize<'de, T: Instant, D: Deserializer<'de>>(deserializer: D) -> Result<T, D::Error> {
                    described::deserialize(&$format, concat!("a text of ", $what), deserializer)
                }

                __serde_option! { [T: Instant] [T: Instant] T }
            }
        )+
    };
}

/// `serde::format_description!`: a module for fields of a type, as texts by a description. It takes
/// a name, the type, and the description as a text or as items. The module `option` in it is for
/// values that may be missing.
///
/// ```
/// # #[cfg(feature = "serde")] {
/// use muxandu::Date;
///
/// muxandu::serde::format_description!(day_first, Date, "[day].[month].[year]");
///
/// #[derive(serde::Serialize, serde::Deserialize)]
/// struct Ticket {
///     #[serde(with = "day_first")]
///     due: Date,
/// }
/// # }
/// ```
#[macro_export]
macro_rules! serde_format_description {
    ($name:ident, $($rest:tt)+) => { $crate::serde_format_description! { mod $name, $($rest)+ } };
    ($(#[$attribute:meta])* $visible:vis mod $name:ident, $Type:ident, version = $version:literal, $text:literal $(,)?) => {
        $crate::serde_format_description! {
            $(#[$attribute])* $visible mod $name, $Type, $crate::macros::format_description!(version = $version, $text)
        }
    };
    ($(#[$attribute:meta])* $visible:vis mod $name:ident, $Type:ident, $text:literal $(,)?) => {
        $crate::serde_format_description! { $(#[$attribute])* $visible mod $name, $Type, version = 1, $text }
    };
    ($(#[$attribute:meta])* $visible:vis mod $name:ident, $Type:ident, $items:expr $(,)?) => {
        $(#[$attribute])*
        $visible mod $name {
            const ITEMS: $crate::format_description::StaticFormatDescription = {
                #[allow(unused_imports)]
                use super::*;
                $items
            };

            #[allow(dead_code)]
            pub fn serialize<S: $crate::serde::described::Serializer>(
                value: &$crate::$Type,
                serializer: S,
            ) -> ::core::result::Result<S::Ok, S::Error> {
                $crate::serde::described::serialize(value, &ITEMS, serializer)
            }

            #[allow(dead_code)]
            pub fn deserialize<'de, D: $crate::serde::described::Deserializer<'de>>(
                deserializer: D,
            ) -> ::core::result::Result<$crate::$Type, D::Error> {
                $crate::serde::described::deserialize(&ITEMS, "a text by the description of the field", deserializer)
            }

            $crate::__serde_option! { [] [] $crate::$Type }
        }
    };
}
