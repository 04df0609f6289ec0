//! As Unix timestamps, for fields of instants: `#[serde(with = "time::serde::timestamp")]` for
//! seconds, and a module for each finer unit. A count is rounded down. An [`OffsetDateTime`] is
//! read at the offset 0.

use ::serde::de::Error as _;
use ::serde::{Deserialize, Deserializer, Serialize, Serializer};

use crate::{OffsetDateTime, RangeResult, Timestamp, UtcDateTime};

mod instants {
    use super::{OffsetDateTime, RangeResult, Timestamp, UtcDateTime};
    use crate::serde::described::Described;

    /// The types with a Unix timestamp: `OffsetDateTime`, `UtcDateTime` and `Timestamp`.
    pub trait Instant: Described + Copy {
        /// The nanoseconds since the epoch.
        fn nanoseconds(self) -> i128;

        /// The value of a number of nanoseconds since the epoch.
        ///
        /// # Errors
        ///
        /// The instant is out of range.
        fn of_nanoseconds(nanoseconds: i128) -> RangeResult<Self>;
    }

    macro_rules! instants {
        ($($Type:ident: $to:ident, $from:ident;)+) => {
            $(impl Instant for $Type {
                fn nanoseconds(self) -> i128 {
                    self.$to()
                }

                fn of_nanoseconds(nanoseconds: i128) -> RangeResult<$Type> {
                    $Type::$from(nanoseconds)
                }
            })+
        };
    }

    instants! {
        OffsetDateTime: unix_timestamp_nanos, from_unix_timestamp_nanos;
        UtcDateTime: unix_timestamp_nanos, from_unix_timestamp_nanos;
        Timestamp: as_nanoseconds, from_nanoseconds;
    }
}

pub(super) use instants::Instant;

/// The two functions for a unit of a number of nanoseconds, whose count has a type.
macro_rules! functions {
    ($Count:ident, $nanoseconds:literal) => {
        /// Writes the count.
        ///
        /// # Errors
        ///
        /// Those of the format.
        pub fn serialize<T: Instant, S: Serializer>(
            at: &T,
            serializer: S,
        ) -> Result<S::Ok, S::Error> {
            // The seconds of each instant are less than 2^46.
            let count = at.nanoseconds().div_euclid($nanoseconds) as $Count;
            count.serialize(serializer)
        }

        /// Reads the count.
        ///
        /// # Errors
        ///
        /// The instant is out of range, and those of the format.
        pub fn deserialize<'de, T: Instant, D: Deserializer<'de>>(
            deserializer: D,
        ) -> Result<T, D::Error> {
            let count = i128::from($Count::deserialize(deserializer)?);
            T::of_nanoseconds(count.saturating_mul($nanoseconds)).map_err(D::Error::custom)
        }
    };
}

functions! { i64, 1_000_000_000 }
__serde_option! { [T: Instant] [T: Instant] T }

macro_rules! finer {
    ($($unit:ident: $module:literal, $nanoseconds:literal;)+) => {
        $(
            #[doc = concat!("As a number of ", stringify!($unit), ": `#[serde(with = \"time::serde::", $module, "\")]`.")]
            pub mod $unit {
                use super::*;

                functions! { i128, $nanoseconds }
                __serde_option! { [T: Instant] [T: Instant] T }
            }
        )+
    };
}

finer! {
    milliseconds: "timestamp::milliseconds", 1_000_000;
    microseconds: "timestamp::microseconds", 1_000;
    nanoseconds: "timestamp::nanoseconds", 1;
}
