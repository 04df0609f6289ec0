//! Values for serde, in the representations of `time`: `Serialize` and `Deserialize` of each type,
//! and modules for fields.
//!
//! The package in the folder `time` has this module with its feature `serde`. It has the sources of
//! `muxandu`, so that a program over `muxandu` takes that folder:
//!
//! ```toml
//! [dependencies.muxandu]
//! package = "time"
//! path = "../muxandu/packages/rust/time"
//! features = ["serde-human-readable", "serde-well-known"]
//! ```
//!
//! | Type | Numbers | Text, with the feature `serde-human-readable`, in formats for people |
//! |---|---|---|
//! | `Date` | year, day of the year | `2024-02-29` |
//! | `Time` | hour, minute, second, nanosecond | `01:02:03.5` |
//! | `UtcOffset` | hours, minutes, seconds | `+01:30:00` |
//! | `PlainDateTime`, `UtcDateTime` | those of its date and its time | `2024-02-29 01:02:03.5` |
//! | `OffsetDateTime` | those, and those of the offset | `2024-02-29 01:02:03.5 +01:30:00` |
//! | `Timestamp` | seconds, nanosecond | `1709168523.5`, as `Display` writes |
//! | `SignedDuration` | seconds, nanoseconds | `-1.500000000` |
//! | `Month` | 1 for January | `January` |
//! | `Weekday` | 1 for Monday | `Monday` |
//!
//! With that feature, formats for people read the numbers too. The modules below are for fields:
//! `#[serde(with = "..")]`.

#[doc(hidden)]
#[macro_use]
pub mod described;
#[cfg(feature = "serde-human-readable")]
mod human;
pub mod text;
pub mod timestamp;
mod values;

#[doc(inline)]
pub use crate::serde_format_description as format_description;

well_known! {
    iso8601: "iso8601", "ISO 8601", Iso8601::<{ Config::DEFAULT.set_year_is_six_digits(true).encode() }>;
    rfc2822: "rfc2822", "RFC 2822", Rfc2822;
    rfc3339: "rfc3339", "RFC 3339", Rfc3339;
}
