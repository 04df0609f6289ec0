//! Dates and times over the proleptic Gregorian calendar, the years -999999 to 999999, under the
//! names of the crate `time`.
//!
//! The types and their functions are those of the module [`proved`]: plain Rust, made of sources of
//! which each function is proved to meet its contract. What this crate adds by hand are the names
//! of `time` that those sources do not have: literals, clocks, errors, texts read by `FromStr`, and
//! numbers as durations. A program over `time` changes `use time::` into `use muxandu::`. Format
//! descriptions are in [`mod@format_description`], and texts without an offset in [`local_texts`].
//!
//! [`PlainDateTime`] is a date and a time of day, [`UtcDateTime`] and [`Timestamp`] are instants,
//! and [`OffsetDateTime`] is a wall clock at an offset from UTC. Only tested functions make a
//! value, so reads cannot fail.
//!
//! ```
//! use muxandu::ext::NumericalDuration as _;
//! use muxandu::macros::{datetime, offset};
//! use muxandu::{OffsetDateTime, PlainDateTime};
//!
//! let at: OffsetDateTime = "2024-02-28T23:30:00-01:00".parse()?;
//! let later = at + 1.days();
//! assert_eq!(later.to_offset(offset!(UTC)).to_rfc3339().unwrap(), "2024-03-01T00:30:00Z");
//! assert_eq!(later, datetime!(2024-03-01 0:30 UTC));
//! let wall: PlainDateTime = datetime!(2024-02-29 12:00);
//! assert_eq!(wall.replace_year(2023).unwrap_err().name(), "day");
//! # Ok::<(), muxandu::Refusal>(())
//! ```

#![no_std]
#![forbid(unsafe_code)]
#![warn(missing_docs)]

extern crate alloc;
#[cfg(not(feature = "std"))]
extern crate core as std;
#[cfg(feature = "std")]
extern crate std;

#[macro_use]
mod operators;

#[cfg(feature = "chrono")]
mod chrono;
mod clocks;
mod date;
mod defaults;
pub mod error;
pub mod ext;
pub mod format_description;
pub mod formatting;
mod fractional;
mod instant;
#[doc(hidden)]
pub mod literal;
#[cfg(feature = "local-offset")]
mod local_offset;
pub mod macros;
mod mixed;
mod names;
mod offset_date_time;
pub mod parsing;
#[rustfmt::skip]
pub mod proved;
#[cfg(feature = "quickcheck")]
mod quickcheck;
#[cfg(feature = "rand")]
mod rand;
mod refusal;
mod rfc3339;
#[cfg(feature = "serde")]
pub mod serde;
mod signed_duration;
mod spelled;
mod text;
mod time;
mod unit;
mod utc_offset;
pub mod util;
pub mod zones;

#[doc(inline)]
pub use error::Error;
#[cfg(feature = "std")]
pub use instant::Instant;
#[doc(inline)]
pub use proved::local_texts;
#[doc(inline)]
pub use proved::{
    Date, Month, OffsetDateTime, PlainDateTime, SignedDuration, Text, TextRefusal, Time, Timestamp,
    UtcDateTime, UtcOffset, Weekday, days_in_month, days_in_year, is_leap_year,
};
pub use refusal::Refusal;
pub use unit::Unit;

/// The name that `time` gives [`SignedDuration`].
pub type Duration = SignedDuration;

/// The name that `time` gave [`PlainDateTime`].
pub type PrimitiveDateTime = PlainDateTime;

/// A result with any error of the crate, as `time`'s.
pub type Result<T> = core::result::Result<T, Error>;

/// A result whose error names a part.
pub(crate) type RangeResult<T> = core::result::Result<T, error::ComponentRange>;
