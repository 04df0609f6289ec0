//! Descriptions of how values are written and read, by `time`'s names. The functions that write and
//! read are proved.
//!
//! ```
//! use muxandu::macros::{datetime, format_description};
//! use muxandu::OffsetDateTime;
//!
//! let format =
//!     format_description!("[year]-[month]-[day] [hour]:[minute] [offset_hour sign:mandatory]");
//! let at = datetime!(2024-02-29 12:34 +1);
//! assert_eq!(at.format(&format)?, "2024-02-29 12:34 +01");
//! assert_eq!(OffsetDateTime::parse("2024-02-29 12:34 +01", &format)?, at);
//! # Ok::<(), muxandu::Error>(())
//! ```

mod component;
mod items;
pub mod modifier;
mod strftime;
mod text;
pub mod well_known;

pub use component::Component;
pub use items::{BorrowedFormatItem, OwnedFormatItem};
pub use strftime::{parse_strftime_borrowed, parse_strftime_owned};
#[doc(hidden)]
pub use text::Laid;
pub use text::{parse, parse_borrowed, parse_owned};

/// The older name of [`BorrowedFormatItem`].
pub type FormatItem<'a> = BorrowedFormatItem<'a>;

/// The items that `format_description!` returns.
pub type StaticFormatDescription = &'static [BorrowedFormatItem<'static>];
