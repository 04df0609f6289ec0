//! The files of the time zones of tzdata, for machines that have none, such as Windows and small
//! containers. The package has the number of the release: 2025.2.0 is 2025b.
//!
//! ```
//! use muxandu::macros::datetime;
//! use muxandu::zones::{Zone, ZoneSource};
//!
//! let (apia, source) = Zone::named_or("Pacific/Apia", muxandu_tzdata::file)?;
//! if source == ZoneSource::Given {
//!     eprintln!("no zones on this machine: those of tzdata {}", muxandu_tzdata::VERSION);
//! }
//! let at = datetime!(2011-12-30 10:00 UTC).to_zone(&apia);
//! assert_eq!(at.to_string(), "2011-12-31 0:00:00.0 +14:00:00");
//! # Ok::<(), muxandu::zones::ZoneRefusal>(())
//! ```
#![no_std]

mod zones;

pub use zones::VERSION;
use zones::{FILES, ZONES};

/// The file of a zone by its name, as RFC 9636 has it, or `None` where there is no such zone. A
/// name that is a link has the file of the zone to which it leads.
///
/// ```
/// assert_eq!(muxandu_tzdata::file("Asia/Calcutta"), muxandu_tzdata::file("Asia/Kolkata"));
/// assert_eq!(muxandu_tzdata::file("Mars/Phobos"), None);
/// ```
#[must_use]
pub fn file(name: &str) -> Option<&'static [u8]> {
    let place = ZONES.binary_search_by_key(&name, |zone| zone.0).ok()?;
    let (_, begin, end) = ZONES[place];
    FILES.get(begin as usize..end as usize)
}

/// The names of the zones in their order.
///
/// ```
/// assert!(muxandu_tzdata::names().any(|name| name == "Europe/Berlin"));
/// ```
pub fn names() -> impl Iterator<Item = &'static str> {
    ZONES.iter().map(|zone| zone.0)
}
