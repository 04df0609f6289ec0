//! Formats that a standard has.

/// Texts of RFC 3339, as `1996-12-19T16:39:57-08:00`.
///
/// ```
/// use muxandu::OffsetDateTime;
/// use muxandu::format_description::well_known::Rfc3339;
///
/// let at = OffsetDateTime::parse("1996-12-19T16:39:57-08:00", &Rfc3339)?;
/// assert_eq!(at.format(&Rfc3339)?, "1996-12-19T16:39:57-08:00");
/// assert_eq!(at.to_utc().format(&Rfc3339)?, "1996-12-20T00:39:57Z");
/// # Ok::<(), muxandu::Error>(())
/// ```
#[derive(Clone, Copy, Debug, PartialEq, Eq)]
pub struct Rfc3339;

/// Texts of RFC 2822, as `Fri, 21 Nov 1997 09:55:06 -0600`.
///
/// ```
/// use muxandu::format_description::well_known::Rfc2822;
/// use muxandu::macros::datetime;
///
/// let at = datetime!(1997-11-21 9:55:06 -6);
/// assert_eq!(at.format(&Rfc2822)?, "Fri, 21 Nov 1997 09:55:06 -0600");
/// # Ok::<(), muxandu::Error>(())
/// ```
#[derive(Clone, Copy, Debug, PartialEq, Eq)]
pub struct Rfc2822;

pub mod iso8601;

use iso8601::{Config, EncodedConfig, FormattedComponents};

const fn encode(parts: FormattedComponents) -> EncodedConfig {
    Config::DEFAULT.set_formatted_components(parts).encode()
}

/// Texts of ISO 8601, as `2024-02-29T12:30:45.500000000+05:30`. It writes by a configuration of
/// [`iso8601`], and reads every form: a date-time, or a date or a time of day alone.
///
/// ```
/// use muxandu::format_description::well_known::Iso8601;
/// use muxandu::macros::{date, datetime};
/// use muxandu::{Date, OffsetDateTime};
///
/// let at = datetime!(2024-02-29 12:30 +1);
/// assert_eq!(at.format(&Iso8601::DEFAULT)?, "2024-02-29T12:30:00.000000000+01:00");
/// assert_eq!(at.format(&Iso8601::DATE)?, "2024-02-29");
/// assert_eq!(OffsetDateTime::parse("2024-W09-4T1230+01", &Iso8601::DEFAULT)?, at);
/// assert_eq!(Date::parse("2024-060", &Iso8601::PARSING)?, date!(2024-02-29));
/// # Ok::<(), muxandu::Error>(())
/// ```
#[derive(Clone, Copy, Debug, PartialEq, Eq)]
pub struct Iso8601<const CONFIG: EncodedConfig = { Config::DEFAULT.encode() }>;

macro_rules! formats {
    ($($NAME:ident $Parts:ident: $what:literal;)+) => {
        $(
            impl Iso8601<{ encode(FormattedComponents::$Parts) }> {
                #[doc = $what]
                pub const $NAME: Self = Iso8601;
            }
        )+
    };
}

formats! {
    DEFAULT DateTimeOffset: "Writes date-times with their offset.";
    PARSING None: "Reads, and writes nothing: a program that writes by it panics.";
    DATE Date: "Writes dates.";
    TIME Time: "Writes times of day.";
    OFFSET Offset: "Writes offsets.";
    DATE_TIME DateTime: "Writes date-times without their offset.";
    DATE_TIME_OFFSET DateTimeOffset: "Writes date-times with their offset.";
    TIME_OFFSET TimeOffset: "Writes times of day with their offset.";
}
