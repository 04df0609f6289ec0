// Made by make/erase of crates/zone_files/src/tz_rule.rt. Do not edit.
//! Rules for all years, with their abbreviations.
use crate::proved::zones::Moment;

/// Daylight saving time in a rule.
///
/// # Contract
///
/// ```text
/// ghost offset_in: { IsOffset offset },
/// ```
///
/// [docs/proofs/STATEMENT.md](crate::proved#contracts) explains the words.
#[derive(Clone, Copy)]
pub struct Daylight<'a> {
    /// Its abbreviation, such as `CEST`.
    pub name: &'a [u8],
    /// Seconds east of UTC.
    pub offset: i32,
    /// The moment of each year from which on it lasts.
    pub from: Moment,
    /// The moment of each year until which it lasts.
    pub until: Moment,
}

/// A rule for all years.
///
/// # Contract
///
/// ```text
/// ghost offset_in: { IsOffset offset },
/// ```
///
/// [docs/proofs/STATEMENT.md](crate::proved#contracts) explains the words.
#[derive(Clone, Copy)]
pub struct TzRule<'a> {
    /// The abbreviation of standard time, such as `CET`.
    pub name: &'a [u8],
    /// Seconds east of UTC.
    pub offset: i32,
    /// Daylight saving time, if there is any.
    pub daylight: Option<Daylight<'a>>,
}
