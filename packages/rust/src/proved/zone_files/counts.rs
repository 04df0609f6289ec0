// Made by make/erase of crates/zone_files/src/counts.rt. Do not edit.
//! The counts of a header.

/// The counts of a header in the file of a time zone.
#[derive(Clone, Copy)]
pub(crate) struct Counts {
    // The byte of the version: 0 for version 1, and else its digit.
    pub(crate) version: u8,
    pub(crate) ut: u32,
    pub(crate) standard: u32,
    pub(crate) times: u32,
    pub(crate) types: u32,
    pub(crate) names: u32,
}
