// Made by make/erase of crates/zone_files/src/abbreviated.rt. Do not edit.
//! The offset of a zone with its abbreviation.

/// The offset of a zone at a second, with its abbreviation.
#[derive(Clone, Copy)]
pub struct Abbreviated<'a> {
    /// Seconds east of UTC.
    pub offset: i32,
    /// Whether it is daylight saving time.
    pub is_daylight: bool,
    /// The abbreviation, such as `CEST`.
    pub abbreviation: &'a [u8],
}
