// Made by make/erase of crates/rfc3339/src/parts.rt. Do not edit.
//! The numbers of a text.

/// The numbers that a text of RFC 3339 spells, each as the text has it, and not yet tested for its
/// range. Contracts speak of them, and [`write_rfc3339_parts`](crate::proved::rfc3339::write_rfc3339_parts) writes
/// them.
#[derive(Clone, Copy)]
pub struct Parts {
    /// The year, of four digits.
    pub year: u16,
    /// The month, of two digits, as the parts that follow.
    pub month: u8,
    /// The day of the month.
    pub day: u8,
    /// The hour.
    pub hour: u8,
    /// The minute.
    pub minute: u8,
    /// The second.
    pub second: u8,
    /// The first nine digits of the fraction, as nanoseconds.
    pub nanosecond: u32,
    /// Whether the sign of the offset is `-`.
    pub is_west: bool,
    /// The hours of the offset.
    pub offset_hour: u8,
    /// The minutes of the offset.
    pub offset_minute: u8,
}
