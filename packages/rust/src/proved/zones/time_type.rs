// Made by make/erase of crates/zones/src/time_type.rt. Do not edit.
//! A kind of local time.
/// A kind of local time, which clocks show from one transition to the next.
///
/// # Contract
///
/// ```text
/// ghost offset_in: { IsOffset offset },
/// ```
///
/// [docs/proofs/STATEMENT.md](crate::proved#contracts) explains the words.
#[derive(Clone, Copy)]
pub struct TimeType {
    /// Seconds east of UTC, from -93599 to 93599.
    pub offset: i32,
    /// Whether it is daylight saving time.
    pub is_daylight: bool,
    /// The number of its abbreviation in the list of the zone, such as that of `CEST`. A file has
    /// at most 256 of them, and its rule two more.
    pub designation: u16,
}

impl TimeType {
    // Whether the two are one kind.
    /// # Contract
    ///
    /// ```text
    /// ensures { IsTrue result ↔ (self ≡ other) }
    /// ```
    ///
    /// [docs/proofs/STATEMENT.md](crate::proved#contracts) explains the words.
    #[inline]
    pub(crate) const fn is(self, other: TimeType) -> bool {
        self.offset == other.offset
            && self.is_daylight == other.is_daylight
            && self.designation == other.designation
    }
}
