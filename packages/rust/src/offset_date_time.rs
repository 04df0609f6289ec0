//! Date-times at an offset by more names.

use crate::OffsetDateTime;

impl OffsetDateTime {
    /// Whether both show the same at the same offset, not only the same instant.
    ///
    /// ```
    /// use muxandu::macros::datetime;
    ///
    /// let (east, utc) = (datetime!(2024-02-29 1:00 +1), datetime!(2024-02-29 0:00 UTC));
    /// assert!(east == utc && !east.is_same(utc));
    /// ```
    #[must_use]
    #[inline]
    pub fn is_same(self, other: OffsetDateTime) -> bool {
        self.parts() == other.parts()
    }
}
