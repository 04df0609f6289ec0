//! Comparisons and conversions between the types of instants, by the proved functions for each
//! pair.

use crate::{OffsetDateTime, Timestamp, UtcDateTime};

compared! {
    OffsetDateTime, UtcDateTime: first, second => first.eq_utc(second), first.cmp_utc(second);
    Timestamp, UtcDateTime: first, second => first.eq_utc(second), first.cmp_utc(second);
    Timestamp, OffsetDateTime: first, second => first.eq_offset(second), first.cmp_offset(second);
}

/// # Panics
///
/// Clocks in UTC show a year outside the range.
impl From<OffsetDateTime> for UtcDateTime {
    #[track_caller]
    #[inline]
    fn from(at: OffsetDateTime) -> UtcDateTime {
        at.to_utc()
    }
}

/// # Panics
///
/// Clocks in UTC show a year outside the range.
impl From<OffsetDateTime> for Timestamp {
    #[track_caller]
    #[inline]
    fn from(at: OffsetDateTime) -> Timestamp {
        at.to_timestamp()
    }
}
