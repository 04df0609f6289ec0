use crate::{OffsetDateTime, Timestamp};

/// A unit of time, to which a value is rounded down.
///
/// ```
/// use muxandu::Unit;
/// use muxandu::macros::timestamp;
///
/// assert_eq!(timestamp!(-0.5).truncated_to(Unit::Hour), timestamp!(-3_600));
/// ```
#[derive(Clone, Copy, Debug, PartialEq, Eq, Hash)]
pub enum Unit {
    /// A day.
    Day,
    /// An hour.
    Hour,
    /// A minute.
    Minute,
    /// A second.
    Second,
    /// A millisecond.
    Millisecond,
    /// A microsecond.
    Microsecond,
    /// A nanosecond.
    Nanosecond,
}

impl OffsetDateTime {
    /// Rounded down to a unit, as the clocks show it.
    ///
    /// ```
    /// use muxandu::Unit;
    /// use muxandu::macros::datetime;
    ///
    /// let at = datetime!(2024-02-29 12:34:56.789 +5:30);
    /// assert_eq!(at.truncated_to(Unit::Hour), datetime!(2024-02-29 12:00 +5:30));
    /// ```
    #[must_use]
    #[inline]
    pub fn truncated_to(self, unit: Unit) -> OffsetDateTime {
        match unit {
            Unit::Day => self.truncate_to_day(),
            Unit::Hour => self.truncate_to_hour(),
            Unit::Minute => self.truncate_to_minute(),
            Unit::Second => self.truncate_to_second(),
            Unit::Millisecond => self.truncate_to_millisecond(),
            Unit::Microsecond => self.truncate_to_microsecond(),
            Unit::Nanosecond => self,
        }
    }
}

impl Timestamp {
    /// The instant rounded down to a unit in UTC.
    ///
    /// ```
    /// use muxandu::Unit;
    /// use muxandu::macros::timestamp;
    ///
    /// assert_eq!(timestamp!(1_709_168_523.5).truncated_to(Unit::Day), timestamp!(1_709_164_800));
    /// ```
    #[must_use]
    #[inline]
    pub fn truncated_to(self, unit: Unit) -> Timestamp {
        match unit {
            Unit::Day => self.truncate_to_day(),
            Unit::Hour => self.truncate_to_hour(),
            Unit::Minute => self.truncate_to_minute(),
            Unit::Second => self.truncate_to_second(),
            Unit::Millisecond => self.truncate_to_millisecond(),
            Unit::Microsecond => self.truncate_to_microsecond(),
            Unit::Nanosecond => self,
        }
    }
}
