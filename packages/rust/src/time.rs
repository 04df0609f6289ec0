//! Times of day by more of `time`'s names.

use crate::{SignedDuration, Time};

impl Time {
    /// The duration from this time of day on to the next other, which may be on the next day.
    ///
    /// ```
    /// use muxandu::ext::NumericalDuration as _;
    /// use muxandu::macros::time;
    ///
    /// assert_eq!(time!(18:00).duration_until(time!(6:00)), 12.hours());
    /// ```
    #[must_use]
    #[inline]
    pub fn duration_until(self, other: Time) -> SignedDuration {
        let ahead = other - self;
        if ahead.is_negative() { ahead + SignedDuration::DAY } else { ahead }
    }

    /// The duration from the last other on to this time of day, which may have been on the day
    /// before.
    ///
    /// ```
    /// use muxandu::ext::NumericalDuration as _;
    /// use muxandu::macros::time;
    ///
    /// assert_eq!(time!(6:00).duration_since(time!(23:00)), 7.hours());
    /// ```
    #[must_use]
    #[inline]
    pub fn duration_since(self, other: Time) -> SignedDuration {
        other.duration_until(self)
    }
}

sums! {
    /// The time of day later or earlier by the duration, on this day or another.
    Time, SignedDuration: self, duration => self.adjusting_add(duration).1, self.adjusting_sub(duration).1;
    /// The time of day later or earlier by the duration, on this day or another.
    Time, core::time::Duration: self, duration =>
        self.adjusting_add_std(duration).1, self.adjusting_sub_std(duration).1;
}
