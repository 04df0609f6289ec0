//! Offsets from UTC by more of `time`'s names.

use core::cmp::Ordering;
use core::hash::{Hash, Hasher};
use core::ops::Neg;

use crate::UtcOffset;

impl UtcOffset {
    /// The whole minutes, towards zero.
    ///
    /// ```
    /// use muxandu::macros::offset;
    ///
    /// assert_eq!(offset!(-1:30:45).whole_minutes(), -90);
    /// ```
    #[must_use]
    #[inline]
    pub const fn whole_minutes(self) -> i16 {
        (self.whole_seconds() / 60) as i16
    }

    /// Whether clocks show more than in UTC.
    ///
    /// ```
    /// use muxandu::macros::offset;
    ///
    /// assert!(offset!(+0:00:01).is_positive() && !offset!(UTC).is_positive());
    /// ```
    #[must_use]
    #[inline]
    pub const fn is_positive(self) -> bool {
        self.whole_seconds() > 0
    }
}

impl Neg for UtcOffset {
    type Output = UtcOffset;

    #[inline]
    fn neg(self) -> UtcOffset {
        let (hours, minutes, seconds) = self.as_hms();
        UtcOffset::from_hms(-hours, -minutes, -seconds).expect("the offset the other way")
    }
}

impl Ord for UtcOffset {
    #[inline]
    fn cmp(&self, other: &UtcOffset) -> Ordering {
        self.as_hms().cmp(&other.as_hms())
    }
}

impl PartialOrd for UtcOffset {
    #[inline]
    fn partial_cmp(&self, other: &UtcOffset) -> Option<Ordering> {
        Some(self.cmp(other))
    }
}

impl Hash for UtcOffset {
    #[inline]
    fn hash<H: Hasher>(&self, state: &mut H) {
        self.as_hms().hash(state);
    }
}
