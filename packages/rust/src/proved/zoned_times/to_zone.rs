// Made by make/erase of crates/zoned_times/src/to_zone.rt. Do not edit.
//! Instants on the clocks of a zone.
use crate::proved::zoned_times::LocalTimes;
use crate::proved::zoned_times::seconds::offset_at;
use crate::proved::zoned_times::shifts::{days_later, months_later};
use crate::proved::offset_times::{OffsetDateTime, ToOffset};
use crate::proved::stamp_times::Timestamp;
use crate::proved::utc_times::UtcDateTime;
use crate::proved::zones::{Transition, Zone};

/// A type with an instant that the clocks of a zone show.
///
/// # Contract
///
/// ```text
/// ghost instant_zoned: { Self → ℤ };
/// ```
///
/// [docs/proofs/STATEMENT.md](crate::proved#contracts) explains the words.
pub trait ToZone: Sized {
    /// The same instant at the offset that the zone has then. None if its date there is out of
    /// range.
    ///
    /// # Contract
    ///
    /// ```text
    /// ensures value { ShownIn zone.now (instant_zoned self) result }
    /// ensures instant { IfSome result (λ at. instant_of at ≡ instant_zoned self) }
    /// ```
    ///
    /// [docs/proofs/STATEMENT.md](crate::proved#contracts) explains the words.
    fn to_zone(self, zone: &Zone) -> Option<OffsetDateTime>;

    /// The first transition of the zone after the instant, or None if there is none.
    ///
    /// # Contract
    ///
    /// ```text
    /// ensures { IsNextAfter zone.now (instant_zoned self) result }
    /// ```
    ///
    /// [docs/proofs/STATEMENT.md](crate::proved#contracts) explains the words.
    fn next_transition_in_zone(self, zone: &Zone) -> Option<Transition>;

    /// The last transition of the zone before the instant, or None if there is none.
    ///
    /// # Contract
    ///
    /// ```text
    /// ensures { IsLastBefore zone.now (instant_zoned self) result }
    /// ```
    ///
    /// [docs/proofs/STATEMENT.md](crate::proved#contracts) explains the words.
    fn previous_transition_in_zone(self, zone: &Zone) -> Option<Transition>;

    /// The date-times of the zone at the same time of day a number of days later, or earlier for a
    /// negative number. The days are those of the zone's clocks: one may have 23 or 25 hours. None
    /// if the date in the zone is out of range, now or then.
    ///
    /// # Contract
    ///
    /// ```text
    /// ensures { AreDaysLater zone.now (instant_zoned self) days result }
    /// ```
    ///
    /// [docs/proofs/STATEMENT.md](crate::proved#contracts) explains the words.
    #[inline]
    fn checked_add_days_in_zone(self, days: i64, zone: &Zone) -> Option<LocalTimes> {
        match self.to_zone(zone) {
            Some(shown) => days_later(shown.date_time(), days, zone),
            None => None,
        }
    }

    /// The date-times of the zone at the same time of day a number of months later, or earlier for
    /// a negative number: on the last day of a month that is shorter. None if the date in the zone
    /// is out of range, now or then.
    ///
    /// # Contract
    ///
    /// ```text
    /// ensures { AreMonthsLater zone.now (instant_zoned self) months result }
    /// ```
    ///
    /// [docs/proofs/STATEMENT.md](crate::proved#contracts) explains the words.
    #[inline]
    fn checked_add_months_in_zone(self, months: i32, zone: &Zone) -> Option<LocalTimes> {
        match self.to_zone(zone) {
            Some(shown) => months_later(shown.date_time(), months, zone),
            None => None,
        }
    }
}

/// # Contract
///
/// ```text
/// ghost instant_zoned = { λ instant. instant };
/// ```
///
/// [docs/proofs/STATEMENT.md](crate::proved#contracts) explains the words.
impl ToZone for UtcDateTime {
    #[inline]
    fn to_zone(self, zone: &Zone) -> Option<OffsetDateTime> {
        self.checked_to_offset(offset_at(zone, self.unix_timestamp()))
    }

    #[inline]
    fn next_transition_in_zone(self, zone: &Zone) -> Option<Transition> {
        OffsetDateTime::from(self).next_transition_in_zone(zone)
    }

    #[inline]
    fn previous_transition_in_zone(self, zone: &Zone) -> Option<Transition> {
        OffsetDateTime::from(self).previous_transition_in_zone(zone)
    }
}

/// # Contract
///
/// ```text
/// ghost instant_zoned = { λ at. instant_of at };
/// ```
///
/// [docs/proofs/STATEMENT.md](crate::proved#contracts) explains the words.
impl ToZone for OffsetDateTime {
    #[inline]
    fn to_zone(self, zone: &Zone) -> Option<OffsetDateTime> {
        // For the proof alone: what is read lies in its range.
        let _in_range = self.offset();
        self.checked_to_offset(offset_at(zone, self.unix_timestamp()))
    }

    #[inline]
    fn next_transition_in_zone(self, zone: &Zone) -> Option<Transition> {
        let _in_range = self.offset();
        zone.next_transition(self.unix_timestamp())
    }

    #[inline]
    fn previous_transition_in_zone(self, zone: &Zone) -> Option<Transition> {
        let _in_range = self.offset();
        zone.previous_transition(second_from(self))
    }
}

/// # Contract
///
/// ```text
/// ghost instant_zoned = { λ instant. instant };
/// ```
///
/// [docs/proofs/STATEMENT.md](crate::proved#contracts) explains the words.
impl ToZone for Timestamp {
    #[inline]
    fn to_zone(self, zone: &Zone) -> Option<OffsetDateTime> {
        self.to_utc().to_zone(zone)
    }

    #[inline]
    fn next_transition_in_zone(self, zone: &Zone) -> Option<Transition> {
        self.to_utc().next_transition_in_zone(zone)
    }

    #[inline]
    fn previous_transition_in_zone(self, zone: &Zone) -> Option<Transition> {
        self.to_utc().previous_transition_in_zone(zone)
    }
}

// The first Unix second that does not begin before the instant.
/// # Contract
///
/// ```text
/// ensures value { result ≡ unix_seconds_of (instant_of at -ℤ pos 1) +ℤ pos 1 }
/// ensures in_range { IsSecond result }
/// ```
///
/// [docs/proofs/STATEMENT.md](crate::proved#contracts) explains the words.
#[inline]
const fn second_from(at: OffsetDateTime) -> i64 {
    // For the proof alone: what is read lies in its range.
    let _in_range = at.offset();
    let second = at.unix_timestamp();
    if at.nanosecond() == 0 {
        second
    } else {
        second + 1
    }
}
