// Made by make/erase of crates/zoned_times/src/zone_days.rt. Do not edit.
//! Days on the clocks of a zone.
use crate::proved::zoned_times::seconds::{offset_at, wall_clock_at};
use crate::proved::calendar_values::{Date, SignedDuration};
use crate::proved::offset_times::{Assume, OffsetDateTime};
use crate::proved::zones::Zone;

/// A type with a day, which begins and ends on the clocks of a zone.
///
/// # Contract
///
/// ```text
/// ghost day_zoned: { Self → ℤ };
/// ```
///
/// [docs/proofs/STATEMENT.md](crate::proved#contracts) explains the words.
pub trait ZoneDays {
    /// The first date-time of the day in the zone. It is no midnight if clocks are put forward past
    /// that. Of a day that the clocks skip, it is that of the next day. None if its date is out of
    /// range.
    ///
    /// # Contract
    ///
    /// ```text
    /// ensures { IsStartOfDay zone.now (day_zoned self) result }
    /// ```
    ///
    /// [docs/proofs/STATEMENT.md](crate::proved#contracts) explains the words.
    fn start_of_day_in_zone(self, zone: &Zone) -> Option<OffsetDateTime>;

    /// How long the day lasts in the zone, up to the start of the next one: 24 hours on most days,
    /// 23 or 25 where clocks are put forward or back by an hour, and none on a day that they skip.
    ///
    /// # Contract
    ///
    /// ```text
    /// ensures { IsLengthOfDay zone.now (day_zoned self) result }
    /// ```
    ///
    /// [docs/proofs/STATEMENT.md](crate::proved#contracts) explains the words.
    fn length_of_day_in_zone(self, zone: &Zone) -> SignedDuration;
}

/// # Contract
///
/// ```text
/// ghost day_zoned = { λ day. day };
/// ```
///
/// [docs/proofs/STATEMENT.md](crate::proved#contracts) explains the words.
impl ZoneDays for Date {
    #[inline]
    fn start_of_day_in_zone(self, zone: &Zone) -> Option<OffsetDateTime> {
        let second = zone.start_of_day(self.days_since_epoch() as i64);
        let offset = offset_at(zone, second);
        match wall_clock_at(second, offset) {
            Some(wall) => Some(wall.assume_offset(offset)),
            None => None,
        }
    }

    #[inline]
    fn length_of_day_in_zone(self, zone: &Zone) -> SignedDuration {
        SignedDuration::seconds(zone.length_of_day(self.days_since_epoch() as i64))
    }
}
