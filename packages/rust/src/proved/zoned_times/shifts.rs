// Made by make/erase of crates/zoned_times/src/shifts.rt. Do not edit.
//! Days and months on the clocks of a zone.
use crate::proved::zoned_times::{AtZone, LocalTimes};
use crate::proved::plain_times::PlainDateTime;
use crate::proved::zones::Zone;

// The date-times of the zone at the time of day of a wall clock, a number of days later.
/// # Contract
///
/// ```text
/// ensures { AreIfAny zone.now now (now +ℤ days *ℤ pos nanos_per_day) result }
/// ```
///
/// [docs/proofs/STATEMENT.md](crate::proved#contracts) explains the words.
#[inline]
pub(crate) fn days_later(now: PlainDateTime, days: i64, zone: &Zone) -> Option<LocalTimes> {
    match now.date().checked_add_days(days) {
        Some(date) => Some(PlainDateTime::new(date, now.time()).at_zone(zone)),
        None => None,
    }
}

// The date-times of the zone at the time of day of a wall clock, a number of months later.
/// # Contract
///
/// ```text
/// ensures { AreIfAny zone.now now (wall_months_later now months) result }
/// ```
///
/// [docs/proofs/STATEMENT.md](crate::proved#contracts) explains the words.
#[inline]
pub(crate) fn months_later(now: PlainDateTime, months: i32, zone: &Zone) -> Option<LocalTimes> {
    match now.date().checked_add_months(months) {
        Some(date) => Some(PlainDateTime::new(date, now.time()).at_zone(zone)),
        None => None,
    }
}
