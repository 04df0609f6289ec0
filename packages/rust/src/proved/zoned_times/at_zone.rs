// Made by make/erase of crates/zoned_times/src/at_zone.rt. Do not edit.
//! Wall clocks in a zone.
use crate::proved::zoned_times::seconds::offset_of;
use crate::proved::zoned_times::{Gap, LocalTimes, ToZone};
use crate::proved::calendar_values::UtcOffset;
use crate::proved::offset_times::{Assume, OffsetDateTime};
use crate::proved::plain_times::PlainDateTime;
use crate::proved::utc_times::AsUtc;
use crate::proved::zones::{LocalInstants, Zone};

/// A type with a wall clock, which the clocks of a zone show at some instants.
///
/// # Contract
///
/// ```text
/// ghost wall_clock_zoned: { Self → ℤ };
/// ```
///
/// [docs/proofs/STATEMENT.md](crate::proved#contracts) explains the words.
pub trait AtZone {
    /// The date-times of the zone with this wall clock: all of them.
    ///
    /// # Contract
    ///
    /// ```text
    /// ensures { AreTimesOf zone.now (wall_clock_zoned self) result }
    /// ```
    ///
    /// [docs/proofs/STATEMENT.md](crate::proved#contracts) explains the words.
    fn at_zone(self, zone: &Zone) -> LocalTimes;
}

/// # Contract
///
/// ```text
/// ghost wall_clock_zoned = { λ wall. wall };
/// ```
///
/// [docs/proofs/STATEMENT.md](crate::proved#contracts) explains the words.
impl AtZone for PlainDateTime {
    #[inline]
    fn at_zone(self, zone: &Zone) -> LocalTimes {
        match zone.instants_of(second_shown(self)) {
            LocalInstants::Single(second) => LocalTimes::Single(time_at(self, second)),
            LocalInstants::Fold(earlier, later) => {
                LocalTimes::Fold(time_at(self, earlier), time_at(self, later))
            }
            LocalInstants::Gap(earlier, later, second) => {
                let after = time_at(self, earlier);
                let before = time_at(self, later);
                let gap = Gap {
                    second,
                    before: before.offset(),
                    after: after.offset(),
                };
                LocalTimes::Gap(gap, after.to_zone(zone), before.to_zone(zone))
            }
        }
    }
}

// The date-time of the wall clock at a Unix second at which clocks may show it.
/// # Contract
///
/// ```text
/// requires { IsOffset (unix_seconds_of wall -ℤ second) }
/// ensures { result ≡ wall_at wall (unix_seconds_of wall -ℤ second) }
/// ```
///
/// [docs/proofs/STATEMENT.md](crate::proved#contracts) explains the words.
#[inline]
fn time_at(wall: PlainDateTime, second: i64) -> OffsetDateTime {
    wall.assume_offset(offset_from(second, wall))
}

// The Unix second at which clocks in UTC show the second of the wall clock.
/// # Contract
///
/// ```text
/// ensures value { result ≡ unix_seconds_of wall }
/// ensures in_range { IsSecond result }
/// ensures wall_in_range { IsWallClock wall }
/// ```
///
/// [docs/proofs/STATEMENT.md](crate::proved#contracts) explains the words.
#[inline]
const fn second_shown(wall: PlainDateTime) -> i64 {
    wall.as_utc().unix_timestamp()
}

// The offset at which clocks show the second of the wall clock at a Unix second.
/// # Contract
///
/// ```text
/// requires { IsOffset (unix_seconds_of wall -ℤ second) }
/// ensures { result ≡ unix_seconds_of wall -ℤ second }
/// ```
///
/// [docs/proofs/STATEMENT.md](crate::proved#contracts) explains the words.
#[inline]
fn offset_from(second: i64, wall: PlainDateTime) -> UtcOffset {
    offset_of((second_shown(wall) - second) as i32)
}
