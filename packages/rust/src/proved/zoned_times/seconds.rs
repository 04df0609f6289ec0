// Made by make/erase of crates/zoned_times/src/seconds.rt. Do not edit.
//! Offsets and wall clocks at Unix seconds.
use crate::proved::calendar_values::UtcOffset;
use crate::proved::plain_times::PlainDateTime;
use crate::proved::utc_times::UtcDateTime;
use crate::proved::zones::Zone;

// The offset of a number of seconds.
/// # Contract
///
/// ```text
/// requires { IsOffset seconds }
/// ensures { result ≡ seconds }
/// ```
///
/// [docs/proofs/STATEMENT.md](crate::proved#contracts) explains the words.
#[inline]
pub(crate) fn offset_of(seconds: i32) -> UtcOffset {
    UtcOffset::from_whole_seconds(seconds).unwrap()
}

// The offset of the zone at a Unix second.
/// # Contract
///
/// ```text
/// requires { IsSecond second }
/// ensures { IsZoneOffset zone.now second result }
/// ```
///
/// [docs/proofs/STATEMENT.md](crate::proved#contracts) explains the words.
#[inline]
pub(crate) fn offset_at(zone: &Zone, second: i64) -> UtcOffset {
    zone.utc_offset_at(second)
}

// The wall clock of a Unix second at an offset, if it is in range.
/// # Contract
///
/// ```text
/// requires { IsTailSecond second }
/// ensures { SomeInRange result (shown_at (instant_of_second second) offset) }
/// ```
///
/// [docs/proofs/STATEMENT.md](crate::proved#contracts) explains the words.
#[inline]
pub(crate) const fn wall_clock_at(second: i64, offset: UtcOffset) -> Option<PlainDateTime> {
    match UtcDateTime::from_unix_timestamp(second + offset.whole_seconds() as i64) {
        Ok(shown) => Some(shown.as_plain()),
        Err(_) => None,
    }
}
