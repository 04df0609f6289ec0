// Made by make/erase of crates/zoned_times/src/lib.rt. Do not edit.
//! Date-times on the clocks of time zones.
//!
//! An instant goes to a zone by [`ToZone`], at the offset that the zone has then. A wall clock of a
//! zone is one date-time. Where clocks are put forward past it, there is none. Where they are put
//! back over it, there are two: [`AtZone`] returns all of them. A zone changes its offset at whole
//! seconds; the nanoseconds of an instant and of a wall clock are kept.
mod at_zone;
mod gap;
mod local_refusal;
mod local_times;
mod seconds;
mod shifts;
mod to_zone;
mod zone_days;

pub use at_zone::AtZone;
pub use gap::Gap;
pub use local_refusal::LocalRefusal;
pub use local_times::LocalTimes;
pub use to_zone::ToZone;
pub use zone_days::ZoneDays;
