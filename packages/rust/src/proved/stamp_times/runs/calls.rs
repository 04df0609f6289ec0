// Made by make/erase of crates/stamp_times/src/runs/calls.rt. Do not edit.
//! The calls that instants of every type have, and what they reply.
use crate::proved::calendar_values::{
    ComponentRange, Date, Month, SignedDuration, Time, UtcOffset, Weekday,
};

/// A read of the date.
#[derive(Clone, Copy, Debug, PartialEq, Eq)]
pub enum DateRead {
    Date,
    Year,
    Month,
    Day,
    Ordinal,
    IsoWeek,
    SundayWeek,
    MondayWeek,
    CalendarDate,
    OrdinalDate,
    IsoWeekDate,
    Weekday,
    JulianDay,
}

/// The result of a read of the date.
#[derive(Clone, Copy, Debug, PartialEq, Eq)]
pub enum DatePart {
    Date(Date),
    Year(i32),
    Month(Month),
    Day(u8),
    Ordinal(u16),
    IsoWeek(u8),
    SundayWeek(u8),
    MondayWeek(u8),
    CalendarDate((i32, Month, u8)),
    OrdinalDate((i32, u16)),
    IsoWeekDate((i32, u8, Weekday)),
    Weekday(Weekday),
    JulianDay(i32),
}

/// A read of the time of day.
#[derive(Clone, Copy, Debug, PartialEq, Eq)]
pub enum ClockRead {
    Time,
    Hms,
    HmsMilli,
    HmsMicro,
    HmsNano,
    Hour,
    Minute,
    Second,
    Millisecond,
    Microsecond,
    Nanosecond,
}

/// The result of a read of the time of day.
#[derive(Clone, Copy, Debug, PartialEq, Eq)]
pub enum ClockPart {
    Time(Time),
    Hms((u8, u8, u8)),
    HmsMilli((u8, u8, u8, u16)),
    HmsMicro((u8, u8, u8, u32)),
    HmsNano((u8, u8, u8, u32)),
    Hour(u8),
    Minute(u8),
    Second(u8),
    Millisecond(u16),
    Microsecond(u32),
    Nanosecond(u32),
}

/// A sum or a difference with a duration.
#[derive(Clone, Copy, Debug, PartialEq, Eq)]
pub enum Shift {
    CheckedAdd(SignedDuration),
    CheckedSub(SignedDuration),
    SaturatingAdd(SignedDuration),
    SaturatingSub(SignedDuration),
}

/// A replacement of a part of the date or of the time of day.
#[derive(Clone, Copy, Debug, PartialEq, Eq)]
pub enum Replace {
    Time(Time),
    Date(Date),
    Year(i32),
    Month(Month),
    Day(u8),
    Ordinal(u16),
    Hour(u8),
    Minute(u8),
    Second(u8),
    Millisecond(u16),
    Microsecond(u32),
    Nanosecond(u32),
}

/// A call that instants of every type have.
#[derive(Clone, Copy, Debug, PartialEq, Eq)]
pub enum Call {
    ReadDate(DateRead),
    ReadClock(ClockRead),
    Shift(Shift),
    Replace(Replace),
    Local(UtcOffset),
}

/// The reply to a call: the part of a read, the date and the time of day after a sum or a
/// replacement that succeeds, the date-time at an offset, or the error of the call.
#[derive(Clone, Copy, Debug, PartialEq, Eq)]
pub enum Reply {
    DatePart(DatePart),
    ClockPart(ClockPart),
    Now(Date, Time),
    Refused,
    RefusedPart(ComponentRange),
    Local(Date, Time, UtcOffset),
}
