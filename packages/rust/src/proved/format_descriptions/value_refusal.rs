// Made by make/erase of crates/format_descriptions/src/value_refusal.rt. Do not edit.
//! Why the parts of a text are no value.

/// A part of a value.
#[derive(Clone, Copy, Debug, PartialEq, Eq)]
pub enum Field {
    /// The year.
    Year,
    /// The year without its last two digits.
    YearCentury,
    /// The last two digits of the year.
    YearLastTwo,
    /// The year of the ISO week.
    IsoYear,
    /// The year of the ISO week without its last two digits.
    IsoYearCentury,
    /// The last two digits of the year of the ISO week.
    IsoYearLastTwo,
    /// The month.
    Month,
    /// The day of the month.
    Day,
    /// The day of the year.
    Ordinal,
    /// The day of the week.
    Weekday,
    /// The ISO week.
    IsoWeek,
    /// The week by the Sundays of the year.
    SundayWeek,
    /// The week by the Mondays of the year.
    MondayWeek,
    /// The hour of the day.
    Hour,
    /// The hour on a clock of 12 hours.
    Hour12,
    /// The half of the day.
    Period,
    /// The minute.
    Minute,
    /// The second.
    Second,
    /// The fraction of the second.
    Subsecond,
    /// The hours of the offset.
    OffsetHour,
    /// The minutes of the offset.
    OffsetMinute,
    /// The seconds of the offset.
    OffsetSecond,
    /// The Unix time in seconds.
    UnixSecond,
    /// The Unix time in milliseconds.
    UnixMillisecond,
    /// The Unix time in microseconds.
    UnixMicrosecond,
    /// The Unix time in nanoseconds.
    UnixNanosecond,
}

/// Why parts are no value.
#[derive(Clone, Copy, Debug, PartialEq, Eq)]
pub enum ValueRefusal {
    /// The text does not give this part, and without it there is no one value.
    Missing(Field),
    /// This part is out of its range, or it is not that of the value which the parts before it
    /// name.
    Wrong(Field),
}
