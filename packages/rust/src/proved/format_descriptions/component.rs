// Made by make/erase of crates/format_descriptions/src/component.rt. Do not edit.
//! The parts of a value that a description can name.
use crate::proved::format_descriptions::{
    Case, NameForm, Padding, ReadCase, Sign, SubsecondDigits, UnixPrecision, UtcWord, WeekRule,
    WeekStart, WeekdayCount, YearBase, YearRange,
};

/// A part of a date, a time of day or an offset, and how it is written.
#[derive(Clone, Copy, Debug, PartialEq, Eq)]
pub enum Component {
    /// The year, with at least four digits.
    Year(YearBase, Sign, Padding, YearRange),
    /// The year without its last two digits, and its sign.
    YearCentury(YearBase, Sign, Padding, YearRange),
    /// The last two digits of the year.
    YearLastTwo(YearBase, Padding),
    /// The number of the month, 1 to 12.
    Month(Padding),
    /// The English name of the month.
    MonthName(NameForm, ReadCase),
    /// The day of the month, 1 to 31.
    Day(Padding),
    /// The day of the year, 1 to 366.
    Ordinal(Padding),
    /// The English name of the day of the week.
    WeekdayName(NameForm, ReadCase),
    /// The number of the day of the week.
    WeekdayNumber(WeekStart, WeekdayCount),
    /// The number of the week of the year.
    WeekNumber(WeekRule, Padding),
    /// The hour of the day, 0 to 23.
    Hour(Padding),
    /// The hour on a clock of 12 hours, 1 to 12.
    Hour12(Padding),
    /// `AM` before noon, and `PM` from noon on.
    Period(Case, ReadCase),
    /// The minute, 0 to 59.
    Minute(Padding),
    /// The second, 0 to 59.
    Second(Padding),
    /// Digits of the fraction of the second.
    Subsecond(SubsecondDigits),
    /// The sign of the offset, and its hours.
    OffsetHour(Sign, Padding),
    /// The minutes of the offset, without a sign.
    OffsetMinute(Padding),
    /// The seconds of the offset, without a sign.
    OffsetSecond(Padding),
    /// The Unix time, rounded down to what it counts.
    UnixTimestamp(UnixPrecision, Sign),
    /// A number of bytes to skip. It writes nothing.
    Ignore(u16),
    /// The end of the text. It writes nothing.
    End,
    /// The English name of the day of the week, which is read whatever the date is. `time` has no
    /// such component.
    IgnoreWeekday(NameForm, ReadCase),
    /// One digit or more, to skip. It writes nothing. `time` has no such component.
    IgnoreDigits,
    /// A word for the offset 0, which no other offset can write. `time` has no such component.
    OffsetWord(UtcWord, ReadCase),
    /// The last two digits of a year, of the hundred years from this one on. No other year can be
    /// written. `time` has no such component.
    YearSince(u16),
    /// The sign of the year, and its six digits. `time` has no such component.
    YearSix(YearBase),
    /// Digits of the fraction of the hour, which the minute and all after it make. `time` has no
    /// such component.
    HourFraction(SubsecondDigits),
    /// Digits of the fraction of the minute, which the second and its fraction make. `time` has no
    /// such component.
    MinuteFraction(SubsecondDigits),
}
