// Made by make/erase of crates/offset_times/src/carries.rt. Do not edit.
//! The wall clock at another offset, by carries: the second carries into the minute, the minute
//! into the hour, the hour into the day, and the day into the year. So it exists in the year before
//! and after the range too.
use crate::proved::offset_times::OffsetDateTime;
use crate::proved::calendar_values::{Time, UtcOffset, days_in_year};
use crate::proved::plain_times::PlainDateTime;
use crate::proved::utc_times::UtcDateTime;

/// The year, the day of the year and the time of day that clocks at the offset show at the instant
/// of a date-time. The second, the minute and the hour carry at most 2, 2 and 3, either way, into
/// the minute, the hour and the day.
///
/// # Contract
///
/// ```text
/// ensures date { IsOrdinalDate result.0 result.1 }
/// ensures clock { IsClock result.2 }
/// ensures shown { wall_clock (day_of_ordinal_date result.0 result.1) result.2 ≡
///     shown_at (instant_of at) offset }
/// ensures day_step { day_of_ordinal_date result.0 result.1 ≡ wall_day at.wall +ℤ
///     days_carried (wall_time at.wall) at.offset offset }
/// ensures carried { result.2 ≡ carried_clock (wall_time at.wall) at.offset offset }
/// ensures within { CarriesWithin 2 2 3 (wall_time at.wall) at.offset offset }
/// ```
///
/// [docs/proofs/STATEMENT.md](crate::proved#contracts) explains the words.
#[inline(always)]
pub const fn to_offset_raw(at: OffsetDateTime, offset: UtcOffset) -> (i32, u16, Time) {
    parts_at(at.date_time(), at.offset(), offset)
}

/// The year, the day of the year and the time of day that clocks in UTC show at the instant of a
/// date-time. The second, the minute and the hour carry at most 1, 1 and 2, either way, into the
/// minute, the hour and the day.
///
/// # Contract
///
/// ```text
/// ensures date { IsOrdinalDate result.0 result.1 }
/// ensures clock { IsClock result.2 }
/// ensures shown { wall_clock (day_of_ordinal_date result.0 result.1) result.2 ≡ instant_of at }
/// ensures day_step { day_of_ordinal_date result.0 result.1 ≡ wall_day at.wall +ℤ
///     days_carried (wall_time at.wall) at.offset (pos 0) }
/// ensures carried { result.2 ≡ carried_clock (wall_time at.wall) at.offset (pos 0) }
/// ensures within { CarriesWithin 1 1 2 (wall_time at.wall) at.offset (pos 0) }
/// ```
///
/// [docs/proofs/STATEMENT.md](crate::proved#contracts) explains the words.
#[inline]
pub const fn to_utc_raw(at: OffsetDateTime) -> (i32, u16, Time) {
    parts_at(at.date_time(), at.offset(), UtcOffset::UTC)
}

/// The year, the day of the year and the time of day that clocks at the offset show at an instant.
/// The second, the minute and the hour carry at most 1, 1 and 2, either way, into the minute, the
/// hour and the day.
///
/// # Contract
///
/// ```text
/// ensures date { IsOrdinalDate result.0 result.1 }
/// ensures clock { IsClock result.2 }
/// ensures shown { wall_clock (day_of_ordinal_date result.0 result.1) result.2 ≡
///     shown_at at offset }
/// ensures day_step { day_of_ordinal_date result.0 result.1 ≡ wall_day at +ℤ
///     days_carried (wall_time at) (pos 0) offset }
/// ensures carried { result.2 ≡ carried_clock (wall_time at) (pos 0) offset }
/// ensures within { CarriesWithin 1 1 2 (wall_time at) (pos 0) offset }
/// ```
///
/// [docs/proofs/STATEMENT.md](crate::proved#contracts) explains the words.
#[inline]
pub const fn utc_to_offset_raw(at: UtcDateTime, offset: UtcOffset) -> (i32, u16, Time) {
    // For the proof alone: what is read lies in its range.
    let _in_range = offset.whole_seconds();
    parts_at(at.as_plain(), UtcOffset::UTC, offset)
}

// The day of the year and the time of day that clocks at `to` show when clocks at `from` show these.
/// # Contract
///
/// ```text
/// ensures date { IsOrdinalDate result.0 result.1 }
/// ensures clock { IsClock result.2 }
/// ensures day_step { day_of_ordinal_date result.0 result.1 ≡ wall_day at +ℤ
///     days_carried (wall_time at) from to }
/// ensures carried { result.2 ≡ carried_clock (wall_time at) from to }
/// ensures within { CarriesWithin 2 2 3 (wall_time at) from to }
/// ```
///
/// [docs/proofs/STATEMENT.md](crate::proved#contracts) explains the words.
#[inline(always)]
const fn parts_at(at: PlainDateTime, from: UtcOffset, to: UtcOffset) -> (i32, u16, Time) {
    let (time, days) = carried_time(at.time(), from, to);
    let (year, ordinal) = at.date().to_ordinal_date();
    let (year, ordinal) = ordinal_date_after(year, ordinal, days);
    (year, ordinal, time)
}

// The time of day that clocks at `to` show when clocks at `from` show this, and the days between the two.
/// # Contract
///
/// ```text
/// ensures clock { result.0 ≡ carried_clock time from to }
/// ensures days { result.1 ≡ days_carried time from to }
/// ensures within { CarriesWithin 2 2 3 time from to }
/// ```
///
/// [docs/proofs/STATEMENT.md](crate::proved#contracts) explains the words.
#[inline(always)]
const fn carried_time(time: Time, from: UtcOffset, to: UtcOffset) -> (Time, i8) {
    let (second, minutes) = carried_second(time, from, to);
    let (minute, hours) = carried_minute(time, from, to, minutes);
    let (hour, days) = carried_hour(time, from, to, hours);
    (
        Time::at_hms_nano(hour, minute, second, time.nanosecond()),
        days,
    )
}

// The second that clocks at `to` show, and the minutes that go out of it.
/// # Contract
///
/// ```text
/// ensures second { result.0 ≡ carried_second time from to }
/// ensures minutes { result.1 ≡ minutes_carried time from to }
/// ensures below { result.0 < 60 }
/// ensures within { IsWithin 2 result.1 }
/// ```
///
/// [docs/proofs/STATEMENT.md](crate::proved#contracts) explains the words.
#[inline]
const fn carried_second(time: Time, from: UtcOffset, to: UtcOffset) -> (u8, i8) {
    let (from, to) = (from.seconds_past_minute(), to.seconds_past_minute());
    // As where both are offsets of whole minutes.
    if from == to {
        return (time.second(), 0);
    }
    carry_sixty(time.second(), from, to, 0)
}

// The minute that clocks at `to` show, with the minutes that go into it, and the hours that go out of it.
/// # Contract
///
/// ```text
/// requires minutes { minutes ≡ minutes_carried time from to }
/// requires few { IsWithin 2 minutes }
/// ensures minute { result.0 ≡ carried_minute time from to }
/// ensures hours { result.1 ≡ hours_carried time from to }
/// ensures below { result.0 < 60 }
/// ensures within { IsWithin 2 result.1 }
/// ```
///
/// [docs/proofs/STATEMENT.md](crate::proved#contracts) explains the words.
#[inline]
const fn carried_minute(time: Time, from: UtcOffset, to: UtcOffset, minutes: i8) -> (u8, i8) {
    carry_sixty(
        time.minute(),
        from.minutes_past_hour(),
        to.minutes_past_hour(),
        minutes,
    )
}

// The hour that clocks at `to` show, with the hours that go into it, and the days that go out of it.
/// # Contract
///
/// ```text
/// requires hours { hours ≡ hours_carried time from to }
/// requires few { IsWithin 2 hours }
/// ensures hour { result.0 ≡ carried_hour time from to }
/// ensures days { result.1 ≡ days_carried time from to }
/// ensures below { result.0 < 24 }
/// ensures within { IsWithin 3 result.1 }
/// ```
///
/// [docs/proofs/STATEMENT.md](crate::proved#contracts) explains the words.
#[inline]
const fn carried_hour(time: Time, from: UtcOffset, to: UtcOffset, hours: i8) -> (u8, i8) {
    carry_day(time.hour(), from.whole_hours(), to.whole_hours(), hours)
}

// A second or a minute moved from one offset to another, with what is carried into it and out of it.
/// # Contract
///
/// ```text
/// requires part { part < 60 }
/// requires from { IsWithin 59 from }
/// requires to { IsWithin 59 to }
/// requires carried { IsWithin 2 carried }
/// ensures sum { pos part +ℤ to -ℤ from +ℤ carried ≡ result.1 *ℤ pos 60 +ℤ pos result.0 }
/// ensures below_limit { result.0 < 60 }
/// ensures within { IsWithin 2 result.1 }
/// ```
///
/// [docs/proofs/STATEMENT.md](crate::proved#contracts) explains the words.
#[inline]
const fn carry_sixty(part: u8, from: i8, to: i8, carried: i8) -> (u8, i8) {
    let sum = lifted_part(part, from, to, carried);
    ((sum % 60) as u8, (sum / 60) as i8 - 4)
}

// An hour moved from one offset to another, with what is carried into it, and the days that go out of it.
/// # Contract
///
/// ```text
/// requires hour { hour < 24 }
/// requires from { IsWithin 25 from }
/// requires to { IsWithin 25 to }
/// requires carried { IsWithin 2 carried }
/// ensures sum { pos hour +ℤ to -ℤ from +ℤ carried ≡ result.1 *ℤ pos 24 +ℤ pos result.0 }
/// ensures below_limit { result.0 < 24 }
/// ensures within { IsWithin 3 result.1 }
/// ```
///
/// [docs/proofs/STATEMENT.md](crate::proved#contracts) explains the words.
#[inline]
const fn carry_day(hour: u8, from: i8, to: i8, carried: i8) -> (u8, i8) {
    let sum = lifted_part(hour, from, to, carried);
    ((sum % 24) as u8, (sum / 24) as i8 - 10)
}

// A second, a minute or an hour moved from one offset to another, with what is carried into it, and 240 more:
// four times 60 and ten times 24, so that it is not negative.
/// # Contract
///
/// ```text
/// requires part { part < 60 }
/// requires from { IsWithin 59 from }
/// requires to { IsWithin 59 to }
/// requires carried { IsWithin 2 carried }
/// ensures { pos result ≡ pos part +ℤ to -ℤ from +ℤ carried +ℤ pos 240 }
/// ```
///
/// [docs/proofs/STATEMENT.md](crate::proved#contracts) explains the words.
#[inline]
const fn lifted_part(part: u8, from: i8, to: i8, carried: i8) -> u32 {
    (moved_part(part, from, to) + carried as i32 + 240) as u32
}

// A second, a minute or an hour moved from one offset to another.
/// # Contract
///
/// ```text
/// requires part { part < 60 }
/// requires from { IsWithin 59 from }
/// requires to { IsWithin 59 to }
/// ensures { result ≡ pos part +ℤ to -ℤ from }
/// ```
///
/// [docs/proofs/STATEMENT.md](crate::proved#contracts) explains the words.
#[inline]
const fn moved_part(part: u8, from: i8, to: i8) -> i32 {
    part as i32 + to as i32 - from as i32
}

// The day this number of days later: at most three, so that it is in the same year or in the next or last one.
/// # Contract
///
/// ```text
/// requires year { IsYear year }
/// requires date { IsOrdinalDate year ordinal }
/// requires days { IsWithin 3 days }
/// ensures date { IsOrdinalDate result.0 result.1 }
/// ensures day { day_of_ordinal_date result.0 result.1 ≡ day_of_ordinal_date year ordinal +ℤ days }
/// ```
///
/// [docs/proofs/STATEMENT.md](crate::proved#contracts) explains the words.
#[inline]
const fn ordinal_date_after(year: i32, ordinal: u16, days: i8) -> (i32, u16) {
    let moved = moved_ordinal(ordinal, days);
    if moved < 1 {
        let year = year - 1;
        return (year, (moved + length_of_year(year)) as u16);
    }
    if moved <= 365 {
        return (year, moved as u16);
    }
    let length = length_of_year(year);
    if moved <= length {
        return (year, moved as u16);
    }
    (year + 1, (moved - length) as u16)
}

// The day of the year this number of days later, if the year is long enough.
/// # Contract
///
/// ```text
/// requires ordinal { ordinal ≤ 366 }
/// requires days { IsWithin 3 days }
/// ensures { result ≡ pos ordinal +ℤ days }
/// ```
///
/// [docs/proofs/STATEMENT.md](crate::proved#contracts) explains the words.
#[inline]
const fn moved_ordinal(ordinal: u16, days: i8) -> i16 {
    ordinal as i16 + days as i16
}

// The number of days of the year.
/// # Contract
///
/// ```text
/// ensures value { result ≡ pos (days_in_year year) }
/// ensures low { pos 365 ≤ℤ result }
/// ensures high { result ≤ℤ pos 366 }
/// ```
///
/// [docs/proofs/STATEMENT.md](crate::proved#contracts) explains the words.
#[inline]
const fn length_of_year(year: i32) -> i16 {
    days_in_year(year) as i16
}
