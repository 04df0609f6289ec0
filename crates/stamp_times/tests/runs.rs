//! Runs of calls.
use calendar_values::{ComponentRange, Date, Month, SignedDuration, Time, UtcOffset, Weekday};
use offset_times::OffsetDateTime;
use stamp_times::{
    Call, ClockPart, ClockRead, DatePart, DateRead, Moment, Replace, Reply, Shift, Timestamp, run,
    run_both,
};
use std::alloc::{AllocError, Global};
use std::test::Fail;

fn date(year: i32, month: Month, day: u8) -> Result<Date, Fail> {
    Ok(Date::from_calendar_date(year, month, day)?)
}

fn now(date: Date, hour: u8, minute: u8, second: u8, nanosecond: u32) -> Result<Reply, Fail> {
    Ok(Reply::Now(date, Time::from_hms_nano(hour, minute, second, nanosecond)?))
}

// Whether these are the replies from a timestamp, from the same instant in UTC, and from both at once.
fn replies_are(
    alloc: Global,
    start: Timestamp,
    calls: &[Call],
    replies: &[Reply],
    last: Timestamp,
) -> Result<bool, AllocError> {
    let (of_timestamp, last_timestamp) = run(alloc, start, calls)?;
    let (of_utc, last_utc) = run(alloc, start.to_utc(), calls)?;
    let both = run_both(alloc, start, calls)?;
    Ok(
        of_timestamp.as_slice() == replies
            && of_utc.as_slice() == replies
            && both.0.as_slice() == replies
            && both.1.as_slice() == replies
            && last_timestamp == last
            && last_utc == last.to_utc(),
    )
}

#[test]
fn reads_of_dates(rt: HostRuntime) -> Result<(), Fail> {
    let epoch = Timestamp::UNIX_EPOCH;
    assert!(rt; replies_are(rt.alloc(), epoch, &[], &[], epoch)?);
    let calls = [
        Call::ReadDate(DateRead::IsoWeekDate),
        Call::ReadDate(DateRead::CalendarDate),
        Call::ReadDate(DateRead::Weekday),
        Call::ReadDate(DateRead::SundayWeek),
    ];
    let replies = [
        Reply::DatePart(DatePart::IsoWeekDate((1970, 1, Weekday::Thursday))),
        Reply::DatePart(DatePart::CalendarDate((1970, Month::January, 1))),
        Reply::DatePart(DatePart::Weekday(Weekday::Thursday)),
        Reply::DatePart(DatePart::SundayWeek(0)),
    ];
    assert!(rt; replies_are(rt.alloc(), epoch, &calls, &replies, epoch)?);
    Ok(())
}

#[test]
fn refusals(rt: HostRuntime) -> Result<(), Fail> {
    let start = Timestamp::new(-1, 500_000_000)?;
    let calls = [
        Call::ReadClock(ClockRead::Nanosecond),
        Call::Replace(Replace::Nanosecond(0)),
        Call::ReadClock(ClockRead::Hms),
        Call::Shift(Shift::CheckedAdd(SignedDuration::MAX)),
        Call::ReadDate(DateRead::Year),
        Call::Replace(Replace::Hour(24)),
        Call::Shift(Shift::SaturatingAdd(SignedDuration::MAX)),
    ];
    let replies = [
        Reply::ClockPart(ClockPart::Nanosecond(500_000_000)),
        now(date(1969, Month::December, 31)?, 23, 59, 59, 0)?,
        Reply::ClockPart(ClockPart::Hms((23, 59, 59))),
        Reply::Refused,
        Reply::DatePart(DatePart::Year(1969)),
        Reply::RefusedPart(ComponentRange::new("hour", false)),
        now(date(999_999, Month::December, 31)?, 23, 59, 59, 999_999_999)?,
    ];
    let last = Timestamp::new(31_494_784_780_799, 999_999_999)?;
    assert!(rt; replies_are(rt.alloc(), start, &calls, &replies, last)?);
    Ok(())
}

#[test]
fn at_offsets(rt: HostRuntime) -> Result<(), Fail> {
    let epoch = Timestamp::UNIX_EPOCH;
    let west = UtcOffset::from_hms(-1, 0, 0)?;
    let east = UtcOffset::from_hms(25, 59, 59)?;
    let calls = [
        Call::Local(west),
        Call::ReadDate(DateRead::Year),
        Call::Local(east),
        Call::Local(UtcOffset::UTC),
    ];
    let replies = [
        Reply::Local(
            date(1969, Month::December, 31)?,
            Time::from_hms(23, 0, 0)?,
            west,
        ),
        Reply::DatePart(DatePart::Year(1970)),
        Reply::Local(
            date(1970, Month::January, 2)?,
            Time::from_hms(1, 59, 59)?,
            east,
        ),
        Reply::Local(Date::UNIX_EPOCH, Time::MIDNIGHT, UtcOffset::UTC),
    ];
    assert!(rt; replies_are(rt.alloc(), epoch, &calls, &replies, epoch)?);
    Ok(())
}

#[test]
fn past_the_end_at_an_offset(rt: HostRuntime) -> Result<(), Fail> {
    let last = Timestamp::new(31_494_784_780_799, 999_999_999)?;
    let calls = [
        Call::Local(UtcOffset::from_hms(0, 0, 1)?),
        Call::ReadClock(ClockRead::Hour),
    ];
    let replies = [Reply::Refused, Reply::ClockPart(ClockPart::Hour(23))];
    assert!(rt; replies_are(rt.alloc(), last, &calls, &replies, last)?);
    Ok(())
}

#[test]
fn each_read(rt: HostRuntime) -> Result<(), Fail> {
    let start = Timestamp::new(951_827_696, 789_012_345)?;
    let calls = [
        Call::ReadDate(DateRead::Date),
        Call::ReadDate(DateRead::Year),
        Call::ReadDate(DateRead::Month),
        Call::ReadDate(DateRead::Day),
        Call::ReadDate(DateRead::Ordinal),
        Call::ReadDate(DateRead::IsoWeek),
        Call::ReadDate(DateRead::SundayWeek),
        Call::ReadDate(DateRead::MondayWeek),
        Call::ReadDate(DateRead::CalendarDate),
        Call::ReadDate(DateRead::OrdinalDate),
        Call::ReadDate(DateRead::IsoWeekDate),
        Call::ReadDate(DateRead::Weekday),
        Call::ReadDate(DateRead::JulianDay),
        Call::ReadClock(ClockRead::Time),
        Call::ReadClock(ClockRead::Hms),
        Call::ReadClock(ClockRead::HmsMilli),
        Call::ReadClock(ClockRead::HmsMicro),
        Call::ReadClock(ClockRead::HmsNano),
        Call::ReadClock(ClockRead::Hour),
        Call::ReadClock(ClockRead::Minute),
        Call::ReadClock(ClockRead::Second),
        Call::ReadClock(ClockRead::Millisecond),
        Call::ReadClock(ClockRead::Microsecond),
        Call::ReadClock(ClockRead::Nanosecond),
    ];
    let time = Time::from_hms_nano(12, 34, 56, 789_012_345)?;
    let replies = [
        Reply::DatePart(DatePart::Date(date(2000, Month::February, 29)?)),
        Reply::DatePart(DatePart::Year(2000)),
        Reply::DatePart(DatePart::Month(Month::February)),
        Reply::DatePart(DatePart::Day(29)),
        Reply::DatePart(DatePart::Ordinal(60)),
        Reply::DatePart(DatePart::IsoWeek(9)),
        Reply::DatePart(DatePart::SundayWeek(9)),
        Reply::DatePart(DatePart::MondayWeek(9)),
        Reply::DatePart(DatePart::CalendarDate((2000, Month::February, 29))),
        Reply::DatePart(DatePart::OrdinalDate((2000, 60))),
        Reply::DatePart(DatePart::IsoWeekDate((2000, 9, Weekday::Tuesday))),
        Reply::DatePart(DatePart::Weekday(Weekday::Tuesday)),
        Reply::DatePart(DatePart::JulianDay(2_451_604)),
        Reply::ClockPart(ClockPart::Time(time)),
        Reply::ClockPart(ClockPart::Hms((12, 34, 56))),
        Reply::ClockPart(ClockPart::HmsMilli((12, 34, 56, 789))),
        Reply::ClockPart(ClockPart::HmsMicro((12, 34, 56, 789_012))),
        Reply::ClockPart(ClockPart::HmsNano((12, 34, 56, 789_012_345))),
        Reply::ClockPart(ClockPart::Hour(12)),
        Reply::ClockPart(ClockPart::Minute(34)),
        Reply::ClockPart(ClockPart::Second(56)),
        Reply::ClockPart(ClockPart::Millisecond(789)),
        Reply::ClockPart(ClockPart::Microsecond(789_012)),
        Reply::ClockPart(ClockPart::Nanosecond(789_012_345)),
    ];
    assert!(rt; replies_are(rt.alloc(), start, &calls, &replies, start)?);
    Ok(())
}

#[test]
fn each_sum(rt: HostRuntime) -> Result<(), Fail> {
    let start = Timestamp::new(951_827_696, 789_012_345)?;
    let day_and_more = SignedDuration::new(86_400, 1);
    let to_next_second = SignedDuration::nanoseconds(210_987_655);
    let calls = [
        Call::Shift(Shift::CheckedAdd(day_and_more)),
        Call::Shift(Shift::CheckedSub(day_and_more)),
        Call::Shift(Shift::SaturatingAdd(to_next_second)),
        Call::Shift(Shift::SaturatingSub(to_next_second)),
    ];
    let leap_day = date(2000, Month::February, 29)?;
    let replies = [
        now(date(2000, Month::March, 1)?, 12, 34, 56, 789_012_346)?,
        now(leap_day, 12, 34, 56, 789_012_345)?,
        now(leap_day, 12, 34, 57, 0)?,
        now(leap_day, 12, 34, 56, 789_012_345)?,
    ];
    assert!(rt; replies_are(rt.alloc(), start, &calls, &replies, start)?);
    Ok(())
}

#[test]
fn each_replacement_in_the_date(rt: HostRuntime) -> Result<(), Fail> {
    let start = Timestamp::new(951_827_696, 789_012_345)?;
    let calls = [
        Call::Replace(Replace::Time(Time::from_hms_nano(1, 2, 3, 4)?)),
        Call::Replace(Replace::Date(date(2004, Month::December, 31)?)),
        Call::Replace(Replace::Year(2001)),
        Call::Replace(Replace::Month(Month::January)),
        Call::Replace(Replace::Day(15)),
        Call::Replace(Replace::Ordinal(59)),
    ];
    let replies = [
        now(date(2000, Month::February, 29)?, 1, 2, 3, 4)?,
        now(date(2004, Month::December, 31)?, 1, 2, 3, 4)?,
        now(date(2001, Month::December, 31)?, 1, 2, 3, 4)?,
        now(date(2001, Month::January, 31)?, 1, 2, 3, 4)?,
        now(date(2001, Month::January, 15)?, 1, 2, 3, 4)?,
        now(date(2001, Month::February, 28)?, 1, 2, 3, 4)?,
    ];
    let last = Timestamp::new(983_322_123, 4)?;
    assert!(rt; replies_are(rt.alloc(), start, &calls, &replies, last)?);
    Ok(())
}

#[test]
fn each_replacement_in_the_time(rt: HostRuntime) -> Result<(), Fail> {
    let start = Timestamp::new(983_322_123, 4)?;
    let east = UtcOffset::from_hms(2, 0, 0)?;
    let calls = [
        Call::Replace(Replace::Hour(23)),
        Call::Replace(Replace::Minute(59)),
        Call::Replace(Replace::Second(58)),
        Call::Replace(Replace::Millisecond(7)),
        Call::Replace(Replace::Microsecond(8)),
        Call::Replace(Replace::Nanosecond(9)),
        Call::Local(east),
    ];
    let february = date(2001, Month::February, 28)?;
    let east_of_it = Time::from_hms_nano(1, 59, 58, 9)?;
    let replies = [
        now(february, 23, 2, 3, 4)?,
        now(february, 23, 59, 3, 4)?,
        now(february, 23, 59, 58, 4)?,
        now(february, 23, 59, 58, 7_000_000)?,
        now(february, 23, 59, 58, 8_000)?,
        now(february, 23, 59, 58, 9)?,
        Reply::Local(date(2001, Month::March, 1)?, east_of_it, east),
    ];
    let last = Timestamp::new(983_404_798, 9)?;
    assert!(rt; replies_are(rt.alloc(), start, &calls, &replies, last)?);
    Ok(())
}

// The calls of half a second before 1970, whatever type holds it.
fn is_half_before_1970<M: Moment>(at: M, hour_east: UtcOffset) -> bool {
    at.date_part(DateRead::Year) == DatePart::Year(1969)
        && at.clock_part(ClockRead::Nanosecond) == ClockPart::Nanosecond(500_000_000)
        && at.shift(Shift::CheckedAdd(SignedDuration::MAX)).is_none()
        && at.replace(Replace::Hour(24)).is_err()
        && at.parts().1.as_hms() == (23, 59, 59)
        && at.at_offset(hour_east).map(|shown| shown.hour()) == Some(0)
}

#[test]
fn calls_of_every_moment(rt: HostRuntime) -> Result<(), Fail> {
    let half = Timestamp::new(-1, 500_000_000)?;
    let hour_east = UtcOffset::from_hms(1, 0, 0)?;
    assert!(rt; is_half_before_1970(half, hour_east));
    assert!(rt; is_half_before_1970(half.to_utc(), hour_east));
    Ok(())
}
