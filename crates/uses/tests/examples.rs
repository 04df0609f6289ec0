//! The examples at the heads of the types, and values of callers.
use super::is;
use calendar_values::{
    ComponentRange, Date, Month, Part, SignedDuration, Time, UtcOffset, Weekday,
};
use offset_times::OffsetDateTime;
use plain_times::PlainDateTime;
use stamp_times::Timestamp;
use std::test::Fail;
use uses::{columns, days, shown, windows};
use utc_times::UtcDateTime;

#[test]
fn of_date(rt: HostRuntime) -> Result<(), Fail> {
    let leap_day = Date::from_calendar_date(2024, Month::February, 29)?;
    is(&rt, leap_day.weekday(), Weekday::Thursday);
    is(
        &rt,
        leap_day.next_day(),
        Some(Date::from_ordinal_date(2024, 61)?),
    );
    Ok(())
}

#[test]
fn of_time(rt: HostRuntime) -> Result<(), Fail> {
    let start = Time::from_hms(9, 30, 0)?;
    is(&rt, start.truncate_to_hour(), Time::from_hms(9, 0, 0)?);
    is(
        &rt,
        start.replace_hour(24),
        Err(ComponentRange::new("hour", false)),
    );
    Ok(())
}

#[test]
fn of_utc_offset(rt: HostRuntime) -> Result<(), Fail> {
    let newfoundland = UtcOffset::from_hms(-3, -30, 0)?;
    is(&rt, newfoundland.whole_seconds(), -12_600);
    is(&rt, newfoundland.minutes_past_hour(), -30);
    Ok(())
}

#[test]
fn of_signed_duration(rt: HostRuntime) -> Result<(), Fail> {
    let delay = SignedDuration::new(-1, -500_000_000);
    is(&rt, delay.whole_seconds(), -1);
    is(
        &rt,
        delay + SignedDuration::seconds(2),
        SignedDuration::nanoseconds(500_000_000),
    );
    Ok(())
}

#[test]
fn of_plain_date_time(rt: HostRuntime) -> Result<(), Fail> {
    let noon = PlainDateTime::new(Date::UNIX_EPOCH, Time::from_hms(12, 0, 0)?);
    is(&rt, noon.truncate_to_day(), PlainDateTime::UNIX_EPOCH);
    is(
        &rt,
        noon - PlainDateTime::UNIX_EPOCH,
        SignedDuration::hours(12),
    );
    Ok(())
}

#[test]
fn of_utc_date_time(rt: HostRuntime) -> Result<(), Fail> {
    let issued = UtcDateTime::from_unix_timestamp(1_709_164_800)?;
    is(
        &rt,
        issued.date(),
        Date::from_calendar_date(2024, Month::February, 29)?,
    );
    is(
        &rt,
        UtcDateTime::MAX.checked_add(SignedDuration::days(1)),
        None,
    );
    Ok(())
}

#[test]
fn of_offset_date_time(rt: HostRuntime) -> Result<(), Fail> {
    let east = UtcOffset::from_hms(1, 0, 0)?;
    let shown = OffsetDateTime::UNIX_EPOCH
        .checked_to_offset(east)
        .ok_or("no date")?;
    is(&rt, shown.hour(), 1);
    is(&rt, shown, OffsetDateTime::UNIX_EPOCH);
    Ok(())
}

#[test]
fn of_timestamp(rt: HostRuntime) -> Result<(), Fail> {
    let before = Timestamp::from_milliseconds(-1)?;
    is(&rt, before.as_seconds(), -1);
    is(&rt, before.nanosecond(), 999_000_000);
    Ok(())
}

#[test]
fn of_days(rt: HostRuntime) -> Result<(), Fail> {
    let before = Date::from_calendar_date(2024, Month::February, 28)?;
    let after = Date::from_calendar_date(2024, Month::March, 1)?;
    is(&rt, days::days_between(before, after), 2);
    is(&rt, days::is_weekend(after), false);
    is(
        &rt,
        days::is_weekend(Date::from_calendar_date(2024, Month::March, 2)?),
        true,
    );
    Ok(())
}

#[test]
fn of_columns(rt: HostRuntime) -> Result<(), Fail> {
    let leap_day = Date::from_calendar_date(2024, Month::February, 29)?;
    let time = Time::from_hms_nano(1, 2, 3, 4)?;
    let at = PlainDateTime::new(leap_day, time);
    is(
        &rt,
        columns::stored_wall_clock(at),
        (19_782, 3_723_000_000_004),
    );
    is(&rt, columns::stored_second(time), 3_723);
    Ok(())
}

#[test]
fn of_columns_of_dates(rt: HostRuntime) -> Result<(), Fail> {
    let leap_day = Date::from_calendar_date(2024, Month::February, 29)?;
    is(&rt, columns::date_of(19_782), Some(leap_day));
    is(&rt, columns::date_of(i32::MAX), None);
    is(&rt, columns::read_again(Date::MIN), Date::MIN);
    is(&rt, columns::in_order(Date::MIN, leap_day), true);
    is(&rt, columns::in_order(leap_day, Date::MIN), false);
    Ok(())
}

#[test]
fn of_columns_of_times(rt: HostRuntime) -> Result<(), Fail> {
    is(&rt, columns::time_of(3_723), Some(Time::from_hms(1, 2, 3)?));
    is(&rt, columns::time_of(86_400), None);
    is(&rt, columns::second_of_day_of(-1), 86_399);
    Ok(())
}

#[test]
fn of_columns_of_weekdays(rt: HostRuntime) -> Result<(), Fail> {
    let leap_day = Date::from_calendar_date(2024, Month::February, 29)?;
    is(&rt, columns::weekday_of_number(3), Some(leap_day.weekday()));
    is(&rt, columns::weekday_of_bit(10), leap_day.weekday());
    is(
        &rt,
        columns::refused_column(ComponentRange::new("day", true)),
        Part::Day,
    );
    Ok(())
}

#[test]
fn of_columns_by_default(rt: HostRuntime) -> Result<(), Fail> {
    is(&rt, columns::time_by_default(), Time::from_hms(8, 15, 0)?);
    is(
        &rt,
        columns::last_whole_second(),
        Time::from_hms(23, 59, 59)?,
    );
    is(
        &rt,
        columns::date_by_default(),
        Date::from_calendar_date(2000, Month::January, 1)?,
    );
    Ok(())
}

#[test]
fn of_stamps(rt: HostRuntime) -> Result<(), Fail> {
    let at = Timestamp::from_seconds(1_709_210_096)?;
    is(
        &rt,
        windows::window_of(at),
        Timestamp::from_seconds(1_709_209_800)?,
    );
    let at_epoch = shown::date_at(UtcDateTime::UNIX_EPOCH, UtcOffset::from_hms(-1, 0, 0)?);
    is(&rt, at_epoch, Date::UNIX_EPOCH.previous_day());
    let west = UtcOffset::from_hms(-8, 0, 0)?;
    let text = shown::text_at(851_042_397_000, west);
    is(
        &rt,
        text.is_some_and(|text| text.as_str() == "1996-12-19 16:39:57.0 -08:00:00"),
        true,
    );
    Ok(())
}
