//! Callers of dates are called: invoices, billing, months and weeks.
use super::is;
use calendar_values::{ComponentRange, Date, Month, Time, Weekday};
use offset_times::OffsetDateTime;
use std::test::Fail;
use uses::{billing, days, invoices, months, wholes};

#[test]
fn invoices_are_called(rt: HostRuntime) -> Result<(), Fail> {
    is(
        &rt,
        invoices::date_of_form(2023, 2, 29),
        Err(ComponentRange::new("day", true)),
    );
    let january = Date::from_calendar_date(2024, Month::January, 31)?;
    is(
        &rt,
        invoices::due_next_month(january),
        Some(Date::from_calendar_date(2024, Month::February, 29)?),
    );
    is(&rt, invoices::due_next_month(Date::MAX), None);
    Ok(())
}

#[test]
fn billing_is_called(rt: HostRuntime) -> Result<(), Fail> {
    let december = Date::from_calendar_date(2023, Month::December, 15)?;
    is(
        &rt,
        billing::next_period(december),
        Some(Date::from_calendar_date(2024, Month::January, 1)?),
    );
    is(&rt, billing::next_period(Date::MAX), None);
    Ok(())
}

#[test]
fn days_of_billing_are_called(rt: HostRuntime) -> Result<(), Fail> {
    is(
        &rt,
        billing::first_day(2024, Month::February),
        Date::from_calendar_date(2024, Month::February, 1),
    );
    is(
        &rt,
        billing::due_day(2024, Month::February, 31),
        Date::from_calendar_date(2024, Month::February, 29),
    );

    Ok(())
}

#[test]
fn months_are_counted_on(rt: HostRuntime) -> Result<(), Fail> {
    let january = Date::from_calendar_date(2024, Month::January, 31)?;
    let leap_day = Date::from_calendar_date(2024, Month::February, 29)?;
    let december = Date::from_calendar_date(2023, Month::December, 31)?;
    is(&rt, months::a_month_later(january), Some(leap_day));
    is(&rt, months::same_day_next_month(january), Ok(leap_day));
    is(&rt, months::same_day_next_month(december), Ok(january));
    Ok(())
}

#[test]
fn months_between_and_later(rt: HostRuntime) -> Result<(), Fail> {
    let leap_day = Date::from_calendar_date(2024, Month::February, 29)?;
    let december = Date::from_calendar_date(2023, Month::December, 31)?;
    is(&rt, months::months_between(leap_day, december), -2);
    is(
        &rt,
        months::billing_day(2024, Month::February, 30),
        Ok(leap_day),
    );
    is(
        &rt,
        months::a_year_later(leap_day),
        Some(Date::from_calendar_date(2025, Month::February, 28)?),
    );
    Ok(())
}

#[test]
fn ends_of_months_and_counts_are_called(rt: HostRuntime) -> Result<(), Fail> {
    let leap_day = Date::from_calendar_date(2024, Month::February, 29)?;
    let december = Date::from_calendar_date(2023, Month::December, 31)?;
    is(&rt, months::months_of_years_between(december, leap_day), 2);
    is(&rt, months::month_end(december), december);
    is(&rt, wholes::milliseconds_of_seconds(-7), -7_000);
    Ok(())
}

#[test]
fn weeks_are_counted_on(rt: HostRuntime) -> Result<(), Fail> {
    let monday = Date::from_calendar_date(2024, Month::February, 26)?;
    let friday = Date::from_calendar_date(2024, Month::March, 1)?;
    let next_monday = Date::from_calendar_date(2024, Month::March, 4)?;
    is(&rt, days::monday_of(friday), Some(monday));
    is(&rt, days::next_working_day(friday), Some(next_monday));
    is(&rt, days::next_week(monday), Some(next_monday));
    is(&rt, days::days_left_in_its_month(monday), 3);
    Ok(())
}

#[test]
fn days_of_a_name_are_found(rt: HostRuntime) -> Result<(), Fail> {
    let friday = Date::from_calendar_date(2024, Month::March, 1)?;
    let monday = Date::from_calendar_date(2024, Month::March, 4)?;
    let third_monday = Date::from_calendar_date(2024, Month::March, 18)?;
    let next_friday = Date::from_calendar_date(2024, Month::March, 8)?;
    let nth = days::nth_next_occurrence(friday, Weekday::Monday, 3);
    is(
        &rt,
        days::next_occurrence(friday, Weekday::Monday),
        Some(monday),
    );
    is(
        &rt,
        days::next_occurrence(friday, Weekday::Friday),
        Some(next_friday),
    );
    is(&rt, nth, Some(third_monday));
    is(&rt, days::next_occurrence(Date::MAX, Weekday::Monday), None);
    is(
        &rt,
        days::nth_next_occurrence(Date::MAX, Weekday::Friday, 1),
        None,
    );
    is(
        &rt,
        days::prev_occurrence(next_friday, Weekday::Friday),
        Some(friday),
    );
    if friday.checked_next_occurrence(Weekday::Monday).is_some() {
        is(&rt, days::roster_begins(friday), monday);
    }
    Ok(())
}

#[test]
fn working_days_are_found_backwards(rt: HostRuntime) -> Result<(), Fail> {
    let friday = Date::from_calendar_date(2024, Month::March, 1)?;
    let monday = Date::from_calendar_date(2024, Month::March, 4)?;
    let last = Date::from_calendar_date(2024, Month::March, 29)?;
    is(&rt, days::work_day_before(monday), Some(friday));
    is(&rt, days::last_work_day(monday), Some(last));
    Ok(())
}

#[test]
fn last_days_are_called(rt: HostRuntime) -> Result<(), Fail> {
    let day = Date::from_calendar_date(2024, Month::February, 15)?;
    let leap_day = Date::from_calendar_date(2024, Month::February, 29)?;
    is(&rt, billing::last_day(day), leap_day);
    let at = OffsetDateTime::new_utc(day, Time::from_hms(10, 0, 0)?);
    let end = OffsetDateTime::new_utc(leap_day, Time::MIDNIGHT);
    is(&rt, billing::period_end(at), Ok(end));
    Ok(())
}

#[test]
fn working_days_and_next_years_are_called(rt: HostRuntime) -> Result<(), Fail> {
    let leap_day = Date::from_calendar_date(2024, Month::February, 29)?;
    let friday = Date::from_calendar_date(2024, Month::March, 1)?;
    let monday = Date::from_calendar_date(2024, Month::March, 4)?;
    is(&rt, days::working_day_after(leap_day), Some(friday));
    is(&rt, days::working_day_after(friday), Some(monday));
    let next = Date::from_calendar_date(2025, Month::February, 28)?;
    is(&rt, months::same_day_next_year(leap_day), Ok(next));
    is(&rt, months::next_anniversary(leap_day), Some(next));
    Ok(())
}
