//! Dates, compared with tables of days counted one at a time.
use super::is;
use calendar_values::{ComponentRange, Date, Month, SignedDuration, Weekday};
use std::hash::{DefaultHasher, Hash, Hasher};
use std::test::Fail;
use std::time::Duration;

type Row = (i32, u8, u8, i32, u16, i32, u8, u8, u8, u8);

// Year, month, day of the month; Julian day; day of the year; ISO year and week; weekday, 0 for
// Monday; week of the year by Sundays and by Mondays.
const DAYS: [Row; 45] = [
    // As Python's `datetime` has them.
    (1, 1, 1, 1_721_426, 1, 1, 1, 0, 0, 1),
    (4, 2, 29, 1_722_580, 60, 4, 9, 6, 9, 8),
    (1582, 10, 15, 2_299_161, 288, 1582, 41, 4, 41, 41),
    (1600, 12, 31, 2_305_813, 366, 1600, 52, 6, 53, 52),
    (1899, 12, 31, 2_415_020, 365, 1899, 52, 6, 53, 52),
    (1900, 2, 28, 2_415_079, 59, 1900, 9, 2, 8, 9),
    (1900, 3, 1, 2_415_080, 60, 1900, 9, 3, 8, 9),
    (1969, 12, 31, 2_440_587, 365, 1970, 1, 2, 52, 52),
    (1970, 1, 1, 2_440_588, 1, 1970, 1, 3, 0, 0),
    (1999, 12, 31, 2_451_544, 365, 1999, 52, 4, 52, 52),
    (2000, 1, 1, 2_451_545, 1, 1999, 52, 5, 0, 0),
    (2000, 2, 29, 2_451_604, 60, 2000, 9, 1, 9, 9),
    (2004, 12, 31, 2_453_371, 366, 2004, 53, 4, 52, 52),
    (2009, 12, 31, 2_455_197, 365, 2009, 53, 3, 52, 52),
    (2019, 1, 1, 2_458_485, 1, 2019, 1, 1, 0, 0),
    (2020, 12, 31, 2_459_215, 366, 2020, 53, 3, 52, 52),
    (2021, 1, 1, 2_459_216, 1, 2020, 53, 4, 0, 0),
    (2021, 1, 3, 2_459_218, 3, 2020, 53, 6, 1, 0),
    (2021, 1, 4, 2_459_219, 4, 2021, 1, 0, 1, 1),
    (2100, 3, 1, 2_488_129, 60, 2100, 9, 0, 9, 9),
    (2400, 2, 29, 2_597_701, 60, 2400, 9, 1, 9, 9),
    (9999, 1, 1, 5_373_120, 1, 9998, 53, 4, 0, 0),
    (9999, 12, 31, 5_373_484, 365, 9999, 52, 4, 52, 52),
    // As `make/day_by_day` counts them, one day at a time.
    (-999_999, 1, 1, -363_521_074, 1, -999_999, 1, 0, 0, 1),
    (-999_999, 12, 31, -363_520_710, 365, -999_998, 1, 0, 52, 53),
    (-400_001, 3, 1, -144_376_246, 60, -400_001, 9, 0, 9, 9),
    (-400_000, 2, 29, -144_375_881, 60, -400_000, 9, 1, 9, 9),
    (-10_000, 12, 31, -1_931_000, 366, -10_000, 52, 6, 53, 52),
    (-4713, 11, 24, 0, 328, -4713, 48, 0, 47, 47),
    (-400, 2, 29, 1_575_022, 60, -400, 9, 1, 9, 9),
    (-101, 12, 31, 1_684_535, 365, -101, 52, 6, 53, 52),
    (-100, 2, 28, 1_684_594, 59, -100, 9, 2, 8, 9),
    (-5, 3, 1, 1_719_293, 60, -5, 9, 2, 9, 9),
    (-1, 12, 31, 1_721_059, 365, -1, 52, 4, 52, 52),
    (0, 1, 1, 1_721_060, 1, -1, 52, 5, 0, 0),
    (0, 2, 29, 1_721_119, 60, 0, 9, 1, 9, 9),
    (0, 12, 31, 1_721_425, 366, 0, 52, 6, 53, 52),
    (10_000, 1, 1, 5_373_485, 1, 9999, 52, 5, 0, 0),
    (10_000, 2, 29, 5_373_544, 60, 10_000, 9, 1, 9, 9),
    (12_345, 6, 7, 6_230_136, 158, 12_345, 23, 3, 22, 23),
    (99_999, 12, 31, 38_245_309, 365, 99_999, 52, 4, 52, 52),
    (100_000, 3, 1, 38_245_370, 61, 100_000, 9, 2, 9, 9),
    (400_000, 2, 29, 147_818_119, 60, 400_000, 9, 1, 9, 9),
    (999_999, 1, 1, 366_963_195, 1, 999_998, 53, 4, 0, 0),
    (999_999, 12, 31, 366_963_559, 365, 999_999, 52, 4, 52, 52),
];

fn date(year: i32, month: u8, day: u8) -> Result<Date, ComponentRange> {
    Date::from_calendar_date(year, Month::from_number(month)?, day)
}

#[test]
fn days_have_the_numbers_of_another_calendar(rt: HostRuntime) -> Result<(), Fail> {
    for (year, month, day, julian_day, ordinal, ..) in DAYS {
        let date = date(year, month, day)?;
        is(&rt, date.to_julian_day(), julian_day);
        is(&rt, Date::from_julian_day(julian_day), Ok(date));
        is(&rt, Date::from_ordinal_date(year, ordinal), Ok(date));
    }
    Ok(())
}

#[test]
fn days_are_counted_from_1970(rt: HostRuntime) {
    for (days, wanted) in [
        (0, date(1970, 1, 1).ok()),
        (-1, date(1969, 12, 31).ok()),
        (19_782, date(2024, 2, 29).ok()),
        (-365_961_662, Some(Date::MIN)),
        (364_522_971, Some(Date::MAX)),
        (-365_961_663, None),
        (364_522_972, None),
        (i32::MIN, None),
        (i32::MAX, None),
    ] {
        is(&rt, Date::from_days_since_epoch(days), wanted);
    }
    for (date, days) in [
        (Date::UNIX_EPOCH, 0),
        (Date::MIN, -365_961_662),
        (Date::MAX, 364_522_971),
    ] {
        is(&rt, date.days_since_epoch(), days);
    }
}

#[test]
fn months_later_are_those_of_another_program(rt: HostRuntime) -> Result<(), Fail> {
    // As `relativedelta` of Python's dateutil has them.
    for (from, months, wanted) in [
        (date(2024, 1, 31)?, 1, date(2024, 2, 29).ok()),
        (date(2023, 1, 31)?, 1, date(2023, 2, 28).ok()),
        (date(2024, 3, 31)?, -1, date(2024, 2, 29).ok()),
        (date(2024, 2, 29)?, 12, date(2025, 2, 28).ok()),
        (date(2024, 2, 29)?, 48, date(2028, 2, 29).ok()),
        (date(2024, 5, 15)?, -17, date(2022, 12, 15).ok()),
        (date(1, 1, 1)?, 119_987, date(9999, 12, 1).ok()),
        // The ends of the range, which that program does not have.
        (date(0, 1, 31)?, -2, date(-1, 11, 30).ok()),
        (Date::MAX, 1, None),
        (Date::MIN, -1, None),
        (Date::MIN, i32::MIN, None),
        (Date::MAX, i32::MAX, None),
    ] {
        is(&rt, from.checked_add_months(months), wanted);
    }
    Ok(())
}

#[test]
fn months_begin_and_end(rt: HostRuntime) -> Result<(), Fail> {
    // As Python's `calendar.monthrange` has their last days.
    for (year, month, last) in [
        (2024, 2, 29),
        (2023, 2, 28),
        (1900, 2, 28),
        (2000, 2, 29),
        (2024, 4, 30),
        (2024, 12, 31),
    ] {
        let day = date(year, month, 15)?;
        is(&rt, day.first_of_month(), date(year, month, 1)?);
        is(&rt, day.last_of_month(), date(year, month, last)?);
    }
    is(&rt, Date::MIN.first_of_month(), Date::MIN);
    is(&rt, Date::MAX.last_of_month(), Date::MAX);
    Ok(())
}

#[test]
fn parts_are_those_of_another_calendar(rt: HostRuntime) -> Result<(), Fail> {
    for (year, month, day, julian_day, ordinal, ..) in DAYS {
        let date = Date::from_julian_day(julian_day)?;
        let (shown_year, shown_month, shown_day) = date.to_calendar_date();
        is(&rt, shown_year, year);
        is(&rt, u8::from(shown_month), month);
        is(&rt, shown_day, day);
        is(&rt, date.year(), year);
        is(&rt, date.month(), shown_month);
        is(&rt, date.day(), day);
        is(&rt, date.to_ordinal_date(), (year, ordinal));
        is(&rt, date.ordinal(), ordinal);
    }
    Ok(())
}

#[test]
fn weeks_are_those_of_another_calendar(rt: HostRuntime) -> Result<(), Fail> {
    for (_, _, _, julian_day, _, year, week, weekday, by_sundays, by_mondays) in DAYS {
        let date = Date::from_julian_day(julian_day)?;
        let shown = date.weekday();
        is(&rt, date.to_iso_week_date(), (year, week, shown));
        is(&rt, date.iso_week(), week);
        is(&rt, Date::from_iso_week_date(year, week, shown), Ok(date));
        is(&rt, shown.number_days_from_monday(), weekday);
        let weeks = (date.sunday_based_week(), date.monday_based_week());
        is(&rt, weeks, (by_sundays, by_mondays));
    }
    Ok(())
}

#[test]
fn week_dates_have_the_days_of_another_calendar(rt: HostRuntime) {
    // As Python's `date.fromisocalendar` has them.
    for (year, week, weekday, wanted) in [
        (2020, 53, Weekday::Friday, date(2021, 1, 1)),
        (2015, 53, Weekday::Sunday, date(2016, 1, 3)),
        (2026, 53, Weekday::Thursday, date(2026, 12, 31)),
        (2021, 1, Weekday::Monday, date(2021, 1, 4)),
        (2025, 1, Weekday::Monday, date(2024, 12, 30)),
    ] {
        is(&rt, Date::from_iso_week_date(year, week, weekday), wanted);
    }
    // The range begins on a Monday, and ends on a Friday.
    for (year, week, weekday, wanted) in [
        (-999_999, 1, Weekday::Monday, Date::MIN),
        (999_999, 52, Weekday::Friday, Date::MAX),
    ] {
        is(
            &rt,
            Date::from_iso_week_date(year, week, weekday),
            Ok(wanted),
        );
    }
}

#[test]
fn week_dates_out_of_the_range_are_refused(rt: HostRuntime) {
    for (year, week, weekday, name, conditional) in [
        (1_000_000, 1, Weekday::Monday, "year", false),
        (-1_000_000, 0, Weekday::Monday, "year", false),
        (2020, 0, Weekday::Monday, "week", false),
        (2020, 54, Weekday::Monday, "week", false),
        (2021, 53, Weekday::Monday, "week", true),
        (999_999, 53, Weekday::Monday, "week", true),
        (999_999, 52, Weekday::Saturday, "year", true),
        (999_999, 52, Weekday::Sunday, "year", true),
    ] {
        let wanted = Err(ComponentRange::new(name, conditional));
        is(&rt, Date::from_iso_week_date(year, week, weekday), wanted);
    }
}

#[test]
fn constants_are_the_days_of_their_names(rt: HostRuntime) {
    for (constant, year, month, day) in [
        (Date::MIN, -999_999, 1, 1),
        (Date::MAX, 999_999, 12, 31),
        (Date::UNIX_EPOCH, 1970, 1, 1),
    ] {
        is(&rt, date(year, month, day), Ok(constant));
    }
}

#[test]
fn no_day_is_beside_the_range(rt: HostRuntime) {
    for (found, wanted) in [
        (Date::MIN.previous_day(), None),
        (Date::MIN.next_day(), date(-999_999, 1, 2).ok()),
        (Date::MAX.previous_day(), date(999_999, 12, 30).ok()),
        (Date::MAX.next_day(), None),
    ] {
        is(&rt, found, wanted);
    }
    is(
        &rt,
        Date::MAX - Date::MIN,
        SignedDuration::days(730_484_633),
    );
}

#[test]
fn days_out_of_the_range_are_refused(rt: HostRuntime) {
    for (refused, name, conditional) in [
        (date(1_000_000, 13, 0), "month", false),
        (date(2022, 0, 1), "month", false),
        (date(-1_000_000, 2, 30), "year", false),
        (Date::from_ordinal_date(1_000_000, 0), "year", false),
        (Date::from_ordinal_date(2023, 366), "ordinal", true),
        (Date::from_julian_day(-363_521_075), "julian_day", false),
        (Date::from_julian_day(366_963_560), "julian_day", false),
    ] {
        let refusal = refused.expect_err(&rt, "a date");
        is(&rt, refusal.name(), name);
        is(&rt, refusal.is_conditional(), conditional);
    }
}

#[test]
fn replacements_by_days_out_of_the_range_are_refused(rt: HostRuntime) -> Result<(), Fail> {
    let (january, february) = (date(2022, 1, 30)?, date(2022, 2, 18)?);
    let leap_day = date(2000, 2, 29)?;
    for (refused, name, conditional) in [
        (leap_day.replace_year(1900), "day", true),
        (leap_day.replace_ordinal(367), "ordinal", false),
        (february.replace_year(1_000_000), "year", false),
        (february.replace_day(0), "day", false),
        (february.replace_day(32), "day", false),
        (february.replace_day(30), "day", true),
        (february.replace_ordinal(0), "ordinal", false),
        (february.replace_ordinal(366), "ordinal", true),
        (january.replace_month(Month::February), "day", true),
    ] {
        let refusal = refused.expect_err(&rt, "a date");
        is(&rt, refusal.name(), name);
        is(&rt, refusal.is_conditional(), conditional);
    }
    Ok(())
}

#[test]
fn replaced_parts_are_as_given(rt: HostRuntime) -> Result<(), Fail> {
    let leap_day = date(2000, 2, 29)?;
    for (replaced, year, month, day) in [
        (leap_day.replace_year(2004), 2004, 2, 29),
        (leap_day.replace_month(Month::April), 2000, 4, 29),
        (leap_day.replace_day(1), 2000, 2, 1),
        (leap_day.replace_ordinal(366), 2000, 12, 31),
    ] {
        is(&rt, replaced, date(year, month, day));
    }
    Ok(())
}

#[test]
fn moves_end_at_the_range(rt: HostRuntime) {
    let (first, last) = (Date::MIN, Date::MAX);
    let (hours, day) = (SignedDuration::hours(23), SignedDuration::hours(24));
    for (start, duration, sum, difference) in [
        (last, hours, Some(last), Some(last)),
        (last, day, None, last.previous_day()),
        (first, day, first.next_day(), None),
        (first, SignedDuration::MIN, None, None),
    ] {
        is(&rt, start.checked_add(duration), sum);
        is(&rt, start.checked_sub(duration), difference);
    }
}

#[test]
fn unsigned_durations_move_over_the_leap_day(rt: HostRuntime) -> Result<(), Fail> {
    let (leap_day, day) = (date(2000, 2, 29)?, Duration::from_secs(86_400));
    for (moved, wanted) in [
        (date(2000, 2, 28)?.checked_add_std(day), Some(leap_day)),
        (date(2000, 3, 1)?.checked_sub_std(day), Some(leap_day)),
        (Date::MAX.checked_sub_std(Duration::MAX), None),
        (date(1999, 3, 1)?.checked_add_days(365), Some(leap_day)),
        (date(2000, 12, 31)?.checked_add_days(-306), Some(leap_day)),
        (leap_day.checked_add_days(i64::MAX), None),
        (leap_day.checked_add_days(i64::MIN), None),
        (Date::MIN.checked_add_days(730_484_633), Some(Date::MAX)),
        (Date::MAX.checked_add_days(-730_484_633), Some(Date::MIN)),
        (Date::MIN.checked_add_days(730_484_634), None),
        (Some(Date::at_ordinal_date(2000, 60)), Some(leap_day)),
    ] {
        is(&rt, moved, wanted);
    }
    Ok(())
}

#[test]
fn order_is_that_of_the_days(rt: HostRuntime) -> Result<(), Fail> {
    let (earlier, later) = (date(1999, 12, 31)?, date(2000, 1, 1)?);
    assert!(rt; earlier < later && later > earlier && earlier != later);
    is(&rt, earlier.next_day(), Some(later));
    is(
        &rt,
        hash_of(Date::from_julian_day(2_451_545)?),
        hash_of(later),
    );
    Ok(())
}

fn hash_of(date: Date) -> u64 {
    let mut hasher = DefaultHasher::new();
    date.hash(&mut hasher);
    hasher.finish()
}

#[test]
fn texts_have_four_digits_of_the_year_and_a_sign_before_more(rt: HostRuntime) -> Result<(), Fail> {
    for (year, month, day, text) in [
        (5, 3, 1, "0005-03-01"),
        (-5, 3, 1, "-0005-03-01"),
        (9_999, 12, 31, "9999-12-31"),
        (10_000, 1, 1, "+10000-01-01"),
        (-10_000, 1, 1, "-10000-01-01"),
        (-999_999, 1, 1, "-999999-01-01"),
        (999_999, 12, 31, "+999999-12-31"),
    ] {
        let shown = date(year, month, day)?.text();
        is(&rt, shown.as_str(), text);
        is(&rt, shown.as_bytes().len(), text.len());
    }
    Ok(())
}

#[test]
fn formats_pad_the_text(rt: HostRuntime) -> Result<(), Fail> {
    let (late, early) = (date(5, 3, 1)?, date(-5, 3, 1)?);
    is(
        &rt,
        format!(in rt.alloc();
            "{late} {early} {early:?}{early:>14}{early:*^16}{early:14}|"
        )?.as_str(),
        "0005-03-01 -0005-03-01 -0005-03-01   -0005-03-01**-0005-03-01***-0005-03-01   |",
    );
    Ok(())
}

#[test]
fn days_of_a_name_are_found(rt: HostRuntime) -> Result<(), Fail> {
    let wednesday = date(2023, 6, 28)?;
    // As Python's `datetime` has them: the days to the next, and those from the last.
    for (weekday, ahead, behind) in [
        (Weekday::Monday, 5, 2),
        (Weekday::Tuesday, 6, 1),
        (Weekday::Wednesday, 7, 7),
        (Weekday::Thursday, 1, 6),
        (Weekday::Friday, 2, 5),
        (Weekday::Saturday, 3, 4),
        (Weekday::Sunday, 4, 3),
    ] {
        let next = wednesday.checked_next_occurrence(weekday);
        let third = wednesday.checked_nth_next_occurrence(weekday, 3);
        is(&rt, next, wednesday.checked_add_days(ahead));
        is(&rt, third, wednesday.checked_add_days(ahead + 14));
        let previous = wednesday.checked_prev_occurrence(weekday);
        let third = wednesday.checked_nth_prev_occurrence(weekday, 3);
        is(&rt, previous, wednesday.checked_add_days(-behind));
        is(&rt, third, wednesday.checked_add_days(-behind - 14));
    }
    Ok(())
}

#[test]
fn days_of_a_name_end_with_the_range(rt: HostRuntime) {
    let (first, last) = (Date::MIN, Date::MAX);
    is(&rt, last.checked_next_occurrence(Weekday::Friday), None);
    is(&rt, first.checked_prev_occurrence(Weekday::Monday), None);
    is(
        &rt,
        first.checked_next_occurrence(Weekday::Monday),
        first.checked_add_days(7),
    );
    is(
        &rt,
        last.checked_nth_prev_occurrence(Weekday::Friday, 255),
        last.checked_add_days(-1785),
    );
    is(
        &rt,
        first.checked_nth_next_occurrence(Weekday::Friday, 0),
        None,
    );
    is(
        &rt,
        last.checked_nth_prev_occurrence(Weekday::Friday, 0),
        None,
    );
}

#[test]
fn days_of_a_name_in_range_are_given(rt: HostRuntime) {
    let (start, monday) = (Date::UNIX_EPOCH, Weekday::Monday);
    let next = start.checked_next_occurrence(monday);
    if next.is_some() {
        is(&rt, Some(start.next_occurrence(monday)), next);
    }
    let previous = start.checked_prev_occurrence(monday);
    if previous.is_some() {
        is(&rt, Some(start.prev_occurrence(monday)), previous);
    }
    let second = start.checked_nth_next_occurrence(monday, 2);
    if second.is_some() {
        is(&rt, Some(start.nth_next_occurrence(monday, 2)), second);
    }
    let second = start.checked_nth_prev_occurrence(monday, 2);
    if second.is_some() {
        is(&rt, Some(start.nth_prev_occurrence(monday, 2)), second);
    }
}
