use super::{date, is};
use crate::date_sums::{muxandu_date_add_days, muxandu_date_add_months};
use crate::days::{
    muxandu_date_from_day, muxandu_day_from_date, muxandu_day_from_ordinal_date,
    muxandu_day_from_week_date, muxandu_days_in_month, muxandu_ordinal_date_from_day,
    muxandu_week_date_from_day, muxandu_weekday_from_day,
};
use crate::reads::{MuxanduDateReads, muxandu_date_from_julian_day, muxandu_date_reads};
use crate::values::{MuxanduOrdinalDate, MuxanduWeekDate};

#[test]
fn dates(rt: HostRuntime) {
    let (status, out) = called!(muxandu_date_from_day(19_782), date(7, 7, 7));
    is(
        &rt,
        (status, out.year, out.month, out.day),
        (0, 2024, 2, 29),
    );
    is(
        &rt,
        called!(muxandu_day_from_date(date(2023, 2, 29)), 7),
        (4, 7),
    );
    is(&rt, called!(muxandu_weekday_from_day(-1), 7), (0, 2));
    for (year, month, expected) in [
        (2024, 2, (0, 29)),
        (2024, 258, (2, 7)),
        (1_000_000, 13, (2, 7)),
    ] {
        is(
            &rt,
            called!(muxandu_days_in_month(year, month), 7),
            expected,
        );
    }
}

#[test]
fn ordinal_dates(rt: HostRuntime) {
    let there = MuxanduOrdinalDate {
        year: 7,
        ordinal: 7,
    };
    let (status, out) = called!(muxandu_ordinal_date_from_day(18_627), there);
    is(&rt, (status, out.year, out.ordinal), (0, 2020, 366));
    let ordinal_date = MuxanduOrdinalDate {
        year: 2021,
        ordinal: 366,
    };
    is(
        &rt,
        called!(muxandu_day_from_ordinal_date(ordinal_date), 7),
        (6, 7),
    );
}

#[test]
fn week_dates_of_days(rt: HostRuntime) {
    let there = MuxanduWeekDate {
        year: 7,
        week: 7,
        weekday: 7,
    };
    let (status, out) = called!(muxandu_week_date_from_day(18_630), there);
    is(
        &rt,
        (status, out.year, out.week, out.weekday),
        (0, 2020, 53, 6),
    );
}

#[test]
fn week_dates(rt: HostRuntime) {
    for (year, week, weekday, expected) in [
        (2020, 53, 6, (0, 18_630)),
        (1970, 1, 2, (0, -1)),
        (2021, 53, 0, (8, 7)),
        (2021, 54, 7, (7, 7)),
        (2021, 52, 7, (9, 7)),
        (2021, 53, 7, (9, 7)),
        (1_000_000, 0, 0, (1, 7)),
        (-1_000_000, 54, 7, (1, 7)),
        (999_999, 52, 5, (19, 7)),
        (999_999, 52, 6, (19, 7)),
    ] {
        let week_date = MuxanduWeekDate {
            year,
            week,
            weekday,
        };
        is(
            &rt,
            called!(muxandu_day_from_week_date(week_date), 7),
            expected,
        );
    }
}

#[test]
fn what_dates_show(rt: HostRuntime) {
    let there = MuxanduDateReads {
        day: 7,
        julian_day: 7,
        iso_year: 7,
        ordinal: 7,
        iso_week: 7,
        weekday: 7,
        sunday_based_week: 7,
        monday_based_week: 7,
    };
    // The first of January 2021, a Friday, is in the last week of 2020.
    let (status, out) = called!(muxandu_date_reads(date(2021, 1, 1)), there);
    is(
        &rt,
        (status, out.day, out.julian_day),
        (0, 18_628, 2_459_216),
    );
    is(
        &rt,
        (out.iso_year, out.iso_week, out.weekday),
        (2020, 53, 4),
    );
    is(
        &rt,
        (out.ordinal, out.sunday_based_week, out.monday_based_week),
        (1, 0, 0),
    );
    let (status, out) = called!(muxandu_date_reads(date(2023, 2, 29)), there);
    is(&rt, (status, out.day, out.ordinal), (4, 7, 7));
}

#[test]
fn dates_of_julian_days(rt: HostRuntime) {
    for (julian_day, expected) in [
        (2_440_588, (0, 1970, 1, 1)),
        (-363_521_074, (0, -999_999, 1, 1)),
        (-363_521_075, (16, 7, 7, 7)),
    ] {
        let (status, out) = called!(muxandu_date_from_julian_day(julian_day), date(7, 7, 7));
        is(&rt, (status, out.year, out.month, out.day), expected);
    }
}

#[test]
fn dates_days_later(rt: HostRuntime) {
    for (from, days, expected) in [
        (date(2024, 2, 28), 2, (0, 2024, 3, 1)),
        (date(999_999, 12, 31), 1, (19, 7, 7, 7)),
        (date(1970, 1, 1), i32::MIN, (19, 7, 7, 7)),
    ] {
        let (status, out) = called!(muxandu_date_add_days(from, days), date(7, 7, 7));
        is(&rt, (status, out.year, out.month, out.day), expected);
    }
}

#[test]
fn dates_months_later(rt: HostRuntime) {
    for (from, months, expected) in [
        (date(2024, 1, 31), 1, (0, 2024, 2, 29)),
        (date(0, 1, 31), -2, (0, -1, 11, 30)),
        (date(999_999, 12, 1), 1, (19, 7, 7, 7)),
        (date(2023, 2, 29), 1, (4, 7, 7, 7)),
    ] {
        let (status, out) = called!(muxandu_date_add_months(from, months), date(7, 7, 7));
        is(&rt, (status, out.year, out.month, out.day), expected);
    }
}
