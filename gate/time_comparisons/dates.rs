//! Day numbers, dates, days of the year, weeks and days of the week.
use crate::offsets::{done, up_to_refusal};
use crate::source::{EPOCH, MONTHS, Source, is_in_range};
use crate::sys::{self, MuxanduDate, MuxanduOrdinalDate, MuxanduWeekDate};
use crate::{Answer, Compared, answer_of, compare_marks, name, named, parts_of};
use time::error::ComponentRange;
use time::{Date, Weekday};

const WEEKDAYS: [Weekday; 7] = [
    Weekday::Monday,
    Weekday::Tuesday,
    Weekday::Wednesday,
    Weekday::Thursday,
    Weekday::Friday,
    Weekday::Saturday,
    Weekday::Sunday,
];

/// A day number, of the range or past it.
fn any_day(source: &mut Source) -> i32 {
    let (first, last) = (Date::MIN.to_julian_day() - EPOCH, Date::MAX.to_julian_day() - EPOCH);
    match source.one_of(16) {
        0 => source.near(first.into(), last.into(), 2) as i32,
        // `time` counts Julian days in 32 bits, and what it adds to a day number must fit.
        1 => (source.any_number() as i32).min(i32::MAX - EPOCH),
        _ => source.date().to_julian_day() - EPOCH,
    }
}

fn date_of(day: i32) -> Answer<Date> {
    Date::from_julian_day(day + EPOCH).map_err(named)
}

fn parts(date: Date) -> MuxanduDate {
    MuxanduDate { year: date.year(), month: date.month().into(), day: date.day() }
}

fn day_of(date: Date) -> i32 {
    date.to_julian_day() - EPOCH
}

/// Compares the day number of a date, and where it is refused, the mark of the refusal too: whether some month or year has
/// the last part.
fn compare_day(
    of: &mut Compared,
    call: &str,
    input: impl std::fmt::Debug,
    (status, day, is_of_some): (u32, i32, bool),
    theirs: Result<Date, ComponentRange>,
) {
    let answer = if status == sys::OK { Ok(day) } else { Err(name(status)) };
    // 0.3.9 goes on past the range.
    let in_range = |date: Date| {
        if is_in_range(date.year()) { Ok(day_of(date)) } else { Err("result") }
    };
    of.same(call, &input, answer, theirs.map_err(named).and_then(in_range));
    if let Err(refusal) = theirs {
        compare_marks(of, call, &input, (status, is_of_some), refusal);
    }
}

pub fn compare_dates(source: &mut Source, of: &mut Compared) {
    let day = any_day(source);
    let ours = answer_of(|out| sys::muxandu_date_from_day(day, out));
    of.same("date_from_day", day, ours, date_of(day).map(parts));

    let month = MONTHS[source.one_of(12) as usize];
    let of_month = if source.is_one_in(8) { source.any_number() } else { source.between(1, 31) };
    let date = MuxanduDate { year: source.any_year(), month: month.into(), day: of_month as u8 };
    let mut day = 0;
    let status = sys::muxandu_day_from_date(date, &mut day);
    let ours = (status, day, (1..=31).contains(&date.day));
    compare_day(of, "day_from_date", date, ours, Date::from_calendar_date(date.year, month, date.day));

    let year = source.year();
    let length = answer_of(|out| sys::muxandu_days_in_month(year, u8::from(month).into(), out));
    of.same("days_in_month", (year, month), length, Ok(time::util::days_in_year_month(year, month)));

    let at = source.at_offset();
    let day = answer_of(|out| sys::muxandu_date_time_day(parts_of(at), out));
    of.same("date_time_day", parts_of(at), day, Ok(at.to_julian_day() - EPOCH));
}

pub fn compare_ordinals(source: &mut Source, of: &mut Compared) {
    let day = any_day(source);
    let ours = answer_of(|out| sys::muxandu_ordinal_date_from_day(day, out));
    let theirs = date_of(day).map(|date| MuxanduOrdinalDate { year: date.year(), ordinal: date.ordinal() });
    of.same("ordinal_date_from_day", day, ours, theirs);

    let ordinal = match source.one_of(8) {
        0 => source.near(1, 366, 2),
        1 => source.any_number(),
        _ => source.between(1, 366),
    };
    let date = MuxanduOrdinalDate { year: source.any_year(), ordinal: ordinal as u16 };
    let mut day = 0;
    let status = sys::muxandu_day_from_ordinal_date(date, &mut day);
    let ours = (status, day, (1..=366).contains(&date.ordinal));
    compare_day(of, "day_from_ordinal_date", date, ours, Date::from_ordinal_date(date.year, date.ordinal));
}

pub fn compare_weeks(source: &mut Source, of: &mut Compared) {
    let day = any_day(source);
    let ours = answer_of(|out| sys::muxandu_week_date_from_day(day, out));
    let theirs = date_of(day).map(|date| {
        let (year, week, weekday) = date.to_iso_week_date();
        MuxanduWeekDate { year, week, weekday: weekday.number_days_from_monday() }
    });
    of.same("week_date_from_day", day, ours, theirs);
    let ours = answer_of(|out| sys::muxandu_weekday_from_day(day, out));
    of.same("weekday_from_day", day, ours, date_of(day).map(|date| date.weekday().number_days_from_monday()));

    let weekday = source.one_of(7) as u8;
    let week = match source.one_of(8) {
        0 => source.near(1, 53, 2),
        1 => source.any_number(),
        2 => 53,
        _ => source.between(1, 53),
    };
    let date = MuxanduWeekDate { year: source.any_year(), week: week as u8, weekday };
    let theirs = Date::from_iso_week_date(date.year, date.week, WEEKDAYS[usize::from(weekday)]);
    let mut day = 0;
    let status = sys::muxandu_day_from_week_date(date, &mut day);
    let ours = (status, day, (1..=53).contains(&date.week));
    compare_day(of, "day_from_week_date", date, ours, theirs);
}

pub fn compare_many(source: &mut Source, of: &mut Compared) {
    const COUNT: usize = 4;
    let days: Vec<i32> = (0..COUNT).map(|_| any_day(source)).collect();
    let mut dates = vec![MuxanduDate::default(); COUNT];
    let batch = unsafe { sys::muxandu_dates_from_days(days.as_ptr(), COUNT, dates.as_mut_ptr(), COUNT) };
    let theirs = up_to_refusal(days.iter().map(|day| date_of(*day).map(parts)).collect());
    of.same("dates_from_days", &days, done(batch, dates), theirs);

    let held: Vec<Date> = (0..COUNT).map(|_| source.date()).collect();
    let dates: Vec<MuxanduDate> = held.iter().map(|date| parts(*date)).collect();
    let mut days = vec![0; COUNT];
    let batch = unsafe { sys::muxandu_days_from_dates(dates.as_ptr(), COUNT, days.as_mut_ptr(), COUNT) };
    let theirs = (held.iter().map(|date| day_of(*date)).collect(), "nothing");
    of.same("days_from_dates", &dates, done(batch, days), theirs);
}
