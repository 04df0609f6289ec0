//! Dates with a time of day at an offset.
use super::is;
use calendar_values::{
    ComponentRange, Date, Month, SignedDuration, Text, Time, UtcOffset, Weekday,
};
use offset_times::carries::{to_offset_raw, to_utc_raw, utc_to_offset_raw};
use offset_times::{Assume, OffsetDateTime, ToOffset, laws};
use plain_times::PlainDateTime;
use std::cmp::Ordering;
use std::hash::{DefaultHasher, Hash, Hasher};
use std::test::Fail;
use std::time::Duration;
use utc_times::{AsUtc, UtcDateTime};

fn plain(date: (i32, Month, u8), clock: (u8, u8, u8)) -> Result<PlainDateTime, Fail> {
    let date = Date::from_calendar_date(date.0, date.1, date.2)?;
    Ok(PlainDateTime::new(date, Time::from_hms(clock.0, clock.1, clock.2)?))
}

fn offset(hours: i8, minutes: i8, seconds: i8) -> Result<UtcOffset, Fail> {
    Ok(UtcOffset::from_hms(hours, minutes, seconds)?)
}

// What clocks show, and at which offset.
fn shown(at: Option<OffsetDateTime>) -> Option<(PlainDateTime, UtcOffset)> {
    match at {
        Some(at) => Some((at.date_time(), at.offset())),
        None => None,
    }
}

// Conversions by the calls that ask for the range, where the checked ones say that they may be made.
fn to_offset(at: OffsetDateTime, offset: UtcOffset) -> Option<OffsetDateTime> {
    at.checked_to_offset(offset)?;
    Some(at.to_offset(offset))
}

fn to_utc(at: OffsetDateTime) -> Option<UtcDateTime> {
    at.checked_to_utc()?;
    Some(at.to_utc())
}

fn at_offset<T: ToOffset + Copy>(at: T, offset: UtcOffset) -> Option<OffsetDateTime> {
    at.checked_to_offset(offset)?;
    Some(at.to_offset(offset))
}

#[test]
fn raw_conversions(rt: HostRuntime) -> Result<(), Fail> {
    let late = offset(25, 59, 59)?;
    let early = offset(-25, -59, -59)?;
    let january = (2000, Month::January, 1);
    let evening = plain(january, (23, 59, 59))?.assume_offset(early);
    let midnight = plain(january, (0, 0, 0))?.assume_offset(late);
    let first = PlainDateTime::MIN.assume_offset(late);
    let last = PlainDateTime::MAX.assume_offset(early);
    let first_utc = utc_to_offset_raw(UtcDateTime::MIN, early);
    for (shown, year, ordinal, clock) in [
        (to_offset_raw(evening, late), 2000, 4, (3, 59, 57, 0)),
        (to_offset_raw(midnight, early), 1999, 363, (20, 0, 2, 0)),
        (to_utc_raw(first), -1_000_000, 365, (22, 0, 1, 0)),
        (to_utc_raw(last), 1_000_000, 2, (1, 59, 58, 999_999_999)),
        (to_offset_raw(first, early), -1_000_000, 364, (20, 0, 2, 0)),
        (first_utc, -1_000_000, 365, (22, 0, 1, 0)),
    ] {
        let (hour, minute, second, nanosecond) = clock;
        let time = Time::from_hms_nano(hour, minute, second, nanosecond)?;
        is(&rt, shown, (year, ordinal, time));
    }
    Ok(())
}

#[test]
fn conversions(rt: HostRuntime) -> Result<(), Fail> {
    let late = offset(25, 59, 59)?;
    let early = offset(-25, -59, -59)?;
    let one_west = offset(-1, 0, 0)?;
    let two_west = offset(-2, 0, 0)?;
    let half = offset(0, 30, 0)?;
    let january = (2000, Month::January, 1);
    let evening = plain(january, (23, 59, 59))?.assume_offset(early);
    let midnight = plain(january, (0, 0, 0))?.assume_offset(late);
    let east = plain(january, (0, 0, 0))?.assume_offset(offset(11, 0, 0)?);
    let new_year = plain((2019, Month::January, 1), (23, 59, 59))?.assume_utc();
    let last = plain((9_999, Month::December, 31), (23, 59, 59))?.assume_offset(one_west);
    let last_of_all = plain((999_999, Month::December, 31), (23, 59, 59))?.assume_offset(one_west);
    for (at, to, text) in [
        (evening, late, "2000-01-04 3:59:57.0 +25:59:59"),
        (midnight, early, "1999-12-29 20:00:02.0 -25:59:59"),
        (east, offset(-5, 0, 0)?, "1999-12-31 8:00:00.0 -05:00:00"),
        (east, offset(-8, 0, 0)?, "1999-12-31 5:00:00.0 -08:00:00"),
        (new_year, half, "2019-01-02 0:29:59.0 +00:30:00"),
        (last, two_west, "9999-12-31 22:59:59.0 -02:00:00"),
        (last, one_west, "9999-12-31 23:59:59.0 -01:00:00"),
        (last_of_all, two_west, "+999999-12-31 22:59:59.0 -02:00:00"),
    ] {
        let Some(there) = to_offset(at, to) else {
            return Err(Fail::from("refused"));
        };
        is(&rt, there.text().as_str(), text);
        is(&rt, shown(at.checked_to_offset(to)), shown(Some(there)));
    }
    Ok(())
}

#[test]
fn hours_elsewhere(rt: HostRuntime) -> Result<(), Fail> {
    let east = plain((2000, Month::January, 1), (0, 0, 0))?.assume_offset(offset(11, 0, 0)?);
    let new_year = plain((2019, Month::January, 1), (23, 59, 59))?.assume_utc();
    for (at, to, clock) in [
        (east, offset(-5, 0, 0)?, (8, 0)),
        (east, offset(-8, 0, 0)?, (5, 0)),
        (new_year, offset(0, 30, 0)?, (0, 29)),
    ] {
        is(
            &rt,
            to_offset(at, to).map(|there| (there.hour(), there.minute())),
            Some(clock),
        );
    }
    Ok(())
}

#[test]
fn conversions_to_utc(rt: HostRuntime) -> Result<(), Fail> {
    let one_west = offset(-1, 0, 0)?;
    let last = plain((9_999, Month::December, 31), (23, 59, 59))?.assume_offset(one_west);
    let hour_later = plain((10_000, Month::January, 1), (0, 59, 59))?;
    let last_of_all = plain((999_999, Month::December, 31), (23, 59, 59))?.assume_offset(one_west);
    for (at, in_utc) in [
        (last, Some(hour_later.as_utc())),
        (last_of_all, None),
        (PlainDateTime::MIN.assume_offset(offset(25, 59, 59)?), None),
        (PlainDateTime::MIN.assume_utc(), Some(UtcDateTime::MIN)),
    ] {
        is(&rt, at.checked_to_utc(), in_utc);
        is(&rt, to_utc(at), in_utc);
    }
    Ok(())
}

#[test]
fn conversions_past_the_ends(rt: HostRuntime) -> Result<(), Fail> {
    let late = offset(25, 59, 59)?;
    let first = PlainDateTime::MIN.assume_offset(late);
    is(&rt, first.unix_timestamp(), -31_619_087_690_399);
    is(&rt, shown(first.checked_to_offset(offset(25, 0, 0)?)), None);
    is(
        &rt,
        shown(to_offset(first, late)),
        Some((PlainDateTime::MIN, late)),
    );
    let one_east = offset(1, 0, 0)?;
    is(
        &rt,
        shown(PlainDateTime::MAX.assume_utc().checked_to_offset(one_east)),
        None,
    );
    is(&rt, shown(at_offset(UtcDateTime::MAX, one_east)), None);
    is(
        &rt,
        shown(at_offset(UtcDateTime::MAX, offset(0, 0, -1)?)),
        Some((
            PlainDateTime::MAX - SignedDuration::seconds(1),
            offset(0, 0, -1)?,
        )),
    );
    Ok(())
}

#[test]
fn conversions_at_the_ends(rt: HostRuntime) -> Result<(), Fail> {
    let offsets = [-93_599, -1, 0, 1, 93_599];
    for from in offsets {
        let stored = UtcOffset::from_whole_seconds(from)?;
        let first = PlainDateTime::MIN.assume_offset(stored);
        let last = PlainDateTime::MAX.assume_offset(stored);
        is(&rt, first.checked_to_utc().is_some(), from <= 0);
        is(&rt, last.checked_to_utc().is_some(), from >= 0);
        for to in offsets {
            let wanted = UtcOffset::from_whole_seconds(to)?;
            is(&rt, first.checked_to_offset(wanted).is_some(), to >= from);
            is(&rt, last.checked_to_offset(wanted).is_some(), to <= from);
        }
    }
    Ok(())
}

#[test]
fn unix_time(rt: HostRuntime) -> Result<(), Fail> {
    let at = OffsetDateTime::from_unix_timestamp(1_546_300_800)?;
    is(
        &rt,
        shown(Some(at)),
        Some((plain((2019, Month::January, 1), (0, 0, 0))?, UtcOffset::UTC)),
    );
    let hour_later = plain((1970, Month::January, 1), (0, 0, 0))?.assume_offset(offset(-1, 0, 0)?);
    is(&rt, hour_later.unix_timestamp_nanos(), 3_600_000_000_000);
    let before = OffsetDateTime::from_unix_timestamp_nanos(-1)?;
    is(&rt, before.unix_timestamp(), -1);
    for refused in [
        OffsetDateTime::from_unix_timestamp(31_494_784_780_800),
        OffsetDateTime::from_unix_timestamp_nanos(-31_619_087_596_800_000_000_001),
    ] {
        is(&rt, refusal(refused), Some(("timestamp", false)));
    }
    Ok(())
}

fn hash_of(at: OffsetDateTime) -> u64 {
    let mut hasher = DefaultHasher::new();
    at.hash(&mut hasher);
    hasher.finish()
}

#[test]
fn order(rt: HostRuntime) -> Result<(), Fail> {
    for (year, second) in [(-9_999, -377_705_152_800), (-999_999, -31_619_087_632_800)] {
        let midnight = plain((year, Month::January, 1), (0, 0, 0))?;
        let one = plain((year, Month::January, 1), (1, 0, 0))?;
        let first = midnight.assume_offset(offset(10, 0, 0)?);
        let same = one.assume_offset(offset(11, 0, 0)?);
        let later = one.assume_offset(offset(10, 0, 0)?);
        assert!(rt; first == same);
        is(&rt, hash_of(first), hash_of(same));
        is(&rt, first.unix_timestamp(), second);
        is(&rt, same.unix_timestamp(), second);
        for at in [first, same] {
            is(&rt, at.cmp(&later), Ordering::Less);
            assert!(rt; later > at);
            assert!(rt; at != later);
            assert!(rt; hash_of(at) != hash_of(later));
        }
    }
    let early = PlainDateTime::MIN.assume_offset(offset(25, 59, 59)?);
    let late = PlainDateTime::MAX.assume_offset(offset(-25, -59, -59)?);
    is(&rt, late.cmp(&early), Ordering::Greater);
    is(&rt, early.cmp(&late), Ordering::Less);
    Ok(())
}

#[test]
fn order_of_near(rt: HostRuntime) -> Result<(), Fail> {
    let noon = plain((2019, Month::June, 15), (12, 0, 0))?.assume_offset(offset(1, 0, 0)?);
    let half_past = plain((2019, Month::June, 15), (12, 30, 0))?;
    let last_hour = plain((2018, Month::December, 31), (23, 0, 0))?;
    let new_year = plain((2019, Month::January, 1), (0, 30, 0))?;
    let in_utc = last_hour.assume_offset(UtcOffset::UTC);
    for (first, second, order) in [
        (
            noon,
            half_past.assume_offset(offset(1, 30, 0)?),
            Ordering::Equal,
        ),
        (
            noon,
            half_past.assume_offset(offset(2, 0, 0)?),
            Ordering::Greater,
        ),
        (
            in_utc,
            new_year.assume_offset(UtcOffset::UTC),
            Ordering::Less,
        ),
        (
            in_utc,
            new_year.assume_offset(offset(2, 0, 0)?),
            Ordering::Greater,
        ),
        (
            in_utc,
            new_year.assume_offset(offset(1, 30, 0)?),
            Ordering::Equal,
        ),
    ] {
        is(&rt, first.cmp(&second), order);
        is(&rt, second.cmp(&first), order.reverse());
    }
    Ok(())
}

#[test]
fn differences(rt: HostRuntime) -> Result<(), Fail> {
    let early = PlainDateTime::MIN.assume_offset(offset(25, 59, 59)?);
    let late = PlainDateTime::MAX.assume_offset(offset(-25, -59, -59)?);
    is(
        &rt,
        late - early,
        SignedDuration::new(63_113_872_564_797, 999_999_999),
    );
    let ten = offset(10, 0, 0)?;
    for year in [-9_999, -999_999] {
        let midnight = plain((year, Month::January, 1), (0, 0, 0))?;
        let one = plain((year, Month::January, 1), (1, 0, 0))?;
        is(
            &rt,
            midnight.assume_offset(ten) - one.assume_offset(ten),
            SignedDuration::seconds(-3_600),
        );
    }
    Ok(())
}

#[test]
fn texts(rt: HostRuntime) -> Result<(), Fail> {
    let first = PlainDateTime::MIN.assume_offset(offset(25, 59, 59)?);
    let last = PlainDateTime::MAX.assume_offset(offset(-25, -59, -59)?);
    for (at, text) in [
        (first, "-999999-01-01 0:00:00.0 +25:59:59"),
        (last, "+999999-12-31 23:59:59.999999999 -25:59:59"),
        (OffsetDateTime::UNIX_EPOCH, "1970-01-01 0:00:00.0 +00:00:00"),
    ] {
        is(&rt, at.text().as_str(), text);
    }
    is(&rt, last.text().as_bytes().len(), 42);
    Ok(())
}

#[test]
fn appended_texts(rt: HostRuntime) {
    let mut text = Text::new();
    text.push(b'>');
    OffsetDateTime::UNIX_EPOCH.append_to(&mut text);
    is(&rt, text.as_str(), ">1970-01-01 0:00:00.0 +00:00:00");
}

#[test]
fn formats(rt: HostRuntime) -> Result<(), Fail> {
    let epoch = OffsetDateTime::UNIX_EPOCH;
    let shown = format!(in rt.alloc(); "{epoch} {epoch:?}{epoch:>34}{epoch:*^35}")?;
    let wanted =
        "1970-01-01 0:00:00.0 +00:00:00 1970-01-01 0:00:00.0 +00:00:00    1970-01-01 0:00:00.0 \
        +00:00:00**1970-01-01 0:00:00.0 +00:00:00***";
    is(&rt, shown.as_str(), wanted);
    Ok(())
}

#[test]
fn with_utc(rt: HostRuntime) -> Result<(), Fail> {
    let first = PlainDateTime::MIN.assume_offset(offset(25, 59, 59)?);
    is(&rt, first.cmp_utc(UtcDateTime::MIN), Ordering::Less);
    assert!(rt; !first.eq_utc(UtcDateTime::MIN));
    for (shown, seconds) in [
        (first - UtcDateTime::MIN, -93_599),
        (UtcDateTime::MIN - first, 93_599),
    ] {
        is(&rt, shown, SignedDuration::seconds(seconds));
    }
    let epoch = OffsetDateTime::from(UtcDateTime::UNIX_EPOCH);
    assert!(rt; epoch.eq_utc(UtcDateTime::UNIX_EPOCH));
    is(&rt, epoch.offset(), UtcOffset::UTC);
    Ok(())
}

#[test]
fn sums_with_an_hour(rt: HostRuntime) -> Result<(), Fail> {
    let ten = offset(10, 0, 0)?;
    let hour = SignedDuration::hours(1);
    let late = plain((999_999, Month::December, 31), (23, 0, 0))?.assume_offset(ten);
    let evening = plain((9_999, Month::December, 31), (23, 0, 0))?.assume_offset(ten);
    let new_year = plain((10_000, Month::January, 1), (0, 0, 0))?;
    for (at, sum, nearest) in [
        (late, None, PlainDateTime::MAX),
        (evening, Some((new_year, ten)), new_year),
    ] {
        is(&rt, shown(at.checked_add(hour)), sum);
        is(
            &rt,
            shown(Some(at.saturating_add(hour))),
            Some((nearest, ten)),
        );
    }
    Ok(())
}

#[test]
fn sums_with_days_back(rt: HostRuntime) -> Result<(), Fail> {
    let ten = offset(10, 0, 0)?;
    let two_days = SignedDuration::days(-2);
    let at = plain((-9_999, Month::January, 1), (0, 0, 0))?;
    let earlier = plain((-10_000, Month::December, 30), (0, 0, 0))?;
    for (at, nearest) in [(PlainDateTime::MIN, PlainDateTime::MIN), (at, earlier)] {
        let sum = at.assume_offset(ten).saturating_add(two_days);
        is(&rt, shown(Some(sum)), Some((nearest, ten)));
    }
    Ok(())
}

#[test]
fn sums_by_operators(rt: HostRuntime) -> Result<(), Fail> {
    let ten = offset(10, 0, 0)?;
    let at = plain((2019, Month::November, 25), (15, 30, 0))?;
    let later = plain((2019, Month::November, 26), (18, 30, 0))?;
    let hours_27 = SignedDuration::hours(27);
    let sum = at.assume_offset(ten).checked_add(hours_27);
    is(&rt, shown(sum), Some((later, ten)));
    let back = by_operators(
        later.assume_offset(ten),
        hours_27,
        Duration::from_secs(97_200),
    );
    is(&rt, shown(back), Some((at, ten)));
    Ok(())
}

#[test]
fn sums_over_the_range(rt: HostRuntime) -> Result<(), Fail> {
    let (first, last) = (PlainDateTime::MIN, PlainDateTime::MAX);
    let span = Duration::new(63_113_872_377_599, 999_999_999);
    let longer = SignedDuration::seconds(63_113_872_377_600);
    for stored in [offset(25, 59, 59)?, offset(-25, -59, -59)?] {
        let (from, to) = (first.assume_offset(stored), last.assume_offset(stored));
        for (sum, wanted) in [
            (from.checked_add_std(span), Some((last, stored))),
            (to.checked_sub(longer), None),
            (from.checked_add(SignedDuration::MAX), None),
            (to.checked_sub_std(Duration::MAX), None),
            (
                Some(to.saturating_sub(SignedDuration::MIN)),
                Some((last, stored)),
            ),
            (
                Some(to.saturating_add(SignedDuration::MIN)),
                Some((first, stored)),
            ),
        ] {
            is(&rt, shown(sum), wanted);
        }
    }
    Ok(())
}

// Takes the duration away once more than it adds it, by each operator.
fn by_operators(
    start: OffsetDateTime,
    duration: SignedDuration,
    same: Duration,
) -> Option<OffsetDateTime> {
    start.checked_sub(duration)?;
    let mut difference = start;
    difference -= duration;
    difference.checked_add_std(same)?;
    difference += same;
    difference.checked_sub_std(same)?;
    difference -= same;
    difference.checked_add(duration)?;
    difference += duration;
    difference.checked_sub(duration)?;
    let difference = difference - duration;
    difference.checked_add(duration)?;
    let sum = difference + duration;
    sum.checked_sub_std(same)?;
    let difference = sum - same;
    difference.checked_add_std(same)?;
    let sum = difference + same;
    sum.checked_sub(duration)
}

#[test]
fn parts(rt: HostRuntime) -> Result<(), Fail> {
    let midnight = plain((2000, Month::January, 1), (0, 0, 0))?.assume_utc();
    let replaced = midnight.replace_offset(offset(-5, 0, 0)?);
    is(&rt, replaced.unix_timestamp(), 946_702_800);
    let one = offset(1, 0, 0)?;
    let date = Date::from_calendar_date(2022, Month::February, 18)?;
    let time = Time::from_hms_milli(15, 30, 45, 123)?;
    let at = OffsetDateTime::new_in_offset(date, time, one);
    is(&rt, at.parts(), (date, time, one));
    is(
        &rt,
        OffsetDateTime::new_utc(date, time).parts(),
        (date, time, UtcOffset::UTC),
    );
    is(
        &rt,
        at.truncate_to_day().parts(),
        (date, Time::MIDNIGHT, one),
    );
    is(&rt, at.to_hms_milli(), (15, 30, 45, 123));
    is(&rt, (at.weekday(), at.ordinal()), (Weekday::Friday, 49));
    Ok(())
}

// The part that is refused, and whether only given the other parts.
fn refusal<T: Copy>(answer: Result<T, ComponentRange>) -> Option<(&'static str, bool)> {
    match answer {
        Ok(_) => None,
        Err(refusal) => Some((refusal.name(), refusal.is_conditional())),
    }
}

#[test]
fn refused_dates(rt: HostRuntime) -> Result<(), Fail> {
    for stored in [offset(25, 59, 59)?, offset(-25, -59, -59)?] {
        let at = plain((2022, Month::February, 18), (1, 2, 3))?.assume_offset(stored);
        for (replaced, name, conditional) in [
            (at.replace_year(1_000_000), "year", false),
            (at.replace_day(0), "day", false),
            (at.replace_day(32), "day", false),
            (at.replace_day(30), "day", true),
            (at.replace_ordinal(0), "ordinal", false),
            (at.replace_ordinal(366), "ordinal", true),
        ] {
            is(&rt, refusal(replaced), Some((name, conditional)));
        }
    }
    Ok(())
}

#[test]
fn refused_clocks(rt: HostRuntime) -> Result<(), Fail> {
    for stored in [offset(25, 59, 59)?, offset(-25, -59, -59)?] {
        let at = plain((2022, Month::February, 18), (1, 2, 3))?.assume_offset(stored);
        for (replaced, name) in [
            (at.replace_hour(24), "hour"),
            (at.replace_minute(60), "minute"),
            (at.replace_second(60), "second"),
            (at.replace_millisecond(1_000), "millisecond"),
            (at.replace_millisecond(4_295), "millisecond"),
            (at.replace_millisecond(65_535), "millisecond"),
            (at.replace_microsecond(1_000_000), "microsecond"),
            (at.replace_microsecond(4_294_968), "microsecond"),
            (at.replace_nanosecond(1_000_000_000), "nanosecond"),
        ] {
            is(&rt, refusal(replaced), Some((name, false)));
        }
    }
    Ok(())
}

#[test]
fn reads(rt: HostRuntime) -> Result<(), Fail> {
    let date = Date::from_calendar_date(2022, Month::February, 18)?;
    let time = Time::from_hms_nano(15, 30, 45, 123_456_789)?;
    for stored in [offset(25, 59, 59)?, offset(-25, -59, -59)?] {
        let at = OffsetDateTime::new_in_offset(date, time, stored);
        is(&rt, (at.date(), at.time()), (date, time));
        is(&rt, at.to_calendar_date(), (2022, Month::February, 18));
        is(&rt, at.year(), 2022);
        is(&rt, at.month(), Month::February);
        is(&rt, at.day(), 18);
        is(&rt, at.to_ordinal_date(), (2022, 49));
        is(&rt, at.to_iso_week_date(), (2022, 7, Weekday::Friday));
        is(&rt, at.iso_week(), 7);
        is(&rt, at.sunday_based_week(), 7);
        is(&rt, at.monday_based_week(), 7);
        is(&rt, at.to_julian_day(), 2_459_629);
        is(&rt, at.to_hms(), (15, 30, 45));
        is(&rt, at.to_hms_micro(), (15, 30, 45, 123_456));
        is(&rt, at.to_hms_nano(), (15, 30, 45, 123_456_789));
        is(&rt, (at.hour(), at.minute(), at.second()), (15, 30, 45));
        is(&rt, (at.millisecond(), at.microsecond()), (123, 123_456));
        is(&rt, at.nanosecond(), 123_456_789);
    }
    Ok(())
}

// A Friday in February, some nanoseconds after two minutes past one, at the offset.
fn friday(stored: UtcOffset) -> Result<OffsetDateTime, Fail> {
    let date = Date::from_calendar_date(2022, Month::February, 18)?;
    let time = Time::from_hms_nano(1, 2, 3, 4_005_006)?;
    Ok(OffsetDateTime::new_in_offset(date, time, stored))
}

#[test]
fn replaced_dates(rt: HostRuntime) -> Result<(), Fail> {
    let first = Date::from_ordinal_date(2000, 1)?;
    for stored in [offset(25, 59, 59)?, offset(-25, -59, -59)?] {
        let at = friday(stored)?;
        for (replaced, text) in [
            (Ok(at.replace_date(first)), "2000-01-01 1:02:03.004005006"),
            (
                Ok(at.replace_date_time(PlainDateTime::UNIX_EPOCH)),
                "1970-01-01 0:00:00.0",
            ),
            (at.replace_year(-1), "-0001-02-18 1:02:03.004005006"),
            (
                at.replace_month(Month::April),
                "2022-04-18 1:02:03.004005006",
            ),
            (at.replace_day(28), "2022-02-28 1:02:03.004005006"),
            (at.replace_ordinal(365), "2022-12-31 1:02:03.004005006"),
        ] {
            let replaced = replaced?;
            is(&rt, replaced.date_time().text().as_str(), text);
            is(&rt, replaced.offset(), stored);
        }
    }
    Ok(())
}

#[test]
fn replaced_clocks(rt: HostRuntime) -> Result<(), Fail> {
    let noon = Time::from_hms(12, 0, 0)?;
    for stored in [offset(25, 59, 59)?, offset(-25, -59, -59)?] {
        let at = friday(stored)?;
        for (replaced, text) in [
            (Ok(at.replace_time(noon)), "2022-02-18 12:00:00.0"),
            (at.replace_hour(23), "2022-02-18 23:02:03.004005006"),
            (at.replace_minute(59), "2022-02-18 1:59:03.004005006"),
            (at.replace_second(59), "2022-02-18 1:02:59.004005006"),
            (at.replace_millisecond(7), "2022-02-18 1:02:03.007"),
            (at.replace_microsecond(7_008), "2022-02-18 1:02:03.007008"),
            (
                at.replace_nanosecond(7_008_009),
                "2022-02-18 1:02:03.007008009",
            ),
        ] {
            let replaced = replaced?;
            is(&rt, replaced.date_time().text().as_str(), text);
            is(&rt, replaced.offset(), stored);
        }
    }
    Ok(())
}

#[test]
fn truncations(rt: HostRuntime) -> Result<(), Fail> {
    let date = Date::from_calendar_date(2022, Month::February, 18)?;
    let time = Time::from_hms_nano(15, 30, 45, 123_456_789)?;
    for stored in [offset(25, 59, 59)?, offset(-25, -59, -59)?] {
        let at = OffsetDateTime::new_in_offset(date, time, stored);
        for (truncated, text) in [
            (at.truncate_to_day(), "2022-02-18 0:00:00.0"),
            (at.truncate_to_hour(), "2022-02-18 15:00:00.0"),
            (at.truncate_to_minute(), "2022-02-18 15:30:00.0"),
            (at.truncate_to_second(), "2022-02-18 15:30:45.0"),
            (at.truncate_to_millisecond(), "2022-02-18 15:30:45.123"),
            (at.truncate_to_microsecond(), "2022-02-18 15:30:45.123456"),
        ] {
            is(&rt, truncated.date_time().text().as_str(), text);
            is(&rt, truncated.offset(), stored);
        }
    }
    Ok(())
}

#[test]
fn truncations_before_1970(rt: HostRuntime) -> Result<(), Fail> {
    let date = Date::from_calendar_date(1969, Month::December, 31)?;
    for stored in [offset(25, 59, 59)?, offset(-25, -59, -59)?] {
        let at = OffsetDateTime::new_in_offset(date, Time::MAX, stored);
        for (truncated, text) in [
            (at.truncate_to_day(), "1969-12-31 0:00:00.0"),
            (at.truncate_to_hour(), "1969-12-31 23:00:00.0"),
            (at.truncate_to_minute(), "1969-12-31 23:59:00.0"),
            (at.truncate_to_second(), "1969-12-31 23:59:59.0"),
            (at.truncate_to_millisecond(), "1969-12-31 23:59:59.999"),
            (at.truncate_to_microsecond(), "1969-12-31 23:59:59.999999"),
        ] {
            is(&rt, truncated.date_time().text().as_str(), text);
            is(&rt, truncated.offset(), stored);
        }
    }
    Ok(())
}

#[test]
fn constants_and_laws(rt: HostRuntime) {
    is(
        &rt,
        offset_times::constants::offset_date_times().parts(),
        (Date::UNIX_EPOCH, Time::MIDNIGHT, UtcOffset::UTC),
    );
    laws::compared_by_instant();
    laws::conversions_compose();
    laws::own_offset_stays();
    laws::differences_undo_sums();
    laws::differences_lead_back();
    laws::sums_keep_the_order();
    laws::truncations_round_down_once();
    laws::replacements_keep_the_rest();
    laws::replaced_parts_read_as_given();
}
