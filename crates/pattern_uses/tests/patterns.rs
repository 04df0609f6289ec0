//! Each caller of format descriptions is called.
use super::is;
use calendar_values::{Date, Time};
use format_descriptions::{
    Component, DescriptionFault, Iso8601, Item, Padding, Sign, UnixPrecision,
};
use offset_times::OffsetDateTime;
use pattern_uses::{patterns, reused_parts, written_patterns, wrong_parts};
use stamp_times::Timestamp;
use std::test::Fail;

#[test]
fn headings_of_days(rt: HostRuntime) -> Result<(), Fail> {
    let day = Date::from_ordinal_date(2024, 60)?;
    match patterns::heading(day) {
        Some(text) => is(&rt, text.as_str(), "2024-02-29"),
        None => is(&rt, "no heading", "2024-02-29"),
    }
    is(
        &rt,
        patterns::parts_of_heading(b"2024-02-29").map(|parts| parts.day),
        Ok(Some(29)),
    );
    is(&rt, patterns::parts_of_heading(b"2024-02").err(), Some(7));
    is(
        &rt,
        patterns::parts_of_mail_date(b"Thu, 29 Feb 2024 12:00:00 +0530").map(|parts| parts.day),
        Some(Some(29)),
    );
    is(
        &rt,
        patterns::parts_of_short_day(b"17/06/09").map(|parts| parts.year),
        Some(Some(2017)),
    );
    is(
        &rt,
        patterns::parts_of_short_day(b"17/6/09").is_none(),
        true,
    );
    Ok(())
}

#[test]
fn patterns_of_users(rt: HostRuntime) -> Result<(), Fail> {
    is(
        &rt,
        patterns::fault_of_pattern("[hours]"),
        Some(DescriptionFault::UnknownComponent),
    );
    is(&rt, patterns::fault_of_pattern("[hour]h"), None);
    let second = Item::Part(Component::UnixTimestamp(UnixPrecision::Seconds, Sign::Automatic));
    let last_second = Timestamp::new(-1, 0)?;
    is(
        &rt,
        patterns::timestamp_by(&[second], b"-1"),
        Some(last_second),
    );
    is(&rt, patterns::timestamp_by(&[second], b"one"), None);
    let day = Item::Part(Component::Day(Padding::Zero));
    is(&rt, patterns::first_of_pattern("[day].[month]"), Some(day));
    is(&rt, patterns::first_of_pattern(""), None);
    Ok(())
}

#[test]
fn wrong_parts_of_dates(rt: HostRuntime) {
    let items = [
        Item::Part(Component::Day(Padding::Zero)),
        Item::Byte(b'.'),
        Item::Part(Component::Month(Padding::Zero)),
        Item::Byte(b'.'),
        Item::Part(Component::YearSince(1969)),
    ];
    for (date, wanted) in [
        ("31.04.24", Some(Some(b'3'))),
        ("28.19.24", Some(Some(b'1'))),
        ("30.04.24", None),
        ("30.04.2024", None),
    ] {
        let wrong = wrong_parts::wrong_part(&items, date.as_bytes());
        is(&rt, wrong.map(|bytes| bytes.first().copied()), wanted);
    }
}

#[test]
fn texts_of_well_known_forms(rt: HostRuntime) -> Result<(), Fail> {
    let last = patterns::instant_of_mail(b"31 Dec 2016 23:59:60 GMT");
    is(
        &rt,
        last.map(|read| (read.0.unix_timestamp(), read.1)),
        Some((1_483_228_799, true)),
    );
    is(
        &rt,
        patterns::instant_of_mail(b"31 Dec 2016").is_none(),
        true,
    );
    let form = Iso8601 {
        time: None,
        offset: None,
        ..Iso8601::DEFAULT
    };
    match patterns::text_in_form(form, OffsetDateTime::UNIX_EPOCH) {
        Some(text) => is(&rt, text.as_str(), "1970-01-01"),
        None => is(&rt, "no text", "1970-01-01"),
    }
    is(
        &rt,
        patterns::parts_in_form(form, b"1970-01-01").map(|parts| parts.day),
        Some(Some(1)),
    );
    let read = patterns::date_and_time(b"1970-001", b"12.5");
    is(
        &rt,
        read,
        Some((Date::UNIX_EPOCH, Time::from_hms(12, 30, 0)?)),
    );
    Ok(())
}

#[test]
fn descriptions_are_stored_and_restored(rt: HostRuntime) -> Result<(), Fail> {
    let items = [Item::Byte(b'['), Item::Byte(b'h')];
    let mut room = [0_u8; 8];
    is(&rt, written_patterns::store(&items, &mut room), Some(3));
    assert_eq!(rt; &room[..3], b"\\[h".as_slice());
    let mut short = [7_u8; 2];
    is(&rt, written_patterns::store(&items, &mut short), None);
    is(&rt, short, [7; 2]);
    let mut places = [Item::Byte(0); 4];
    is(
        &rt,
        written_patterns::restore(b"\\[h", &mut places),
        Some(2),
    );
    is(&rt, written_patterns::restore(b"[h", &mut places), None);
    Ok(())
}

#[test]
fn texts_are_read_into_one_set_of_parts(rt: HostRuntime) -> Result<(), Fail> {
    let items = [
        Item::Part(Component::YearSince(1969)),
        Item::Part(Component::Ordinal(Padding::Zero)),
    ];
    let leap_day = Date::from_ordinal_date(2024, 60)?;
    is(
        &rt,
        reused_parts::period(&items, b"70001", b"24060"),
        Some((Date::UNIX_EPOCH, leap_day)),
    );
    is(&rt, reused_parts::period(&items, b"70001", b"24"), None);
    is(&rt, reused_parts::period(&items, b"23366", b"24060"), None);
    let line = b"70001 begins";
    match reused_parts::date_and_words(&items, line) {
        Some((date, words)) => {
            is(&rt, date, Date::UNIX_EPOCH);
            is(&rt, words, b" begins".as_slice());
        }
        None => is(&rt, "no date", "1970-01-01"),
    }
    is(
        &rt,
        reused_parts::words_after(&items, line),
        Some(b" begins".as_slice()),
    );
    is(
        &rt,
        reused_parts::words_after(&items, b"70 begins").is_none(),
        true,
    );
    Ok(())
}
