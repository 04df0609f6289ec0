//! Many items by iterators and slices: what stops at an item, texts in a block, counts of all units, and many threads.

use std::thread;

use muxandu::error::ComponentRange;
use muxandu::macros::offset;
use muxandu::{Date, OffsetDateTime, PlainDateTime, TextRefusal, Timestamp, UtcOffset};

fn a_minute() -> UtcOffset {
    UtcOffset::from_whole_seconds(60).unwrap()
}

/// What clocks at an offset show at each second, or the refusal of the first that the range does not have.
fn shown(seconds: &[i64], offset: UtcOffset) -> Result<Vec<OffsetDateTime>, ComponentRange> {
    let at = |second: &i64| Ok(Timestamp::from_seconds(*second)?.to_offset(offset));
    seconds.iter().map(at).collect()
}

#[test]
fn seconds_and_back() {
    let seconds = [0, -1, 1_709_210_096];
    let date_times = shown(&seconds, a_minute()).unwrap();
    let texts: Vec<String> =
        date_times.iter().map(|at| at.to_rfc3339().unwrap().to_string()).collect();
    assert_eq!(
        texts,
        ["1970-01-01T00:01:00+00:01", "1970-01-01T00:00:59+00:01", "2024-02-29T12:35:56+00:01"]
    );
    let back = date_times.iter().map(|at| at.unix_timestamp());
    assert!(back.eq(seconds));
}

#[test]
fn the_first_refused_stops() {
    let refused = shown(&[86_400, i64::MAX, 7], UtcOffset::UTC).unwrap_err();
    assert_eq!(refused.name(), "seconds");
    let before = PlainDateTime::MIN.assume_offset(a_minute());
    let mut instants = [OffsetDateTime::default(), before]
        .into_iter()
        .map_while(OffsetDateTime::checked_to_timestamp);
    assert_eq!(instants.next(), Some(Timestamp::UNIX_EPOCH));
    assert_eq!(instants.next(), None);
    let days = [1, i32::MIN];
    let dates: Option<Vec<Date>> = days.into_iter().map(Date::from_days_since_epoch).collect();
    assert_eq!(dates, None);
}

#[test]
fn many_dates() {
    let mut days: Vec<i32> = (-500..500).collect();
    let date_of = |day: &i32| Date::from_days_since_epoch(*day);
    let dates: Vec<Date> = days.iter().map_while(date_of).collect();
    assert!(days.iter().zip(&dates).all(|(day, date)| date.days_since_epoch() == *day));
    assert_eq!(dates.len(), 1_000);
    days[777] = i32::MAX;
    let dates: Vec<Date> = days.iter().map_while(date_of).collect();
    assert_eq!((dates.len(), dates[776].days_since_epoch()), (777, 276));
}

#[test]
fn days_and_dates() {
    let days = [-365_961_662, -1, 0, 19_782, 364_522_971];
    let dates = days.map(|day| Date::from_days_since_epoch(day).unwrap());
    let texts = dates.map(|date| date.to_string());
    assert_eq!(texts, ["-999999-01-01", "1969-12-31", "1970-01-01", "2024-02-29", "+999999-12-31"]);
    assert_eq!(dates.map(Date::days_since_epoch), days);
}

#[test]
fn texts_in_a_block() {
    let block = b"1970-01-01T00:00:01Z,1970-01-01T01:00:00.5+01:00,1970-01-01";
    let read: Vec<_> = block
        .split(|byte| *byte == b',')
        .map(|text| Timestamp::from_rfc3339(text).map(|at| (at.as_seconds(), at.nanosecond())))
        .collect();
    assert_eq!(read, [Ok((1, 0)), Ok((0, 500_000_000)), Err(TextRefusal::Syntax)]);
}

#[test]
fn threads_call_at_once() {
    thread::scope(|scope| {
        for day in 1..=8 {
            scope.spawn(move || {
                let seconds: Vec<i64> = (0..10_000).map(|number| number * 86_400 * day).collect();
                for _ in 0..20 {
                    let date_times = shown(&seconds, UtcOffset::UTC).unwrap();
                    assert!(
                        date_times.iter().map(|at| at.unix_timestamp()).eq(seconds.iter().copied())
                    );
                    let last = date_times[9_999].date().days_since_epoch();
                    assert_eq!(i64::from(last), 9_999 * day);
                }
            });
        }
    });
}

#[test]
fn counts_of_many() {
    let counts = [-1, 0, 1_709_164_800_000];
    let texts = |instants: [Timestamp; 3], offset: UtcOffset| {
        instants.map(|at| at.to_offset(offset).to_rfc3339().unwrap().to_string())
    };
    let instants = counts.map(|count| Timestamp::from_milliseconds(count).unwrap());
    let written = texts(instants, UtcOffset::UTC);
    assert_eq!(written[0], "1969-12-31T23:59:59.999Z");
    assert_eq!(written[2], "2024-02-29T00:00:00Z");
    assert_eq!(instants.map(Timestamp::as_milliseconds), counts);
    let counts = counts.map(i128::from);
    let instants = counts.map(|count| Timestamp::from_microseconds(count).unwrap());
    let written = texts(instants, offset!(+1));
    assert_eq!(written[0], "1970-01-01T00:59:59.999999+01:00");
    assert_eq!(instants.map(Timestamp::as_microseconds), counts);
    let instants = counts.map(|count| Timestamp::from_nanoseconds(count).unwrap());
    let written = texts(instants, UtcOffset::UTC);
    assert_eq!(written[2], "1970-01-01T00:28:29.1648Z");
    assert_eq!(instants.map(Timestamp::as_nanoseconds), counts);
    assert!(Timestamp::from_milliseconds(i64::MAX).is_err());
}
