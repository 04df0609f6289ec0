//! Zones against Python's `zoneinfo`, whose answers the rows are, over tzdata 2025b.

use muxandu::macros::{date, datetime, offset};
use muxandu::zones::{FilePart, Gap, LocalRefusal, LocalTimes, RuleFault, Zone, ZoneRefusal};
use muxandu::{
    Date, Duration, Month, OffsetDateTime, PlainDateTime, Time, Timestamp, UtcDateTime, UtcOffset,
};

/// Zone, instant, offset in seconds and abbreviation.
#[rustfmt::skip]
const SHOWN: [(&str, OffsetDateTime, i32, &str); 41] = [
    ("Europe/Berlin", datetime!(1893-03-31 23:06:31 UTC), 3208, "LMT"),
    ("Europe/Berlin", datetime!(1893-03-31 23:06:32 UTC), 3600, "CET"),
    ("Europe/Berlin", datetime!(1945-05-24 0:00:00 UTC), 10800, "CEMT"),
    ("Europe/Berlin", datetime!(1947-05-11 1:00:00 UTC), 10800, "CEMT"),
    ("Europe/Berlin", datetime!(1970-01-01 0:00:00 UTC), 3600, "CET"),
    ("Europe/Berlin", datetime!(2024-03-31 0:59:59 UTC), 3600, "CET"),
    ("Europe/Berlin", datetime!(2024-03-31 0:59:59.999_999_999 UTC), 3600, "CET"),
    ("Europe/Berlin", datetime!(2024-03-31 1:00:00 UTC), 7200, "CEST"),
    ("Europe/Berlin", datetime!(2024-10-27 0:59:59 UTC), 7200, "CEST"),
    ("Europe/Berlin", datetime!(2024-10-27 1:00:00 UTC), 3600, "CET"),
    ("Europe/Berlin", datetime!(2037-10-25 1:00:00 UTC), 3600, "CET"),
    ("Europe/Berlin", datetime!(2038-07-01 0:00:00 UTC), 7200, "CEST"),
    ("Europe/Berlin", datetime!(9999-07-01 12:00:00 UTC), 7200, "CEST"),
    ("Europe/Berlin", datetime!(9999-12-01 12:00:00 UTC), 3600, "CET"),
    ("Europe/Berlin", datetime!(+999999-07-01 12:00:00 UTC), 7200, "CEST"),
    ("America/Sao_Paulo", datetime!(1914-01-01 3:06:27 UTC), -11188, "LMT"),
    ("America/Sao_Paulo", datetime!(1914-01-01 3:06:28 UTC), -10800, "-03"),
    ("America/Sao_Paulo", datetime!(2018-11-04 2:59:59 UTC), -10800, "-03"),
    ("America/Sao_Paulo", datetime!(2018-11-04 3:00:00 UTC), -7200, "-02"),
    ("America/Sao_Paulo", datetime!(2019-02-17 1:59:59 UTC), -7200, "-02"),
    ("America/Sao_Paulo", datetime!(2019-02-17 2:00:00 UTC), -10800, "-03"),
    ("America/Sao_Paulo", datetime!(9999-01-01 12:00:00 UTC), -10800, "-03"),
    ("Pacific/Apia", datetime!(2011-12-30 9:59:59 UTC), -36000, "-10"),
    ("Pacific/Apia", datetime!(2011-12-30 10:00:00 UTC), 50400, "+14"),
    ("Pacific/Apia", datetime!(2012-03-31 14:00:00 UTC), 46800, "+13"),
    ("Pacific/Apia", datetime!(2021-04-03 14:00:00 UTC), 46800, "+13"),
    ("Pacific/Apia", datetime!(2024-01-01 0:00:00 UTC), 46800, "+13"),
    ("Australia/Lord_Howe", datetime!(2024-04-06 14:59:59 UTC), 39600, "+11"),
    ("Australia/Lord_Howe", datetime!(2024-04-06 15:00:00 UTC), 37800, "+1030"),
    ("Australia/Lord_Howe", datetime!(2024-10-05 15:29:59 UTC), 37800, "+1030"),
    ("Australia/Lord_Howe", datetime!(2024-10-05 15:30:00 UTC), 39600, "+11"),
    ("Australia/Lord_Howe", datetime!(2100-10-02 15:30:00 UTC), 39600, "+11"),
    ("Africa/Casablanca", datetime!(2024-03-10 1:59:59 UTC), 3600, "+01"),
    ("Africa/Casablanca", datetime!(2024-03-10 2:00:00 UTC), 0, "+00"),
    ("Africa/Casablanca", datetime!(2024-04-14 1:59:59 UTC), 0, "+00"),
    ("Africa/Casablanca", datetime!(2024-04-14 2:00:00 UTC), 3600, "+01"),
    ("Africa/Casablanca", datetime!(2087-05-11 2:00:00 UTC), 3600, "+01"),
    ("Africa/Casablanca", datetime!(2100-01-01 0:00:00 UTC), 3600, "+01"),
    ("Asia/Kolkata", datetime!(1941-10-01 0:00:00 UTC), 23400, "+0630"),
    ("Asia/Kolkata", datetime!(2024-01-01 0:00:00 UTC), 19800, "IST"),
    ("Etc/UTC", datetime!(-999999-01-01 0:00 UTC), 0, "UTC"),
];

/// Zone, wall clock, and the earlier and the later instant: `fold` 0 and 1, the other way in a gap.
#[rustfmt::skip]
const LOCAL: [(&str, PlainDateTime, OffsetDateTime, OffsetDateTime, char); 9] = [
    ("Europe/Berlin", datetime!(2024-03-31 2:30), datetime!(2024-03-31 0:30 UTC), datetime!(2024-03-31 1:30 UTC), 'g'),
    ("Europe/Berlin", datetime!(2024-10-27 2:30), datetime!(2024-10-27 0:30 UTC), datetime!(2024-10-27 1:30 UTC), 'f'),
    ("Europe/Berlin", datetime!(2024-07-01 12:00), datetime!(2024-07-01 10:00 UTC), datetime!(2024-07-01 10:00 UTC), 's'),
    ("Pacific/Apia", datetime!(2011-12-30 12:00), datetime!(2011-12-29 22:00 UTC), datetime!(2011-12-30 22:00 UTC), 'g'),
    ("Australia/Lord_Howe", datetime!(2024-04-07 1:45), datetime!(2024-04-06 14:45 UTC), datetime!(2024-04-06 15:15 UTC), 'f'),
    ("Australia/Lord_Howe", datetime!(2024-10-06 2:15), datetime!(2024-10-05 15:15 UTC), datetime!(2024-10-05 15:45 UTC), 'g'),
    ("America/Sao_Paulo", datetime!(2018-11-04 0:30), datetime!(2018-11-04 2:30 UTC), datetime!(2018-11-04 3:30 UTC), 'g'),
    ("Africa/Casablanca", datetime!(2024-03-10 2:30), datetime!(2024-03-10 1:30 UTC), datetime!(2024-03-10 2:30 UTC), 'f'),
    ("Africa/Casablanca", datetime!(2024-04-14 2:30), datetime!(2024-04-14 1:30 UTC), datetime!(2024-04-14 2:30 UTC), 'g'),
];

const BERLIN: &str = "CET-1CEST,M3.5.0,M10.5.0/3";

#[cfg(feature = "std")]
fn zone(name: &str) -> Zone {
    Zone::named(name).expect("the machine has the zones of tzdata")
}

#[cfg(not(feature = "std"))]
fn zone(name: &str) -> Zone {
    let bytes = std::fs::read(format!("/usr/share/zoneinfo/{name}"))
        .expect("the machine has the zones of tzdata");
    Zone::from_tzif(&bytes).expect("each of them is read")
}

fn rule(text: &str) -> Zone {
    Zone::from_tz(text).expect(text)
}

fn seconds(offset: UtcOffset) -> i32 {
    offset.whole_seconds()
}

/// A header and a block of a file, of 8 or of 4 bytes for a second.
fn block(
    wide: bool,
    times: &[i64],
    places: &[u8],
    kinds: &[(i32, u8, u8)],
    names: &[u8],
) -> Vec<u8> {
    let mut bytes = b"TZif3".to_vec();
    bytes.extend([0; 15]);
    for count in [0, 0, 0, times.len(), kinds.len(), names.len()] {
        bytes.extend(u32::try_from(count).unwrap().to_be_bytes());
    }
    for &time in times {
        let time = time.to_be_bytes();
        bytes.extend(if wide { &time[..] } else { &time[4..] });
    }
    bytes.extend(places);
    for (offset, daylight, name) in kinds {
        bytes.extend(offset.to_be_bytes());
        bytes.extend([daylight, name]);
    }
    bytes.extend(names);
    bytes
}

/// A file of version 3, whose first block has no transitions.
fn file(
    times: &[i64],
    places: &[u8],
    kinds: &[(i32, u8, u8)],
    names: &[u8],
    rule: &str,
) -> Vec<u8> {
    let mut bytes = block(false, &[], &[], &[(0, 0, 0)], b"UTC\0");
    bytes.extend(block(true, times, places, kinds, names));
    bytes.extend(format!("\n{rule}\n").bytes());
    bytes
}

/// Berlin from 2000 on.
fn berlin_file() -> Vec<u8> {
    file(
        &[954_032_400, 972_781_200],
        &[1, 0],
        &[(3_600, 0, 0), (7_200, 1, 4)],
        b"CET\0CEST\0",
        BERLIN,
    )
}

#[test]
fn instants_are_shown_as_zoneinfo_shows_them() {
    for (name, at, offset, abbreviation) in SHOWN {
        let zone = zone(name);
        assert_eq!(
            (seconds(zone.offset_at(at)), zone.abbreviation_at(at)),
            (offset, abbreviation),
            "{name} {at}"
        );
        assert_eq!(zone.name(), cfg!(feature = "std").then_some(name));
        if let Some(shown) = at.checked_to_zone(&zone) {
            assert_eq!((shown, seconds(shown.offset())), (at, offset), "{name} {at}");
            assert_eq!(at.to_utc().to_zone(&zone), shown);
            assert_eq!(at.to_timestamp().to_zone(&zone), shown);
        }
    }
}

#[test]
fn offsets_of_many_instants_are_those_of_each() {
    for zone in [zone("Europe/Berlin"), zone("Africa/Casablanca"), rule(BERLIN)] {
        let in_order = (-900..900).map(|step| step * 4_000_003);
        let in_no_order = (-900..900).map(|step| step * step * step * 57 % 3_600_000_007);
        let seconds = in_order.chain(in_no_order);
        let instants: Vec<_> =
            seconds.map(|second| Timestamp::from_seconds(second).unwrap()).collect();
        let offsets: Vec<_> = instants.iter().map(|&at| zone.offset_at(at)).collect();
        assert_eq!(zone.offsets_at(&instants), offsets);
    }
}

#[test]
fn wall_clocks_have_the_instants_of_zoneinfo() {
    for (name, wall, early, late, kind) in LOCAL {
        let zone = zone(name);
        let times = wall.at_zone(&zone);
        assert_eq!(
            (times.earlier().unwrap(), times.later().unwrap()),
            (early, late),
            "{name} {wall}"
        );
        let compatible = if kind == 'g' { late } else { early };
        assert_eq!(times.compatible().unwrap(), compatible, "{name} {wall}");
        match (kind, times.reject()) {
            ('s', Ok(at)) => assert_eq!(at.to_offset(offset!(UTC)), early),
            ('f', Err(LocalRefusal::Fold)) => {}
            ('g', Err(LocalRefusal::Gap(gap))) => {
                assert!(gap.start().unwrap() <= wall && wall < gap.end().unwrap(), "{name} {wall}");
            }
            (_, found) => panic!("{name} {wall}: {found:?}"),
        }
    }
}

#[test]
fn a_day_that_clocks_skip_is_a_gap() {
    let LocalTimes::Gap(gap, _, _) = datetime!(2011-12-30 0:00).at_zone(&zone("Pacific/Apia"))
    else {
        panic!("Samoa skipped the day")
    };
    let skipped = Gap { second: 1_325_239_200, before: offset!(-10), after: offset!(+14) };
    assert_eq!(gap, skipped);
    assert_eq!(gap.start(), Some(datetime!(2011-12-30 0:00)));
    assert_eq!(gap.end(), Some(datetime!(2011-12-31 0:00)));
}

#[test]
fn clocks_change_at_transitions_alone() {
    let berlin = zone("Europe/Berlin");
    let at = |at: OffsetDateTime| at.to_timestamp();
    let spring = berlin.next_transition(datetime!(2024-03-31 0:59:59.999_999_999 UTC)).unwrap();
    assert_eq!(spring.at, at(datetime!(2024-03-31 1:00 UTC)));
    assert_eq!((spring.before.abbreviation, spring.after.abbreviation), ("CET", "CEST"));
    assert_eq!((spring.before.offset, spring.after.offset), (offset!(+1), offset!(+2)));
    assert_eq!((spring.before.is_daylight, spring.after.is_daylight), (false, true));
    let autumn = berlin.next_transition(spring.at).unwrap();
    assert_eq!(autumn.at, at(datetime!(2024-10-27 1:00 UTC)));
    assert_eq!(berlin.previous_transition(autumn.at), Some(spring));
    assert_eq!(berlin.previous_transition(datetime!(1893-03-31 23:06:32 UTC)), None);
    let first = berlin.next_transition(datetime!(-999999-01-01 0:00 UTC)).unwrap();
    assert_eq!(first.at, at(datetime!(1893-03-31 23:06:32 UTC)));
    assert_eq!(first.before.abbreviation, "LMT");
    let after = datetime!(2024-10-27 1:00:00.000_000_001 UTC);
    assert_eq!(berlin.previous_transition(after).map(|it| it.at), Some(autumn.at));
    assert_eq!(zone("Etc/UTC").next_transition(datetime!(2019-02-17 2:00 UTC)), None);
    // The last transition of the range has none after it.
    let last = berlin.previous_transition(datetime!(+999999-12-31 23:59:59 UTC)).unwrap();
    assert_eq!(last.at, at(datetime!(+999999-10-31 1:00 UTC)));
    assert_eq!(berlin.next_transition(last.at), None);
}

#[test]
fn transitions_between_instants_are_those_of_zoneinfo() {
    let between = |name, after: OffsetDateTime, until: OffsetDateTime| {
        let zone = zone(name);
        let found = zone.transitions_between(after, until);
        found.map(|it| (it.at, seconds(it.after.offset))).collect::<Vec<_>>()
    };
    let at = |at: OffsetDateTime, offset| (at.to_timestamp(), offset);
    let year =
        |first: OffsetDateTime| between("Europe/Berlin", first, datetime!(2025-10-26 1:00 UTC));
    let spring = at(datetime!(2024-03-31 1:00 UTC), 7_200);
    let later = [
        at(datetime!(2024-10-27 1:00 UTC), 3_600),
        at(datetime!(2025-03-30 1:00 UTC), 7_200),
        at(datetime!(2025-10-26 1:00 UTC), 3_600),
    ];
    // The first instant does not count, and the last one does.
    assert_eq!(year(datetime!(2024-03-31 1:00 UTC)), later);
    let before = year(datetime!(2024-03-31 0:59:59.999_999_999 UTC));
    assert_eq!((before[0], &before[1..]), (spring, &later[..]));
    let end = datetime!(2025-10-26 0:59:59.999_999_999 UTC);
    let fewer = between("Europe/Berlin", datetime!(2024-03-31 1:00 UTC), end);
    assert_eq!(fewer, later[..2]);
    // From the table to the rule, and where clocks change no more.
    let rest =
        between("Europe/Berlin", datetime!(2037-07-01 0:00 UTC), datetime!(2038-07-01 0:00 UTC));
    let turned =
        [at(datetime!(2037-10-25 1:00 UTC), 3_600), at(datetime!(2038-03-28 1:00 UTC), 7_200)];
    assert_eq!(rest, turned);
    let (begin, end) = (datetime!(2018-03-01 0:00 UTC), datetime!(2030-01-01 0:00 UTC));
    let last =
        [at(datetime!(2018-11-04 3:00 UTC), -7_200), at(datetime!(2019-02-17 2:00 UTC), -10_800)];
    assert_eq!(between("America/Sao_Paulo", begin, end), last);
    assert_eq!(between("America/Sao_Paulo", end, begin), []);
}

#[test]
fn days_and_months_are_added_on_the_clocks_of_the_zone() {
    let berlin = zone("Europe/Berlin");
    let at = datetime!(2024-03-30 2:30 +1);
    let next = at.checked_add_days_in_zone(1, &berlin).unwrap();
    assert_eq!(next.compatible(), Ok(datetime!(2024-03-31 3:30 +2)));
    assert!(matches!(next.reject(), Err(LocalRefusal::Gap(_))));
    assert_eq!(
        at.checked_add_days_in_zone(2, &berlin).unwrap().reject(),
        Ok(datetime!(2024-04-01 2:30 +2))
    );
    assert_eq!(
        at.to_utc().checked_add_months_in_zone(-1, &berlin).unwrap().reject(),
        Ok(datetime!(2024-02-29 2:30 +1))
    );
    assert!(at.to_timestamp().checked_add_days_in_zone(i64::MAX, &berlin).is_none());
    assert_eq!(date!(2024 - 03 - 31).length_of_day_in_zone(&berlin), Duration::hours(23));
    assert_eq!(
        date!(2024 - 03 - 31).start_of_day_in_zone(&berlin),
        Some(datetime!(2024-03-31 0:00 +1))
    );
    let apia = zone("Pacific/Apia");
    assert_eq!(date!(2011 - 12 - 30).length_of_day_in_zone(&apia), Duration::ZERO);
    assert_eq!(
        date!(2011 - 12 - 30).start_of_day_in_zone(&apia),
        Some(datetime!(2011-12-31 0:00 +14))
    );
    assert_eq!(
        date!(-999999 - 01 - 01).start_of_day_in_zone(&Zone::of_offset(offset!(+1))),
        Some(datetime!(-999999-01-01 0:00 +1))
    );
}

#[test]
fn an_instant_before_1970_is_in_its_second() {
    let zone = Zone::from_tzif(&file(&[-1], &[1], &[(0, 0, 0), (3_600, 0, 4)], b"AAA\0BBB\0", ""))
        .unwrap();
    let before = datetime!(1969-12-31 23:59:58.999_999_999 UTC);
    assert_eq!(seconds(zone.offset_at(before)), 0);
    assert_eq!(seconds(zone.offset_at(datetime!(1969-12-31 23:59:59 UTC))), 3_600);
    assert_eq!(zone.next_transition(before).map(|it| it.at.as_seconds()), Some(-1));
    assert_eq!(before.to_zone(&zone).nanosecond(), 999_999_999);
}

#[test]
fn a_rule_holds_in_all_years() {
    let zones = [rule(BERLIN), Zone::from_tzif(&berlin_file()).unwrap()];
    for year in [2025, 9_999, 999_999] {
        let noon = |month| {
            let date = Date::from_calendar_date(year, month, 1).unwrap();
            PlainDateTime::new(date, Time::from_hms(12, 0, 0).unwrap()).assume_utc()
        };
        for zone in &zones {
            assert_eq!(zone.offset_at(noon(Month::July)), offset!(+2), "{year}");
            assert_eq!(zone.abbreviation_at(noon(Month::December)), "CET", "{year}");
        }
    }
    let first = datetime!(-999999-07-01 12:00 UTC);
    assert_eq!(zones[0].offset_at(first), offset!(+2));
    assert_eq!(zones[1].offset_at(first), offset!(+1));
}

#[test]
fn texts_of_rules_are_read() {
    let at = datetime!(2024-01-01 3:00 UTC);
    for (text, offset, abbreviation) in [
        ("UTC0", 0, "UTC"),
        ("<+0330>-3:30", 12_600, "+0330"),
        ("NZST-12NZDT,M9.5.0,M4.1.0/3", 46_800, "NZDT"),
        ("EST5EDT,0/0,J365/25", -14_400, "EDT"),
        ("AAA0BBB,J100,J365/30", 3_600, "BBB"),
        ("IST-1GMT0,M10.5.0,M3.5.0/1", 0, "GMT"),
    ] {
        let zone = rule(text);
        assert_eq!(
            (seconds(zone.offset_at(at)), zone.abbreviation_at(at)),
            (offset, abbreviation),
            "{text}"
        );
    }
}

#[test]
fn texts_that_are_no_rule_are_refused() {
    for (text, fault, byte) in [
        ("", RuleFault::Name, 0),
        ("CE-1", RuleFault::Name, 0),
        ("CET", RuleFault::Digit, 3),
        ("CET-25", RuleFault::Range, 4),
        ("CET-1CEST", RuleFault::Digit, 9),
        ("CET-1CEST,M13.5.0,M10.5.0", RuleFault::Range, 11),
        ("CET-1CEST,M3.5.0,M10.5.0/3\n", RuleFault::Byte, 26),
        ("CET-1\nCET-1", RuleFault::Name, 5),
    ] {
        assert_eq!(Zone::from_tz(text).unwrap_err(), ZoneRefusal::Rule { fault, byte }, "{text:?}");
    }
    assert_eq!(Zone::from_tz("AAA0BBB,J100/2,J100/2:30").unwrap_err(), ZoneRefusal::Overlap);
}

#[test]
fn files_at_fault_are_refused_by_name() {
    let refused = |bytes: &[u8]| Zone::from_tzif(bytes).unwrap_err();
    let kinds = [(3_600, 0, 0), (7_200, 1, 4)];
    let names = b"CET\0CEST\0";
    let second = berlin_file().windows(4).rposition(|it| it == b"TZif").unwrap();
    let part = |part, byte| ZoneRefusal::File { part, byte };
    assert_eq!(refused(b""), part(FilePart::Length, 0));
    assert_eq!(refused(&[b'T'; 44]), part(FilePart::Magic, 0));
    assert_eq!(refused(&file(&[5], &[2], &kinds, names, "")), part(FilePart::Index, second + 52));
    let mut far = kinds;
    far[1].0 = 93_600;
    assert_eq!(refused(&file(&[], &[], &far, names, "")), part(FilePart::Offset, second + 50));
    let line = berlin_file().len() - 1 - BERLIN.len();
    let spoilt = String::from_utf8(berlin_file()[line..].to_vec()).unwrap().replace("M10", "M0");
    let bytes = [&berlin_file()[..line], spoilt.as_bytes()].concat();
    assert_eq!(refused(&bytes), part(FilePart::Rule(RuleFault::Range), line + 18));
    assert_eq!(
        refused(&file(&[5, 5], &[1, 0], &kinds, names, "")),
        ZoneRefusal::Transition { index: 1 }
    );
    assert_eq!(
        refused(&file(&[i64::MAX], &[1], &kinds, names, "")),
        ZoneRefusal::Transition { index: 0 }
    );
    assert_eq!(refused(&file(&[5], &[1], &kinds, names, "CET-1")), ZoneRefusal::Overlap);
    assert_eq!(refused(&file(&[], &[], &kinds, b"CET\0CES\xff\0", "")), ZoneRefusal::Abbreviation);
}

#[test]
fn hostile_bytes_are_refused_or_read() {
    let whole = berlin_file();
    for end in 0..whole.len() {
        let refused = Zone::from_tzif(&whole[..end]).unwrap_err();
        let ZoneRefusal::File { byte, .. } = refused else { panic!("{end}: {refused:?}") };
        assert!(byte <= end);
    }
    let (mut number, mut read) = (9_u32, 0);
    for place in 0..whole.len() {
        for _ in 0..20 {
            number = number.wrapping_mul(1_664_525).wrapping_add(1_013_904_223);
            let mut bytes = whole.clone();
            bytes[place] = (number >> 24) as u8;
            let Ok(zone) = Zone::from_tzif(&bytes) else { continue };
            read += 1;
            for at in [
                datetime!(1969-12-31 0:00 UTC),
                datetime!(2000-07-01 0:00 UTC),
                datetime!(+999999-12-31 0:00 UTC),
            ] {
                let shown = zone.local_type_at(at);
                assert!(seconds(shown.offset).abs() < 93_600);
                let _ = (shown.abbreviation, at.checked_to_zone(&zone), zone.next_transition(at));
            }
        }
    }
    assert!(read > 100, "{read} files are read");
}

#[test]
fn ends_of_the_range_are_shown_or_none() {
    let (east, west) = (Zone::of_offset(offset!(+1)), Zone::of_offset(offset!(-1)));
    let (first, last) = (UtcDateTime::MIN, UtcDateTime::MAX);
    assert_eq!((first.checked_to_zone(&west), last.checked_to_zone(&east)), (None, None));
    assert_eq!(first.to_zone(&east).hour(), 1);
    assert_eq!(last.to_zone(&west).hour(), 22);
    assert_eq!(PlainDateTime::MIN.at_zone(&west).reject().map(|it| it.hour()), Ok(0));
}

#[test]
#[should_panic]
fn a_year_out_of_range_panics() {
    let _ = UtcDateTime::MAX.to_zone(&Zone::of_offset(offset!(+1)));
}

#[test]
fn a_zone_of_one_offset_keeps_it() {
    let zone = Zone::of_offset(offset!(-3:30));
    let at = datetime!(2024-02-29 12:00 UTC);
    assert_eq!((zone.offset_at(at), zone.abbreviation_at(at)), (offset!(-3:30), "-03:30:00"));
    assert!(!zone.is_daylight_at(at));
    assert_eq!(
        datetime!(2024-02-29 12:00).at_zone(&zone).reject(),
        Ok(datetime!(2024-02-29 12:00 -3:30))
    );
    assert_eq!((zone.name(), Zone::utc().name()), (None, Some("UTC")));
    assert_eq!(format!("{:?}", Zone::utc()), r#"Zone { name: Some("UTC"), .. }"#);
}

#[test]
fn threads_share_a_zone() {
    let zone = std::sync::Arc::new(rule(BERLIN));
    let other = std::sync::Arc::clone(&zone);
    let asked = std::thread::spawn(move || other.offset_at(datetime!(2024-07-01 0:00 UTC)));
    assert_eq!(asked.join().unwrap(), zone.offset_at(datetime!(2024-07-01 0:00 UTC)));
}
