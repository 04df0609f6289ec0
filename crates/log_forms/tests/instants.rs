//! Parts that are missing or out of their range, and the year of a stamp without one.
use super::{is_read, is_wrong, read};
use calendar_values::UtcOffset;
use format_descriptions::{Component, Field, Item, Padding, ValueRefusal};
use log_forms::{Assumed, FormName, Place, StampRefusal, named_form, own_form};
use std::process::Abort;

#[test]
fn ranges(rt: HostRuntime) {
    is_wrong(&rt, FormName::Local, b"2024-13-29 12:00:00", Field::Month);
    is_wrong(&rt, FormName::Local, b"2023-02-29 12:00:00", Field::Day);
    is_wrong(&rt, FormName::Local, b"2024-02-29 24:00:00", Field::Hour);
    is_wrong(&rt, FormName::Local, b"2024-02-29 12:60:00", Field::Minute);
    is_wrong(&rt, FormName::Local, b"2016-12-31 23:59:60", Field::Second);
    is_wrong(
        &rt,
        FormName::Git,
        b"2024-02-29 12:00:00 +2400",
        Field::OffsetHour,
    );
    is_wrong(
        &rt,
        FormName::Git,
        b"2024-02-29 12:00:00 +2360",
        Field::OffsetMinute,
    );
}

#[test]
fn years_of_two_digits(rt: HostRuntime) {
    is_read(&rt, FormName::Spark, b"70/01/01 01:00:00", 0, 17, 0);
    is_read(
        &rt,
        FormName::Spark,
        b"69/12/31 01:00:00",
        0,
        17,
        3_155_673_600_000_000_000,
    );
    is_read(
        &rt,
        FormName::Mysql56,
        b"240229  9:00:00 [Note]",
        0,
        15,
        1_709_193_600_000_000_000,
    );
}

// Ends the test unless a stamp after one of this month of the year 2024 has these nanoseconds.
fn is_after(rt: &impl Abort, month: u32, line: &[u8], nanoseconds: i128) {
    is_after_year(rt, 2_024, month, line, nanoseconds);
}

// The same after one of this month of a year.
fn is_after_year(rt: &impl Abort, year: i32, month: u32, line: &[u8], nanoseconds: i128) {
    let assumed = Assumed {
        offset: Some(UtcOffset::UTC),
        year: Some(year),
        month,
    };
    let found = read(
        &named_form(FormName::Syslog),
        Place::Front,
        b"",
        &assumed,
        line,
    );
    assert_eq!(rt; found, Ok((nanoseconds, 0, 15)));
}

#[test]
fn december_and_january(rt: HostRuntime) {
    is_after(&rt, 0, b"Jan  1 00:00:00", 1_704_067_200_000_000_000);
    is_after(&rt, 12, b"Jan  1 00:00:00", 1_735_689_600_000_000_000);
    is_after(&rt, 1, b"Dec 31 00:00:00", 1_703_980_800_000_000_000);
    is_after(&rt, 11, b"Jan  1 00:00:00", 1_735_689_600_000_000_000);
}

#[test]
fn nearest_year(rt: HostRuntime) {
    is_after(&rt, 11, b"Feb  3 10:00:00", 1_738_576_800_000_000_000);
    is_after(&rt, 1, b"Nov 30 10:00:00", 1_701_338_400_000_000_000);
    is_after(&rt, 12, b"May  1 00:00:00", 1_746_057_600_000_000_000);
    is_after(&rt, 5, b"Dec  1 00:00:00", 1_701_388_800_000_000_000);
}

#[test]
fn six_months_apart(rt: HostRuntime) {
    is_after(&rt, 1, b"Jul  1 00:00:00", 1_719_792_000_000_000_000);
    is_after(&rt, 7, b"Jan  1 00:00:00", 1_704_067_200_000_000_000);
    is_after(&rt, 6, b"Dec  1 00:00:00", 1_733_011_200_000_000_000);
    is_after(&rt, 12, b"Jun  1 00:00:00", 1_717_200_000_000_000_000);
}

#[test]
fn ends_of_years(rt: HostRuntime) {
    let last = 31_494_753_244_800_000_000_000;
    is_after_year(&rt, 999_999, 12, b"Jan  1 00:00:00", last);
    is_after_year(&rt, 999_998, 12, b"Jan  1 00:00:00", last);
    let first = -31_619_056_147_200_000_000_000;
    is_after_year(&rt, -999_999, 1, b"Dec 31 00:00:00", first);
    is_after_year(&rt, -999_998, 1, b"Dec 31 00:00:00", first);
}

#[test]
fn missing_parts(rt: HostRuntime) {
    let none = Assumed {
        offset: None,
        year: None,
        month: 0,
    };
    let local = read(
        &named_form(FormName::Local),
        Place::Front,
        b"",
        &none,
        b"2024-02-29 12:00:00",
    );
    assert_eq!(rt;
        local,
        Err(StampRefusal::Part(ValueRefusal::Missing(Field::OffsetHour)))
    );
    let syslog = read(
        &named_form(FormName::Syslog),
        Place::Front,
        b"",
        &none,
        b"Feb 29 12:00:00",
    );
    assert_eq!(rt;
        syslog,
        Err(StampRefusal::Part(ValueRefusal::Missing(Field::Year)))
    );
    let day = [Item::Part(Component::Day(Padding::Zero))];
    let own = read(&own_form(&day), Place::Front, b"", &none, b"29");
    assert_eq!(rt;
        own,
        Err(StampRefusal::Part(ValueRefusal::Missing(Field::Year)))
    );
}
