//! Words of users: descriptions and places, what a form lacks, names of parts.
use super::read;
use calendar_values::UtcOffset;
use format_descriptions::{DescriptionFault, Field};
use log_forms::{
    Assumed, FORMS, FormName, Place, assumed_after, described_form, field_name, lacks_offset,
    lacks_year, named_form, place_of,
};
use std::process::Abort;
use utc_times::UtcDateTime;

#[test]
fn descriptions(rt: HostRuntime) {
    let assumed = Assumed {
        offset: Some(UtcOffset::UTC),
        year: None,
        month: 0,
    };
    match described_form(b"[day].[month].[year] [hour]:[minute]") {
        Ok(form) => {
            let found = read(&form, Place::Front, b"", &assumed, b"29.02.2024 12:00 a");
            assert_eq!(rt; found, Ok((1_709_208_000_000_000_000, 0, 16)));
            assert_eq!(rt; lacks_offset(&form), true);
            assert_eq!(rt; lacks_year(&form), false);
        }
        Err(_) => assert!(rt; false, "a description is refused"),
    }
    assert_eq!(rt;
        described_form(b"[days]").err().map(|refusal| refusal.fault),
        Some(DescriptionFault::UnknownComponent)
    );
    assert_eq!(rt;
        described_form(&[b'x'; 65])
            .err()
            .map(|refusal| refusal.fault),
        Some(DescriptionFault::NoRoom)
    );
}

// Ends the test unless a form lacks these parts.
fn lacks(rt: &impl Abort, name: FormName, offset: bool, year: bool) {
    let form = named_form(name);
    assert_eq!(rt; lacks_offset(&form), offset);
    assert_eq!(rt; lacks_year(&form), year);
}

#[test]
fn lacking_parts(rt: HostRuntime) {
    lacks(&rt, FormName::Rfc3339, false, false);
    lacks(&rt, FormName::Date, false, false);
    lacks(&rt, FormName::Unix, false, false);
    lacks(&rt, FormName::Local, true, false);
    lacks(&rt, FormName::Spark, true, false);
    lacks(&rt, FormName::Syslog, true, true);
    assert_eq!(rt; FORMS.len(), 45);
}

#[test]
fn places_of_words(rt: HostRuntime) {
    assert_eq!(rt; place_of(b"front"), Some((Place::Front, 5)));
    assert_eq!(rt; place_of(b"field:12"), Some((Place::Field(12), 8)));
    assert_eq!(rt; place_of(b"after:["), Some((Place::After, 6)));
    assert_eq!(rt; place_of(b"json:time"), Some((Place::Json, 5)));
    assert_eq!(rt; place_of(b"access"), Some((Place::Access, 6)));
    assert_eq!(rt; place_of(b"coloured"), Some((Place::Coloured, 8)));
    assert_eq!(rt; place_of(b"field:0"), None);
    assert_eq!(rt; place_of(b"field:1000"), None);
    assert_eq!(rt; place_of(b"field:x"), None);
    assert_eq!(rt; place_of(b"after:"), None);
    assert_eq!(rt; place_of(b"json:"), None);
    assert_eq!(rt; place_of(b"back"), None);
}

#[test]
fn names_of_parts(rt: HostRuntime) {
    assert_eq!(rt; field_name(Field::OffsetHour) == "offset hour", true);
    assert_eq!(rt; field_name(Field::Weekday) == "day of the week", true);
}

#[test]
fn year_of_the_stamp_before(rt: HostRuntime) {
    let assumed = Assumed {
        offset: UtcOffset::from_whole_seconds(3_600).ok(),
        year: Some(2_023),
        month: 0,
    };
    let last = UtcDateTime::from_unix_timestamp(1_704_065_400).ok();
    let next = assumed_after(&assumed, last);
    assert_eq!(rt; (next.year, next.month), (Some(2_024), 1));
    let first = assumed_after(&assumed, None);
    assert_eq!(rt; (first.year, first.month), (Some(2_023), 0));
}
