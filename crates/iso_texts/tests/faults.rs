//! The byte of a fault: counted by hand in each text.
use super::is;
use iso_texts::{iso_fault, iso_parts};
use std::test::Fail;

#[test]
fn places_of_faults(rt: HostRuntime) -> Result<(), Fail> {
    for (text, place) in [
        ("", 0),
        ("x", 0),
        ("-", 1),
        ("- 4712", 1),
        ("-0x", 2),
        ("-004712", 7),
        ("-4712-01-01", 5),
        ("10000-01-01T00:00:00Z", 4),
        ("+010000-01-01T00:00:00Z", 23),
        ("2024-02-29T12:34:56Z:00", 20),
        ("2024-02-29T12:34:56+01:19:", 26),
        ("2024-02-29T12:34:56+01:19:60", 26),
        ("2024-02-29T12:34:56+01:19:3", 27),
        ("2024-02-29T12:34:56+01:19:32", 28),
        ("2024-02-29T12:34:56+01:19:32Z", 28),
    ] {
        is(&rt, iso_fault(text.as_bytes()), place);
    }
    Ok(())
}

#[test]
fn numbers_out_of_range_are_told(rt: HostRuntime) -> Result<(), Fail> {
    let parts = iso_parts(b"-000001-13-32T24:60:60.5-26:60:59");
    is(
        &rt,
        parts.map(|parts| (parts.is_before, parts.year)),
        Some((true, 1)),
    );
    is(
        &rt,
        parts.map(|parts| (parts.month, parts.day)),
        Some((13, 32)),
    );
    is(&rt, parts.map(|parts| parts.nanosecond), Some(500_000_000));
    is(
        &rt,
        parts.map(|parts| (parts.offset_hour, parts.offset_second)),
        Some((26, 59)),
    );
    is(&rt, iso_parts(b"-1-13-32T24:60:60Z").is_none(), true);
    Ok(())
}
