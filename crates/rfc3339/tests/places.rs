//! Every byte at every place of a text, as `make/rfc3339_rows` says.
use super::is;
use rfc3339::{Component, TextRefusal, parse_rfc3339};
use std::test::Fail;

// What comes of a text with this byte at this place: None where it is read. A byte that no row of its place has is
// refused for the form of the text.
fn refusal_at(
    rows: &[(usize, &str, Option<Component>)],
    place: usize,
    byte: u8,
) -> Option<TextRefusal> {
    for (at, bytes, component) in rows {
        if *at == place && bytes.as_bytes().contains(&byte) {
            return match component {
                Some(component) => Some(TextRefusal::OutOfRange(*component)),
                None => None,
            };
        }
    }
    Some(TextRefusal::Syntax)
}

// The sum of the Unix seconds of all texts that are read of those with another byte at one place, or the first place and
// byte at which a row says otherwise.
fn sum_of_read(
    text: &mut [u8],
    rows: &[(usize, &str, Option<Component>)],
) -> Result<i64, (usize, u8)> {
    let mut sum = 0_i64;
    for place in 0..text.len() {
        let kept = text[place];
        for byte in 0..=u8::MAX {
            text[place] = byte;
            let refusal = match parse_rfc3339(text) {
                Ok(at) => {
                    sum = sum.wrapping_add(at.unix_timestamp());
                    None
                }
                Err(refusal) => Some(refusal),
            };
            if refusal != refusal_at(rows, place, byte) {
                return Err((place, byte));
            }
        }
        text[place] = kept;
    }
    Ok(sum)
}

#[test]
fn a_text_with_a_fraction_and_an_offset(rt: HostRuntime) -> Result<(), Fail> {
    let rows = [
        (0, "0123456789", None),
        (1, "0123456789", None),
        (2, "02468", None),
        (2, "13579", Some(Component::Day)),
        (3, "048", None),
        (3, "1235679", Some(Component::Day)),
        (4, "-", None),
        (5, "01", None),
        (5, "23456789", Some(Component::Month)),
        (6, "0", Some(Component::Month)),
        (6, "123456789", None),
        (7, "-", None),
        (8, "012", None),
        (8, "3456789", Some(Component::Day)),
        (9, "0123456789", None),
        (10, " Tt", None),
        (11, "012", None),
        (11, "3456789", Some(Component::Hour)),
        (12, "0123", None),
        (12, "456789", Some(Component::Hour)),
        (13, ":", None),
        (14, "012345", None),
        (14, "6789", Some(Component::Minute)),
        (15, "0123456789", None),
        (16, ":", None),
        (17, "012345", None),
        (17, "6789", Some(Component::Second)),
        (18, "0123456789", None),
        (19, ".", None),
        (20, "0123456789", None),
        (21, "+-", None),
        (22, "012", None),
        (22, "3456789", Some(Component::OffsetHour)),
        (23, "0123", None),
        (23, "456789", Some(Component::OffsetHour)),
        (24, ":", None),
        (25, "012345", None),
        (25, "6789", Some(Component::OffsetMinute)),
        (26, "0123456789", None),
    ];
    let mut text = *b"2024-02-29T23:59:50.5+23:59";
    is(&rt, sum_of_read(&mut text, &rows), Ok(1_164_912_976_125));
    Ok(())
}

#[test]
fn a_text_in_utc(rt: HostRuntime) -> Result<(), Fail> {
    let rows = [
        (0, "0123456789", None),
        (1, "0123456789", None),
        (2, "0123456789", None),
        (3, "0123456789", None),
        (4, "-", None),
        (5, "023456789", Some(Component::Month)),
        (5, "1", None),
        (6, "012", None),
        (6, "3456789", Some(Component::Month)),
        (7, "-", None),
        (8, "0123", None),
        (8, "456789", Some(Component::Day)),
        (9, "0", Some(Component::Day)),
        (9, "123456789", None),
        (10, " Tt", None),
        (11, "012", None),
        (11, "3456789", Some(Component::Hour)),
        (12, "0123456789", None),
        (13, ":", None),
        (14, "012345", None),
        (14, "6789", Some(Component::Minute)),
        (15, "0123456789", None),
        (16, ":", None),
        (17, "012345", None),
        (17, "6789", Some(Component::Second)),
        (18, "0123456789", None),
        (19, "Zz", None),
    ];
    let mut text = *b"0000-10-01 00:30:00z";
    is(&rt, sum_of_read(&mut text, &rows), Ok(-5_320_227_705_105));
    Ok(())
}
