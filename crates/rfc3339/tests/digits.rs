//! Texts of a number of digits: we wrote the expected ones by hand, from the nine digits.
use super::is;
use calendar_values::UtcOffset;
use offset_times::ToOffset;
use rfc3339::to_rfc3339_digits;
use std::test::Fail;
use utc_times::UtcDateTime;

#[test]
fn digits_of_all_numbers(rt: HostRuntime) -> Result<(), Fail> {
    let at = UtcDateTime::from_unix_timestamp_nanos(482_196_050_120_456_789)?;
    let offset = UtcOffset::from_whole_seconds(19_800)?;
    let Some(shown) = at.checked_to_offset(offset) else {
        return Err(Fail::from("not in the range"));
    };
    for (digits, expected) in [
        (0, "1985-04-13T04:50:50+05:30"),
        (1, "1985-04-13T04:50:50.1+05:30"),
        (2, "1985-04-13T04:50:50.12+05:30"),
        (3, "1985-04-13T04:50:50.120+05:30"),
        (4, "1985-04-13T04:50:50.1204+05:30"),
        (5, "1985-04-13T04:50:50.12045+05:30"),
        (6, "1985-04-13T04:50:50.120456+05:30"),
        (7, "1985-04-13T04:50:50.1204567+05:30"),
        (8, "1985-04-13T04:50:50.12045678+05:30"),
        (9, "1985-04-13T04:50:50.120456789+05:30"),
        (10, "1985-04-13T04:50:50.120456789+05:30"),
        (255, "1985-04-13T04:50:50.120456789+05:30"),
    ] {
        let Some(text) = to_rfc3339_digits(shown, digits) else {
            return Err(Fail::from("no text"));
        };
        is(&rt, text.as_str(), expected);
    }
    Ok(())
}

#[test]
fn digits_before_1970_and_without_a_text(rt: HostRuntime) -> Result<(), Fail> {
    let last = UtcDateTime::from_unix_timestamp_nanos(-1)?;
    for (digits, expected) in [(0, "1969-12-31T23:59:59Z"), (3, "1969-12-31T23:59:59.999Z")] {
        let Some(shown) = last.checked_to_offset(UtcOffset::UTC) else {
            return Err(Fail::from("not in the range"));
        };
        let Some(text) = to_rfc3339_digits(shown, digits) else {
            return Err(Fail::from("no text"));
        };
        is(&rt, text.as_str(), expected);
    }
    let odd = UtcOffset::from_whole_seconds(1)?;
    let Some(shown) = last.checked_to_offset(odd) else {
        return Err(Fail::from("not in the range"));
    };
    is(&rt, to_rfc3339_digits(shown, 3).is_none(), true);
    Ok(())
}
