//! Offsets from UTC.
use super::is;
use calendar_values::UtcOffset;
use std::test::Fail;

// Hours, minutes and seconds as given; as they are kept; in seconds; in text.
const OFFSETS: [(i8, i8, i8, (i8, i8, i8), i32, &str); 10] = [
    (0, 0, 0, (0, 0, 0), 0, "+00:00:00"),
    (0, 0, 1, (0, 0, 1), 1, "+00:00:01"),
    (1, -2, -3, (1, 2, 3), 3_723, "+01:02:03"),
    (-1, 2, 3, (-1, -2, -3), -3_723, "-01:02:03"),
    (-1, 0, 3, (-1, 0, -3), -3_603, "-01:00:03"),
    (0, -30, 15, (0, -30, -15), -1_815, "-00:30:15"),
    (0, 30, -15, (0, 30, 15), 1_815, "+00:30:15"),
    (0, 0, -15, (0, 0, -15), -15, "-00:00:15"),
    (25, -59, 59, (25, 59, 59), 93_599, "+25:59:59"),
    (-25, 59, -59, (-25, -59, -59), -93_599, "-25:59:59"),
];

#[test]
fn parts_have_one_sign(rt: HostRuntime) -> Result<(), Fail> {
    for (hours, minutes, seconds, parts, whole_seconds, _) in OFFSETS {
        let offset = UtcOffset::from_hms(hours, minutes, seconds)?;
        is(&rt, offset.as_hms(), parts);
        is(&rt, offset.whole_seconds(), whole_seconds);
        is(
            &rt,
            UtcOffset::from_whole_seconds(whole_seconds),
            Ok(offset),
        );
        is(&rt, offset == UtcOffset::UTC, whole_seconds == 0);
    }
    Ok(())
}

#[test]
fn signs_and_texts_follow_the_seconds(rt: HostRuntime) -> Result<(), Fail> {
    for (_, _, _, parts, whole_seconds, text) in OFFSETS {
        let offset = UtcOffset::from_whole_seconds(whole_seconds)?;
        let (hours, minutes) = (offset.whole_hours(), offset.minutes_past_hour());
        is(&rt, (hours, minutes, offset.seconds_past_minute()), parts);
        let signs = (offset.is_utc(), offset.is_negative());
        is(&rt, signs, (whole_seconds == 0, whole_seconds < 0));
        is(&rt, offset.text().as_str(), text);
    }
    Ok(())
}

#[test]
fn offsets_of_26_hours_are_refused(rt: HostRuntime) {
    for (refused, name) in [
        (UtcOffset::from_hms(26, 60, 60), "hours"),
        (UtcOffset::from_hms(-26, 0, 0), "hours"),
        (UtcOffset::from_hms(25, 60, 0), "minutes"),
        (UtcOffset::from_hms(0, -60, 0), "minutes"),
        (UtcOffset::from_hms(25, 59, 60), "seconds"),
        (UtcOffset::from_hms(0, 0, -60), "seconds"),
        (UtcOffset::from_whole_seconds(93_600), "offset_seconds"),
        (UtcOffset::from_whole_seconds(-93_600), "offset_seconds"),
    ] {
        let refusal = refused.expect_err(&rt, "an offset");
        is(&rt, refusal.name(), name);
        is(&rt, refusal.is_conditional(), false);
    }
}

#[test]
fn formats_pad_the_text(rt: HostRuntime) -> Result<(), Fail> {
    let offset = UtcOffset::from_hms(-1, -2, -3)?;
    is(
        &rt,
        format!(in rt.alloc();
            "{offset} {offset:?}|{offset:12}|{offset:>12}{offset:*^14}"
        )?.as_str(),
        "-01:02:03 -01:02:03|-01:02:03   |   -01:02:03**-01:02:03***",
    );
    Ok(())
}
