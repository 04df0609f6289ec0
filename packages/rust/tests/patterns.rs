//! Patterns of `strftime` and forms of ISO 8601, by `time`'s names.

use core::num::NonZero;

use muxandu::error::{Format, InvalidFormatDescription};
use muxandu::format_description::well_known::Iso8601;
use muxandu::format_description::well_known::iso8601::{
    Config, DateKind, FormattedComponents, OffsetPrecision, TimePrecision,
};
use muxandu::format_description::{parse_strftime_borrowed, parse_strftime_owned};
use muxandu::macros::{date, datetime, offset, time};
use muxandu::parsing::Parsed;
use muxandu::{Date, OffsetDateTime, PlainDateTime, Time, UtcOffset};

const AT: OffsetDateTime = datetime!(2024-02-05 13:05:09.12 -5:30);

/// The text of `AT` by a pattern.
fn text(pattern: &str) -> String {
    let borrowed = AT.format(&parse_strftime_borrowed(pattern).unwrap()).unwrap();
    assert_eq!(AT.format(&parse_strftime_owned(pattern).unwrap()).unwrap(), borrowed);
    borrowed
}

// The texts are those that Python 3.11 writes with the C library, in the locale `C`.
#[test]
fn each_directive_is_written() {
    for (pattern, wanted) in [
        ("%a %A", "Mon Monday"),
        ("%b %B %h", "Feb February Feb"),
        ("%c", "Mon Feb  5 13:05:09 2024"),
        ("%C|%y|%Y|%g|%G", "20|24|2024|24|2024"),
        ("%d|%e|%j|%m", "05| 5|036|02"),
        ("%D %x %F", "02/05/24 02/05/24 2024-02-05"),
        ("%f", "120000"),
        ("%H|%I|%k|%l|%M|%S", "13|01|13| 1|05|09"),
        ("%n%t%%", "\n\t%"),
        ("%p %P", "PM pm"),
        ("%r", "01:05:09 PM"),
        ("%R %T %X", "13:05 13:05:09 13:05:09"),
        ("%s", "1707158109"),
        ("%u %w", "1 1"),
        ("%U %V %W", "05 06 06"),
        ("%z", "-0530"),
        ("%-d|%_d|%0e|%-e", "5| 5|05|5"),
        ("%-H|%_H|%-I|%0k", "13|13|1|13"),
        ("%-j|%_j|%-m|%_m|%-M|%_S", "36| 36|2| 2|5| 9"),
        ("%-y|%_U", "24| 5"),
        ("", ""),
        ("é [%Y] %%d", "é [2024] %d"),
    ] {
        assert_eq!(text(pattern), wanted, "{pattern}");
    }
}

#[test]
fn texts_are_read_by_patterns() {
    let pattern = parse_strftime_owned("%d/%b/%Y:%H:%M:%S %z").unwrap();
    let at = OffsetDateTime::parse("05/Feb/2024:13:05:09 -0530", &pattern);
    assert_eq!(at, Ok(AT.replace_nanosecond(0).unwrap()));
    let pattern = parse_strftime_borrowed("%-I.%M%P").unwrap();
    assert_eq!(Time::parse("1.05pm", &pattern), Ok(time!(13:05)));
}

#[test]
fn directives_that_no_description_says() {
    use InvalidFormatDescription::{InvalidComponentName, MissingComponentName, NotSupported};

    let fault = |pattern: &'static str| parse_strftime_borrowed(pattern).unwrap_err();
    assert_eq!(fault("%Y-%"), MissingComponentName { index: 3 });
    assert_eq!(fault("%Y-%-"), MissingComponentName { index: 3 });
    assert_eq!(fault("a%Q"), InvalidComponentName { name: "Q".into(), index: 2 });
    assert_eq!(fault("%-é"), InvalidComponentName { name: "é".into(), index: 2 });
    for pattern in ["%EY", "%Od", "%Z", "%+"] {
        assert!(matches!(fault(pattern), NotSupported { index: 1, .. }), "{pattern}");
        assert_eq!(parse_strftime_owned(pattern), Err(fault(pattern)));
    }
}

const fn encoded(config: Config) -> u128 {
    config.encode()
}

const PLAIN: Config = Config::DEFAULT.set_use_separators(false);
const HOURS: TimePrecision = TimePrecision::Hour { decimal_digits: NonZero::new(3) };
const MINUTES: TimePrecision = TimePrecision::Minute { decimal_digits: NonZero::new(1) };
const SECONDS: TimePrecision = TimePrecision::Second { decimal_digits: None };

// The forms are those of ISO 8601. 13:05:09.12 is 13.085866.. hours and 785.152 minutes.
#[test]
fn iso_8601_is_written() {
    assert_eq!(AT.format(&Iso8601::DEFAULT).unwrap(), "2024-02-05T13:05:09.120000000-05:30");
    assert_eq!(AT.to_utc().format(&Iso8601::DEFAULT).unwrap(), "2024-02-05T18:35:09.120000000Z");
    assert_eq!(AT.format(&Iso8601::DATE).unwrap(), "2024-02-05");
    assert_eq!(AT.format(&Iso8601::TIME).unwrap(), "T13:05:09.120000000");
    assert_eq!(AT.format(&Iso8601::OFFSET).unwrap(), "-05:30");
    assert_eq!(AT.format(&Iso8601::DATE_TIME).unwrap(), "2024-02-05T13:05:09.120000000");
    assert_eq!(AT.format(&Iso8601::TIME_OFFSET).unwrap(), "T13:05:09.120000000-05:30");
    assert_eq!(
        AT.format(&Iso8601::DATE_TIME_OFFSET).unwrap(),
        AT.format(&Iso8601::DEFAULT).unwrap()
    );
    const WEEK: u128 = encoded(PLAIN.set_date_kind(DateKind::Week).set_time_precision(HOURS));
    assert_eq!(AT.format(&Iso8601::<WEEK>).unwrap(), "2024W061T13.085-0530");
    const ORDINAL: u128 = encoded(
        Config::DEFAULT
            .set_date_kind(DateKind::Ordinal)
            .set_time_precision(MINUTES)
            .set_year_is_six_digits(true),
    );
    assert_eq!(AT.format(&Iso8601::<ORDINAL>).unwrap(), "+002024-036T13:05.1-05:30");
    const CLOCK: u128 = encoded(
        PLAIN
            .set_formatted_components(FormattedComponents::TimeOffset)
            .set_time_precision(SECONDS)
            .set_offset_precision(OffsetPrecision::Hour),
    );
    assert_eq!(AT.replace_offset(offset!(+2)).format(&Iso8601::<CLOCK>).unwrap(), "130509+02");
    assert_eq!(date!(2024 - 02 - 05).format(&Iso8601::DATE).unwrap(), "2024-02-05");
    assert_eq!(time!(1:02).format(&Iso8601::TIME).unwrap(), "T01:02:00.000000000");
    assert_eq!(offset!(+1).format(&Iso8601::OFFSET).unwrap(), "+01:00");
}

#[test]
fn values_without_a_text_of_iso_8601() {
    const HOUR: u128 = encoded(Config::DEFAULT.set_offset_precision(OffsetPrecision::Hour));
    let part = |error: Format| match error {
        Format::InvalidComponent(part) => part,
        error => panic!("{error}"),
    };
    let refused = |at: OffsetDateTime| part(at.format(&Iso8601::DEFAULT).unwrap_err());
    assert_eq!(refused(datetime!(+10000-01-01 0:00 UTC)), "year");
    assert_eq!(refused(datetime!(-1-01-01 0:00 +0:00:01)), "year");
    assert_eq!(refused(datetime!(2024-01-01 0:00 +0:00:01)), "offset_second");
    assert_eq!(part(AT.format(&Iso8601::<HOUR>).unwrap_err()), "offset_minute");
    let lacking = Err(Format::InsufficientTypeInformation);
    assert_eq!(date!(2024 - 02 - 05).format(&Iso8601::TIME), lacking);
    assert_eq!(time!(1:02).format(&Iso8601::DATE), lacking);
    assert_eq!(datetime!(2024-02-05 1:02).format(&Iso8601::DEFAULT), lacking);
}

#[test]
#[should_panic(expected = "must have parts to write")]
fn a_format_that_reads_alone_writes_nothing() {
    let _ = AT.format(&Iso8601::PARSING);
}

#[test]
#[should_panic(expected = "at most nine digits")]
fn a_fraction_has_at_most_nine_digits() {
    let _ = Config::DEFAULT
        .set_time_precision(TimePrecision::Hour { decimal_digits: NonZero::new(10) })
        .encode();
}

#[test]
fn each_number_of_digits_is_written() {
    fn digits<const CONFIG: u128>() -> String {
        time!(1:02:03.123_456_789).format(&Iso8601::<CONFIG>).unwrap()
    }
    const fn config(digits: u8) -> u128 {
        let seconds = TimePrecision::Second { decimal_digits: NonZero::new(digits) };
        Config::DEFAULT
            .set_formatted_components(FormattedComponents::Time)
            .set_time_precision(seconds)
            .encode()
    }
    let texts = [
        digits::<{ config(1) }>(),
        digits::<{ config(2) }>(),
        digits::<{ config(3) }>(),
        digits::<{ config(4) }>(),
        digits::<{ config(5) }>(),
        digits::<{ config(6) }>(),
        digits::<{ config(7) }>(),
        digits::<{ config(8) }>(),
        digits::<{ config(9) }>(),
    ];
    for (place, text) in texts.iter().enumerate() {
        assert_eq!(*text, format!("T01:02:03.{}", &"123456789"[..=place]));
    }
    assert_eq!(digits::<{ config(0) }>(), "T01:02:03");
}

#[test]
fn iso_8601_is_read() {
    let at = datetime!(2024-02-29 12:30 +1);
    for text in [
        "2024-02-29T12:30:00+01:00",
        "20240229T1230+01",
        "2024-W09-4T12.5+01:00",
        "2024060T12:30:00,0+0100",
        "+002024-02-29T12:30+01:00",
    ] {
        assert_eq!(OffsetDateTime::parse(text, &Iso8601::DEFAULT), Ok(at), "{text}");
        assert_eq!(OffsetDateTime::parse(text, &Iso8601::PARSING), Ok(at), "{text}");
    }
    assert_eq!(
        PlainDateTime::parse("2024-02-29T12:30", &Iso8601::DATE_TIME),
        Ok(datetime!(2024-02-29 12:30))
    );
    assert_eq!(Date::parse("2024W094", &Iso8601::DATE), Ok(date!(2024 - 02 - 29)));
    assert_eq!(Time::parse("T123045", &Iso8601::TIME), Ok(time!(12:30:45)));
    assert_eq!(Time::parse("12:30:45,5", &Iso8601::TIME), Ok(time!(12:30:45.5)));
    assert_eq!(UtcOffset::parse("12:30-05", &Iso8601::PARSING), Ok(offset!(-5)));
    assert_eq!(
        OffsetDateTime::parse_with_defaults(
            b"2024-02-29T12:30",
            &Iso8601::DEFAULT,
            Parsed::new().with_offset_hour(1).unwrap()
        ),
        Ok(at)
    );
    for text in ["", "T", "2024-02-29T12:30+01:00 ", "2024-13-01", "24:00", "2024-W54-1T12:30+01"] {
        assert!(OffsetDateTime::parse(text, &Iso8601::DEFAULT).is_err(), "{text}");
    }
}
