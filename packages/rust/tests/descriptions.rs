//! Format descriptions by `time`'s names.

use core::num::{NonZeroU8, NonZeroU16};

use muxandu::error::{
    Format, InvalidFormatDescription, Parse, ParseFromDescription, TryFromParsed,
};
use muxandu::format_description::parse_owned;
use muxandu::format_description::well_known::{Rfc2822, Rfc3339};
use muxandu::format_description::{
    BorrowedFormatItem, Component, OwnedFormatItem, StaticFormatDescription, modifier,
};
use muxandu::macros::{date, datetime, format_description, offset, time, utc_datetime};
use muxandu::parsing::{Parsable, Parsed};
use muxandu::{
    Date, Month, OffsetDateTime, PlainDateTime, Time, Timestamp, UtcDateTime, UtcOffset, Weekday,
};

// Texts from the documentation of `time`.
#[test]
fn values_are_written() {
    let day = date!(2020 - 01 - 02);
    assert_eq!(day.format(&format_description!("[year]-[month]-[day]")).unwrap(), "2020-01-02");
    assert_eq!(
        time!(12:00).format(&format_description!("[hour]:[minute]:[second]")).unwrap(),
        "12:00:00"
    );
    assert_eq!(
        offset!(+1)
            .format(&format_description!("[offset_hour sign:mandatory]:[offset_minute]"))
            .unwrap(),
        "+01:00"
    );
    let long = format_description!(
        "[year]-[month]-[day] [hour]:[minute]:[second] [offset_hour sign:mandatory]:[offset_minute]:[offset_second]"
    );
    assert_eq!(
        datetime!(2020-01-02 03:04:05 +06:07:08).format(&long).unwrap(),
        "2020-01-02 03:04:05 +06:07:08"
    );
    assert_eq!(
        utc_datetime!(2020-01-02 03:04:05).format(&long).unwrap(),
        "2020-01-02 03:04:05 +00:00:00"
    );
    let named = format_description!(
        "[weekday], [day padding:none] [month repr:long] [year] [hour repr:12 padding:space] [period case:lower]"
    );
    assert_eq!(
        datetime!(2024-02-09 15:04 UTC).format(named).unwrap(),
        "Friday, 9 February 2024  3 pm"
    );
    assert_eq!(day.format(&format_description!("[[[year]]")).unwrap(), "[2020]");
    assert_eq!(day.format(&format_description!(version = 2, r"\[[year]\]\\")).unwrap(), r"[2020]\");
    assert_eq!(
        datetime!(1970-01-01 0:01 UTC).format(&format_description!("[unix_timestamp]")).unwrap(),
        "60"
    );
}

#[test]
#[cfg(feature = "std")]
fn values_are_written_into_a_writer() {
    let mut bytes = Vec::new();
    let form = format_description!("[ordinal] é");
    let count = date!(2020 - 01 - 02).format_into(&mut bytes, &form);
    assert_eq!(count.unwrap(), 6);
    assert_eq!(bytes, "002 é".as_bytes());
}

/// The source of the error is the writer's own error, of which the kind counts where two are compared.
#[test]
#[cfg(feature = "std")]
fn failures_of_writers() {
    use std::error::Error as _;
    use std::io::{Error, ErrorKind};

    let form = format_description!("[year]-[month]-[day]");
    let written = date!(2020 - 01 - 02).format_into(&mut &mut [0; 9][..], &form);
    let full = Error::from(ErrorKind::WriteZero);
    assert_eq!(written, Err(Format::StdIo(full)));
    let source = written.as_ref().unwrap_err().source().and_then(|source| source.downcast_ref());
    assert_eq!(source.map(Error::kind), Some(ErrorKind::WriteZero));
    assert_ne!(written, Err(Format::from(Error::from(ErrorKind::BrokenPipe))));
    assert_eq!(Format::from(Error::other("one")), Format::from(Error::other("another")));
}

#[test]
fn values_are_read() {
    let long = format_description!(
        "[year]-[month]-[day] [hour]:[minute]:[second] [offset_hour sign:mandatory]:[offset_minute]:[offset_second]"
    );
    assert_eq!(
        OffsetDateTime::parse("2020-01-02 03:04:05 +06:07:08", &long),
        Ok(datetime!(2020-01-02 03:04:05 +06:07:08))
    );
    assert_eq!(
        PlainDateTime::parse("2020-01-02 03:04:05 +06:07:08", &long),
        Ok(datetime!(2020-01-02 03:04:05))
    );
    assert_eq!(
        UtcDateTime::parse("2020-01-02 03:04:05 +01:00:00", &long),
        Ok(utc_datetime!(2020-01-02 02:04:05))
    );
    assert_eq!(
        Timestamp::parse("2020-01-02 03:04:05 +01:00:00", &long),
        Ok(utc_datetime!(2020-01-02 02:04:05).into())
    );
    assert_eq!(
        Date::parse("2020-002", &format_description!("[year]-[ordinal]")),
        Ok(date!(2020 - 01 - 02))
    );
    assert_eq!(
        Time::parse("01 PM", &format_description!("[hour repr:12] [period]")),
        Ok(time!(13:00))
    );
    assert_eq!(
        UtcOffset::parse("-00:30", &format_description!("[offset_hour]:[offset_minute]")),
        Ok(offset!(-0:30))
    );
    let day = format_description!("[year]-[month]-[day]");
    assert_eq!(
        Date::parse("2020-13-02", &day),
        Err(Parse::TryFromParsed(TryFromParsed::ComponentRange(
            Date::from_calendar_date(1_000_000, Month::May, 1)
                .map(drop)
                .map_err(|_| Month::from_number(13).unwrap_err())
                .unwrap_err()
        )))
    );
    assert_eq!(
        Date::parse("2020-1-02", &day),
        Err(Parse::ParseFromDescription(ParseFromDescription::InvalidComponent("month")))
    );
    assert_eq!(
        Date::parse("2020/01-02", &day),
        Err(Parse::ParseFromDescription(ParseFromDescription::InvalidLiteral))
    );
    assert_eq!(Date::parse("2020-01-02.", &day), Err(Parse::UnexpectedTrailingCharacters));
    assert_eq!(
        Time::parse("2020-01-02", &day),
        Err(Parse::TryFromParsed(TryFromParsed::InsufficientInformation))
    );
    let unix = format_description!("[unix_timestamp].[subsecond digits:3]");
    assert_eq!(
        OffsetDateTime::parse("1546398245.500", unix),
        Ok(datetime!(2019-01-02 3:04:05.5 UTC))
    );
    assert_eq!(
        Timestamp::parse("1546398245.500", unix),
        Ok(datetime!(2019-01-02 3:04:05.5 UTC).into())
    );
    let finer = [
        format_description!("[unix_timestamp precision:millisecond] [subsecond]"),
        format_description!("[unix_timestamp precision:microsecond] [subsecond]"),
    ];
    let at = datetime!(1969-12-31 23:59:58.499999999 UTC);
    for form in finer {
        assert_eq!(OffsetDateTime::parse(&at.format(form).unwrap(), form), Ok(at));
    }
    assert_eq!(
        OffsetDateTime::parse("1709166600500 500000001", finer[0]),
        Ok(datetime!(2024-02-29 0:30:00.500000001 UTC))
    );
    let defaults = Parsed::new().with_hour_24(12).unwrap();
    assert_eq!(
        UtcDateTime::parse_with_defaults(b"2020-01-02", &day, defaults),
        Ok(utc_datetime!(2020-01-02 12:00))
    );
}

#[test]
fn descriptions_are_read_from_texts() {
    let items = muxandu::format_description::parse("[year]-[[[month repr:short]").unwrap();
    assert_eq!(
        items,
        [
            BorrowedFormatItem::Component(Component::Year(modifier::Year::default())),
            BorrowedFormatItem::Literal(b"-"),
            BorrowedFormatItem::Literal(b"["),
            BorrowedFormatItem::Component(Component::Month(
                modifier::Month::default().with_repr(modifier::MonthRepr::Short)
            )),
        ]
    );
    assert_eq!(
        muxandu::format_description::parse_borrowed::<2>(r"a\[b").unwrap(),
        [
            BorrowedFormatItem::Literal(b"a"),
            BorrowedFormatItem::Literal(b"["),
            BorrowedFormatItem::Literal(b"b"),
        ]
    );
    let owned = muxandu::format_description::parse_owned::<1>("[hour]h").unwrap();
    assert_eq!(time!(12:00).format(&owned).unwrap(), "12h");
    assert_eq!(Time::parse("12h", &owned), Ok(time!(12:00)));
    for (text, refused) in [
        ("[year", InvalidFormatDescription::UnclosedOpeningBracket { index: 0 }),
        ("a [ ]", InvalidFormatDescription::MissingComponentName { index: 2 }),
        (
            "[foo]",
            InvalidFormatDescription::InvalidComponentName { name: "foo".to_owned(), index: 1 },
        ),
        (
            "[day foo:bar]",
            InvalidFormatDescription::InvalidModifier { value: "foo:bar".to_owned(), index: 5 },
        ),
        (
            "[day padding:bar]",
            InvalidFormatDescription::InvalidModifier { value: "bar".to_owned(), index: 13 },
        ),
        ("[ignore]", InvalidFormatDescription::MissingRequiredModifier { name: "count", index: 0 }),
    ] {
        assert_eq!(muxandu::format_description::parse(text), Err(refused), "{text}");
    }
}

#[test]
fn optional_and_first_items_are_read() {
    let fraction = [
        BorrowedFormatItem::Literal(b"."),
        BorrowedFormatItem::Component(Component::Subsecond(modifier::Subsecond::default())),
    ];
    let z = [BorrowedFormatItem::Literal(b"Z")];
    let zone = format_description!("[offset_hour sign:mandatory]:[offset_minute]");
    let zones = [BorrowedFormatItem::Compound(zone), BorrowedFormatItem::Compound(&z)];
    let fraction = BorrowedFormatItem::Compound(&fraction);
    let items = [
        BorrowedFormatItem::Compound(format_description!("[hour]:[minute]:[second]")),
        BorrowedFormatItem::Optional(&fraction),
        BorrowedFormatItem::First(&zones),
    ];
    let owned = OwnedFormatItem::from(&items[..]);
    for text in ["12:34:56+01:00", "12:34:56.5Z", "12:34:56Z"] {
        let read = Time::parse(text, &items[..]).unwrap();
        assert_eq!(read.hour(), 12);
        assert_eq!(Time::parse(text, &owned), Ok(read));
    }
    let text = "[hour]:[minute]:[second][optional [.[subsecond]]][first [Z] [[offset_hour sign:mandatory]:[offset_minute]]]";
    for read in [parse_owned::<1>(text).unwrap(), parse_owned::<2>(text).unwrap()] {
        assert_eq!(Time::parse("12:34:56.5+01:00", &read), Ok(time!(12:34:56.5)));
        assert_eq!(Time::parse("12:34:56Z", &read), Ok(time!(12:34:56)));
        assert!(Time::parse("12:34:56", &read).is_err());
    }
    for (text, refused) in [
        ("a[optional [[day]", InvalidFormatDescription::UnclosedOpeningBracket { index: 1 }),
        (
            "[optional x]",
            InvalidFormatDescription::Expected { what: "one description in brackets", index: 10 },
        ),
        (
            "[optional]",
            InvalidFormatDescription::Expected { what: "a description in brackets", index: 9 },
        ),
        (
            "[optional [a] [b]]",
            InvalidFormatDescription::Expected { what: "one description in brackets", index: 14 },
        ),
        (
            "é[first [a] [[foo]]]",
            InvalidFormatDescription::InvalidComponentName { name: "foo".to_owned(), index: 15 },
        ),
        ("[first [a]", InvalidFormatDescription::UnclosedOpeningBracket { index: 0 }),
    ] {
        assert_eq!(parse_owned::<1>(text), Err(refused), "{text}");
    }
    assert_eq!(time!(12:34:56).format(&items[..2]).unwrap(), "12:34:56.0");
}

/// The macro makes the items that `parse_owned` reads, at compile time, also as a constant.
#[test]
fn groups_are_items_of_the_macro() {
    const CLOCK: StaticFormatDescription = format_description!(
        version = 2,
        "[hour]:[minute][optional [:[second][optional [.[subsecond]]]]][first [Z] [ UTC]]"
    );
    let zoned =
        format_description!("[[[year][first [[optional [-]][month]] [/[month]]][optional [!]]]");
    let no_group = format_description!("at [hour]");
    for (items, text, version) in [
        (
            CLOCK,
            "[hour]:[minute][optional [:[second][optional [.[subsecond]]]]][first [Z] [ UTC]]",
            2,
        ),
        (zoned, "[[[year][first [[optional [-]][month]] [/[month]]][optional [!]]]", 1),
        (no_group, "at [hour]", 1),
        (format_description!(""), "", 1),
        (format_description!("[optional []]"), "[optional []]", 1),
    ] {
        let read = if version == 1 { parse_owned::<1>(text) } else { parse_owned::<2>(text) };
        assert_eq!(read, Ok(items.into()), "{text}");
    }
    for (text, wanted) in [
        ("12:34Z", time!(12:34)),
        ("12:34:56 UTC", time!(12:34:56)),
        ("12:34:56.5Z", time!(12:34:56.5)),
    ] {
        assert_eq!(Time::parse(text, CLOCK), Ok(wanted), "{text}");
    }
    assert!(Time::parse("12:34.5Z", CLOCK).is_err() && Time::parse("12:34", CLOCK).is_err());
    assert_eq!(time!(12:34:56.5).format(CLOCK).unwrap(), "12:34:56.5Z");
    assert_eq!(date!(2024 - 02 - 29).format(zoned).unwrap(), "[2024-02!]");
}

/// A group ends where its bracket does, also between two literals.
#[test]
fn literals_after_a_group_are_not_in_it() {
    let read = parse_owned::<2>("[hour][optional [h]]. [first [a] [b]]c").unwrap();
    assert_eq!(time!(12:00).format(&read).unwrap(), "12h. ac");
    for text in ["12h. ac", "12. bc", "12. ac"] {
        assert_eq!(Time::parse(text, &read), Ok(time!(12:00)), "{text}");
    }
    assert!(Time::parse("12h. a", &read).is_err() && Time::parse("12h. c", &read).is_err());
}

/// As `time` documents it for `Parsed`: a list that fails changes nothing, and an optional item never fails.
#[test]
fn items_that_fail_change_no_part() {
    let clock = BorrowedFormatItem::Compound(format_description!("[hour]:[minute]"));
    let day = BorrowedFormatItem::Compound(format_description!("[month]-[day]-[year]"));
    let no_clock = Err(ParseFromDescription::InvalidLiteral);
    for (item, wanted) in [
        (clock, no_clock),
        (BorrowedFormatItem::Optional(&clock), Ok(&b"12-34"[..])),
        (BorrowedFormatItem::Optional(&day), Ok(&b"12-34"[..])),
        (BorrowedFormatItem::First(&[clock, day]), no_clock),
        (BorrowedFormatItem::First(&[day, clock]), no_clock),
        (BorrowedFormatItem::First(&[clock, day, BorrowedFormatItem::Compound(&[])]), Ok(b"12-34")),
    ] {
        let mut parsed = Parsed::new();
        assert_eq!(parsed.parse_item(b"12-34", &item), wanted, "{item:?}");
        assert_eq!((parsed.hour_24(), parsed.minute()), (None, None), "{item:?}");
        assert_eq!((parsed.month(), parsed.day()), (None, None), "{item:?}");
    }
    let owned = parse_owned::<1>("[optional [[hour]:[minute]]]12-34").unwrap();
    let no_parts = Err(Parse::TryFromParsed(TryFromParsed::InsufficientInformation));
    assert_eq!(Time::parse("12-34", &owned), no_parts);
}

/// As in `time`: where a text begins with none of some items, the error is that of the first.
#[test]
fn the_first_of_several_items_says_why() {
    let hour = Component::Hour(modifier::Hour::default());
    let day = Component::Day(modifier::Day::default());
    let year = Component::Year(modifier::Year::default());
    let mut items = [(hour, "hour"), (day, "day"), (year, "year")];
    for _ in 0..items.len() {
        items.rotate_left(1);
        let first = items.map(|(component, _)| BorrowedFormatItem::Component(component));
        let read = Parsed::new().parse_item(b"noon", &BorrowedFormatItem::First(&first)).err();
        assert_eq!(read, Some(ParseFromDescription::InvalidComponent(items[0].1)));
    }
}

/// RFC 2822, section 4.3, has these names and letters, in any case. A letter is UTC, because RFC 822 stated their meaning wrongly.
#[test]
fn zones_of_rfc_2822() {
    fn offset_of(zone: &str) -> Result<UtcOffset, Parse> {
        let text = format!("21 Nov 1997 09:55:06 {zone}");
        OffsetDateTime::parse(&text, &Rfc2822).map(|at| at.offset())
    }
    for (zone, offset) in [
        ("UT", offset!(UTC)),
        ("GMT", offset!(UTC)),
        ("EDT", offset!(-4)),
        ("EST", offset!(-5)),
        ("CDT", offset!(-5)),
        ("CST", offset!(-6)),
        ("MDT", offset!(-6)),
        ("MST", offset!(-7)),
        ("PDT", offset!(-7)),
        ("PST", offset!(-8)),
        // Programs write it too.
        ("UTC", offset!(UTC)),
    ] {
        assert_eq!(offset_of(zone), Ok(offset), "{zone}");
        assert_eq!(offset_of(&zone.to_lowercase()), Ok(offset), "{zone}");
    }
    let no_zone = Err(ParseFromDescription::InvalidComponent("offset hour").into());
    for letter in ('A'..='Z').chain('a'..='z') {
        let wanted = if letter.eq_ignore_ascii_case(&'J') { no_zone } else { Ok(offset!(UTC)) };
        assert_eq!(offset_of(&letter.to_string()), wanted, "{letter}");
    }
}

#[test]
fn well_known_formats() {
    let at = datetime!(1997-11-21 09:55:06 -06:00);
    assert_eq!(at.format(&Rfc2822).unwrap(), "Fri, 21 Nov 1997 09:55:06 -0600");
    assert_eq!(OffsetDateTime::parse("Fri, 21 Nov 1997 09:55:06 -0600", &Rfc2822), Ok(at));
    assert_eq!(
        OffsetDateTime::parse("Sat, 12 Jun 1993 13:25:19 GMT", &Rfc2822),
        Ok(datetime!(1993-06-12 13:25:19 UTC))
    );
    assert_eq!(
        OffsetDateTime::parse("21 Nov 1997 09:55 EST", &Rfc2822),
        Ok(datetime!(1997-11-21 09:55 -5))
    );
    // A second of 60 at the end of a month in UTC, and elsewhere.
    assert_eq!(
        OffsetDateTime::parse("31 Dec 2016 18:59:60 -0500", &Rfc2822),
        Ok(datetime!(2016-12-31 18:59:59.999_999_999 -5))
    );
    assert_eq!(
        UtcDateTime::parse("31 Dec 2016 23:59:60 GMT", &Rfc2822),
        Ok(UtcDateTime::new(date!(2016 - 12 - 31), time!(23:59:59.999_999_999)))
    );
    assert!(OffsetDateTime::parse("31 Dec 2016 23:59:60 -0500", &Rfc2822).is_err());
    // The day of the week is wrong, as in texts that there are.
    assert_eq!(OffsetDateTime::parse("Sat, 21 Nov 1997 09:55:06 -0600", &Rfc2822), Ok(at));
    assert_eq!(
        datetime!(1899-01-01 0:00 UTC).format(&Rfc2822),
        Err(Format::InvalidComponent("year"))
    );
    assert_eq!(
        datetime!(2019-01-01 0:00 +0:00:01).format(&Rfc3339),
        Err(Format::InvalidComponent("offset_second"))
    );
    assert_eq!(Date::parse("1985-04-12T23:20:50.52Z", &Rfc3339), Ok(date!(1985 - 04 - 12)));
    assert_eq!(
        OffsetDateTime::parse("1985-04-12T23:20:50.52Z", &Rfc3339),
        Ok(datetime!(1985-04-12 23:20:50.52 UTC))
    );
    assert_eq!(date!(2024 - 01 - 01).format(&Rfc3339), Err(Format::InsufficientTypeInformation));
}

#[test]
fn parts_are_set_and_read() {
    let mut parsed = Parsed::new();
    assert_eq!(parsed.set_year(2024), Some(()));
    assert_eq!(parsed.set_month(Month::February), Some(()));
    assert_eq!(parsed.set_day(NonZeroU8::new(29).unwrap()), Some(()));
    assert_eq!(parsed.set_weekday(Weekday::Monday), Some(()));
    assert_eq!(Date::try_from(parsed), Ok(date!(2024 - 02 - 29)));
    assert_eq!(
        (parsed.year(), parsed.month(), parsed.weekday()),
        (Some(2024), Some(Month::February), Some(Weekday::Monday))
    );
    assert_eq!(parsed.ordinal(), None);
    let offset =
        Parsed::new().with_offset_hour(-5).unwrap().with_offset_minute_signed(-30).unwrap();
    assert_eq!((offset.offset_hour(), offset.offset_minute_signed()), (Some(-5), Some(-30)));
    assert_eq!(UtcOffset::try_from(offset), Ok(offset!(-5:30)));
    let ordinal = parsed.with_ordinal(NonZeroU16::new(61).unwrap()).unwrap();
    assert!(Date::try_from(ordinal).is_err());
    assert_eq!(
        date!(2024 - 01 - 01).format(&format_description!("[hour]")),
        Err(Format::InsufficientTypeInformation)
    );
}

#[test]
#[allow(deprecated)]
fn older_names_of_parts_have_no_sign() {
    let mut parsed = Parsed::new();
    assert_eq!((parsed.offset_minute(), parsed.offset_second()), (None, None));
    assert_eq!((parsed.set_offset_minute(30), parsed.set_offset_second(15)), (Some(()), Some(())));
    assert_eq!((parsed.offset_minute(), parsed.offset_second()), (Some(30), Some(15)));
    assert_eq!((parsed.set_offset_minute(128), parsed.set_offset_second(128)), (None, None));
    assert!(Parsed::new().with_offset_minute(128).is_none());
    assert!(Parsed::new().with_offset_second(128).is_none());
    let same = Parsed::new().with_offset_minute(30).unwrap().with_offset_second(15).unwrap();
    assert_eq!(UtcOffset::try_from(same.with_offset_hour(1).unwrap()), Ok(offset!(+1:30:15)));
    let west = Parsed::new().with_offset_hour(-5).unwrap().with_offset_minute_signed(-30).unwrap();
    assert_eq!((west.offset_minute(), west.offset_minute_signed()), (Some(30), Some(-30)));
}

// RFC 2822: a year has four digits from 1900 on, and by section 4.3 two of an older text are of 1950
// to 2049. `time` 0.3.9 reads and rejects the same.
#[test]
fn years_of_rfc_2822() {
    let year = |digits: &str| {
        let text = format!("Sat, 07 Sep {digits} 00:00:01 GMT");
        OffsetDateTime::parse(&text, &Rfc2822).ok().map(|at| at.year())
    };
    for (digits, wanted) in
        [("02", 2002), ("49", 2049), ("50", 1950), ("99", 1999), ("1900", 1900), ("9999", 9999)]
    {
        assert_eq!(year(digits), Some(wanted), "{digits}");
    }
    for digits in
        ["0002", "1899", "+2002", "-2002", "-02", "2", "102", "02002", "+12002", "20020000000", ""]
    {
        assert_eq!(year(digits), None, "{digits}");
    }
    // Mail often has the name of its zone in brackets at the end, which `time` 0.3.9 rejects.
    for end in [" (CST)", "\t(a (b) \\) c) ", " () (CST)"] {
        let text = format!("7 Sep 02 00:00 -0600{end}");
        let read = OffsetDateTime::parse(&text, &Rfc2822);
        assert_eq!(read, Ok(datetime!(2002-09-07 0:00 -6)), "{end}");
    }
    for end in [" (CST", " CST", " (CST) b"] {
        let text = format!("7 Sep 02 00:00 -0600{end}");
        let read = OffsetDateTime::parse(&text, &Rfc2822);
        assert_eq!(read, Err(Parse::UnexpectedTrailingCharacters), "{end}");
    }
    let read = OffsetDateTime::parse("7 Sep 0002 00:00 GMT", &Rfc2822);
    let wanted = Parse::ParseFromDescription(ParseFromDescription::InvalidComponent("year"));
    assert_eq!(read, Err(wanted));
}

// As `UtcOffset::from_hms` and `time` read signs that contradict each other.
#[test]
fn an_offset_has_the_sign_of_its_greatest_part() {
    let rows = [(-1, 30, 0), (1, -30, 0), (0, -30, 0), (0, 30, -5), (0, 0, -5), (1, 0, -5)];
    for (hours, minutes, seconds) in rows {
        let mut parsed = Parsed::new();
        let mut backwards = Parsed::new();
        parsed.set_offset_hour(hours).unwrap();
        parsed.set_offset_minute_signed(minutes).unwrap();
        parsed.set_offset_second_signed(seconds).unwrap();
        backwards.set_offset_second_signed(seconds).unwrap();
        backwards.set_offset_minute_signed(minutes).unwrap();
        backwards.set_offset_hour(hours).unwrap();
        let offset = UtcOffset::from_hms(hours, minutes, seconds).unwrap();
        assert_eq!(UtcOffset::try_from(parsed), Ok(offset), "{hours} {minutes} {seconds}");
        assert_eq!(UtcOffset::try_from(backwards), Ok(offset), "{hours} {minutes} {seconds}");
        assert_eq!(parsed.offset_hour(), Some(hours));
    }
    let least = Parsed::new().with_offset_hour(i8::MIN).unwrap();
    assert_eq!(least.offset_hour(), Some(i8::MIN));
    assert!(UtcOffset::try_from(least).is_err());
}

#[test]
fn items_equal_lists_of_items() {
    let items = [BorrowedFormatItem::Literal(b"-"), BorrowedFormatItem::Literal(b":")];
    assert_eq!(BorrowedFormatItem::Compound(&items), &items[..]);
    assert_eq!(&items[..], BorrowedFormatItem::Compound(&items));
    assert_ne!(BorrowedFormatItem::Compound(&items[..1]), &items[..]);
    assert_ne!(&items[..1], BorrowedFormatItem::Literal(b"-"));
    let owned = items.map(OwnedFormatItem::from);
    assert_eq!(OwnedFormatItem::from(&items[..]), &owned[..]);
    assert_ne!(&owned[..1], OwnedFormatItem::from(&items[..]));
    let digits = modifier::Subsecond::default().digits;
    assert_eq!(modifier::SubsecondDigits::default(), digits);
}

#[test]
fn defaults_stand_for_parts_that_a_text_lacks() {
    let month = format_description!("[year]-[month]");
    let first = Parsed::new().with_day(NonZeroU8::new(1).unwrap()).unwrap();
    let day = date!(2024 - 02 - 01);
    assert_eq!(Date::parse_with_defaults(b"2024-02", month, first), Ok(day));
    let hours = format_description!("[hour]");
    let zero = Parsed::new().with_minute(30).unwrap();
    let half_past = Ok(time!(15:30));
    assert_eq!(Time::parse_with_defaults(b"15", hours, zero), half_past);
    let west = format_description!("[offset_hour sign:mandatory]");
    assert_eq!(UtcOffset::parse_with_defaults(b"-05", west, Parsed::new()), Ok(offset!(-5)));
    let noon = first.with_hour_24(12).unwrap();
    assert_eq!(
        PlainDateTime::parse_with_defaults(b"2024-02", month, noon),
        Ok(datetime!(2024-02-01 12:00))
    );
    let at = noon.with_offset_hour(1).unwrap();
    assert_eq!(
        OffsetDateTime::parse_with_defaults(b"2024-02", month, at),
        Ok(datetime!(2024-02-01 12:00 +1))
    );
    let second = format_description!("[unix_timestamp]");
    assert_eq!(
        Timestamp::parse_with_defaults(b"1709164800", second, Parsed::new()),
        Ok(datetime!(2024-02-29 0:00 UTC).into())
    );
}

#[test]
fn parts_are_read_from_a_whole_text() {
    fn parts(text: &str, format: &impl Parsable) -> Result<Parsed, Parse> {
        format.parse(text.as_bytes())
    }
    let parsed = parts("29.02.24", &format_description!("[day].[month].[year repr:last_two]"));
    let parsed = parsed.expect("a date of two digits");
    assert_eq!((parsed.year(), parsed.year_last_two()), (None, Some(24)));
    assert!(parts("00:00Z", &Rfc3339).is_err());
    let longer = parts("29!", &format_description!("[day]"));
    assert_eq!(longer.err(), Some(Parse::UnexpectedTrailingCharacters));
}

#[test]
fn parts_are_read_one_by_one() {
    let (year, month) = (modifier::Year::default(), modifier::Month::default());
    let mut parsed = Parsed::new();
    let rest = parsed.parse_component(b"2024-02", Component::Year(year));
    assert_eq!(rest, Ok(&b"-02"[..]));
    let rest = Parsed::parse_literal(b"-02", b"-");
    assert_eq!(rest, Ok(&b"02"[..]));
    assert_eq!(Parsed::parse_literal(b"/02", b"-"), Err(ParseFromDescription::InvalidLiteral));
    let rest = parsed.parse_component(b"02", Component::Month(month));
    assert_eq!(rest, Ok(&b""[..]));
    assert_eq!(parsed.month(), Some(Month::February));
    assert!(parsed.parse_component(b"13", Component::Month(month)).is_err());
    let named = Parsed::new()
        .with_month(Month::March)
        .and_then(|parts| parts.with_weekday(Weekday::Friday))
        .unwrap();
    assert_eq!((named.month(), named.weekday()), (Some(Month::March), Some(Weekday::Friday)));
}
