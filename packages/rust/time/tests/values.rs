//! Values as texts for people and in fields, in JSON.

use std::collections::BTreeMap;
use std::fmt::Debug;

use serde::de::DeserializeOwned;
use serde::{Deserialize, Serialize};
use time::macros::{date, datetime, offset, time, timestamp, utc_datetime};
use time::{
    Date, Duration, Month, OffsetDateTime, PrimitiveDateTime, Time, Timestamp, UtcDateTime,
    UtcOffset, Weekday,
};

/// The value has this text and these numbers, and both read as it.
fn is_written<T: Serialize + DeserializeOwned + PartialEq + Debug>(
    value: T,
    text: &str,
    numbers: &str,
) {
    assert_eq!(serde_json::to_string(&value).unwrap(), format!("\"{text}\""));
    for json in [&format!("\"{text}\""), numbers] {
        assert_eq!(serde_json::from_str::<T>(json).unwrap(), value, "{json}");
    }
}

#[test]
fn values_have_texts_and_numbers() {
    is_written(date!(2024 - 02 - 29), "2024-02-29", "[2024,60]");
    is_written(date!(-9 - 12 - 31), "-0009-12-31", "[-9,365]");
    is_written(date!(+123456 - 01 - 01), "+123456-01-01", "[123456,1]");
    is_written(time!(1:02:03.5), "01:02:03.5", "[1,2,3,500000000]");
    is_written(time!(23:59), "23:59:00.0", "[23,59,0,0]");
    is_written(offset!(-1:30), "-01:30:00", "[-1,-30,0]");
    is_written(offset!(+25:59:59), "+25:59:59", "[25,59,59]");
    is_written(
        datetime!(2024-02-29 1:02:03.000_000_004),
        "2024-02-29 01:02:03.000000004",
        "[2024,60,1,2,3,4]",
    );
    is_written(utc_datetime!(2024-02-29 13:02), "2024-02-29 13:02:00.0", "[2024,60,13,2,0,0]");
    is_written(
        datetime!(2024-02-29 1:02:03 +1:30),
        "2024-02-29 01:02:03.0 +01:30:00",
        "[2024,60,1,2,3,0,1,30,0]",
    );
    is_written(timestamp!(-0.5), "-0.5", "[-1,500000000]");
    is_written(Duration::new(-1, -500_000_000), "-1.500000000", "[-1,-500000000]");
    is_written(Duration::nanoseconds(-5), "-0.000000005", "[0,-5]");
    is_written(
        Duration::MIN,
        "-9223372036854775808.999999999",
        "[-9223372036854775808,-999999999]",
    );
    is_written(Duration::MAX, "9223372036854775807.999999999", "[9223372036854775807,999999999]");
    is_written(Month::May, "May", "5");
    is_written(Weekday::Sunday, "Sunday", "7");
}

/// The text or the numbers are no value, and the error has this sentence.
fn is_refused<T: DeserializeOwned + Debug>(json: &str, sentence: &str) {
    let said = serde_json::from_str::<T>(json).expect_err(json).to_string();
    assert!(said.starts_with(sentence), "{json}: {said}");
}

#[test]
fn other_texts_are_refused() {
    const FORM: &str = "the text does not have the form that its type reads";
    for text in [
        "2024-2-29",
        "2024-02-9",
        "+24-02-29",
        "12024-02-29",
        "2024-02-29 ",
        " 2024-02-29",
        "2024/02/29",
        "2024-0229",
        "",
        "-",
        "2024-02-29 01:02:03.5",
        "+1234567-02-09",
    ] {
        is_refused::<Date>(&format!("\"{text}\""), FORM);
    }
    for text in ["1:02:03.5", "01:02:03", "01:02:03.", "01:02.5", "01-02-03.5"] {
        is_refused::<Time>(&format!("\"{text}\""), FORM);
    }
    for text in ["01:30:00", "+1:30:00", "+01:30", "+01:30:00.0", "UTC"] {
        is_refused::<UtcOffset>(&format!("\"{text}\""), FORM);
    }
    for text in ["2024-02-29T01:02:03.5", "2024-02-29 01:02:03.5 +00"] {
        is_refused::<PrimitiveDateTime>(&format!("\"{text}\""), FORM);
        is_refused::<UtcDateTime>(&format!("\"{text}\""), FORM);
    }
    for text in [
        "2024-02-29 01:02:03.5",
        "2024-02-29 01:02:03.5+01:00:00",
        "2024-02-29 01:02:03.5 +01:00:00 ",
    ] {
        is_refused::<OffsetDateTime>(&format!("\"{text}\""), FORM);
    }
    for text in [
        "1.5",
        "1",
        ".000000000",
        "+1.000000000",
        "1.0000000000",
        "--1.000000000",
        "9223372036854775808.000000000",
    ] {
        is_refused::<Duration>(&format!("\"{text}\""), FORM);
    }
    is_refused::<Month>("\"may\"", FORM);
    is_refused::<Weekday>("\"May\"", FORM);
    is_refused::<Timestamp>("\"1.50\"", FORM);
}

#[test]
fn parts_out_of_range_are_refused() {
    is_refused::<Date>("\"2023-02-29\"", "day is out of range");
    is_refused::<Date>("\"2023-13-01\"", "month is out of range");
    is_refused::<Date>("[2023,366]", "ordinal is out of range");
    is_refused::<Time>("\"24:00:00.0\"", "hour is out of range");
    is_refused::<Time>("[0,60,0,0]", "minute is out of range");
    is_refused::<UtcOffset>("\"+26:00:00\"", "hours is out of range");
    is_refused::<UtcOffset>("[0,60,0]", "minutes is out of range");
    is_refused::<PrimitiveDateTime>("[2023,1,0,0,60,0]", "second is out of range");
    is_refused::<UtcDateTime>("[1000000,1,0,0,0,0]", "year is out of range");
    is_refused::<OffsetDateTime>("[2023,1,0,0,0,0,26,0,0]", "hours is out of range");
    is_refused::<Timestamp>("[0,1000000000]", "nanosecond");
    is_refused::<Duration>("[9223372036854775807,1000000000]", "the duration is out of the range");
    is_refused::<Month>("13", "invalid value: integer `13`, expected a month, 1 to 12");
    is_refused::<Month>("-1", "invalid value");
    is_refused::<Weekday>("0", "invalid value: integer `0`, expected a day of the week, 1 to 7");
    is_refused::<Weekday>("257", "invalid value: integer `257`");
    is_refused::<Month>("[5]", "invalid type: sequence, expected a month, 1 to 12");
    is_refused::<Date>("5", "invalid type: integer `5`, expected a date");
    is_refused::<Date>("[2024]", "the sequence ends before the ordinal");
    is_refused::<Date>("[2024,60,1]", "trailing characters");
    is_refused::<OffsetDateTime>(
        "null",
        "invalid type: null, expected a date, a time of day and an offset from UTC",
    );
}

/// Texts that are not as they are written, and that `time` reads too.
#[test]
fn other_texts_are_read() {
    let read = |json: &str| serde_json::from_str::<Date>(json).unwrap();
    assert_eq!(read("\"+2024-02-29\""), date!(2024 - 02 - 29));
    assert_eq!(read("\"-0000-01-01\""), date!(0 - 01 - 01));
    assert_eq!(read("\"+002024-02-29\""), date!(2024 - 02 - 29));
    assert_eq!(serde_json::from_str::<Time>("\"01:02:03.500\"").unwrap(), time!(1:02:03.5));
    assert_eq!(serde_json::from_str::<UtcOffset>("\"-00:30:00\"").unwrap(), offset!(-0:30));
}

#[test]
fn lists_and_maps_are_written() {
    let dates = vec![date!(2024 - 02 - 29), date!(2024 - 03 - 01)];
    let json = serde_json::to_string(&dates).unwrap();
    assert_eq!(json, r#"["2024-02-29","2024-03-01"]"#);
    assert_eq!(serde_json::from_str::<Vec<Date>>(&json).unwrap(), dates);
    let counts: BTreeMap<Date, u8> = dates.into_iter().zip([1, 2]).collect();
    let json = serde_json::to_string(&counts).unwrap();
    assert_eq!(json, r#"{"2024-02-29":1,"2024-03-01":2}"#);
    assert_eq!(serde_json::from_str::<BTreeMap<Date, u8>>(&json).unwrap(), counts);
}

#[derive(Debug, Deserialize, PartialEq, Serialize)]
struct Fields {
    #[serde(with = "time::serde::rfc3339")]
    written: OffsetDateTime,
    #[serde(with = "time::serde::rfc3339::option", default)]
    changed: Option<UtcDateTime>,
    #[serde(with = "time::serde::timestamp")]
    begins: OffsetDateTime,
    #[serde(with = "time::serde::timestamp::option", default)]
    ends: Option<Timestamp>,
    #[serde(with = "time::serde::timestamp::milliseconds")]
    seen: OffsetDateTime,
    #[serde(with = "time::serde::timestamp::microseconds::option", default)]
    read: Option<UtcDateTime>,
    #[serde(with = "time::serde::timestamp::nanoseconds")]
    sent: Timestamp,
    #[serde(with = "time::serde::text")]
    due: PrimitiveDateTime,
    #[serde(with = "time::serde::text::option", default)]
    paid: Option<Date>,
}

#[test]
fn fields_have_other_forms() {
    let mut fields = Fields {
        written: datetime!(2024-02-28 23:30 -1),
        changed: Some(utc_datetime!(2024-02-29 0:30)),
        begins: datetime!(1969-12-31 23:59:59.5 UTC),
        ends: Some(timestamp!(7)),
        seen: datetime!(1969-12-31 23:59:59.999_9 UTC),
        read: Some(utc_datetime!(1970-01-01 0:00:00.000_001_9)),
        sent: timestamp!(-0.000_000_001),
        due: datetime!(2024-02-29 1:02),
        paid: Some(date!(2024 - 03 - 01)),
    };
    let json = serde_json::to_string(&fields).unwrap();
    assert_eq!(
        json,
        concat!(
            r#"{"written":"2024-02-28T23:30:00-01:00","changed":"2024-02-29T00:30:00Z","begins":-1,"ends":7,"seen":-1,"#,
            r#""read":1,"sent":-1,"due":"2024-02-29 1:02:00.0","paid":"2024-03-01"}"#
        )
    );
    fields.begins = datetime!(1969-12-31 23:59:59 UTC);
    fields.seen = datetime!(1969-12-31 23:59:59.999 UTC);
    fields.read = Some(utc_datetime!(1970-01-01 0:00:00.000_001));
    let read: Fields = serde_json::from_str(&json).unwrap();
    assert_eq!(read, fields);
    assert_eq!(read.written.offset(), offset!(-1));
    let missing = r#"{"written":"2024-02-28T23:30:00-01:00","begins":-1,"seen":-1,"sent":-1,"due":"2024-02-29 1:02:00.0","ends":null,"changed":null}"#;
    let read: Fields = serde_json::from_str(missing).unwrap();
    assert_eq!((read.changed, read.ends, read.read, read.paid), (None, None, None, None));
    for (part, wrong) in [
        (r#""ends":null"#, r#""ends":"soon""#),
        (r#""changed":null"#, r#""changed":"2024-02-30T00:00:00Z""#),
        (r#""changed":null"#, r#""changed":null,"paid":"2023-02-29""#),
    ] {
        let text = missing.replace(part, wrong);
        assert!(serde_json::from_str::<Fields>(&text).is_err(), "{text}");
    }
    let json = serde_json::to_string(&read).unwrap();
    assert!(json.contains(r#""changed":null"#) && json.contains(r#""paid":null"#), "{json}");
}

#[derive(Debug, Deserialize, PartialEq, Serialize)]
struct Mail {
    #[serde(with = "time::serde::rfc2822")]
    sent: OffsetDateTime,
    #[serde(with = "time::serde::rfc2822::option", default)]
    read: Option<UtcDateTime>,
}

// The text is the example of RFC 2822, section A.1.1.
#[test]
fn fields_have_the_form_of_mail() {
    use time::serde::rfc2822;

    let text = r#"{"sent":"Fri, 21 Nov 1997 09:55:06 -0600","read":null}"#;
    let mut mail = Mail { sent: datetime!(1997-11-21 9:55:06 -6), read: None };
    assert_eq!(serde_json::to_string(&mail).unwrap(), text);
    assert_eq!(serde_json::from_str::<Mail>(text).unwrap(), mail);
    mail.read = Some(utc_datetime!(1997-11-21 15:55:06));
    let json = serde_json::to_string(&mail).unwrap();
    assert!(json.contains(r#""read":"Fri, 21 Nov 1997 15:55:06 +0000""#), "{json}");
    assert_eq!(serde_json::from_str::<Mail>(&json).unwrap(), mail);
    is_refused::<Mail>(&text.replace("Nov", "Non"), "the component month cannot be read");
    let none = timestamp!(-2_208_988_801);
    assert!(rfc2822::serialize(&none, serde_json::value::Serializer).is_err());
    let read: Result<Timestamp, _> = rfc2822::deserialize(serde_json::Value::from(5));
    assert!(read.unwrap_err().to_string().contains("expected a text of RFC 2822"));
}

#[test]
fn fields_out_of_range_are_refused() {
    use time::serde::{rfc3339, text, timestamp};

    let far = UtcDateTime::MAX;
    assert!(rfc3339::serialize(&far, serde_json::value::Serializer).is_err());
    let number =
        |count: i128| serde_json::from_str::<serde_json::Value>(&count.to_string()).unwrap();
    for seconds in [i64::MIN, i64::MAX, UtcDateTime::MAX.unix_timestamp() + 1] {
        let read: Result<UtcDateTime, _> = timestamp::deserialize(number(seconds.into()));
        read.unwrap_err();
    }
    let last = timestamp::deserialize(number(UtcDateTime::MAX.unix_timestamp().into()));
    assert_eq!(last.ok(), Some(UtcDateTime::MAX.truncate_to_second()));
    let json = i128::MAX.to_string();
    let mut given = serde_json::Deserializer::from_str(&json);
    let read: Result<Timestamp, _> = timestamp::milliseconds::deserialize(&mut given);
    read.unwrap_err();
    let written = timestamp::nanoseconds::serialize(
        &UtcDateTime::MIN,
        &mut serde_json::Serializer::new(Vec::new()),
    );
    written.unwrap();
    let read: Result<Date, _> = text::deserialize(serde_json::Value::from("2023-02-29"));
    assert!(read.unwrap_err().to_string().starts_with("day is out of range"));
    let read: Result<OffsetDateTime, _> =
        rfc3339::deserialize(serde_json::Value::from("2024-02-29 1:02:00.0 +00:00:00"));
    read.unwrap_err();
    let read: Result<Date, _> = text::deserialize(serde_json::Value::from(" 2024-02-29"));
    read.unwrap_err();
    let read: Result<Date, _> = text::deserialize(serde_json::Value::from(5));
    assert!(read.unwrap_err().to_string().contains("expected a text of a date or a time"));
}

/// `time`'s own examples of these fields name `OffsetDateTime` alone, without a type where they are
/// read.
#[test]
fn instants_at_the_ends_are_written() {
    let first = PrimitiveDateTime::MIN.assume_offset(offset!(+25));
    let json = serde_json::to_string(&first).unwrap();
    assert_eq!(json, "\"-999999-01-01 00:00:00.0 +25:00:00\"");
    assert_eq!(serde_json::from_str::<OffsetDateTime>(&json).unwrap(), first);
    let count = time::serde::timestamp::serialize(&first, serde_json::value::Serializer).unwrap();
    assert_eq!(count, first.unix_timestamp());
}

/// Fields by descriptions: as a text, as items of a constant, in version 2, and that may be missing.
mod described {
    use time::format_description::StaticFormatDescription;

    pub const HOURS: StaticFormatDescription = time::macros::format_description!("[hour]:[minute]");

    time::serde::format_description!(pub mod day_first, Date, "[day].[month].[year]");
    time::serde::format_description!(pub mod hours, Time, HOURS);
    time::serde::format_description!(pub mod bracketed, UtcOffset, version = 2, r"\[[offset_hour]\]");
}

#[derive(Serialize, Deserialize, PartialEq, Debug)]
struct Described {
    #[serde(with = "described::day_first")]
    date: Date,
    #[serde(with = "described::hours")]
    time: Time,
    #[serde(with = "described::bracketed::option", default)]
    offset: Option<UtcOffset>,
}

#[test]
fn fields_have_the_form_of_a_description() {
    let value =
        Described { date: date!(2024 - 02 - 29), time: time!(12:34), offset: Some(offset!(-5)) };
    let json = r#"{"date":"29.02.2024","time":"12:34","offset":"[-05]"}"#;
    assert_eq!(serde_json::to_string(&value).unwrap(), json);
    assert_eq!(serde_json::from_str::<Described>(json).unwrap(), value);
    let read = serde_json::from_str::<Described>(r#"{"date":"29.02.2024","time":"12:34"}"#);
    assert_eq!(read.unwrap().offset, None);
    let said = |json: &str| serde_json::from_str::<Described>(json).unwrap_err().to_string();
    assert!(said(&json.replace("29", "x9")).contains("the component day cannot be read"));
    assert!(said(&json.replace("\"12:34\"", "5")).contains("expected a text by the description"));
}

#[derive(Serialize, Deserialize, PartialEq, Debug)]
struct Iso8601 {
    #[serde(with = "time::serde::iso8601")]
    at: OffsetDateTime,
    #[serde(with = "time::serde::iso8601::option")]
    end: Option<UtcDateTime>,
}

#[test]
fn fields_have_the_form_of_iso_8601() {
    let value =
        Iso8601 { at: datetime!(2024-02-29 12:34 -5), end: Some(utc_datetime!(-1-01-01 0:00)) };
    let json = r#"{"at":"+002024-02-29T12:34:00.000000000-05:00","end":"-000001-01-01T00:00:00.000000000Z"}"#;
    assert_eq!(serde_json::to_string(&value).unwrap(), json);
    assert_eq!(serde_json::from_str::<Iso8601>(json).unwrap(), value);
    let week = r#"{"at":"2024-W09-4T1234-05","end":null}"#;
    let read = serde_json::from_str::<Iso8601>(week).unwrap();
    assert_eq!(read, Iso8601 { end: None, ..value });
    let refused = serde_json::from_str::<Iso8601>(r#"{"at":5,"end":null}"#).unwrap_err();
    assert!(refused.to_string().contains("expected a text of ISO 8601"));
}
