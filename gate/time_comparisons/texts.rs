//! Texts: the library's own, and those of RFC 3339.
use crate::instants::stamp;
use crate::offsets::{done, up_to_refusal};
use crate::source::Source;
use crate::sys::{self, MuxanduDateTime, MuxanduSpan, MuxanduTimestamp};
use crate::{Answer, Compared, answer_of, instant, name, parts_of};
use std::sync::LazyLock;
use time::error::{Parse, TryFromParsed};
use time::format_description::well_known::Rfc3339;
use time::format_description::{self, FormatItem};
use time::{Duration, OffsetDateTime, PrimitiveDateTime, UtcOffset};

const SPACE: &str = "0.3.9 refuses a space for the T";
const SIGN: &str = "0.3.9 reads -00:MM as +00:MM";
const LEAP: &str = "0.3.9 reads the second 60 at the end of a month in UTC as the nanosecond before its end";
const OFFSET_FIRST: &str = "0.3.9 names an offset out of range before what else is wrong";
const NO_MONTH: &str = "0.3.9 finds no form in a month of 00";

/// A text that a call writes, by its status.
fn text(call: impl FnOnce(*mut u8, usize, &mut usize) -> u32) -> Answer<String> {
    let mut room = [0; sys::TEXT_ROOM];
    let mut size = 0;
    match call(room.as_mut_ptr(), room.len(), &mut size) {
        sys::OK => Ok(String::from_utf8_lossy(&room[..size]).into_owned()),
        status => Err(name(status)),
    }
}

pub fn compare_own(source: &mut Source, of: &mut Compared) {
    let at = source.at_offset();
    let ours = text(|room, count, size| unsafe { sys::muxandu_date_time_text(parts_of(at), room, count, size) });
    of.same("date_time_text", parts_of(at), ours, Ok(at.to_string()));
}

/// The first and the last second of the years that RFC 3339 has.
const FIRST: i64 = -62_167_219_200;
const LAST: i64 = 253_402_300_799;

/// A date-time, mostly of the years and at an offset that RFC 3339 has.
fn to_write(source: &mut Source) -> OffsetDateTime {
    let second = match source.one_of(4) {
        0 => source.second(),
        1 => source.near(FIRST, LAST, 90_000),
        _ => source.between(FIRST, LAST),
    };
    let at = OffsetDateTime::from_unix_timestamp(second).expect("a second of the range");
    let at = at.replace_nanosecond(source.nanosecond()).expect("a nanosecond");
    let offset = source.offset();
    let offset = if source.is_one_in(4) { offset } else { offset / 60 * 60 };
    let offset = UtcOffset::from_whole_seconds(offset).expect("an offset of `time`");
    PrimitiveDateTime::new(at.date(), at.time()).assume_offset(offset)
}

/// Nine digits of the fraction, which 0.3.9 has no well-known format for.
static NANOS: LazyLock<Vec<FormatItem<'static>>> = LazyLock::new(|| {
    let format = "[year]-[month]-[day]T[hour]:[minute]:[second].[subsecond digits:9]Z";
    format_description::parse(format).expect("a format description")
});

pub fn compare_written(source: &mut Source, of: &mut Compared) {
    let at = to_write(source);
    let date_time = parts_of(at);
    let ours = text(|room, count, size| unsafe { sys::muxandu_date_time_to_rfc3339(date_time, room, count, size) });
    of.same("date_time_to_rfc3339", date_time, ours, at.format(&Rfc3339).map_err(|_| "no text"));
    let Ok(at) = instant(at).map(|_| at.to_offset(UtcOffset::UTC)) else {
        return;
    };
    let theirs = at.format(&Rfc3339).map_err(|_| "no text");
    let ours = text(|room, count, size| unsafe { sys::muxandu_timestamp_to_rfc3339(stamp(at), room, count, size) });
    of.same("timestamp_to_rfc3339", stamp(at), ours, theirs.clone());
    let theirs = theirs.map(|_| at.format(&*NANOS).expect("a text of nine digits"));
    let ours = text(|room, count, size| unsafe { sys::muxandu_timestamp_to_rfc3339_nanos(stamp(at), room, count, size) });
    of.same("timestamp_to_rfc3339_nanos", stamp(at), ours, theirs);
}

fn read(text: &str) -> Answer<MuxanduDateTime> {
    answer_of(|out| unsafe { sys::muxandu_date_time_from_rfc3339(text.as_ptr(), text.len(), out) })
}

fn read_instant(text: &str) -> Answer<MuxanduTimestamp> {
    answer_of(|out| unsafe { sys::muxandu_timestamp_from_rfc3339(text.as_ptr(), text.len(), out) })
}

/// What `time` reads, or the part that it names; what has not the form is not told apart.
fn read_by_time(text: &str) -> Answer<OffsetDateTime> {
    OffsetDateTime::parse(text, &Rfc3339).map_err(|refusal| match refusal {
        Parse::TryFromParsed(TryFromParsed::ComponentRange(refusal)) => refusal.name(),
        _ => "syntax",
    })
}

/// The last six bytes, if they may be an offset.
fn zone(text: &str) -> Option<(&str, &str)> {
    let place = text.len().checked_sub(6).filter(|place| *place >= 19)?;
    text.split_at_checked(place)
}

/// Where an offset after the seconds begins.
fn place_of_offset(text: &str) -> Option<usize> {
    Some(19 + text.get(19..)?.find(['+', '-'])?)
}

/// The name of the offset that is out of its range, where 0.3.9 finds the form of what stands before it.
fn refused_offset(text: &str) -> Option<&'static str> {
    let place = place_of_offset(text)?;
    let zone = text.get(place..place + 6)?;
    let (before, _) = foretold(&format!("{}Z", &text[..place]));
    let refused = read(&format!("2000-01-01T00:00:00{zone}")).err();
    refused.filter(|refused| before != Err("syntax") && *refused != "syntax")
}

/// What the call for leap seconds reads, which is what 0.3.9 reads.
fn leap_second(text: &str) -> Answer<MuxanduDateTime> {
    let mut is_leap = 0;
    let read = answer_of(|out| unsafe { sys::muxandu_date_time_from_rfc3339_leap(text.as_ptr(), text.len(), out, &mut is_leap) });
    assert!(read.is_err() || is_leap == 1, "{text} is read unmarked");
    read
}

/// What 0.3.9 reads, from what we read, and why it is another thing.
fn foretold(text: &str) -> (Answer<MuxanduDateTime>, &'static str) {
    let ours = read(text);
    if text.as_bytes().get(10) == Some(&b' ') {
        return (Err("syntax"), SPACE);
    }
    if ours == Err("month") && text.get(5..7) == Some("00") {
        return (Err("syntax"), NO_MONTH);
    }
    if let Some((head, tail)) = zone(text).filter(|(_, tail)| tail.starts_with("-00:") && ours != Err("syntax")) {
        let (value, stated) = foretold(&format!("{head}+{}", &tail[1..]));
        return (value, if ours.is_ok() { SIGN } else { stated });
    }
    if let Some(refused) = refused_offset(text).filter(|_| ours.is_err()) {
        return (Err(refused), OFFSET_FIRST);
    }
    if ours == Err("second") && text.get(17..19) == Some("60") {
        return (leap_second(text), LEAP);
    }
    (ours, "")
}

pub fn compare_read(source: &mut Source, of: &mut Compared) {
    let text = some_text(source);
    compare_text(of, &text);
}

fn compare_text(of: &mut Compared, text: &str) {
    let ours = read(text);
    let (foretold, stated) = foretold(text);
    let theirs = read_by_time(text);
    of.foretold("date_time_from_rfc3339", text, stated, (ours, foretold, theirs.map(parts_of)));
    if ours == foretold {
        of.same("timestamp_from_rfc3339", text, read_instant(text), theirs.and_then(instant));
    }
    compare_stated(of, text, ours, theirs.map(parts_of));
}

/// What we read where 0.3.9 reads another thing: a space as a T, the month of 00 as a month, the first part that is out of its
/// range, no second of 60, and the offset with its sign.
fn compare_stated(of: &mut Compared, text: &str, ours: Answer<MuxanduDateTime>, theirs: Answer<MuxanduDateTime>) {
    if text.as_bytes().get(10) == Some(&b' ') {
        let with_t = format!("{}T{}", &text[..10], &text[11..]);
        of.same("date_time_from_rfc3339, as with a T", text, ours, read(&with_t));
        return compare_text(of, &with_t);
    }
    if text.get(5..7) == Some("00") {
        let has_form = read(&format!("{}01{}", &text[..5], &text[7..])) != Err("syntax");
        return of.same("date_time_from_rfc3339, a month of 00", text, ours == Err("month"), has_form);
    }
    let names_offset = theirs == Err("offset hour") || theirs == Err("offset minute");
    if names_offset && ours != theirs && ours != Err("syntax") {
        let before = place_of_offset(text).map_or(String::new(), |place| format!("{}Z", &text[..place]));
        of.same("date_time_from_rfc3339, as without the offset", text, ours, read(&before));
        return compare_text(of, &before);
    }
    if text.get(17..19) == Some("60") {
        return of.same("date_time_from_rfc3339, a second of 60", text, ours.is_err(), true);
    }
    if let (Ok(date_time), Some((_, tail))) = (theirs, zone(text)) {
        let offset_seconds = if tail.starts_with("-00:") { -date_time.offset_seconds } else { date_time.offset_seconds };
        of.same("date_time_from_rfc3339, with the sign", text, ours, Ok(MuxanduDateTime { offset_seconds, ..date_time }));
    }
}

/// A text of the form, whose parts may be out of their range.
fn some_text(source: &mut Source) -> String {
    let (date, clock, zone) = match source.one_of(8) {
        0 | 1 => of_any_parts(source),
        2 => of_the_last_second(source),
        _ => of_an_instant(source),
    };
    let between = source.one(&["T", "T", "T", "T", "t", " "]);
    let text = format!("{date}{between}{clock}{}{zone}", fraction(source));
    if source.is_one_in(4) { spoil(source, text) } else { text }
}

fn of_any_parts(source: &mut Source) -> (String, String, String) {
    let mut part = |first, last| match source.one_of(8) {
        0 => source.near(first, last, 1).max(0),
        _ => source.between(first, last),
    };
    let date = format!("{:04}-{:02}-{:02}", part(1, 9_998), part(1, 12), part(1, 31));
    let clock = format!("{:02}:{:02}:{:02}", part(0, 23), part(0, 59), part(0, 59));
    let zone = format!("{:02}:{:02}", part(0, 23), part(0, 59));
    (date, clock, format!("{}{zone}", source.one(&["+", "-"])))
}

fn of_an_instant(source: &mut Source) -> (String, String, String) {
    let at = OffsetDateTime::from_unix_timestamp(source.between(FIRST, LAST)).expect("a second of the range");
    let (hour, minute, second) = at.to_hms();
    (at.date().to_string(), format!("{hour:02}:{minute:02}:{second:02}"), some_zone(source))
}

/// The end of a day in UTC, often of a month, as a second of 60 at some offset.
fn of_the_last_second(source: &mut Source) -> (String, String, String) {
    let at = OffsetDateTime::from_unix_timestamp(source.between(FIRST, LAST)).expect("a second of the range");
    let at = if source.is_one_in(4) { at } else { at.replace_day(1).expect("the first day") };
    let at = at.date().midnight().assume_utc() - Duration::seconds(source.between(1, 60) / 60 * 60 + 1);
    let at = if source.is_one_in(8) { at + Duration::seconds(source.between(-120, 120)) } else { at };
    let zone = some_zone(source);
    let offset = read_by_time(&format!("2000-01-01T00:00:00{zone}")).map_or(UtcOffset::UTC, OffsetDateTime::offset);
    let at = at.to_offset(offset);
    let year = at.year().clamp(0, 9_999);
    let date = format!("{year:04}-{:02}-{:02}", u8::from(at.month()), at.day());
    (date, format!("{:02}:{:02}:60", at.hour(), at.minute()), zone)
}

fn some_zone(source: &mut Source) -> String {
    let sign = source.one(&["+", "-"]);
    match source.one_of(8) {
        0 => "z".to_owned(),
        1 | 2 => "Z".to_owned(),
        3 => format!("{sign}00:{:02}", source.between(0, 59)),
        4 => format!("{sign}{:02}:{:02}", source.between(0, 25), source.between(0, 61)),
        _ => format!("{sign}{:02}:{:02}", source.between(0, 23), source.between(0, 59)),
    }
}

fn fraction(source: &mut Source) -> String {
    let nanosecond = source.nanosecond();
    match source.one_of(8) {
        0 => format!(".{nanosecond:09}"),
        1 => format!(".{nanosecond:09}{}", source.one_of(1_000_000_000)),
        2 => format!(".{}", source.one_of(10_000)),
        3 => format!(".{:09}", nanosecond).trim_end_matches('0').to_owned(),
        _ => String::new(),
    }
}

/// The text with a byte or two replaced, added or left out.
fn spoil(source: &mut Source, text: String) -> String {
    let mut bytes = text.into_bytes();
    for _ in 0..=source.one_of(2) {
        let place = source.one_of(bytes.len() as u64) as usize;
        let byte = b"0123456789:.-+TZtz x,"[source.one_of(21) as usize];
        match source.one_of(4) {
            0 => bytes.insert(place, byte),
            1 => _ = bytes.remove(place),
            2 => bytes.push(byte),
            _ => bytes[place] = byte,
        }
    }
    String::from_utf8(bytes).expect("ASCII alone")
}

/// Texts that `time` writes, one of them cut short now and then, one behind another.
pub fn compare_many(source: &mut Source, of: &mut Compared) {
    const COUNT: usize = 4;
    let (mut block, mut spans, mut theirs) = (String::new(), Vec::new(), Vec::new());
    while spans.len() < COUNT {
        let at = to_write(source);
        let Ok(written) = at.format(&Rfc3339) else {
            continue;
        };
        let is_cut = source.is_one_in(16);
        let length = written.len() - usize::from(is_cut);
        spans.push(MuxanduSpan { start: block.len(), length });
        theirs.push(if is_cut { Err("syntax") } else { instant(at) });
        block.push_str(&written);
    }
    let mut out = vec![MuxanduTimestamp::default(); COUNT];
    let batch = unsafe {
        let (spans, texts) = (spans.as_ptr(), block.as_bytes());
        sys::muxandu_timestamps_from_rfc3339(texts.as_ptr(), texts.len(), spans, COUNT, out.as_mut_ptr(), COUNT)
    };
    of.same("timestamps_from_rfc3339", &block, done(batch, out), up_to_refusal(theirs));
}
