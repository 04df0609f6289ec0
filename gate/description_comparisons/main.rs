//! Random descriptions, by which both packages write random values and read what they wrote, and texts with a byte changed. They read
//! each text in groups of items too, some of which fail, and must know the same parts after each.

use std::collections::BTreeMap;
use std::fmt::Debug;

/// The components that both have, with their modifiers.
const DATES: [&str; 20] = [
    "[year]",
    "[year sign:mandatory]",
    "[year padding:none]",
    "[year padding:space]",
    "[year repr:last_two]",
    "[year base:iso_week]",
    "[month]",
    "[month padding:none]",
    "[month padding:space]",
    "[month repr:long]",
    "[month repr:short case_sensitive:false]",
    "[day]",
    "[day padding:space]",
    "[ordinal]",
    "[ordinal padding:none]",
    "[weekday]",
    "[weekday repr:short]",
    "[weekday repr:monday]",
    "[weekday repr:sunday one_indexed:false]",
    "[week_number]",
];
const TIMES: [&str; 12] = [
    "[hour]",
    "[hour padding:none]",
    "[hour repr:12]",
    "[period]",
    "[period case:lower]",
    "[minute]",
    "[minute padding:space]",
    "[second]",
    "[subsecond]",
    "[subsecond digits:3]",
    "[subsecond digits:9]",
    "[hour padding:space]",
];
const OFFSETS: [&str; 5] =
    ["[offset_hour]", "[offset_hour sign:mandatory]", "[offset_minute]", "[offset_second]", "[offset_hour padding:none]"];
/// Descriptions of whole values, of which the random ones are few.
const WHOLE: [&str; 8] = [
    "[year]-[month]-[day]T[hour]:[minute]:[second].[subsecond][offset_hour sign:mandatory]:[offset_minute]:[offset_second]",
    "[weekday repr:short], [day] [month repr:short] [year] [hour]:[minute]:[second] [offset_hour sign:mandatory][offset_minute]",
    "[year]-[ordinal] [hour repr:12]:[minute]:[second] [period] [offset_hour]:[offset_minute]:[offset_second]",
    "[year base:iso_week]-W[week_number]-[weekday repr:monday] [hour]:[minute]:[second].[subsecond digits:9] [offset_hour]",
    "[year] [week_number repr:monday] [weekday] [hour]:[minute] [offset_hour]:[offset_minute]:[offset_second]",
    "[month repr:long] [day padding:none], [year padding:none] [hour padding:none]:[minute]:[second] [offset_hour]",
    "[day]/[month]/[year] [hour]:[minute]:[second],[subsecond digits:3] [offset_hour sign:mandatory]:[offset_minute]",
    "[[[year]] [month] [day]  [hour][minute][second] [offset_hour]",
];
const MARKS: [&str; 6] = ["-", " ", ":", ", ", "T", "[["];

struct Random(u64);

impl Random {
    fn next(&mut self) -> u64 {
        self.0 ^= self.0 << 13;
        self.0 ^= self.0 >> 7;
        self.0 ^= self.0 << 17;
        self.0.wrapping_mul(0x2545_f491_4f6c_dd1d) >> 11
    }

    fn below(&mut self, end: u64) -> u64 {
        self.next() % end
    }

    fn one_of<'a>(&mut self, words: &[&'a str]) -> &'a str {
        words[self.below(words.len() as u64) as usize]
    }
}

fn description(random: &mut Random) -> String {
    if random.below(2) == 0 {
        return random.one_of(&WHOLE).to_owned();
    }
    let mut text = String::new();
    for _ in 0..=random.below(6) {
        let component = match random.below(3) {
            0 => random.one_of(&DATES),
            1 => random.one_of(&TIMES),
            _ => random.one_of(&OFFSETS),
        };
        text.push_str(component);
        text.push_str(random.one_of(&MARKS));
    }
    text
}

/// The parts of a value: both packages make it of them.
struct Value {
    second: i64,
    nanosecond: u32,
    offset: i32,
}

impl Value {
    fn random(random: &mut Random) -> Value {
        let years = if random.below(4) == 0 { 7_900 } else { 100 };
        Value {
            second: random.below(2 * years * 31_556_952) as i64 - (years * 31_556_952) as i64,
            nanosecond: [0, 5, 120_000_000, 999_999_999, random.below(1_000_000_000) as u32][random.below(5) as usize],
            offset: match random.below(4) {
                0 => 0,
                1 => (random.below(47) as i32 - 23) * 3_600,
                _ => random.below(172_799) as i32 - 86_399,
            },
        }
    }
}

/// What is left of a text behind a group of items, or the error, and the parts that are known then.
#[derive(Debug, PartialEq)]
struct Group {
    left: Result<usize, String>,
    parts: String,
}

macro_rules! package {
    ($name:ident, $crate_name:ident) => {
        mod $name {
            use super::{Group, Value};
            use $crate_name::format_description::FormatItem;
            use $crate_name::parsing::Parsed;
            use $crate_name::{Date, OffsetDateTime, Time, UtcOffset};

            pub fn items(text: &str) -> Option<Vec<FormatItem<'_>>> {
                $crate_name::format_description::parse(text).ok()
            }

            pub fn at(value: &Value) -> OffsetDateTime {
                let second = OffsetDateTime::from_unix_timestamp(value.second).unwrap();
                second
                    .replace_nanosecond(value.nanosecond)
                    .unwrap()
                    .to_offset(UtcOffset::from_whole_seconds(value.offset).unwrap())
            }

            /// The parts that are known.
            fn parts_of(parsed: &Parsed) -> String {
                let years = (parsed.year(), parsed.year_last_two(), parsed.iso_year(), parsed.iso_year_last_two());
                let weeks = (parsed.iso_week_number(), parsed.sunday_week_number(), parsed.monday_week_number());
                let days = (parsed.month(), parsed.day(), parsed.ordinal(), parsed.weekday());
                let hours = (parsed.hour_24(), parsed.hour_12(), parsed.hour_12_is_pm());
                let below = (parsed.minute(), parsed.second(), parsed.subsecond());
                // The peer gives no sign to the parts below the hour.
                let below_hour = [parsed.offset_minute_signed(), parsed.offset_second_signed()];
                let offset = (parsed.offset_hour(), below_hour.map(|part| part.map(i8::unsigned_abs)));
                format!("{years:?} {weeks:?} {days:?} {hours:?} {below:?} {offset:?}")
            }

            /// What the front of a text is read as by groups of items, some of which fail.
            pub fn read_groups(text: &str, items: &[FormatItem<'_>]) -> [Group; 5] {
                let all = FormatItem::Compound(items);
                let rest = FormatItem::Compound(items.get(1..).unwrap_or_default());
                let (whole_first, rest_first) = ([all.clone(), rest.clone()], [rest.clone(), all.clone()]);
                let groups = [
                    all.clone(),
                    FormatItem::Optional(&all),
                    FormatItem::Optional(&rest),
                    FormatItem::First(&whole_first),
                    FormatItem::First(&rest_first),
                ];
                groups.map(|group| {
                    let mut parsed = Parsed::new();
                    let read = parsed.parse_item(text.as_bytes(), &group);
                    Group { left: read.map(<[u8]>::len).map_err(|error| format!("{error:?}")), parts: parts_of(&parsed) }
                })
            }

            /// What is written, and what a text is read as: a date, a time of day, an offset and a date-time.
            pub fn write_value(value: &Value, items: &Vec<FormatItem<'_>>) -> Option<String> {
                at(value).format(items).ok()
            }

            pub fn read(text: &str, items: &Vec<FormatItem<'_>>) -> [Option<String>; 4] {
                [
                    Date::parse(text, items).ok().map(|it| it.to_string()),
                    Time::parse(text, items).ok().map(|it| it.to_string()),
                    UtcOffset::parse(text, items).ok().map(|it| it.whole_seconds().to_string()),
                    OffsetDateTime::parse(text, items).ok().map(|it| it.unix_timestamp_nanos().to_string()),
                ]
            }
        }
    };
}

package!(here, muxandu);
package!(there, time);

/// Whether a description names a part twice, so that its second text may contradict the first.
fn repeats_a_part(description: &str) -> bool {
    let is_repeated = |words: &[&str]| words.iter().map(|word| description.matches(word).count()).sum::<usize>() > 1;
    is_repeated(&["[year"])
        || is_repeated(&["[month", "[day", "[ordinal", "[week"])
        || is_repeated(&["[hour", "[period"])
        || ["[minute", "[second", "[subsecond", "[offset_hour", "[offset_minute", "[offset_second"]
            .iter()
            .any(|word| is_repeated(&[word]))
}

const CONTRADICTION: &str = "a part that contradicts another is an error";
const OTHER_RANGE: &str = "a part that the type has not may be out of its range";

/// Whether a text has a year of more than four digits, which only a feature of the peer reads.
fn has_long_year(text: &str) -> bool {
    text.split(['-', '+']).skip(1).any(|rest| rest.len() > 4 && rest.bytes().take(5).all(|byte| byte.is_ascii_digit()))
}

/// Why a group may fit another part of the text for one of the two, as docs/guide/RUST.md states it, or None. If it fits the same part,
/// both know the same.
fn reason_of_group(description: &str, text: &str, here: &Group, there: &Group) -> Option<&'static str> {
    let has = |words: &[&str]| words.iter().any(|word| description.contains(word));
    match here.left == there.left {
        true => None,
        false if repeats_a_part(description) => Some(CONTRADICTION),
        false if has(&["[month", "[day", "[ordinal", "[week_number]", "repr:12"]) => Some(OTHER_RANGE),
        false => (has(&["[year"]) && has_long_year(text)).then_some("a year has up to six digits after a sign"),
    }
}

/// Why the two may differ, as docs/guide/RUST.md states it, or None.
fn reason_of(description: &str, text: &str, kind: usize, here: &Option<String>, there: &Option<String>) -> Option<&'static str> {
    let has = |word: &str| description.contains(word);
    match (here, there) {
        _ if kind >= 2 && (text.contains("-00") || has("[offset_hour padding:none]") && text.contains("-0")) => {
            Some("an offset of no hours keeps its sign")
        }
        (None, Some(_)) if repeats_a_part(description) => Some(CONTRADICTION),
        (Some(_), None) if kind % 2 == 1 && !has("[minute") => Some("a time of day needs no minute"),
        (Some(_), None) if kind < 3 => Some(OTHER_RANGE),
        (Some(_), None) if kind >= 2 && (text.contains("-2") || text.contains("+2") || text.contains(" 2")) => {
            Some("an offset may have 24 and 25 hours")
        }
        _ => None,
    }
}

/// How many answers were compared, how many were wrong, and how often each difference was seen that is stated.
#[derive(Default)]
struct Counts {
    compared: u64,
    wrong: u64,
    stated: BTreeMap<&'static str, u64>,
}

impl Counts {
    /// Prints a wrong answer, if it is one of the first.
    fn tell(&mut self, told: String) {
        self.wrong += 1;
        if self.wrong < 30 {
            println!("{told}");
        }
    }

    /// Counts the answers of both to a question. The reason is that for which they may differ.
    fn compare<T: Debug + PartialEq>(&mut self, asked: &str, here: &T, there: &T, reason: Option<&'static str>) {
        self.compared += 1;
        match reason {
            _ if here == there => {}
            Some(why) => *self.stated.entry(why).or_insert(0) += 1,
            None => self.tell(format!("{asked} is {here:?} here, {there:?} there")),
        }
    }
}

/// A text, and the same with a byte changed.
fn with_a_change(text: &str, random: &mut Random) -> Vec<String> {
    let mut texts = vec![text.to_owned()];
    let mut bytes = text.to_owned().into_bytes();
    if !bytes.is_empty() {
        let place = random.below(bytes.len() as u64) as usize;
        bytes[place] = b"0123456789 -+:APMap"[random.below(19) as usize];
        texts.extend(String::from_utf8(bytes));
    }
    texts
}

/// Compares what both write and read by a description.
fn compare_by(description: &str, random: &mut Random, counts: &mut Counts) {
    let (Some(here), Some(there)) = (here::items(description), there::items(description)) else {
        return counts.tell(format!("{description} is a description for one of them"));
    };
    let value = Value::random(random);
    let (ours, theirs) = (here::write_value(&value, &here), there::write_value(&value, &there));
    counts.compare(&format!("what {description} writes"), &ours, &theirs, None);
    let Some(text) = ours.filter(|text| theirs.as_ref() == Some(text)) else {
        return;
    };
    for text in with_a_change(&text, random) {
        let asked = format!("what {description} reads in {text:?}");
        for (ours, theirs) in here::read_groups(&text, &here).iter().zip(&there::read_groups(&text, &there)) {
            let reason = reason_of_group(description, &text, ours, theirs);
            counts.compare(&format!("{asked} by a group"), ours, theirs, reason);
        }
        let (ours, theirs) = (here::read(&text, &here), there::read(&text, &there));
        for (kind, (ours, theirs)) in ours.iter().zip(&theirs).enumerate() {
            let reason = reason_of(description, &text, kind, ours, theirs);
            counts.compare(&format!("{asked} ({kind})"), ours, theirs, reason);
        }
    }
}

fn main() {
    let mut words = std::env::args().skip(1).map(|word| word.parse::<u64>().expect("a number"));
    let rounds = words.next().unwrap_or(100_000);
    let mut random = Random(words.next().unwrap_or(1).wrapping_mul(0x9e37_79b9_7f4a_7c15) | 1);
    let mut counts = Counts::default();
    for _ in 0..rounds {
        let description = description(&mut random);
        compare_by(&description, &mut random, &mut counts);
    }
    for (why, count) in counts.stated {
        println!("stated|{why}|{count}");
    }
    println!("compared|{rounds}|{}|{}", counts.compared, counts.wrong);
}
