// The types and the forms that the package and `time` 0.3.9 have, by the same text over either: `library` is one of them.
use std::collections::BTreeMap;

use library::{Date, Duration, Month, OffsetDateTime, PrimitiveDateTime, Time, UtcOffset, Weekday};
use rand::rngs::SmallRng;
use rand::{Rng, SeedableRng};
use serde::{Deserialize, Serialize};

#[derive(Deserialize, Serialize)]
struct Fields {
    #[serde(with = "library::serde::timestamp")]
    begins: OffsetDateTime,
    #[serde(with = "library::serde::timestamp::option")]
    ends: Option<OffsetDateTime>,
    #[cfg(feature = "human")]
    #[serde(with = "library::serde::rfc3339")]
    written: OffsetDateTime,
    #[cfg(feature = "human")]
    #[serde(with = "library::serde::rfc3339::option")]
    read: Option<OffsetDateTime>,
}

/// An instant of the years 0 to 9999, at an offset of whole minutes.
fn of_rfc3339(rng: &mut SmallRng) -> OffsetDateTime {
    let second = rng.gen_range(-62_167_132_800..253_402_214_400);
    let offset = UtcOffset::from_whole_seconds(rng.gen_range(-1_439..1_440) * 60).unwrap();
    let at = OffsetDateTime::from_unix_timestamp(second).unwrap();
    at.to_offset(offset) + Duration::nanoseconds(rng.gen_range(0..1_000) * 1_000_000)
}

fn fields(rng: &mut SmallRng) -> Fields {
    Fields {
        begins: of_rfc3339(rng),
        ends: rng.r#gen::<bool>().then(|| of_rfc3339(rng)),
        #[cfg(feature = "human")]
        written: of_rfc3339(rng),
        #[cfg(feature = "human")]
        read: rng.r#gen::<bool>().then(|| of_rfc3339(rng)),
    }
}

/// Dates of the years -9999 to 9999, whose texts are longer in no release.
fn date(rng: &mut SmallRng) -> Date {
    Date::from_ordinal_date(rng.gen_range(-9_999..=9_999), rng.gen_range(1..=365)).unwrap()
}

/// Numbers as keys of maps are no texts: those are for people.
#[cfg(feature = "human")]
type Counts = BTreeMap<Date, u8>;
#[cfg(not(feature = "human"))]
type Counts = BTreeMap<u8, Date>;

fn counts(rng: &mut SmallRng) -> Counts {
    let days = (0..3).map(|count| (date(rng), count));
    #[cfg(feature = "human")]
    return days.collect();
    #[cfg(not(feature = "human"))]
    return days.map(|(date, count)| (count, date)).collect();
}

macro_rules! kinds {
    ($($place:literal $Type:ty: $rng:ident => $made:expr;)+) => {
        /// What serde_json and bincode write of random values of each kind.
        pub fn write_values(seed: u64) -> Vec<(String, Vec<u8>)> {
            let mut rng = SmallRng::seed_from_u64(seed);
            vec![$({
                let $rng = &mut rng;
                let value: $Type = $made;
                (serde_json::to_string(&value).unwrap(), bincode::serialize(&value).unwrap())
            },)+]
        }

        /// What is written again of a text of a kind, or that it is no value.
        pub fn read(place: usize, text: &str) -> String {
            match place {
                $($place => serde_json::from_str::<$Type>(text)
                    .map_or("no value".to_owned(), |value| serde_json::to_string(&value).unwrap()),)+
                _ => unreachable!(),
            }
        }

        /// The text of what bincode has written.
        #[allow(dead_code)]
        pub fn read_bytes(place: usize, bytes: &[u8]) -> String {
            match place {
                $($place => bincode::deserialize::<$Type>(bytes)
                    .map_or("no value".to_owned(), |value| serde_json::to_string(&value).unwrap()),)+
                _ => unreachable!(),
            }
        }
    };
}

kinds! {
    0 Date: rng => rng.r#gen();
    1 Time: rng => rng.r#gen();
    2 UtcOffset: rng => rng.r#gen();
    3 PrimitiveDateTime: rng => rng.r#gen();
    4 OffsetDateTime: rng => rng.r#gen();
    5 Duration: rng => rng.r#gen();
    6 Month: rng => rng.r#gen();
    7 Weekday: rng => rng.r#gen();
    8 Vec<Date>: rng => (0..3).map(|_| date(rng)).collect();
    9 Counts: rng => counts(rng);
    10 Option<Time>: rng => rng.r#gen::<bool>().then(|| rng.r#gen());
    11 Fields: rng => fields(rng);
}

/// Whether 0.3.9 reads that text of a kind otherwise: it reads no number of a month or of a day of the week from JSON, no offset of
/// 24 hours and more, `-00:30` as `+00:30`, no space for the `T` of RFC 3339, a year of five digits without a sign, and a duration with
/// less than nine decimals as if they were nanoseconds.
#[allow(dead_code)]
pub fn differs(place: usize, text: &str) -> bool {
    let bare = text.trim_matches(['"', '[', ']']);
    let is_long = |part: &str| part.find('-').is_some_and(|at| at > 4 && part.as_bytes()[..at].iter().all(u8::is_ascii_digit));
    if text.split('"').any(is_long) {
        return true;
    }
    match place {
        2 | 4 if text.starts_with('[') => {
            let hours = bare.rsplit(',').nth(2).and_then(|hours| hours.parse::<i32>().ok());
            hours.is_some_and(|hours| hours.abs() >= 24)
        }
        2 | 4 => {
            let offset = bare.rsplit(' ').next().unwrap_or_default();
            offset.starts_with("-00") || offset.get(1..3).is_some_and(|hours| hours >= "24")
        }
        5 => bare.split_once('.').is_some_and(|(seconds, decimals)| {
            decimals.len() != 9 || seconds.starts_with('+') || decimals.starts_with(['+', '-'])
        }),
        6 | 7 => !text.starts_with('"'),
        11 => text.split('"').any(|part| {
            part.contains(' ')
                || part.len() > 6 && part.is_char_boundary(part.len() - 6) && part[part.len() - 6..].starts_with("-00")
        }),
        _ => false,
    }
}
