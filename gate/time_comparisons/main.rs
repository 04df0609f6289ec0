//! Compares the library for C with the crate `time` 0.3.9. gate/beside_time builds it, and reads what it prints.
//!
//!     time_comparisons ROUNDS SEED
//!
//! What 0.3.9 does otherwise, and is stated, is foretold: its answer must then be the one that was foretold.
use std::fmt::{self, Debug};

mod dates;
mod instants;
#[allow(dead_code, unused_imports, unused_macros)]
mod muxandu_sys;
mod offsets;
mod parts;
mod source;
mod texts;

use muxandu_sys as sys;
use source::Source;
use time::error::ComponentRange;
use time::{Duration, OffsetDateTime};

/// How many differences of a kind are shown.
const SHOWN: u64 = 5;

/// What was compared of one kind.
#[derive(Default)]
pub struct Compared {
    name: &'static str,
    count: u64,
    wrong: u64,
    stated: Vec<(&'static str, u64)>,
}

impl Compared {
    fn count(&mut self, is_same: bool, difference: fmt::Arguments) {
        self.count += 1;
        if !is_same {
            self.wrong += 1;
            if self.wrong <= SHOWN {
                println!("{difference}");
            }
        }
    }

    /// Compares the answers to a call, and shows the first that differ.
    pub fn same<T: PartialEq + Debug>(&mut self, call: &str, input: impl Debug, ours: T, theirs: T) {
        let is_same = ours == theirs;
        self.count(is_same, format_args!("{call} of {input:?}: {ours:?}, and beside it {theirs:?}"));
    }

    /// Counts a stated difference.
    pub fn state(&mut self, stated: &'static str) {
        match self.stated.iter_mut().find(|(name, _)| *name == stated) {
            Some((_, count)) => *count += 1,
            None => self.stated.push((stated, 1)),
        }
    }

    /// Compares an answer of `time` with what was foretold, which is a stated difference where that is not ours.
    pub fn foretold<T: PartialEq + Debug>(
        &mut self,
        call: &str,
        input: impl Debug,
        stated: &'static str,
        (ours, foretold, theirs): (T, T, T),
    ) {
        if ours != foretold {
            self.state(stated);
        }
        let is_same = foretold == theirs;
        let of = format_args!("{call} of {input:?}: {ours:?}, and beside it {theirs:?}, where {foretold:?} was foretold");
        self.count(is_same, of);
    }
}

/// What a call answers: its result, or the name of what it refuses.
pub type Answer<T> = Result<T, &'static str>;

/// What a call of the library answers, by its status.
pub fn answer_of<T: Default>(call: impl FnOnce(&mut T) -> u32) -> Answer<T> {
    let mut out = T::default();
    match call(&mut out) {
        sys::OK => Ok(out),
        status => Err(name(status)),
    }
}

/// The name that `time` has for what a status refuses, and one of our own where it has none.
pub fn name(status: u32) -> &'static str {
    match status {
        sys::OK => "nothing",
        sys::REFUSED_YEAR => "year",
        sys::REFUSED_DAY | sys::REFUSED_DAY_OF_MONTH => "day",
        sys::REFUSED_ORDINAL | sys::REFUSED_ORDINAL_OF_YEAR => "ordinal",
        sys::REFUSED_WEEK | sys::REFUSED_WEEK_OF_YEAR => "week",
        sys::REFUSED_MONTH => "month",
        sys::REFUSED_HOUR => "hour",
        sys::REFUSED_MINUTE => "minute",
        sys::REFUSED_SECOND => "second",
        sys::REFUSED_NANOSECOND => "nanosecond",
        sys::REFUSED_OFFSET_SECONDS => "seconds",
        sys::REFUSED_TIMESTAMP => "timestamp",
        sys::REFUSED_DAY_NUMBER => "julian_day",
        sys::REFUSED_OFFSET_HOUR => "offset hour",
        sys::REFUSED_OFFSET_MINUTE => "offset minute",
        sys::REFUSED_DURATION => "duration",
        sys::REFUSED_RESULT => "result",
        sys::REFUSED_SYNTAX => "syntax",
        sys::REFUSED_NO_TEXT => "no text",
        _ => "another",
    }
}

/// The name of what `time` refuses.
pub fn named(refusal: ComponentRange) -> &'static str {
    refusal.name()
}

/// Compares the marks of two refusals, which say whether the range depends on other parts. It does where some month or year
/// has the number; 0.3.9 marks any number of such a part.
pub fn compare_marks(
    of: &mut Compared,
    call: &str,
    input: impl Debug,
    (status, is_of_some): (u32, bool),
    refusal: ComponentRange,
) {
    let ours = matches!(status, sys::REFUSED_DAY_OF_MONTH | sys::REFUSED_ORDINAL_OF_YEAR | sys::REFUSED_WEEK_OF_YEAR);
    if ours != refusal.is_conditional() {
        of.state("0.3.9 calls the range conditional of a day, a day of the year or a week that there never is");
    }
    of.same(call, ("whether the range is conditional", input), ours, refusal.is_conditional() && is_of_some);
}

/// What a date-time of `time` shows, which may lie past the range.
pub fn parts_of(at: OffsetDateTime) -> sys::MuxanduDateTime {
    let (year, month, day) = at.to_calendar_date();
    let (hour, minute, second, nanosecond) = at.to_hms_nano();
    let offset_seconds = at.offset().whole_seconds();
    sys::MuxanduDateTime { year, month: month.into(), day, hour, minute, second, nanosecond, offset_seconds }
}

/// The same, refused past the range: 0.3.9 goes on, and shows the year before the first or after the last.
pub fn shown_in_range(at: OffsetDateTime) -> Answer<sys::MuxanduDateTime> {
    if source::is_in_range(at.year()) { Ok(parts_of(at)) } else { Err("result") }
}

/// The instant of a date-time of `time`, refused past the range as above.
pub fn instant(at: OffsetDateTime) -> Answer<sys::MuxanduTimestamp> {
    let seconds = at.unix_timestamp();
    match OffsetDateTime::from_unix_timestamp(seconds) {
        Ok(_) => Ok(sys::MuxanduTimestamp { seconds, nanoseconds: at.nanosecond() }),
        Err(_) => Err("result"),
    }
}

/// The parts of a duration of `time`.
pub fn lasting(duration: Duration) -> sys::MuxanduDuration {
    sys::MuxanduDuration { seconds: duration.whole_seconds(), nanoseconds: duration.subsec_nanoseconds() }
}

type Kind = (&'static str, fn(&mut Source, &mut Compared));

const KINDS: &[Kind] = &[
    ("Unix seconds to date-times and back", instants::compare_parts),
    ("counts of milliseconds, microseconds, nanoseconds", instants::compare_counts),
    ("durations of any parts", instants::compare_durations),
    ("sums of instants", instants::compare_sums),
    ("differences and order of instants", instants::compare_two),
    ("instants rounded down", instants::compare_truncations),
    ("offsets, and instants at them and back", offsets::compare_conversions),
    ("sums at offsets", offsets::compare_sums),
    ("differences and order at offsets", offsets::compare_two),
    ("date-times rounded down", offsets::compare_truncations),
    ("date-times of any parts", parts::compare_parts),
    ("replaced parts", parts::compare_replacements),
    ("days and dates", dates::compare_dates),
    ("days and days of the year", dates::compare_ordinals),
    ("days and ISO weeks, days of the week", dates::compare_weeks),
    ("many items at once", offsets::compare_many),
    ("the library's own texts", texts::compare_own),
    ("texts of RFC 3339 written", texts::compare_written),
    ("texts of RFC 3339 read", texts::compare_read),
];

fn main() {
    let words: Vec<u64> = std::env::args().skip(1).map(|word| word.parse().expect("a number")).collect();
    let &[rounds, seed] = words.as_slice() else { panic!("usage: time_comparisons ROUNDS SEED") };
    let mut wrong = 0;
    for (kind, compare) in KINDS {
        let mut source = Source::new(seed);
        let mut of = Compared { name: kind, ..Compared::default() };
        for _ in 0..rounds {
            compare(&mut source, &mut of);
        }
        for (name, count) in &of.stated {
            println!("stated|{}|{name}|{count}", of.name);
        }
        println!("compared|{}|{}|{}", of.name, of.count, of.wrong);
        wrong += of.wrong;
    }
    std::process::exit(i32::from(wrong > 0));
}
