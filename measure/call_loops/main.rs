//! Measures calls of the crates in a caller's loop, beside the same work in bare Rust and, where they are installed, by the
//! crates `time` and chrono. measure/call_speed builds it:
//!
//!     calls names          prints the names of the rows
//!     calls ROUNDS NAME    measures a row
use std::ffi::c_int;

mod bare;
#[cfg(any(feature = "with_chrono", feature = "with_time"))]
mod loops;
#[cfg(feature = "with_chrono")]
mod with_chrono;
#[cfg(feature = "with_time")]
mod with_time;

// How many values a loop works on, how many are sorted, how many calls a run makes, and how many answers are compared
// one by one.
const HELD: usize = 16_384;
const SORTED: usize = 100_000;
pub const CALLS: usize = 8;
const COMPARED: usize = 4_000;

// The seconds that values lie within which are sorted and near one another.
const TWO_DAYS: i64 = 172_800;

// The processor time, in nanoseconds, that a measurement of one contender takes at least.
const LEAST: u64 = 4_000_000;

type Linked = unsafe extern "C" fn(*const i64, usize, *const i32, usize, u32, *mut u8, usize) -> u64;

// A slice crosses as its address and its length, and in a slice too.
#[allow(improper_ctypes)]
unsafe extern "C" {
    fn calls_parts_of_utc(s: *const i64, n: usize, o: *const i32, m: usize, rounds: u32, out: *mut u8, size: usize) -> u64;
    fn calls_parts_of_stamp(s: *const i64, n: usize, o: *const i32, m: usize, rounds: u32, out: *mut u8, size: usize) -> u64;
    fn calls_seconds_of_utc(s: *const i64, n: usize, o: *const i32, m: usize, rounds: u32, out: *mut u8, size: usize) -> u64;
    fn calls_shown_at_offset(s: *const i64, n: usize, o: *const i32, m: usize, rounds: u32, out: *mut u8, size: usize) -> u64;
    fn calls_sums_of_utc(s: *const i64, n: usize, o: *const i32, m: usize, rounds: u32, out: *mut u8, size: usize) -> u64;
    fn calls_sums_of_stamp(s: *const i64, n: usize, o: *const i32, m: usize, rounds: u32, out: *mut u8, size: usize) -> u64;
    fn calls_texts_of_utc(s: *const i64, n: usize, o: *const i32, m: usize, rounds: u32, out: *mut u8, size: usize) -> u64;
    fn calls_compared(s: *const i64, n: usize, o: *const i32, m: usize, rounds: u32, out: *mut u8, size: usize) -> u64;
    fn calls_sorted(s: *const i64, n: usize, o: *const i32, m: usize, rounds: u32, out: *mut u8, size: usize) -> u64;
    fn calls_written(s: *const i64, n: usize, o: *const i32, m: usize, rounds: u32, out: *mut u8, size: usize) -> u64;
    fn calls_read(texts: *const &[u8], n: usize, rounds: u32) -> u64;
    fn calls_run_of_utc(s: *const i64, n: usize, o: *const i32, m: usize, rounds: u32, out: *mut u8, size: usize) -> u64;
    fn calls_run_of_stamp(s: *const i64, n: usize, o: *const i32, m: usize, rounds: u32, out: *mut u8, size: usize) -> u64;
    fn clock_gettime(clock: c_int, time: *mut [i64; 2]) -> c_int;
}

/// The parts of a date-time in one number.
pub fn word(year: i32, high: u16, low: u8, hour: u8, minute: u8, second: u8) -> u64 {
    let date = u64::from(year < 0) << 20 | u64::from(year.unsigned_abs()) << 24 | u64::from(high) << 5 | u64::from(low);
    let clock = u64::from(hour) << 12 | u64::from(minute) << 6 | u64::from(second);
    date.wrapping_mul(1 << 18).wrapping_add(clock)
}

/// What a text was read as, in one number.
pub fn sum_of_parts(second: i64, nanosecond: u32, offset: i32) -> u64 {
    second
        .unsigned_abs()
        .wrapping_mul(1_000_003)
        .wrapping_add(u64::from(nanosecond))
        .wrapping_mul(1_000_003)
        .wrapping_add(u64::from(offset.unsigned_abs()))
        .wrapping_add(u64::from(offset < 0))
}

/// The seconds that a sum moves by.
pub fn delta(offset: i32) -> i64 {
    i64::from(offset) * 97
}

/// The nanosecond of a text: none, milliseconds in one text of two, nine digits in one of four.
pub fn nanosecond_after(second: i64) -> u32 {
    match second.rem_euclid(4) {
        0 => 0,
        3 => second.rem_euclid(1_000_000_000) as u32,
        _ => second.rem_euclid(1_000) as u32 * 1_000_000,
    }
}

/// A call of a run. Day and hour replace that part, and some of them are refused.
#[derive(Clone, Copy)]
pub enum Call<Duration, Offset> {
    CalendarDate,
    IsoWeekDate,
    Weekday,
    Hms,
    Nanosecond,
    Add(Duration),
    Subtract(Duration),
    Day(u8),
    Hour(u8),
    Shown(Offset),
}

/// The call that an item stands for.
pub fn call_of<Duration, Offset>(
    second: i64,
    offset: i32,
    duration: impl Fn(i64) -> Duration,
    shown: impl Fn(i32) -> Offset,
) -> Call<Duration, Offset> {
    let quarters = offset.unsigned_abs() / 900;
    match second.rem_euclid(10) {
        0 => Call::CalendarDate,
        1 => Call::IsoWeekDate,
        2 => Call::Weekday,
        3 => Call::Hms,
        4 => Call::Nanosecond,
        5 => Call::Add(duration(offset.into())),
        6 => Call::Subtract(duration(offset.into())),
        7 => Call::Day((quarters % 32) as u8),
        8 => Call::Hour((quarters % 25) as u8),
        _ => Call::Shown(shown(offset)),
    }
}

/// What a call replies: a date has a month or a week, and a day of it.
pub enum Reply<Now, Shown> {
    Date(i32, u8, u8),
    Hms(u8, u8, u8),
    Number(u32),
    Now(Now),
    Shown(Shown),
    Refused,
    RefusedPart(&'static str),
}

/// What a run replied, in one number.
pub fn told_replies<Now, Shown>(
    replies: &[Reply<Now, Shown>],
    told_now: impl Fn(&Now) -> u64,
    told_shown: impl Fn(&Shown) -> u64,
) -> u64 {
    replies.iter().fold(0, |sum, reply| {
        let told = match reply {
            Reply::Date(year, high, low) => word(*year, (*high).into(), *low, 0, 0, 0),
            Reply::Hms(hour, minute, second) => word(0, 0, 0, *hour, *minute, *second),
            Reply::Number(number) => u64::from(*number),
            Reply::Now(now) => told_now(now),
            Reply::Shown(shown) => told_shown(shown),
            Reply::Refused => 1,
            Reply::RefusedPart(name) => name.len() as u64,
        };
        sum.wrapping_mul(31).wrapping_add(told)
    })
}

// What a loop works on.
#[derive(Clone, Default)]
struct Input {
    seconds: Vec<i64>,
    offsets: Vec<i32>,
    texts: Vec<Vec<u8>>,
}

enum Loop {
    Linked(Linked),
    Rust(fn(&[i64], &[i32], u32, &mut [u8]) -> u64),
    LinkedReader(unsafe extern "C" fn(*const &[u8], usize, u32) -> u64),
    RustReader(fn(&[&[u8]], u32) -> u64),
}

impl Loop {
    fn run(&self, input: &Input, views: &[&[u8]], rounds: u32, out: &mut [u8]) -> u64 {
        let (s, o) = (&input.seconds, &input.offsets);
        match self {
            Loop::Linked(f) => unsafe { f(s.as_ptr(), s.len(), o.as_ptr(), o.len(), rounds, out.as_mut_ptr(), out.len()) },
            Loop::Rust(f) => f(s, o, rounds, out),
            Loop::LinkedReader(f) => unsafe { f(views.as_ptr(), views.len(), rounds) },
            Loop::RustReader(f) => f(views, rounds),
        }
    }
}

struct Contender {
    name: &'static str,
    code: Loop,
    // Whether its answers are compared with those of the first.
    same: bool,
}

struct Row {
    name: &'static str,
    contenders: Vec<Contender>,
    input: Input,
    // How many items an answer is of.
    group: usize,
}

// A random number, the same at each run.
struct Source(u64);

impl Source {
    fn next(&mut self) -> u64 {
        self.0 ^= self.0 << 13;
        self.0 ^= self.0 >> 7;
        self.0 ^= self.0 << 17;
        self.0
    }

    fn between(&mut self, first: i64, last: i64) -> i64 {
        first + (self.next() % (last - first + 1) as u64) as i64
    }
}

// The seconds of the processor that this thread has had, in nanoseconds.
fn processor_time() -> u64 {
    let mut time = [0; 2];
    unsafe { clock_gettime(3, &mut time) };
    time[0] as u64 * 1_000_000_000 + time[1] as u64
}

fn views(input: &Input) -> Vec<&[u8]> {
    input.texts.iter().map(Vec::as_slice).collect()
}

fn part(input: &Input, from: usize, count: usize) -> Input {
    let seconds = input.seconds.iter().skip(from).take(count).copied().collect();
    let offsets = input.offsets.iter().skip(from).take(count).copied().collect();
    let texts = input.texts.iter().skip(from).take(count).cloned().collect();
    Input { seconds, offsets, texts }
}

// Ends the program where two contenders have another answer to an item, or to all.
fn compare_answers(row: &Row) {
    let parts = (0..COMPARED).map(|from| part(&row.input, from, row.group)).filter(|_| row.group < SORTED);
    for input in parts.chain([row.input.clone()]) {
        for rounds in [1, 2] {
            let mut expected: Option<(u64, Vec<u8>)> = None;
            for contender in row.contenders.iter().filter(|contender| contender.same) {
                let mut out = vec![0; 64];
                let answer = contender.code.run(&input, &views(&input), rounds, &mut out);
                let (first, bytes) = expected.get_or_insert_with(|| (answer, out.clone()));
                if *first != answer || *bytes != out {
                    println!("{}: {} answers {answer} {:?}", row.name, contender.name, String::from_utf8_lossy(&out));
                    println!("and {} {first} {:?}", row.contenders[0].name, String::from_utf8_lossy(bytes));
                    let count = row.group.min(input.seconds.len());
                    println!("to {:?} {:?} {:?}", &input.seconds[..count], &input.offsets[..count], views(&input).first());
                    std::process::exit(1);
                }
            }
        }
    }
}

fn measure(kind: &str, row: &Row, rounds: usize) {
    let views = views(&row.input);
    let count = row.input.seconds.len().max(views.len()) as f64;
    let mut out = vec![0; 64];
    let mut inner = 2_u32;
    let time = |code: &Loop, inner: u32, out: &mut [u8]| {
        let from = processor_time();
        std::hint::black_box(code.run(&row.input, &views, inner, out));
        processor_time() - from
    };
    while row.contenders.iter().any(|contender| time(&contender.code, inner, &mut out) < LEAST) && inner < 1 << 12 {
        inner *= 2;
    }
    // What a loop builds before its rounds is taken away: the time of half as many rounds.
    let mut times = vec![Vec::new(); row.contenders.len()];
    for round in 0..rounds {
        for turn in 0..row.contenders.len() {
            let which = (turn + round) % row.contenders.len();
            let code = &row.contenders[which].code;
            let (long, short) = (time(code, 2 * inner, &mut out), time(code, inner, &mut out));
            times[which].push(long.saturating_sub(short) as f64 / f64::from(inner) / count);
        }
    }
    for (contender, own) in row.contenders.iter().zip(&times) {
        let told: Vec<String> = own.iter().map(|time| format!("{time:.3}")).collect();
        println!("{kind}|{}|{}|{}", row.name, contender.name, told.join(","));
    }
}

fn row(name: &'static str, input: &Input, group: usize, contenders: Vec<(&'static str, Loop)>) -> Row {
    let contenders = contenders
        .into_iter()
        .map(|(name, code)| Contender { name: name.trim_end_matches('*'), code, same: !name.ends_with('*') })
        .collect();
    Row { name, contenders, input: input.clone(), group }
}

// The rows of the table, each with the loops over the crates by their names and those of the other contenders.
macro_rules! table {
    ($(
        $row:literal, $input:expr, $group:expr; $word:ident, $variant:ident;
        $($name:literal: $code:expr),+; $time:literal $(, $chrono:literal)?;
    )+) => {
        vec![$(row($row, $input, $group, {
            let mut all = vec![("bare", Loop::$variant(bare::$word))];
            all.extend([$(($name, $code)),+]);
            #[cfg(feature = "with_time")]
            all.push(($time, Loop::$variant(with_time::$word)));
            $(
                #[cfg(feature = "with_chrono")]
                all.push(($chrono, Loop::$variant(with_chrono::$word)));
            )?
            all
        })),+]
    };
}

fn rows(source: &mut Source, first: i64, last: i64) -> Vec<Row> {
    let seconds: Vec<i64> = (0..HELD).map(|_| source.between(first, last)).collect();
    // `time` 0.3.9 reads an offset of less than an hour west as one east: none is taken.
    let quarters = |source: &mut Source| match source.between(-56, 56) as i32 {
        -3..0 => 0,
        quarters => quarters * 900,
    };
    let mixed: Vec<i32> = (0..HELD).map(|_| quarters(source)).collect();
    // Each item a day at most from the one before it.
    let mut near = vec![source.between(first, last)];
    while near.len() < HELD {
        let last = near[near.len() - 1];
        near.push(last + source.between(-86_400, 86_400));
    }
    let one = vec![quarters(source); HELD];
    let with =
        |seconds: &[i64], offsets: &[i32]| Input { seconds: seconds.to_vec(), offsets: offsets.to_vec(), texts: Vec::new() };
    let plain = with(&seconds, &mixed);
    let long_seconds: Vec<i64> = (0..SORTED).map(|_| source.between(first, last)).collect();
    let long_offsets: Vec<i32> = (0..SORTED).map(|_| quarters(source)).collect();
    let from = source.between(first, last - TWO_DAYS);
    let long_near: Vec<i64> = (0..SORTED).map(|_| source.between(from, from + TWO_DAYS)).collect();
    let of_years: Vec<i64> = seconds.iter().map(|second| (*second).max(-62_000_000_000)).collect();
    let fractions = with(&of_years, &mixed);
    let texts = of_years
        .iter()
        .zip(&mixed)
        .map(|(second, offset)| {
            let mut out = [0; 64];
            let end = bare::write(&[*second], &[*offset], 1, &mut out) as usize;
            out[..end].to_vec()
        })
        .collect();
    let spelled = Input { texts, ..Input::default() };
    table! {
        "parts", &plain, 1; parts, Rust;
            "UtcDateTime": Loop::Linked(calls_parts_of_utc), "Timestamp": Loop::Linked(calls_parts_of_stamp); "time", "chrono";
        "offset", &plain, 1; shown_at_offset, Rust; "here": Loop::Linked(calls_shown_at_offset); "time", "chrono";
        "sum", &plain, 1; sums, Rust;
            "UtcDateTime": Loop::Linked(calls_sums_of_utc), "Timestamp": Loop::Linked(calls_sums_of_stamp); "time", "chrono";
        "second", &plain, 1; seconds_again, Rust; "here": Loop::Linked(calls_seconds_of_utc); "time", "chrono";
        "text", &plain, 1; texts, Rust; "here": Loop::Linked(calls_texts_of_utc); "time*", "chrono*";
        "compare far", &plain, 2; compare, Rust; "here": Loop::Linked(calls_compared); "time", "chrono";
        "compare near, one offset", &with(&near, &one), 2; compare, Rust; "here": Loop::Linked(calls_compared); "time", "chrono";
        "compare near, two offsets", &with(&near, &mixed), 2; compare, Rust;
            "here": Loop::Linked(calls_compared); "time", "chrono";
        "sort", &with(&long_seconds, &long_offsets), SORTED; sorted, Rust; "here": Loop::Linked(calls_sorted); "time", "chrono";
        "sort near", &with(&long_near, &long_offsets), SORTED; sorted, Rust; "here": Loop::Linked(calls_sorted); "time", "chrono";
        "RFC 3339 written", &fractions, 1; write, Rust; "here": Loop::Linked(calls_written); "time", "chrono*";
        "RFC 3339 read", &spelled, 1; read, RustReader; "here": Loop::LinkedReader(calls_read); "time", "chrono";
        "run", &plain, CALLS; run, Rust;
            "UtcDateTime": Loop::Linked(calls_run_of_utc), "Timestamp": Loop::Linked(calls_run_of_stamp); "time";
    }
}

// The last days of the years -9999 and 9999 are left out, so that an offset and a sum stay in the range of all.
const YEARS: [(&str, i64, i64); 2] =
    [("2017 to 2021", 1_483_228_800, 1_640_995_199), ("-9999 to 9999", -377_700_000_000, 253_390_000_000)];

fn run(words: &[String]) {
    let mut source = Source(88_172_645_463_325_252);
    for (kind, first, last) in YEARS {
        let rows = rows(&mut source, first, last);
        if words[0] == "names" {
            rows.iter().for_each(|row| println!("{}", row.name));
            return;
        }
        let rounds = words[0].parse().expect("a number of rounds");
        for row in rows.iter().filter(|row| row.name == words[1]) {
            compare_answers(row);
            measure(kind, row, rounds);
        }
    }
}

fn main() {
    let words: Vec<String> = std::env::args().skip(1).collect();
    // The tables of the loops stand on the stack.
    let runner = std::thread::Builder::new().stack_size(1 << 28).spawn(move || run(&words));
    runner.expect("a thread").join().expect("all answers");
}
