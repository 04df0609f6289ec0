//! Time zones of the Rust package and of chrono-tz: `zones_bench LIBRARY CALL FROM UNTIL ROUNDS [time]` makes a call so often.
//!
//! LIBRARY is `muxandu` or `chrono`. CALL is `offset`, the offset of Europe/Berlin at an instant, or `local`, the instants of a wall
//! clock, of random seconds from one Unix second to another. `sorted` has the offsets at these seconds in their order, in one call for a
//! ring by `muxandu`. `read` reads the file of the zone, by `muxandu` alone. It prints a sum of what the calls gave, by which two
//! libraries can be compared, or with `time` the nanoseconds a call of the quickest of 20 runs.

use std::hint::black_box;
use std::time::Instant;

/// Seconds in a ring.
const COUNT: usize = 4_096;

fn seconds(from: i64, until: i64) -> Vec<i64> {
    let mut state = 1_u64;
    let mut next = || {
        state = state.wrapping_mul(6_364_136_223_846_793_005).wrapping_add(1_442_695_040_888_963_407);
        (state >> 16) as i64
    };
    (0..COUNT).map(|_| from + next() % (until - from)).collect()
}

fn in_order(seconds: &[i64]) -> Vec<i64> {
    let mut sorted = seconds.to_vec();
    sorted.sort_unstable();
    sorted
}

/// A number of rounds, which gives a sum of what they gave. What it needs is made before.
type Rounds = Box<dyn Fn(usize) -> i64>;

/// What a call gives of each of these values in a ring.
fn sum_of<T: Copy + 'static>(values: Vec<T>, call: impl Fn(T) -> i64 + 'static) -> Rounds {
    Box::new(move |rounds| (0..rounds).map(|n| call(black_box(values[n % COUNT]))).fold(0, i64::wrapping_add))
}

fn muxandu(call: &str, seconds: &[i64]) -> Rounds {
    use muxandu::zones::{LocalTimes, Zone};
    use muxandu::{PlainDateTime, Timestamp, UtcDateTime, UtcOffset};

    let zone = Zone::named("Europe/Berlin").unwrap();
    match call {
        "offset" => {
            let values = seconds.iter().map(|&it| Timestamp::from_seconds(it).unwrap()).collect();
            sum_of(values, move |at: Timestamp| zone.offset_at(at).whole_seconds().into())
        }
        "sorted" => {
            let values: Vec<_> = in_order(seconds).iter().map(|&it| Timestamp::from_seconds(it).unwrap()).collect();
            let sum = |offsets: Vec<UtcOffset>| offsets.iter().map(|it| i64::from(it.whole_seconds())).sum::<i64>();
            Box::new(move |rounds| (0..rounds / COUNT).map(|_| sum(zone.offsets_at(black_box(&values)))).sum())
        }
        "local" => {
            let values = seconds.iter().map(|&it| UtcDateTime::from_unix_timestamp(it).unwrap().as_plain()).collect();
            sum_of(values, move |wall: PlainDateTime| match wall.at_zone(&zone) {
                LocalTimes::Single(at) | LocalTimes::Fold(at, _) => at.offset().whole_seconds().into(),
                LocalTimes::Gap(..) => 0,
            })
        }
        _ => {
            let bytes = std::fs::read("/usr/share/zoneinfo/Europe/Berlin").unwrap();
            Box::new(move |rounds| (0..rounds).map(|_| i64::from(Zone::from_tzif(black_box(&bytes)).is_ok())).sum())
        }
    }
}

fn chrono(call: &str, seconds: &[i64]) -> Rounds {
    use chrono::{LocalResult, NaiveDateTime, Offset, TimeZone};

    let zone = black_box(chrono_tz::Europe::Berlin);
    let sorted = in_order(seconds);
    let asked = if call == "sorted" { &sorted } else { seconds };
    let values: Vec<NaiveDateTime> = asked.iter().map(|&it| NaiveDateTime::from_timestamp_opt(it, 0).unwrap()).collect();
    match call {
        "offset" | "sorted" => sum_of(values, move |at| zone.offset_from_utc_datetime(&at).fix().local_minus_utc().into()),
        _ => sum_of(values, move |wall| match zone.offset_from_local_datetime(&wall) {
            LocalResult::Single(offset) | LocalResult::Ambiguous(offset, _) => offset.fix().local_minus_utc().into(),
            LocalResult::None => 0,
        }),
    }
}

fn main() {
    let words: Vec<String> = std::env::args().skip(1).collect();
    let [from, until, rounds] = [2, 3, 4].map(|place| words[place].parse::<i64>().unwrap());
    let run = match words[0].as_str() {
        "muxandu" => muxandu,
        _ => chrono,
    };
    let run = run(&words[1], &seconds(from, until));
    if words.len() < 6 {
        println!("{}", run(rounds as usize));
        return;
    }
    let quickest = (0..20).map(|_| {
        let begin = Instant::now();
        black_box(run(rounds as usize));
        begin.elapsed().as_nanos() as f64 / rounds as f64
    });
    println!("{:.1}", quickest.fold(f64::INFINITY, f64::min));
}
