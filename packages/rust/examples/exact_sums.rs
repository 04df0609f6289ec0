//! Compares random sums, differences, products, quotients and orders with exact numbers of
//! nanoseconds in 128 bits.
//!
//!     cargo run --release --example exact_sums ROUNDS SEED
//!
//! A round has two values of each type, near the ends of the range, near 1970 and between, and two
//! durations. It tries every operator on them, and the checked and the saturating calls. The
//! numbers are those of the parts that the values show.

use std::fmt::Debug;
use std::panic::{UnwindSafe, catch_unwind, set_hook, take_hook};
use std::time::Duration as StdDuration;

use muxandu::{
    Date, OffsetDateTime, PlainDateTime, SignedDuration, Time, Timestamp, UtcDateTime, UtcOffset,
};

const SECOND: i128 = 1_000_000_000;
const DAY: i128 = 86_400 * SECOND;

/// The days of 1970-01-01 after the day before 0001-01-01.
const EPOCH: i64 = 719_163;

/// How many differences are printed.
const PRINTED: u64 = 20;

/// A value that is an exact number.
trait Exact: Copy + Debug {
    fn number(self) -> i128;
}

macro_rules! exact {
    ($($Type:ident: $value:ident => $number:expr;)+) => {
        $(
            impl Exact for $Type {
                fn number(self) -> i128 {
                    let $value = self;
                    i128::from($number)
                }
            }
        )+
    };
}

exact! {
    // Days since 1970-01-01.
    Date: date => {
        let before = i64::from(date.year()) - 1;
        let leap_years = before.div_euclid(4) - before.div_euclid(100) + before.div_euclid(400);
        before * 365 + leap_years + i64::from(date.ordinal()) - EPOCH
    };
    Time: time => {
        let (hour, minute, second, nanosecond) = time.as_hms_nano();
        let second = (i128::from(hour) * 60 + i128::from(minute)) * 60 + i128::from(second);
        second * SECOND + i128::from(nanosecond)
    };
    UtcOffset: offset => {
        let (hours, minutes, seconds) = offset.as_hms();
        (i32::from(hours) * 60 + i32::from(minutes)) * 60 + i32::from(seconds)
    };
    PlainDateTime: at => at.date().number() * DAY + at.time().number();
    UtcDateTime: at => at.date().number() * DAY + at.time().number();
    OffsetDateTime: at => at.date().number() * DAY + at.time().number() - at.offset().number() * SECOND;
    Timestamp: at => i128::from(at.as_seconds()) * SECOND + i128::from(at.nanosecond());
    SignedDuration: length => i128::from(length.whole_seconds()) * SECOND + i128::from(length.subsec_nanoseconds());
    StdDuration: length => i128::from(length.as_secs()) * SECOND + i128::from(length.subsec_nanos());
}

struct Random(u64);

impl Random {
    fn next(&mut self) -> u64 {
        self.0 ^= self.0 << 13;
        self.0 ^= self.0 >> 7;
        self.0 ^= self.0 << 17;
        self.0
    }

    /// A number of this range, its ends too.
    fn within(&mut self, least: i64, most: i64) -> i64 {
        least + ((self.next() >> 11) % (most - least + 1) as u64) as i64
    }

    fn date(&mut self) -> Date {
        let (first, last) = (Date::MIN.to_julian_day(), Date::MAX.to_julian_day());
        let epoch = Date::UNIX_EPOCH.to_julian_day();
        let day = match self.within(0, 7) {
            0 => i64::from(first) + self.within(0, 3),
            1 => i64::from(last) - self.within(0, 3),
            2 => i64::from(epoch) + self.within(-3, 3),
            3 | 4 => self.within(first.into(), last.into()),
            _ => i64::from(epoch) + self.within(-50_000, 50_000),
        };
        Date::from_julian_day(day as i32).expect("a day of the range")
    }

    fn time(&mut self) -> Time {
        let second = match self.within(0, 5) {
            0 => 0,
            1 => 86_399,
            _ => self.within(0, 86_399),
        };
        let parts = (second / 3_600, second / 60 % 60, second % 60);
        let nanosecond = self.nanoseconds() as u32;
        Time::from_hms_nano(parts.0 as u8, parts.1 as u8, parts.2 as u8, nanosecond)
            .expect("a time of day")
    }

    fn nanoseconds(&mut self) -> i32 {
        match self.within(0, 5) {
            0 => 0,
            1 => 999_999_999,
            2 => 1,
            _ => self.within(0, 999_999_999) as i32,
        }
    }

    fn offset(&mut self) -> UtcOffset {
        let seconds = match self.within(0, 3) {
            0 => 0,
            1 => self.within(-93_599, 93_599),
            _ => self.within(-56, 56) * 900,
        };
        UtcOffset::from_whole_seconds(seconds as i32).expect("an offset of the range")
    }

    /// A duration of each size, of both signs.
    fn duration(&mut self) -> SignedDuration {
        match self.within(0, 15) {
            0 => SignedDuration::MIN,
            1 => SignedDuration::MAX,
            2 => SignedDuration::ZERO,
            3 => SignedDuration::nanoseconds(self.within(-2, 2)),
            4 => SignedDuration::days(self.within(-3, 3)),
            _ => {
                let seconds = self.next() as i64 >> self.within(0, 63);
                let nanoseconds = self.nanoseconds();
                let sign =
                    if seconds < 0 || seconds == 0 && self.within(0, 1) == 0 { -1 } else { 1 };
                SignedDuration::new(seconds, nanoseconds * sign)
            }
        }
    }

    fn std_duration(&mut self) -> StdDuration {
        match self.within(0, 7) {
            0 => StdDuration::MAX,
            1 => StdDuration::ZERO,
            _ => StdDuration::new(self.next() >> self.within(0, 63), self.nanoseconds() as u32),
        }
    }
}

/// What was compared, and what differed.
#[derive(Default)]
struct Tally {
    compared: u64,
    wrong: u64,
}

impl Tally {
    fn see<T: PartialEq + Debug>(&mut self, what: &str, values: &dyn Debug, found: T, wanted: T) {
        self.compared += 1;
        if found != wanted {
            self.wrong += 1;
            if self.wrong <= PRINTED {
                println!("{what} of {values:?}: {found:?}, and exactly {wanted:?}");
            }
        }
    }
}

/// Whether a call panics, whose message is not printed.
fn panics<T>(call: impl FnOnce() -> T + UnwindSafe) -> bool {
    let hook = take_hook();
    set_hook(Box::new(|_| {}));
    let has_panicked = catch_unwind(call).is_err();
    set_hook(hook);
    has_panicked
}

/// The number of a value that may be missing.
fn number<T: Exact>(value: Option<T>) -> Option<i128> {
    value.map(Exact::number)
}

/// The number within a range, or none.
fn in_range(number: i128, (least, most): (i128, i128)) -> Option<i128> {
    (least..=most).contains(&number).then_some(number)
}

/// Sums of a value and a duration, by operators where the range has them, and by checked calls.
macro_rules! see_sums {
    ($tally:ident, $is_rare:expr, $value:expr, $duration:expr, $sum:expr, $difference:expr, $checked_add:ident, $checked_sub:ident) => {{
        let (value, duration) = ($value, $duration);
        let (sum, difference): (Option<i128>, Option<i128>) = ($sum, $difference);
        let values = (value, duration);
        $tally.see("checked_add", &values, number(value.$checked_add(duration)), sum);
        $tally.see("checked_sub", &values, number(value.$checked_sub(duration)), difference);
        if let Some(sum) = sum {
            $tally.see("+", &values, (value + duration).number(), sum);
            let mut moved = value;
            moved += duration;
            $tally.see("+=", &values, moved.number(), sum);
        } else if $is_rare {
            $tally.see("+ that panics", &values, panics(move || value + duration), true);
        }
        if let Some(difference) = difference {
            $tally.see("-", &values, (value - duration).number(), difference);
            let mut moved = value;
            moved -= duration;
            $tally.see("-=", &values, moved.number(), difference);
        } else if $is_rare {
            $tally.see("- that panics", &values, panics(move || value - duration), true);
        }
    }};
}

/// The difference and the order of two values, whose numbers have so many nanoseconds each.
macro_rules! see_pair {
    ($tally:ident, $first:expr, $second:expr, $unit:expr) => {{
        let (first, second) = ($first, $second);
        let (one, other) = (first.number(), second.number());
        let values = (first, second);
        $tally.see("- of two", &values, (first - second).number(), (one - other) * $unit);
        see_order!($tally, first, second);
    }};
}

macro_rules! see_order {
    ($tally:ident, $first:expr, $second:expr) => {{
        let (first, second) = ($first, $second);
        let (one, other) = (first.number(), second.number());
        let values = (first, second);
        let orders =
            (first == second, first < second, first <= second, first > second, first >= second);
        let exact = (one == other, one < other, one <= other, one > other, one >= other);
        $tally.see("==, <, <=, >, >=", &values, orders, exact);
        $tally.see("partial_cmp", &values, first.partial_cmp(&second), Some(one.cmp(&other)));
    }};
}

/// Products and quotients with whole numbers of a type.
macro_rules! see_factors {
    ($tally:ident, $is_rare:expr, $duration:expr, $range:expr, $($factor:expr),+) => {{
        let duration: SignedDuration = $duration;
        $(
            let factor = $factor;
            let (values, exact) = ((duration, factor), i128::from(factor));
            match in_range(duration.number() * exact, $range) {
                Some(product) => {
                    $tally.see("*", &values, (duration * factor).number(), product);
                    $tally.see("* of a number", &values, (factor * duration).number(), product);
                    let mut moved = duration;
                    moved *= factor;
                    $tally.see("*=", &values, moved.number(), product);
                }
                None if $is_rare => {
                    $tally.see("* that panics", &values, panics(move || duration * factor), true);
                }
                None => {}
            }
            if factor != 0 {
                if let Some(quotient) = in_range(duration.number() / exact, $range) {
                    $tally.see("/", &values, (duration / factor).number(), quotient);
                    let mut moved = duration;
                    moved /= factor;
                    $tally.see("/=", &values, moved.number(), quotient);
                }
            }
        )+
    }};
}

fn see_durations(random: &mut Random, tally: &mut Tally, is_rare: bool) {
    let range = (SignedDuration::MIN.number(), SignedDuration::MAX.number());
    let (first, second, std) = (random.duration(), random.duration(), random.std_duration());
    let (one, other) = (first.number(), second.number());
    let sums = (in_range(one + other, range), in_range(one - other, range));
    see_sums!(tally, is_rare, first, second, sums.0, sums.1, checked_add, checked_sub);
    see_order!(tally, first, second);
    see_order!(tally, first, std);
    see_order!(tally, std, first);
    let pair = (first, second);
    let clamped = |number: i128| number.clamp(range.0, range.1);
    tally.see("saturating_add", &pair, first.saturating_add(second).number(), clamped(one + other));
    tally.see("saturating_sub", &pair, first.saturating_sub(second).number(), clamped(one - other));
    tally.see("checked_neg", &first, number(first.checked_neg()), in_range(-one, range));
    tally.see("abs", &first, first.abs().number(), clamped(one.abs()));
    tally.see("unsigned_abs", &first, first.unsigned_abs().number(), one.abs());
    if let Some(negated) = in_range(-one, range) {
        tally.see("neg", &first, (-first).number(), negated);
    }
    if let (Some(sum), Some(_)) = (in_range(one + other, range), in_range(one + other + one, range))
    {
        let all = [first, second];
        tally.see("sum", &pair, all.iter().sum::<SignedDuration>().number(), sum);
        tally.see("sum", &pair, all.into_iter().sum::<SignedDuration>().number(), sum);
    }
    let beside = (first, std);
    if let Some(sum) = in_range(one + std.number(), range) {
        tally.see("+ of std", &beside, (first + std).number(), sum);
        tally.see("+ to std", &beside, (std + first).number(), sum);
    }
    if let Some(difference) = in_range(one - std.number(), range) {
        tally.see("- of std", &beside, (first - std).number(), difference);
    }
    if let Some(difference) = in_range(std.number() - one, range) {
        tally.see("- from std", &beside, (std - first).number(), difference);
    }
    let factor = random.next() as i32 >> random.within(0, 31);
    tally.see(
        "checked_mul",
        &(first, factor),
        number(first.checked_mul(factor)),
        in_range(one * i128::from(factor), range),
    );
    let saturated = first.saturating_mul(factor).number();
    tally.see("saturating_mul", &(first, factor), saturated, clamped(one * i128::from(factor)));
    let divisor = i128::from(factor);
    let quotient = if factor == 0 { None } else { in_range(one / divisor, range) };
    tally.see("checked_div", &(first, factor), number(first.checked_div(factor)), quotient);
    let bits = random.next();
    see_factors!(
        tally,
        is_rare,
        first,
        range,
        factor,
        factor as u32,
        bits as i8,
        bits as u8,
        bits as i16,
        bits as u16
    );
    let parts = (
        first.whole_days(),
        first.whole_hours(),
        first.whole_minutes(),
        first.whole_milliseconds(),
    );
    let counts = (one / DAY, one / (3_600 * SECOND), one / (60 * SECOND), one / 1_000_000);
    tally.see(
        "whole days, hours, minutes",
        &first,
        (parts.0.into(), parts.1.into(), parts.2.into(), parts.3),
        counts,
    );
    let finer = (first.whole_microseconds(), first.whole_nanoseconds());
    tally.see("whole microseconds, nanoseconds", &first, finer, (one / 1_000, one));
}

fn see_dates(random: &mut Random, tally: &mut Tally, is_rare: bool) {
    let range = (Date::MIN.number(), Date::MAX.number());
    let (first, second) = (random.date(), random.date());
    let (duration, std) = (random.duration(), random.std_duration());
    let days = |sign: i128, nanoseconds: i128| {
        in_range(first.number() + sign * (nanoseconds / DAY), range)
    };
    let (one, other) = (duration.number(), std.number());
    see_sums!(
        tally,
        is_rare,
        first,
        duration,
        days(1, one),
        days(-1, one),
        checked_add,
        checked_sub
    );
    see_sums!(
        tally,
        is_rare,
        first,
        std,
        days(1, other),
        days(-1, other),
        checked_add_std,
        checked_sub_std
    );
    see_pair!(tally, first, second, DAY);
    let clamped = |number: i128| number.clamp(range.0, range.1);
    let exact = (clamped(first.number() + one / DAY), clamped(first.number() - one / DAY));
    let found = (first.saturating_add(duration).number(), first.saturating_sub(duration).number());
    tally.see("saturating sums", &(first, duration), found, exact);
    tally.see("next_day", &first, number(first.next_day()), in_range(first.number() + 1, range));
    tally.see(
        "previous_day",
        &first,
        number(first.previous_day()),
        in_range(first.number() - 1, range),
    );
    tally.see("days_since_epoch", &first, i128::from(first.days_since_epoch()), first.number());
}

fn see_times(random: &mut Random, tally: &mut Tally) {
    let (first, second) = (random.time(), random.time());
    let (duration, std) = (random.duration(), random.std_duration());
    see_pair!(tally, first, second, 1);
    let around = |number: i128| number.rem_euclid(DAY);
    let one = first.number();
    let exact = (around(one + duration.number()), around(one - duration.number()));
    tally.see(
        "+, -",
        &(first, duration),
        ((first + duration).number(), (first - duration).number()),
        exact,
    );
    let exact = (around(one + std.number()), around(one - std.number()));
    tally.see(
        "+, - of std",
        &(first, std),
        ((first + std).number(), (first - std).number()),
        exact,
    );
    let mut moved = first;
    moved += duration;
    moved -= std;
    tally.see(
        "+=, -=",
        &(first, duration, std),
        moved.number(),
        around(one + duration.number() - std.number()),
    );
    let apart = around(second.number() - one);
    tally.see("duration_until", &(first, second), first.duration_until(second).number(), apart);
    tally.see("duration_since", &(first, second), second.duration_since(first).number(), apart);
}

/// Sums, differences and orders of a type of date-times. What clocks show is less than the instant
/// by the offset.
macro_rules! see_date_times {
    ($tally:ident, $is_rare:expr, $random:ident, $first:expr, $second:expr, $offset:expr, $range:expr) => {{
        let (first, second) = ($first, $second);
        let (duration, std) = ($random.duration(), $random.std_duration());
        let offset: i128 = $offset;
        let range: (i128, i128) = $range;
        let range = (range.0 - offset, range.1 - offset);
        let one = first.number();
        let exact = |number: i128| in_range(number, range);
        let numbers = (duration.number(), std.number());
        see_sums!(
            $tally,
            $is_rare,
            first,
            duration,
            exact(one + numbers.0),
            exact(one - numbers.0),
            checked_add,
            checked_sub
        );
        see_sums!(
            $tally,
            $is_rare,
            first,
            std,
            exact(one + numbers.1),
            exact(one - numbers.1),
            checked_add_std,
            checked_sub_std
        );
        see_pair!($tally, first, second, 1);
        let clamped = |number: i128| number.clamp(range.0, range.1);
        let wanted = (clamped(one + numbers.0), clamped(one - numbers.0));
        let found =
            (first.saturating_add(duration).number(), first.saturating_sub(duration).number());
        $tally.see("saturating sums", &(first, duration), found, wanted);
    }};
}

fn see_all(random: &mut Random, tally: &mut Tally, is_rare: bool) {
    see_durations(random, tally, is_rare);
    see_dates(random, tally, is_rare);
    see_times(random, tally);
    let mut plain = || PlainDateTime::new(random.date(), random.time());
    let (first, second) = (plain(), plain());
    let ends = (PlainDateTime::MIN.number(), PlainDateTime::MAX.number());
    see_date_times!(tally, is_rare, random, first, second, 0, ends);
    let (first_utc, second_utc) = (first.as_utc(), second.as_utc());
    see_date_times!(tally, is_rare, random, first_utc, second_utc, 0, ends);
    let stamps = (Timestamp::from(first_utc), Timestamp::from(second_utc));
    see_date_times!(tally, is_rare, random, stamps.0, stamps.1, 0, ends);
    let (offset, other_offset) = (random.offset(), random.offset());
    let shown = (first.assume_offset(offset), second.assume_offset(other_offset));
    see_date_times!(tally, is_rare, random, shown.0, shown.1, offset.number() * SECOND, ends);
    let later = shown.0.checked_add(random.duration());
    tally.see(
        "the offset of a sum",
        &shown.0,
        later.is_none_or(|later| later.offset() == offset),
        true,
    );
    see_pair!(tally, first_utc, stamps.1, 1);
    see_pair!(tally, stamps.0, second_utc, 1);
    see_pair!(tally, shown.0, second_utc, 1);
    see_pair!(tally, first_utc, shown.1, 1);
    see_pair!(tally, shown.0, stamps.1, 1);
    see_pair!(tally, stamps.0, shown.1, 1);
    let seconds = shown.0.number().div_euclid(SECOND);
    tally.see("unix_timestamp", &shown.0, i128::from(shown.0.unix_timestamp()), seconds);
    tally.see("unix_timestamp_nanos", &shown.0, shown.0.unix_timestamp_nanos(), shown.0.number());
    let moved = number(shown.0.checked_to_offset(other_offset));
    let at_other = shown.0.number() + other_offset.number() * SECOND;
    let wanted = in_range(at_other, ends).map(|_| shown.0.number());
    tally.see("checked_to_offset", &(shown.0, other_offset), moved, wanted);
}

fn main() {
    let words: Vec<String> = std::env::args().skip(1).collect();
    let [rounds, seed] = [0, 1].map(|at| words.get(at).and_then(|word| word.parse::<u64>().ok()));
    let (Some(rounds), Some(seed)) = (rounds, seed) else {
        eprintln!("usage: exact_sums ROUNDS SEED");
        std::process::exit(2);
    };
    let mut random = Random(seed.wrapping_mul(0x9E37_79B9_7F4A_7C15) | 1);
    let mut tally = Tally::default();
    for round in 0..rounds {
        see_all(&mut random, &mut tally, round % 64 == 0);
    }
    println!("{rounds} rounds, {} comparisons, {} differ", tally.compared, tally.wrong);
    std::process::exit(i32::from(tally.wrong > 0 || tally.compared == 0));
}
