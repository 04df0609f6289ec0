// The work of times_bench on `unix` lines, written for speed alone: one file, no library, no proof. measure/speed
// builds it with `rustc -O` and compares times_bench with it, in what is written and in processor time.
mod bench_lines;

use bench_lines::{LONGEST_LINE, answer_lines, digit, push_digits, whole_number};
use std::io;

// The ends of the range, which measure/speed names.
const FIRST_SECOND: i64 = number(env!("FIRST_SECOND"));
const LAST_SECOND: i64 = number(env!("LAST_SECOND"));

const fn number(word: &str) -> i64 {
    match i64::from_str_radix(word, 10) {
        Ok(number) => number,
        Err(_) => panic!("a number"),
    }
}

// The year, the month and the day of the month of a day number, 0 for 1970-01-01, by eras of 400 years that
// begin on 1 March.
fn civil_date(day: i64) -> (i64, u32, u32) {
    let shifted = day + 719_468;
    let era = shifted.div_euclid(146_097);
    let day_of_era = shifted.rem_euclid(146_097) as u32;
    let year_of_era = (day_of_era - day_of_era / 1_460 + day_of_era / 36_524 - day_of_era / 146_096) / 365;
    let day_of_year = day_of_era - (365 * year_of_era + year_of_era / 4 - year_of_era / 100);
    let month_from_march = (5 * day_of_year + 2) / 153;
    let day_of_month = day_of_year - (153 * month_from_march + 2) / 5 + 1;
    let month = if month_from_march < 10 { month_from_march + 3 } else { month_from_march - 9 };
    (i64::from(year_of_era) + 400 * era + i64::from(month <= 2), month, day_of_month)
}

fn push_date(out: &mut Vec<u8>, day: i64) {
    let (year, month, day_of_month) = civil_date(day);
    push_digits(out, year as i32, month, day_of_month);
}

fn push_answer(out: &mut Vec<u8>, line: &[u8]) {
    let Some(second) = second_of(line) else {
        out.extend_from_slice(b"bad line\n");
        return;
    };
    if !(FIRST_SECOND..=LAST_SECOND).contains(&second) {
        out.extend_from_slice(b"refused timestamp\n");
        return;
    }
    push_date(out, second.div_euclid(86_400));
    let rest = second.rem_euclid(86_400) as u32;
    let (hour, minute, second) = (rest / 3_600, rest / 60 % 60, rest % 60);
    out.push(b' ');
    if hour >= 10 {
        out.push(digit(hour / 10));
    }
    out.extend_from_slice(&[digit(hour), b':', digit(minute / 10), digit(minute), b':', digit(second / 10), digit(second)]);
    out.extend_from_slice(b".0 +00\n");
}

fn second_of(line: &[u8]) -> Option<i64> {
    if line.len() > LONGEST_LINE {
        return None;
    }
    let number = line.strip_prefix(b"unix ")?;
    whole_number(number)
}

fn main() -> io::Result<()> {
    answer_lines(push_answer)
}
