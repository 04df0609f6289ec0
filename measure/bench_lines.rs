// What the programs beside times_bench have alike: they read blocks, and answer each line.
use std::io::{self, Read, Write};

const BLOCK: usize = 65_536;
pub const LONGEST_LINE: usize = 1024;

#[inline(always)]
pub fn digit(number: u32) -> u8 {
    b'0' + (number % 10) as u8
}

/// Writes a date as times_bench does.
#[inline]
pub fn push_digits(out: &mut Vec<u8>, year: i32, month: u32, day: u32) {
    let absolute = year.unsigned_abs();
    if year < 0 {
        out.push(b'-');
    } else if year > 9999 {
        out.push(b'+');
    }
    if absolute >= 100_000 {
        out.push(digit(absolute / 100_000));
    }
    if absolute >= 10_000 {
        out.push(digit(absolute / 10_000));
    }
    out.extend_from_slice(&[
        digit(absolute / 1_000),
        digit(absolute / 100),
        digit(absolute / 10),
        digit(absolute),
        b'-',
        digit(month / 10),
        digit(month),
        b'-',
        digit(day / 10),
        digit(day),
    ]);
}

/// The number of a word of decimal digits, with a minus before them at times.
#[inline]
pub fn whole_number(word: &[u8]) -> Option<i64> {
    let (is_negative, digits) = match word {
        [b'-', digits @ ..] => (true, digits),
        digits => (false, digits),
    };
    if digits.is_empty() {
        return None;
    }
    let mut value: i64 = 0;
    for byte in digits {
        let digit = byte.wrapping_sub(b'0');
        if digit > 9 {
            return None;
        }
        value = value.checked_mul(10)?.checked_sub(i64::from(digit))?;
    }
    if is_negative { Some(value) } else { value.checked_neg() }
}

/// Answers each line of the standard input.
pub fn answer_lines(push_answer: impl Fn(&mut Vec<u8>, &[u8])) -> io::Result<()> {
    let mut input = io::stdin().lock();
    let mut output = io::stdout().lock();
    let mut block = vec![0; BLOCK];
    let mut line = Vec::new();
    let mut out = Vec::with_capacity(2 * BLOCK);
    loop {
        let count = input.read(&mut block)?;
        if count == 0 {
            break;
        }
        let mut rest = &block[..count];
        while let Some(end) = rest.iter().position(|byte| *byte == b'\n') {
            if line.is_empty() {
                push_answer(&mut out, &rest[..end]);
            } else {
                line.extend_from_slice(&rest[..end]);
                push_answer(&mut out, &line);
                line.clear();
            }
            rest = &rest[end + 1..];
        }
        line.extend_from_slice(rest);
        output.write_all(&out)?;
        out.clear();
    }
    if !line.is_empty() {
        push_answer(&mut out, &line);
        output.write_all(&out)?;
    }
    output.flush()
}
