//! Writes lines with their stamp in UTC at nine digits, by the crate `chrono`. The first argument is a description of the stamp for
//! chrono, the second the number of its words, the third a text before it, as a year, and the fourth the seconds of its offset if it has
//! none. A line without such a stamp goes on as it is.
use chrono::{DateTime, Duration, FixedOffset, NaiveDateTime};
use std::io::{self, BufRead, Write};

fn instant_of(text: &str, form: &str, offset: Option<i64>) -> Option<NaiveDateTime> {
    match offset {
        None => DateTime::<FixedOffset>::parse_from_str(text, form).ok().map(|at| at.naive_utc()),
        Some(seconds) => {
            let at = NaiveDateTime::parse_from_str(text, form).ok()?;
            at.checked_sub_signed(Duration::seconds(seconds))
        }
    }
}

// The number of the bytes of the first words of a line.
fn length_of(line: &[u8], words: usize) -> usize {
    let mut blanks = line.iter().enumerate().filter(|(_, byte)| **byte == b' ');
    blanks.nth(words - 1).map_or(line.len(), |(place, _)| place)
}

fn main() -> io::Result<()> {
    let given: Vec<String> = std::env::args().collect();
    let (form, words) = (given[1].as_str(), given[2].parse().expect("the second argument is a number"));
    let offset = given.get(4).map(|seconds| seconds.parse().expect("the fourth argument is a number"));
    let mut lines = io::BufReader::with_capacity(65_536, io::stdin().lock());
    let mut out = io::BufWriter::with_capacity(65_536, io::stdout().lock());
    let (mut line, mut text) = (Vec::new(), String::new());
    while lines.read_until(b'\n', &mut line)? > 0 {
        let end = length_of(&line, words);
        text.clear();
        text.push_str(&given[3]);
        text.push_str(std::str::from_utf8(&line[..end]).unwrap_or(""));
        match instant_of(&text, form, offset) {
            Some(at) => {
                write!(out, "{}", at.format("%Y-%m-%dT%H:%M:%S%.9fZ"))?;
                out.write_all(&line[end..])?;
            }
            None => out.write_all(&line)?,
        }
        line.clear();
    }
    out.flush()
}
