//! Prints each line of a log with its timestamp at the offset +02:00, or the error in the
//! timestamp.

use muxandu::macros::offset;
use muxandu::{OffsetDateTime, Refusal};
use std::io::{self, BufRead};

/// The timestamp at the offset, as a text.
fn shift(stamp: &str) -> Result<String, Refusal> {
    let at: OffsetDateTime = stamp.parse()?;
    let there = at.checked_to_offset(offset!(+2)).and_then(|there| there.to_rfc3339());
    Ok(there.map_or_else(|| "no text".to_string(), |text| text.to_string()))
}

fn main() -> io::Result<()> {
    for line in io::stdin().lock().lines() {
        let line = line?;
        let (stamp, rest) = line.split_once(' ').unwrap_or((&line, ""));
        match shift(stamp) {
            Ok(text) => println!("{text} {rest}"),
            Err(refused) => println!("{refused}: {line}"),
        }
    }
    Ok(())
}
