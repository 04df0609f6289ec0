//! Writes lines that begin with a stamp of RFC 3339 with it in UTC at nine digits, by the crate `chrono` or `time`, whichever
//! feature is set. A line with no stamp before its first space goes on as it is.
use std::io::{self, BufRead, Write};

#[cfg(feature = "chrono")]
fn write_stamp(out: &mut impl Write, text: &str) -> Option<io::Result<()>> {
    use chrono::{DateTime, SecondsFormat, Utc};
    let at = DateTime::parse_from_rfc3339(text).ok()?.with_timezone(&Utc);
    Some(out.write_all(at.to_rfc3339_opts(SecondsFormat::Nanos, true).as_bytes()))
}

#[cfg(feature = "time")]
fn write_stamp(out: &mut impl Write, text: &str) -> Option<io::Result<()>> {
    use time::format_description::well_known::Rfc3339;
    use time::macros::format_description;
    use time::{OffsetDateTime, UtcOffset};
    const FIXED: &[time::format_description::FormatItem<'_>] =
        format_description!("[year]-[month]-[day]T[hour]:[minute]:[second].[subsecond digits:9]Z");
    let at = OffsetDateTime::parse(text, &Rfc3339).ok()?.to_offset(UtcOffset::UTC);
    Some(at.format_into(out, FIXED).map(|_| ()).map_err(io::Error::other))
}

fn main() -> io::Result<()> {
    let mut lines = io::BufReader::with_capacity(65_536, io::stdin().lock());
    let mut out = io::BufWriter::with_capacity(65_536, io::stdout().lock());
    let mut line = Vec::new();
    while lines.read_until(b'\n', &mut line)? > 0 {
        let end = line.iter().position(|byte| *byte == b' ' || *byte == b'\n').unwrap_or(line.len());
        let text = std::str::from_utf8(&line[..end]).unwrap_or("");
        match write_stamp(&mut out, text) {
            Some(written) => {
                written?;
                out.write_all(&line[end..])?;
            }
            None => out.write_all(&line)?,
        }
        line.clear();
    }
    out.flush()
}
