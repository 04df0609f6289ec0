//! How texts are read back, and the texts of durations.

use core::fmt::{self, Write};
use core::str::FromStr;

use crate::error::{ComponentRange, InvalidVariant};
use crate::proved::duration_texts::{DurationFault, parse_duration, short_text};
use crate::{
    Date, OffsetDateTime, PlainDateTime, Refusal, SignedDuration, Text, Time, Timestamp,
    UtcDateTime, UtcOffset, literal,
};

/// The rest of a text after the written part.
struct Rest<'a>(&'a str);

impl Write for Rest<'_> {
    fn write_str(&mut self, written: &str) -> fmt::Result {
        self.0 = self.0.strip_prefix(written).ok_or(fmt::Error)?;
        Ok(())
    }
}

/// Whether `Display` writes the value so.
fn is_written(text: &str, value: &impl fmt::Display) -> bool {
    let mut rest = Rest(text);
    write!(rest, "{value}").is_ok() && rest.0.is_empty()
}

/// The value of the parts that were read of a text, if the text is what `Display` writes so. What
/// is refused is named only where the text has that form, and else it is the form.
pub(crate) fn read<Parts: Copy + fmt::Display, T: fmt::Display>(
    text: &str,
    parts: Option<Parts>,
    tested: impl FnOnce(Parts) -> Result<T, ComponentRange>,
) -> Result<T, Refusal> {
    let parts = parts.ok_or(Refusal::Syntax)?;
    match tested(parts) {
        Ok(value) if is_written(text, &value) => Ok(value),
        Err(refused) if is_written(text, &parts) => Err(refused.into()),
        _ => Err(Refusal::Syntax),
    }
}

/// The value of a name, of the texts of all.
pub(crate) fn named<T: Copy>(
    all: &[T],
    text: impl Fn(T) -> Text,
    name: &str,
) -> Result<T, InvalidVariant> {
    let found = all.iter().find(|value| *text(**value) == *name);
    found.copied().ok_or(InvalidVariant)
}

/// The units that a duration is written in: their nanoseconds, and what follows their number.
const UNITS: [(u128, &str); 7] = [
    (86_400_000_000_000, "d"),
    (3_600_000_000_000, "h"),
    (60_000_000_000, "m"),
    (1_000_000_000, "s"),
    (1_000_000, "ms"),
    (1_000, "µs"),
    (1, "ns"),
];

/// How many characters are written.
struct Length(usize);

impl Write for Length {
    fn write_str(&mut self, written: &str) -> fmt::Result {
        self.0 += written.chars().count();
        Ok(())
    }
}

/// Writes a duration with the width, the alignment and the precision that are asked for.
/// `Formatter::pad` would cut it at the precision.
pub(crate) fn write_duration(f: &mut fmt::Formatter<'_>, duration: SignedDuration) -> fmt::Result {
    let (fill, decimals, mut length) = (f.fill(), f.precision(), Length(0));
    let Some(width) = f.width() else {
        return write_all(f, duration, decimals);
    };
    write_all(&mut length, duration, decimals)?;
    let missing = width.saturating_sub(length.0);
    let before = match f.align() {
        Some(fmt::Alignment::Right) => missing,
        Some(fmt::Alignment::Center) => missing / 2,
        _ => 0,
    };
    (0..before).try_for_each(|_| f.write_char(fill))?;
    write_all(f, duration, decimals)?;
    (before..missing).try_for_each(|_| f.write_char(fill))
}

/// The sign, and each unit, or the greatest alone with that many decimals.
fn write_all(
    out: &mut impl Write,
    duration: SignedDuration,
    decimals: Option<usize>,
) -> fmt::Result {
    let Some(decimals) = decimals else {
        return write_short(out, duration);
    };
    if duration.is_negative() {
        out.write_char('-')?;
    }
    let nanoseconds = duration.whole_nanoseconds().unsigned_abs();
    write_rounded(out, nanoseconds, decimals.min(MOST_DECIMALS))
}

/// Each unit and its count. The proved text is ASCII: its `us` is `µs` here, as in `time`.
fn write_short(out: &mut impl Write, duration: SignedDuration) -> fmt::Result {
    let text = short_text(duration);
    let Some((before, after)) = text.as_str().split_once('u') else {
        return out.write_str(text.as_str());
    };
    out.write_str(before)?;
    out.write_char('µ')?;
    out.write_str(after)
}

/// 128 bits hold the nanoseconds of less than a day, times 10 to the power of this.
const MOST_DECIMALS: usize = 24;

/// The greatest unit that there is one of, and its count with that many decimals, as `1.50m`.
fn write_rounded(out: &mut impl Write, nanoseconds: u128, decimals: usize) -> fmt::Result {
    const SECONDS: (u128, &str) = UNITS[3];
    let greatest = UNITS.into_iter().find(|(length, _)| nanoseconds >= *length);
    let (length, unit) = greatest.unwrap_or(SECONDS);
    let one = 10_u128.pow(decimals as u32);
    let scaled = nanoseconds % length * one;
    let (down, rest) = (scaled / length, scaled % length);
    let last_is_odd = match decimals {
        0 => nanoseconds / length % 2 == 1,
        _ => down % 2 == 1,
    };
    let is_nearer_above = rest * 2 > length || rest * 2 == length && last_is_odd;
    let fraction = down + u128::from(is_nearer_above);
    write!(out, "{}", nanoseconds / length + fraction / one)?;
    if decimals > 0 {
        write!(out, ".{:0decimals$}", fraction % one)?;
    }
    out.write_str(unit)
}

/// Reads a duration by the proved grammar.
pub(crate) fn duration(text: &str) -> Result<SignedDuration, Refusal> {
    parse_duration(text.as_bytes()).map_err(|refused| match refused.fault {
        DurationFault::Range => Refusal::OutOfRange("duration"),
        _ => Refusal::Syntax,
    })
}

/// `FromStr` of types whose texts are those of their literals.
macro_rules! read_back {
    ($($Type:ident: $literal:ident;)+) => {
        $(
            /// Reads what `Display` writes.
            impl FromStr for $Type {
                type Err = Refusal;

                fn from_str(text: &str) -> Result<$Type, Refusal> {
                    read(text, literal::$literal(text), |literal| literal.check())
                }
            }
        )+
    };
}

read_back! {
    Date: date;
    Time: time;
    UtcOffset: offset;
    PlainDateTime: plain_literal;
}

/// `FromStr` of instants, which texts of RFC 3339 name too.
macro_rules! read_instants {
    ($($Type:ident: $literal:ident;)+) => {
        $(
            /// Reads what `Display` writes, and texts of RFC 3339, as `1996-12-19T16:39:57-08:00`.
            impl FromStr for $Type {
                type Err = Refusal;

                fn from_str(text: &str) -> Result<$Type, Refusal> {
                    match read(text, literal::$literal(text), |literal| literal.check()) {
                        Err(Refusal::Syntax) => Ok($Type::from_rfc3339(text.as_bytes())?),
                        answer => answer,
                    }
                }
            }
        )+
    };
}

read_instants! {
    OffsetDateTime: date_time;
    UtcDateTime: utc;
    Timestamp: timestamp;
}
