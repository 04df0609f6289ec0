// Made by make/erase of crates/format_descriptions/src/clock_fractions.rt. Do not edit.
//! Fractions of the hour and of the minute.
use crate::proved::format_descriptions::fractions::fraction;
use crate::proved::format_descriptions::parts::fits;
use crate::proved::format_descriptions::{Parts, SubsecondDigits};
use crate::proved::calendar_values::Time;

// The billionths of the hour, rounded down.
/// # Contract
///
/// ```text
/// ensures value { result ≡ time % nanos_per_hour / 3_600 }
/// ensures below { result < 1_000_000_000 }
/// ```
///
/// [docs/proofs/STATEMENT.md](crate::proved#contracts) explains the words.
#[inline(never)]
pub(crate) const fn hour_fraction(time: Time) -> u32 {
    let (_, minute, second, nanosecond) = time.as_hms_nano();
    let seconds = minute as u64 * 60 + second as u64;
    ((seconds * 1_000_000_000 + nanosecond as u64) / 3_600) as u32
}

// The billionths of the minute, rounded down.
/// # Contract
///
/// ```text
/// ensures value { result ≡ time % nanos_per_minute / 60 }
/// ensures below { result < 1_000_000_000 }
/// ```
///
/// [docs/proofs/STATEMENT.md](crate::proved#contracts) explains the words.
#[inline(never)]
pub(crate) const fn minute_fraction(time: Time) -> u32 {
    let (_, _, second, nanosecond) = time.as_hms_nano();
    ((second as u64 * 1_000_000_000 + nanosecond as u64) / 60) as u32
}

// Reads a fraction of the hour into the parts, and returns what follows it.
/// # Contract
///
/// ```text
/// ensures value { option_map (λ rest. (parts.new, rest.now)) result
///     ≡ part_at (HourFraction digits) text.now parts.old }
/// ensures unchanged { IfNone result (parts.new ≡ parts.old) }
/// ensures shorter { IfSome result (λ rest. length rest.now ≤ length text.now) }
/// ```
///
/// [docs/proofs/STATEMENT.md](crate::proved#contracts) explains the words.
#[inline]
pub(crate) fn hour_fraction_at<'a>(
    digits: SubsecondDigits,
    text: &'a [u8],
    parts: &mut Parts,
) -> Option<&'a [u8]> {
    let (number, rest) = fraction(digits, text)?;
    let (minute, second, nanosecond) = parts_of(number as u64 * 3_600);
    let is_fit = fits(parts.minute, minute)
        & (fits(parts.second, second) & fits(parts.nanosecond, nanosecond));
    if !is_fit {
        return None;
    }
    parts.minute = Some(minute);
    parts.second = Some(second);
    parts.nanosecond = Some(nanosecond);
    Some(rest)
}

// Reads a fraction of the minute into the parts, and returns what follows it.
/// # Contract
///
/// ```text
/// ensures value { option_map (λ rest. (parts.new, rest.now)) result
///     ≡ part_at (MinuteFraction digits) text.now parts.old }
/// ensures unchanged { IfNone result (parts.new ≡ parts.old) }
/// ensures shorter { IfSome result (λ rest. length rest.now ≤ length text.now) }
/// ```
///
/// [docs/proofs/STATEMENT.md](crate::proved#contracts) explains the words.
#[inline]
pub(crate) fn minute_fraction_at<'a>(
    digits: SubsecondDigits,
    text: &'a [u8],
    parts: &mut Parts,
) -> Option<&'a [u8]> {
    let (number, rest) = fraction(digits, text)?;
    let (_, second, nanosecond) = parts_of(number as u64 * 60);
    let is_fit = fits(parts.second, second) & fits(parts.nanosecond, nanosecond);
    if !is_fit {
        return None;
    }
    parts.second = Some(second);
    parts.nanosecond = Some(nanosecond);
    Some(rest)
}

// The minute, the second and the nanosecond after this number of nanoseconds.
/// # Contract
///
/// ```text
/// requires { nanoseconds ≤ 3_600_000_000_000 }
/// ensures { result
///     ≡ (minute_of nanoseconds, second_of nanoseconds, nanosecond_of nanoseconds) }
/// ```
///
/// [docs/proofs/STATEMENT.md](crate::proved#contracts) explains the words.
#[inline]
const fn parts_of(nanoseconds: u64) -> (u32, u32, u32) {
    let seconds = nanoseconds / 1_000_000_000;
    (
        (nanoseconds / 60_000_000_000 % 60) as u32,
        (seconds % 60) as u32,
        (nanoseconds % 1_000_000_000) as u32,
    )
}
