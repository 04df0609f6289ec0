// Made by make/erase of crates/rfc3339/src/reading.rt. Do not edit.
//! The parts of a text, read from its front on.
use crate::proved::rfc3339::Parts;

// The bytes of the shortest text, as `1985-04-12T23:20:50Z`. What is known to be as long is read without a test of what
// is left of it at each byte; and the bytes of a part are tested together, by `&` and `|`, so that a processor has few
// branches to guess.
const SHORTEST: usize = 20;

// The parts of a text, if it has the form.
/// # Contract
///
/// ```text
/// ensures value { result ≡ parts_at text.now }
/// ensures in_range { IfSome result (λ p. (p.nanosecond ≤ 999_999_999) × (p.year ≤ 9_999)) }
/// ```
///
/// [docs/proofs/STATEMENT.md](crate::proved#contracts) explains the words.
#[inline(always)]
pub(crate) fn parts(text: &[u8]) -> Option<Parts> {
    let (parts, rest) = front(text)?;
    if rest.is_empty() { Some(parts) } else { None }
}

// The parts of the date-time in front of a text, and what follows it.
/// # Contract
///
/// ```text
/// ensures value { option_map (λ read. (read.0, read.1.now)) result ≡ front_at text.now }
/// ensures in_range { IfSome result (λ read.
///     (read.0.nanosecond ≤ 999_999_999) × (read.0.year ≤ 9_999)) }
/// ```
///
/// [docs/proofs/STATEMENT.md](crate::proved#contracts) explains the words.
#[inline(always)]
pub(crate) fn front(text: &[u8]) -> Option<(Parts, &[u8])> {
    match wall(text) {
        Some((parts, text)) => after_second(parts, text),
        None => front_by_parts(text),
    }
}

// The numbers of the first 19 bytes, tested all at once, and what follows them. None says nothing of the text.
/// # Contract
///
/// ```text
/// ensures value { IfSome result (λ read. fraction_on read.0 read.1.now ≡ front_at text.now) }
/// ensures in_range { IfSome result (λ read. read.0.year ≤ 9_999) }
/// ```
///
/// [docs/proofs/STATEMENT.md](crate::proved#contracts) explains the words.
#[inline(always)]
const fn wall(text: &[u8]) -> Option<(Parts, &[u8])> {
    let [
        thousands,
        hundreds,
        tens,
        units,
        after_year,
        month_tens,
        month,
        after_month,
        day_tens,
        day,
        separator,
        hour_tens,
        hour,
        after_hour,
        minute_tens,
        minute,
        after_minute,
        second_tens,
        second,
        rest @ ..,
    ] = text
    else {
        return None;
    };
    if are_digits(*thousands, *hundreds)
        & are_digits(*tens, *units)
        & (*after_year == b'-')
        & are_digits(*month_tens, *month)
        & (*after_month == b'-')
        & are_digits(*day_tens, *day)
        & is_separator(*separator)
        & are_digits(*hour_tens, *hour)
        & (*after_hour == b':')
        & are_digits(*minute_tens, *minute)
        & (*after_minute == b':')
        & are_digits(*second_tens, *second)
    {
        let parts = Parts {
            year: of_digits(*thousands, *hundreds) as u16 * 100 + of_digits(*tens, *units) as u16,
            month: of_digits(*month_tens, *month),
            day: of_digits(*day_tens, *day),
            hour: of_digits(*hour_tens, *hour),
            minute: of_digits(*minute_tens, *minute),
            second: of_digits(*second_tens, *second),
            nanosecond: 0,
            is_west: false,
            offset_hour: 0,
            offset_minute: 0,
        };
        return Some((parts, rest));
    }
    None
}

// Whether both are digits.
/// # Contract
///
/// ```text
/// ensures { result ≡ (is_ascii_digit tens && is_ascii_digit units) }
/// ```
///
/// [docs/proofs/STATEMENT.md](crate::proved#contracts) explains the words.
#[inline(always)]
const fn are_digits(tens: u8, units: u8) -> bool {
    tens.is_ascii_digit() & units.is_ascii_digit()
}

// Whether it is `T`, `t` or a space.
/// # Contract
///
/// ```text
/// ensures { result ≡ is_separator byte }
/// ```
///
/// [docs/proofs/STATEMENT.md](crate::proved#contracts) explains the words.
#[inline(always)]
const fn is_separator(byte: u8) -> bool {
    (byte == b'T') | (byte == b't') | (byte == b' ')
}

// The number of two bytes, if they are digits.
/// # Contract
///
/// ```text
/// ensures { (is_ascii_digit tens && is_ascii_digit units) ≡ true
///     → result ≡ (tens - 48) * 10 + (units - 48) }
/// ```
///
/// [docs/proofs/STATEMENT.md](crate::proved#contracts) explains the words.
#[inline(always)]
const fn of_digits(tens: u8, units: u8) -> u8 {
    tens.wrapping_sub(b'0')
        .wrapping_mul(10)
        .wrapping_add(units.wrapping_sub(b'0'))
}

// The same, one part after another. It is not in line, since few texts need it.
/// # Contract
///
/// ```text
/// ensures value { option_map (λ read. (read.0, read.1.now)) result ≡ front_at text.now }
/// ensures in_range { IfSome result (λ read.
///     (read.0.nanosecond ≤ 999_999_999) × (read.0.year ≤ 9_999)) }
/// ```
///
/// [docs/proofs/STATEMENT.md](crate::proved#contracts) explains the words.
#[inline(never)]
fn front_by_parts(text: &[u8]) -> Option<(Parts, &[u8])> {
    if text.len() < SHORTEST {
        return None;
    }
    let (year, text) = year(text)?;
    let (month, text) = part(b'-', text)?;
    let (day, text) = part(b'-', text)?;
    after_date(year, month, day, text)
}

// The same, from what follows its date on.
/// # Contract
///
/// ```text
/// requires { year ≤ 9_999 }
/// ensures value { option_map (λ read. (read.0, read.1.now)) result
///     ≡ time_on year month day text.now }
/// ensures in_range { IfSome result (λ read.
///     (read.0.nanosecond ≤ 999_999_999) × (read.0.year ≤ 9_999)) }
/// ```
///
/// [docs/proofs/STATEMENT.md](crate::proved#contracts) explains the words.
#[inline(always)]
fn after_date(year: u16, month: u8, day: u8, text: &[u8]) -> Option<(Parts, &[u8])> {
    let (hour, text) = two_digits(after_separator(text)?)?;
    let (minute, text) = part(b':', text)?;
    after_minute(year, month, day, hour, minute, text)
}

// The same, from what follows its minute on.
/// # Contract
///
/// ```text
/// requires { year ≤ 9_999 }
/// ensures value { option_map (λ read. (read.0, read.1.now)) result
///     ≡ second_on year month day hour minute text.now }
/// ensures in_range { IfSome result (λ read.
///     (read.0.nanosecond ≤ 999_999_999) × (read.0.year ≤ 9_999)) }
/// ```
///
/// [docs/proofs/STATEMENT.md](crate::proved#contracts) explains the words.
#[inline(always)]
fn after_minute(
    year: u16,
    month: u8,
    day: u8,
    hour: u8,
    minute: u8,
    text: &[u8],
) -> Option<(Parts, &[u8])> {
    let (second, text) = part(b':', text)?;
    let parts = Parts {
        year,
        month,
        day,
        hour,
        minute,
        second,
        nanosecond: 0,
        is_west: false,
        offset_hour: 0,
        offset_minute: 0,
    };
    after_second(parts, text)
}

// The same, from what follows its second on.
/// # Contract
///
/// ```text
/// requires { parts.year ≤ 9_999 }
/// ensures value { option_map (λ read. (read.0, read.1.now)) result ≡ fraction_on parts text.now }
/// ensures in_range { IfSome result (λ read.
///     (read.0.nanosecond ≤ 999_999_999) × (read.0.year ≤ 9_999)) }
/// ```
///
/// [docs/proofs/STATEMENT.md](crate::proved#contracts) explains the words.
#[inline(always)]
pub(crate) fn after_second(parts: Parts, text: &[u8]) -> Option<(Parts, &[u8])> {
    let (nanosecond, text) = fraction(text)?;
    let ((is_west, offset_hour, offset_minute), text) = zone(text)?;
    let parts = Parts {
        nanosecond,
        is_west,
        offset_hour,
        offset_minute,
        ..parts
    };
    Some((parts, text))
}

// A year of four digits, and what follows it.
/// # Contract
///
/// ```text
/// ensures value { option_map (λ read. (read.0, read.1.now)) result ≡ year_at text.now }
/// ensures in_range { IfSome result (λ read. read.0 ≤ 9_999) }
/// ```
///
/// [docs/proofs/STATEMENT.md](crate::proved#contracts) explains the words.
#[inline(always)]
pub(crate) const fn year(text: &[u8]) -> Option<(u16, &[u8])> {
    let [thousands, hundreds, tens, units, rest @ ..] = text else {
        return None;
    };
    if thousands.is_ascii_digit()
        & hundreds.is_ascii_digit()
        & tens.is_ascii_digit()
        & units.is_ascii_digit()
    {
        let century = number(*thousands, *hundreds);
        Some((century as u16 * 100 + number(*tens, *units) as u16, rest))
    } else {
        None
    }
}

// The two digits after a mark, and what follows them.
/// # Contract
///
/// ```text
/// ensures { option_map (λ read. (read.0, read.1.now)) result ≡ part_at mark text.now }
/// ```
///
/// [docs/proofs/STATEMENT.md](crate::proved#contracts) explains the words.
#[inline(always)]
pub(crate) const fn part(mark: u8, text: &[u8]) -> Option<(u8, &[u8])> {
    let [first, tens, units, rest @ ..] = text else {
        return None;
    };
    if (*first == mark) & tens.is_ascii_digit() & units.is_ascii_digit() {
        Some((number(*tens, *units), rest))
    } else {
        None
    }
}

// A number of two digits, and what follows it.
/// # Contract
///
/// ```text
/// ensures value { option_map (λ read. (read.0, read.1.now)) result ≡ two_digits_at text.now }
/// ensures in_range { IfSome result (λ read. read.0 ≤ 99) }
/// ```
///
/// [docs/proofs/STATEMENT.md](crate::proved#contracts) explains the words.
#[inline(always)]
const fn two_digits(text: &[u8]) -> Option<(u8, &[u8])> {
    let [tens, units, rest @ ..] = text else {
        return None;
    };
    if tens.is_ascii_digit() & units.is_ascii_digit() {
        Some((number(*tens, *units), rest))
    } else {
        None
    }
}

// The number of two digits.
/// # Contract
///
/// ```text
/// requires tens { IsInRange 48 57 tens }
/// requires units { IsInRange 48 57 units }
/// ensures { result ≡ (tens - 48) * 10 + (units - 48) }
/// ```
///
/// [docs/proofs/STATEMENT.md](crate::proved#contracts) explains the words.
#[inline(always)]
const fn number(tens: u8, units: u8) -> u8 {
    (tens - b'0') * 10 + (units - b'0')
}

// The digit in front, and what follows it.
/// # Contract
///
/// ```text
/// ensures value { option_map (λ read. (read.0, read.1.now)) result ≡ digit_at text.now }
/// ensures in_range { IfSome result (λ read. read.0 ≤ 9) }
/// ```
///
/// [docs/proofs/STATEMENT.md](crate::proved#contracts) explains the words.
#[inline(always)]
fn digit(text: &[u8]) -> Option<(u8, &[u8])> {
    let (first, text) = text.split_first()?;
    if first.is_ascii_digit() {
        Some((*first - b'0', text))
    } else {
        None
    }
}

// What follows the mark, if the text begins with it.
/// # Contract
///
/// ```text
/// ensures { option_map (λ rest. rest.now) result ≡ mark_at mark text.now }
/// ```
///
/// [docs/proofs/STATEMENT.md](crate::proved#contracts) explains the words.
#[inline(always)]
fn after_mark(mark: u8, text: &[u8]) -> Option<&[u8]> {
    let (first, text) = text.split_first()?;
    if *first == mark { Some(text) } else { None }
}

// What follows `T`, `t` or a space, if the text begins with one.
/// # Contract
///
/// ```text
/// ensures { option_map (λ rest. rest.now) result ≡ separator_at text.now }
/// ```
///
/// [docs/proofs/STATEMENT.md](crate::proved#contracts) explains the words.
#[inline(always)]
fn after_separator(text: &[u8]) -> Option<&[u8]> {
    let (first, text) = text.split_first()?;
    if *first == b'T' || *first == b't' || *first == b' ' {
        Some(text)
    } else {
        None
    }
}

// The nanosecond that a point and digits make, and what follows them; 0 without a point.
/// # Contract
///
/// ```text
/// ensures value { option_map (λ read. (read.0, read.1.now)) result ≡ fraction_at text.now }
/// ensures in_range { IfSome result (λ read. read.0 ≤ 999_999_999) }
/// ```
///
/// [docs/proofs/STATEMENT.md](crate::proved#contracts) explains the words.
#[inline(always)]
fn fraction(text: &[u8]) -> Option<(u32, &[u8])> {
    let Some(digits) = after_mark(b'.', text) else {
        return Some((0, text));
    };
    let (nanosecond, rest) = nanosecond(digits);
    if rest.len() == digits.len() {
        return None;
    }
    Some((nanosecond, rest))
}

// The nanosecond of the digits of a fraction, those past the ninth dropped, and what follows them.
/// # Contract
///
/// ```text
/// ensures value { (result.0, result.1.now) ≡ digits_at 100_000_000 text.now }
/// ensures in_range { result.0 ≤ 999_999_999 }
/// ```
///
/// [docs/proofs/STATEMENT.md](crate::proved#contracts) explains the words.
#[inline]
fn nanosecond(text: &[u8]) -> (u32, &[u8]) {
    let mut rest = text;
    let mut unit = 100_000_000;
    let mut nanosecond = 0;
    while unit > 0 {
        let Some((digit, more)) = digit(rest) else {
            return (nanosecond, rest);
        };
        nanosecond += digit as u32 * unit;
        unit /= 10;
        rest = more;
    }
    (nanosecond, after_digits(rest))
}

// What follows the digits in front.
/// # Contract
///
/// ```text
/// ensures { (0, result.now) ≡ digits_at 0 text.now }
/// ```
///
/// [docs/proofs/STATEMENT.md](crate::proved#contracts) explains the words.
#[inline]
fn after_digits(text: &[u8]) -> &[u8] {
    let mut rest = text;
    while let Some((_, more)) = digit(rest) {
        rest = more;
    }
    rest
}

// `Z` or `z`, or a sign, hours and minutes: whether it is west, the hours, the minutes; and what follows them.
/// # Contract
///
/// ```text
/// ensures { option_map (λ read. (read.0, read.1.now)) result ≡ zone_at text.now }
/// ```
///
/// [docs/proofs/STATEMENT.md](crate::proved#contracts) explains the words.
#[inline(always)]
pub(crate) fn zone(text: &[u8]) -> Option<((bool, u8, u8), &[u8])> {
    let [first, text @ ..] = text else {
        return None;
    };
    if *first == b'Z' || *first == b'z' {
        return Some(((false, 0, 0), text));
    }
    let [tens, units, text @ ..] = text else {
        return None;
    };
    // Which sign it is no processor could guess.
    if ((*first == b'+') | (*first == b'-')) & tens.is_ascii_digit() & units.is_ascii_digit() {
        let hour = number(*tens, *units);
        let (minute, text) = part(b':', text)?;
        return Some(((*first == b'-', hour, minute), text));
    }
    None
}
