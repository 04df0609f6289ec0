// Made by make/erase of crates/format_descriptions/src/component_texts.rt. Do not edit.
//! The texts of components in descriptions.
use crate::proved::format_descriptions::{Component, ItemFault};
use crate::proved::calendar_values::Text;

// How many bytes of a room have text, or why an item has none, and how many items are left from it on.
pub(crate) type Source = Result<usize, (ItemFault, usize)>;

// The name of a component, and its modifiers.
pub(crate) type Words = (
    &'static [u8],
    &'static [u8],
    &'static [u8],
    &'static [u8],
    &'static [u8],
);

// Puts one more piece after the bytes of a room.
/// # Contract
///
/// ```text
/// requires { used ≤ length room.old }
/// ensures text { result_map_both (λ n. take n room.new) (λ fault. fault) result
///     ≡ with_piece (length room.old) left (take used room.old) piece.now }
/// ensures within { IfOk result (λ n. n ≤ length room.old) }
/// ensures more { IfOk result (λ n. used ≤ n) }
/// ensures others { IfOk result (λ n. (k : ℕ) → n ≤ k → drop k room.new ≡ drop k room.old) }
/// ```
///
/// [docs/proofs/STATEMENT.md](crate::proved#contracts) explains the words.
#[inline]
pub(crate) fn put_piece(piece: &[u8], left: usize, room: &mut [u8], used: usize) -> Source {
    if room.len() - used < piece.len() {
        return Err((ItemFault::NoRoom, left));
    }
    let end = used + piece.len();
    room[used..end].copy_from_slice(piece);
    Ok(end)
}

// Puts the name of a component, its modifiers and its `]`.
/// # Contract
///
/// ```text
/// requires { used ≤ length room.old }
/// ensures text { result_map_both (λ n. take n room.new) (λ fault. fault) result
///     ≡ with_piece (length room.old) left (take used room.old)
///     (in_brackets words.entry.0.now words.entry.1.now words.entry.2.now
///     words.entry.3.now words.entry.4.now) }
/// ensures within { IfOk result (λ n. n ≤ length room.old) }
/// ensures more { IfOk result (λ n. used ≤ n) }
/// ensures others { IfOk result (λ n. (k : ℕ) → n ≤ k → drop k room.new ≡ drop k room.old) }
/// ```
///
/// [docs/proofs/STATEMENT.md](crate::proved#contracts) explains the words.
#[inline]
fn put_words(
    words: (&[u8], &[u8], &[u8], &[u8], &[u8]),
    left: usize,
    room: &mut [u8],
    used: usize,
) -> Source {
    let (name, first, second, third, fourth) = words;
    let used = put_piece(name, left, room, used)?;
    let used = put_piece(first, left, room, used)?;
    let used = put_piece(second, left, room, used)?;
    let used = put_piece(third, left, room, used)?;
    let used = put_piece(fourth, left, room, used)?;
    put_piece(b"]", left, room, used)
}

// Puts the text of a component.
/// # Contract
///
/// ```text
/// requires { used ≤ length room.old }
/// ensures text { result_map_both (λ n. take n room.new) (λ fault. fault) result
///     ≡ with_source (length room.old) left (take used room.old) (component_source component) }
/// ensures within { IfOk result (λ n. n ≤ length room.old) }
/// ensures more { IfOk result (λ n. used ≤ n) }
/// ensures others { IfOk result (λ n. (k : ℕ) → n ≤ k → drop k room.new ≡ drop k room.old) }
/// ```
///
/// [docs/proofs/STATEMENT.md](crate::proved#contracts) explains the words.
#[inline]
pub(crate) fn put_component(
    component: Component,
    left: usize,
    room: &mut [u8],
    used: usize,
) -> Source {
    match component {
        Component::Ignore(count) => put_ignore(count, left, room, used),
        _ => match words_of(component) {
            Ok(words) => put_words(words, left, room, used),
            Err(fault) => Err((fault, left)),
        },
    }
}

// The name of a component and its modifiers, but for the count of `Ignore`.
/// # Contract
///
/// ```text
/// requires { is_ignore component ≡ false }
/// ensures { result_map_both
///     (λ words. in_brackets words.0.now words.1.now words.2.now words.3.now words.4.now)
///     (λ fault. fault) result ≡ component_source component }
/// ```
///
/// [docs/proofs/STATEMENT.md](crate::proved#contracts) explains the words.
#[inline]
pub(crate) const fn words_of(component: Component) -> Result<Words, ItemFault> {
    match component {
        Component::Year(base, sign, padding, range) => Ok((
            b"[year",
            padding.modifier(),
            sign.modifier(),
            base.modifier(),
            range.modifier(),
        )),
        Component::YearCentury(base, sign, padding, range) => Ok((
            b"[year repr:century",
            padding.modifier(),
            sign.modifier(),
            base.modifier(),
            range.modifier(),
        )),
        Component::YearLastTwo(base, padding) => Ok((
            b"[year repr:last_two",
            padding.modifier(),
            base.modifier(),
            b"",
            b"",
        )),
        Component::Month(padding) => Ok((b"[month", padding.modifier(), b"", b"", b"")),
        Component::MonthName(form, case) => {
            Ok((b"[month", form.month_modifier(), case.modifier(), b"", b""))
        }
        Component::Day(padding) => Ok((b"[day", padding.modifier(), b"", b"", b"")),
        Component::Ordinal(padding) => Ok((b"[ordinal", padding.modifier(), b"", b"", b"")),
        Component::WeekdayName(form, case) => Ok((
            b"[weekday",
            form.weekday_modifier(),
            case.modifier(),
            b"",
            b"",
        )),
        Component::WeekdayNumber(start, count) => {
            Ok((b"[weekday", start.modifier(), count.modifier(), b"", b""))
        }
        Component::WeekNumber(rule, padding) => Ok((
            b"[week_number",
            rule.modifier(),
            padding.modifier(),
            b"",
            b"",
        )),
        Component::Hour(padding) => Ok((b"[hour", padding.modifier(), b"", b"", b"")),
        Component::Hour12(padding) => Ok((b"[hour repr:12", padding.modifier(), b"", b"", b"")),
        Component::Period(case, read) => {
            Ok((b"[period", case.modifier(), read.modifier(), b"", b""))
        }
        Component::Minute(padding) => Ok((b"[minute", padding.modifier(), b"", b"", b"")),
        Component::Second(padding) => Ok((b"[second", padding.modifier(), b"", b"", b"")),
        Component::Subsecond(digits) => Ok((b"[subsecond", digits.modifier(), b"", b"", b"")),
        Component::OffsetHour(sign, padding) => Ok((
            b"[offset_hour",
            sign.modifier(),
            padding.modifier(),
            b"",
            b"",
        )),
        Component::OffsetMinute(padding) => {
            Ok((b"[offset_minute", padding.modifier(), b"", b"", b""))
        }
        Component::OffsetSecond(padding) => {
            Ok((b"[offset_second", padding.modifier(), b"", b"", b""))
        }
        Component::UnixTimestamp(precision, sign) => Ok((
            b"[unix_timestamp",
            precision.modifier(),
            sign.modifier(),
            b"",
            b"",
        )),
        Component::End => Ok((b"[end", b"", b"", b"", b"")),
        Component::Ignore(_)
        | Component::IgnoreWeekday(_, _)
        | Component::IgnoreDigits
        | Component::OffsetWord(_, _)
        | Component::YearSince(_)
        | Component::YearSix(_)
        | Component::HourFraction(_)
        | Component::MinuteFraction(_) => Err(ItemFault::NoName),
    }
}

// Puts the text of a number of bytes to skip.
/// # Contract
///
/// ```text
/// requires { used ≤ length room.old }
/// ensures text { result_map_both (λ n. take n room.new) (λ fault. fault) result
///     ≡ with_source (length room.old) left (take used room.old)
///     (component_source (Ignore count)) }
/// ensures within { IfOk result (λ n. n ≤ length room.old) }
/// ensures more { IfOk result (λ n. used ≤ n) }
/// ensures others { IfOk result (λ n. (k : ℕ) → n ≤ k → drop k room.new ≡ drop k room.old) }
/// ```
///
/// [docs/proofs/STATEMENT.md](crate::proved#contracts) explains the words.
#[inline]
fn put_ignore(count: u16, left: usize, room: &mut [u8], used: usize) -> Source {
    if count == 0 {
        return Err((ItemFault::NoCount, left));
    }
    let mut digits = Text::new();
    digits.push_decimal(count as u64);
    let words: (&[u8], &[u8], &[u8], &[u8], &[u8]) =
        (b"[ignore count:", digits.as_bytes(), b"", b"", b"");
    put_words(words, left, room, used)
}
