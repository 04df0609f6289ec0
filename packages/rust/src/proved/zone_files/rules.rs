// Made by make/erase of crates/zone_files/src/rules.rt. Do not edit.
//! Rules, and their texts.
use crate::proved::zone_files::clocks::signed;
use crate::proved::zone_files::days::moment;
use crate::proved::zone_files::faults::{RuleFault, RuleRefusal, Stop, stop_at};
use crate::proved::zone_files::names::name;
use crate::proved::zone_files::numbers::Field;
use crate::proved::zone_files::tz_rule::{Daylight, TzRule};

// An offset, which the text counts west of UTC.
/// # Contract
///
/// ```text
/// ensures value { result_map_both (λ read. (read.0, read.1.now)) (λ stop. stop) result
///     ≡ offset_at text.now }
/// ensures low { IfOk result (λ read. neg_ℤ (pos 89_999) ≤ℤ read.0) }
/// ensures high { IfOk result (λ read. read.0 ≤ℤ pos 89_999) }
/// ```
///
/// [docs/proofs/STATEMENT.md](crate::proved#contracts) explains the words.
#[inline]
fn offset(text: &[u8]) -> Result<(i32, &[u8]), Stop> {
    let (west, rest) = signed(Field::OffsetHours, text)?;
    Ok((-west, rest))
}

// The offset of daylight saving time, or else an hour more than that of standard time.
/// # Contract
///
/// ```text
/// requires low { neg_ℤ (pos 89_999) ≤ℤ standard }
/// requires high { standard ≤ℤ pos 89_999 }
/// ensures value { result_map_both (λ read. (read.0, read.1.now)) (λ stop. stop) result
///     ≡ daylight_offset_at standard text.now }
/// ensures in_range { IfOk result (λ read. IsOffset read.0) }
/// ```
///
/// [docs/proofs/STATEMENT.md](crate::proved#contracts) explains the words.
#[inline]
fn daylight_offset(standard: i32, text: &[u8]) -> Result<(i32, &[u8]), Stop> {
    match text.split_first() {
        Some((b',', _)) => Ok((standard + 3_600, text)),
        _ => offset(text),
    }
}

// Daylight saving time.
/// # Contract
///
/// ```text
/// requires low { neg_ℤ (pos 89_999) ≤ℤ standard }
/// requires high { standard ≤ℤ pos 89_999 }
/// ensures { result_map_both (λ read. (daylight_parts read.0, read.1.now)) (λ stop. stop) result
///     ≡ daylight_at standard text.now }
/// ```
///
/// [docs/proofs/STATEMENT.md](crate::proved#contracts) explains the words.
#[inline]
fn daylight_time(standard: i32, text: &[u8]) -> Result<(Daylight<'_>, &[u8]), Stop> {
    let (name, rest) = name(text)?;
    let (offset, rest) = daylight_offset(standard, rest)?;
    let (from, rest) = moment(rest)?;
    let (until, rest) = moment(rest)?;
    Ok((
        Daylight {
            name,
            offset,
            from,
            until,
        },
        rest,
    ))
}

// A rule with daylight saving time, and nothing after it.
/// # Contract
///
/// ```text
/// requires low { neg_ℤ (pos 89_999) ≤ℤ offset }
/// requires high { offset ≤ℤ pos 89_999 }
/// ensures { result_map_both rule_parts (λ stop. stop) result
///     ≡ rule_with_daylight name.now offset text.now }
/// ```
///
/// [docs/proofs/STATEMENT.md](crate::proved#contracts) explains the words.
#[inline]
fn rule_with_daylight<'a>(name: &'a [u8], offset: i32, text: &'a [u8]) -> Result<TzRule<'a>, Stop> {
    let (daylight, rest) = daylight_time(offset, text)?;
    if !rest.is_empty() {
        return Err(stop_at(RuleFault::Byte, rest));
    }
    Ok(TzRule {
        name,
        offset,
        daylight: Some(daylight),
    })
}

// The rule of a text, or its first fault.
/// # Contract
///
/// ```text
/// ensures { result_map_both rule_parts (λ stop. stop) result ≡ rule_in text.now }
/// ```
///
/// [docs/proofs/STATEMENT.md](crate::proved#contracts) explains the words.
#[inline]
pub(crate) fn rule_in(text: &[u8]) -> Result<TzRule<'_>, Stop> {
    let (name, rest) = name(text)?;
    let (offset, rest) = offset(rest)?;
    rule_after(name, offset, rest)
}

// The rule of a name, an offset, and what follows them.
/// # Contract
///
/// ```text
/// requires low { neg_ℤ (pos 89_999) ≤ℤ offset }
/// requires high { offset ≤ℤ pos 89_999 }
/// ensures { result_map_both rule_parts (λ stop. stop) result
///     ≡ rule_after name.now offset text.now }
/// ```
///
/// [docs/proofs/STATEMENT.md](crate::proved#contracts) explains the words.
#[inline]
fn rule_after<'a>(name: &'a [u8], offset: i32, text: &'a [u8]) -> Result<TzRule<'a>, Stop> {
    if text.is_empty() {
        return Ok(TzRule {
            name,
            offset,
            daylight: None,
        });
    }
    rule_with_daylight(name, offset, text)
}

// A fault, at the index of its byte.
/// # Contract
///
/// ```text
/// ensures value { result ≡ refusal_of text.now stop }
/// ensures place { result.place ≤ length text.now }
/// ```
///
/// [docs/proofs/STATEMENT.md](crate::proved#contracts) explains the words.
#[inline]
const fn refusal_of(stop: Stop, text: &[u8]) -> RuleRefusal {
    RuleRefusal {
        fault: stop.fault,
        place: text.len().saturating_sub(stop.left),
    }
}

// The rule of a text, or its first fault at the index of its byte.
/// # Contract
///
/// ```text
/// ensures reading { result_map_both rule_parts (λ refusal. refusal) result ≡ rule_of text.now }
/// ensures place { IfErr result (λ refusal. refusal.place ≤ length text.now) }
/// ```
///
/// [docs/proofs/STATEMENT.md](crate::proved#contracts) explains the words.
#[inline]
fn reading(text: &[u8]) -> Result<TzRule<'_>, RuleRefusal> {
    match rule_in(text) {
        Ok(rule) => Ok(rule),
        Err(stop) => Err(refusal_of(stop, text)),
    }
}

/// Reads the text of a rule in the form of the environment variable `TZ`.
///
/// ```text
/// let rule = zone_files::parse_rule(b"CET-1CEST,M3.5.0,M10.5.0/3")?;
/// assert_eq!(rt; rule.offset, 3_600);
/// ```
///
/// # Contract
///
/// ```text
/// ensures derived { IfOk result (λ rule. Derives text.now (rule_parts rule)) }
/// ensures all { (rule : RuleParts) → Derives text.now rule →
///     result_map_both rule_parts (λ refusal. refusal) result ≡ Ok rule }
/// ensures reading { result_map_both rule_parts (λ refusal. refusal) result ≡ rule_of text.now }
/// ensures place { IfErr result (λ refusal. refusal.place ≤ length text.now) }
/// ```
///
/// [docs/proofs/STATEMENT.md](crate::proved#contracts) explains the words.
#[inline]
pub fn parse_rule(text: &[u8]) -> Result<TzRule<'_>, RuleRefusal> {
    reading(text)
}
