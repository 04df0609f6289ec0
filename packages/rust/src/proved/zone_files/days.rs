// Made by make/erase of crates/zone_files/src/days.rt. Do not edit.
//! The days and the moments of a rule's text.
use crate::proved::zone_files::clocks::signed;
use crate::proved::zone_files::faults::{RuleFault, Stop, stop_at};
use crate::proved::zone_files::numbers::{Field, after_byte, number};
use crate::proved::calendar_values::Month;
use crate::proved::zones::{Moment, RuleDay};

// A month, a week and a weekday.
/// # Contract
///
/// ```text
/// ensures value { result_map_both (λ read. (day_parts read.0, read.1.now)) (λ stop. stop) result
///     ≡ weekday_at text.now }
/// ensures day { IfOk result (λ read. IsRuleDay read.0) }
/// ```
///
/// [docs/proofs/STATEMENT.md](crate::proved#contracts) explains the words.
#[inline]
fn weekday(text: &[u8]) -> Result<(RuleDay, &[u8]), Stop> {
    let (month, rest) = number(Field::Month, text)?;
    let rest = after_byte(b'.', rest)?;
    let (week, rest) = number(Field::Week, rest)?;
    let rest = after_byte(b'.', rest)?;
    let (weekday, rest) = number(Field::Weekday, rest)?;
    match Month::from_number(month as u8) {
        Ok(month) => Ok((RuleDay::Weekday(month, week as u8, weekday as u8), rest)),
        Err(_) => Err(stop_at(RuleFault::Range, text)),
    }
}

// A day counted without 29 February.
/// # Contract
///
/// ```text
/// ensures value { result_map_both (λ read. (day_parts read.0, read.1.now)) (λ stop. stop) result
///     ≡ common_at text.now }
/// ensures day { IfOk result (λ read. IsRuleDay read.0) }
/// ```
///
/// [docs/proofs/STATEMENT.md](crate::proved#contracts) explains the words.
#[inline]
fn common_day(text: &[u8]) -> Result<(RuleDay, &[u8]), Stop> {
    let (day, rest) = number(Field::Common, text)?;
    Ok((RuleDay::Common(day), rest))
}

// A day counted with it.
/// # Contract
///
/// ```text
/// ensures value { result_map_both (λ read. (day_parts read.0, read.1.now)) (λ stop. stop) result
///     ≡ counted_at text.now }
/// ensures day { IfOk result (λ read. IsRuleDay read.0) }
/// ```
///
/// [docs/proofs/STATEMENT.md](crate::proved#contracts) explains the words.
#[inline]
fn counted_day(text: &[u8]) -> Result<(RuleDay, &[u8]), Stop> {
    let (day, rest) = number(Field::Counted, text)?;
    Ok((RuleDay::Counted(day), rest))
}

// A day of each year.
/// # Contract
///
/// ```text
/// ensures value { result_map_both (λ read. (day_parts read.0, read.1.now)) (λ stop. stop) result
///     ≡ day_at text.now }
/// ensures day { IfOk result (λ read. IsRuleDay read.0) }
/// ```
///
/// [docs/proofs/STATEMENT.md](crate::proved#contracts) explains the words.
#[inline]
fn day(text: &[u8]) -> Result<(RuleDay, &[u8]), Stop> {
    match text.split_first() {
        Some((b'M', rest)) => weekday(rest),
        Some((b'J', rest)) => common_day(rest),
        _ => counted_day(text),
    }
}

// A time of day after a slash, or else 2:00.
/// # Contract
///
/// ```text
/// ensures value { result_map_both (λ read. (read.0, read.1.now)) (λ stop. stop) result
///     ≡ time_at text.now }
/// ensures low { IfOk result (λ read. neg_ℤ (pos 604_799) ≤ℤ read.0) }
/// ensures high { IfOk result (λ read. read.0 ≤ℤ pos 604_799) }
/// ```
///
/// [docs/proofs/STATEMENT.md](crate::proved#contracts) explains the words.
#[inline]
fn time(text: &[u8]) -> Result<(i32, &[u8]), Stop> {
    match text.split_first() {
        Some((b'/', rest)) => signed(Field::TimeHours, rest),
        _ => Ok((7_200, text)),
    }
}

// A moment of each year after a comma.
/// # Contract
///
/// ```text
/// ensures { result_map_both (λ read. (moment_parts read.0, read.1.now)) (λ stop. stop) result
///     ≡ moment_at text.now }
/// ```
///
/// [docs/proofs/STATEMENT.md](crate::proved#contracts) explains the words.
#[inline]
pub(crate) fn moment(text: &[u8]) -> Result<(Moment, &[u8]), Stop> {
    let rest = after_byte(b',', text)?;
    let (day, rest) = day(rest)?;
    let (time, rest) = time(rest)?;
    Ok((Moment { day, time }, rest))
}
