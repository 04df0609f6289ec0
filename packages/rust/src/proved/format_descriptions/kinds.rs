// Made by make/erase of crates/format_descriptions/src/kinds.rt. Do not edit.
//! Texts of dates, of times of day, of offsets and of wall clocks, which have not every component.
use crate::proved::format_descriptions::item::{behind, is_other, size_of};
use crate::proved::format_descriptions::write::format;
use crate::proved::format_descriptions::{Component, FormatRefusal, Item};
use crate::proved::calendar_values::{Date, Text, Time, UtcOffset};
use crate::proved::plain_times::PlainDateTime;

/// The text of a date as the items write it. Fails with `Lacks` for the first component that is
/// none of a date, else with `NoText` if the text has more than 64 bytes, or one that is not ASCII.
///
/// ```
/// # use muxandu::proved::*;
/// # fn main() -> Result<(), Box<dyn std::error::Error>> {
/// use format_descriptions::{Component, Item, Padding};
/// let items = [Item::Part(Component::Day(Padding::Zero)), Item::Byte(b'!')];
/// let text = format_descriptions::format_date(&items, Date::UNIX_EPOCH);
/// assert_eq!(text.map(|text| text.as_bytes() == b"01!".as_slice()), Ok(true));
/// let hour = [Item::Part(Component::Hour(Padding::Zero))];
/// assert_eq!(format_descriptions::format_date(&hour, Date::UNIX_EPOCH).is_err(), true);
/// # Ok(())
/// # }
/// ```
///
/// # Contract
///
/// ```text
/// ensures text { lacking true false false items.now ≡ None →
///     OkIff result (Fits (items_text items.now date 0 (pos 0)))
///     (items_text items.now date 0 (pos 0)) }
/// ensures lacks { (c : Component) → lacking true false false items.now ≡ Some c →
///     result ≡ Err (Lacks c) }
/// ensures no_text { lacking true false false items.now ≡ None →
///     IfErr result (λ refusal. refusal ≡ NoText) }
/// ```
///
/// [docs/proofs/STATEMENT.md](crate::proved#contracts) explains the words.
#[inline]
pub fn format_date(items: &[Item], date: Date) -> Result<Text, FormatRefusal> {
    match lacking(items, true, false, false) {
        Some(component) => Err(FormatRefusal::Lacks(component)),
        None => format(items, date, Time::MIDNIGHT, UtcOffset::UTC).ok_or(FormatRefusal::NoText),
    }
}

/// The text of a time of day as the items write it. Fails with `Lacks` for the first component that
/// is none of a time of day, else with `NoText` if the text has more than 64 bytes, or one that is
/// not ASCII.
///
/// ```
/// # use muxandu::proved::*;
/// # fn main() -> Result<(), Box<dyn std::error::Error>> {
/// use format_descriptions::{Component, Item, Padding};
/// let items = [Item::Part(Component::Hour(Padding::Space))];
/// let text = format_descriptions::format_time(&items, Time::from_hms(9, 30, 0)?);
/// assert_eq!(text.map(|text| text.as_bytes() == b" 9".as_slice()), Ok(true));
/// # Ok(())
/// # }
/// ```
///
/// # Contract
///
/// ```text
/// ensures text { lacking false true false items.now ≡ None →
///     OkIff result (Fits (items_text items.now (pos 0) time (pos 0)))
///     (items_text items.now (pos 0) time (pos 0)) }
/// ensures lacks { (c : Component) → lacking false true false items.now ≡ Some c →
///     result ≡ Err (Lacks c) }
/// ensures no_text { lacking false true false items.now ≡ None →
///     IfErr result (λ refusal. refusal ≡ NoText) }
/// ```
///
/// [docs/proofs/STATEMENT.md](crate::proved#contracts) explains the words.
#[inline]
pub fn format_time(items: &[Item], time: Time) -> Result<Text, FormatRefusal> {
    match lacking(items, false, true, false) {
        Some(component) => Err(FormatRefusal::Lacks(component)),
        None => format(items, Date::UNIX_EPOCH, time, UtcOffset::UTC).ok_or(FormatRefusal::NoText),
    }
}

/// The text of an offset as the items write it. Fails with `Lacks` for the first component that is
/// none of an offset, else with `NoText` if the text has more than 64 bytes, or one that is not
/// ASCII.
///
/// ```
/// # use muxandu::proved::*;
/// # fn main() -> Result<(), Box<dyn std::error::Error>> {
/// use format_descriptions::{Component, Item, Padding, Sign};
/// let items = [Item::Part(Component::OffsetHour(Sign::Mandatory, Padding::Zero))];
/// let text = format_descriptions::format_offset(&items, UtcOffset::from_hms(2, 0, 0)?);
/// assert_eq!(text.map(|text| text.as_bytes() == b"+02".as_slice()), Ok(true));
/// # Ok(())
/// # }
/// ```
///
/// # Contract
///
/// ```text
/// ensures text { lacking false false true items.now ≡ None →
///     OkIff result (Fits (items_text items.now (pos 0) 0 offset))
///     (items_text items.now (pos 0) 0 offset) }
/// ensures lacks { (c : Component) → lacking false false true items.now ≡ Some c →
///     result ≡ Err (Lacks c) }
/// ensures no_text { lacking false false true items.now ≡ None →
///     IfErr result (λ refusal. refusal ≡ NoText) }
/// ```
///
/// [docs/proofs/STATEMENT.md](crate::proved#contracts) explains the words.
#[inline]
pub fn format_offset(items: &[Item], offset: UtcOffset) -> Result<Text, FormatRefusal> {
    match lacking(items, false, false, true) {
        Some(component) => Err(FormatRefusal::Lacks(component)),
        None => {
            format(items, Date::UNIX_EPOCH, Time::MIDNIGHT, offset).ok_or(FormatRefusal::NoText)
        }
    }
}

/// The text of a wall clock as the items write it. Fails with `Lacks` for the first component that
/// is of an offset, else with `NoText` if the text has more than 64 bytes, or one that is not
/// ASCII.
///
/// ```
/// # use muxandu::proved::*;
/// # fn main() -> Result<(), Box<dyn std::error::Error>> {
/// use format_descriptions::{Component, Item, Padding};
/// let items = [Item::Part(Component::Minute(Padding::Bare))];
/// let text = format_descriptions::format_plain(&items, PlainDateTime::MIN);
/// assert_eq!(text.map(|text| text.as_bytes() == b"0".as_slice()), Ok(true));
/// # Ok(())
/// # }
/// ```
///
/// # Contract
///
/// ```text
/// ensures text { lacking true true false items.now ≡ None →
///     OkIff result (Fits (items_text items.now (wall_day at) (wall_time at) (pos 0)))
///     (items_text items.now (wall_day at) (wall_time at) (pos 0)) }
/// ensures lacks { (c : Component) → lacking true true false items.now ≡ Some c →
///     result ≡ Err (Lacks c) }
/// ensures no_text { lacking true true false items.now ≡ None →
///     IfErr result (λ refusal. refusal ≡ NoText) }
/// ```
///
/// [docs/proofs/STATEMENT.md](crate::proved#contracts) explains the words.
#[inline]
pub fn format_plain(items: &[Item], at: PlainDateTime) -> Result<Text, FormatRefusal> {
    match lacking(items, true, true, false) {
        Some(component) => Err(FormatRefusal::Lacks(component)),
        None => format(items, at.date(), at.time(), UtcOffset::UTC).ok_or(FormatRefusal::NoText),
    }
}

// The first component that is written of another kind than those that a value has.
/// # Contract
///
/// ```text
/// ensures { result ≡ lacking date time offset items.now }
/// ```
///
/// [docs/proofs/STATEMENT.md](crate::proved#contracts) explains the words.
#[inline]
fn lacking(items: &[Item], date: bool, time: bool, offset: bool) -> Option<Component> {
    lacking_of(items, items.len(), date, time, offset)
}

// The same of the first items.
/// # Contract
///
/// ```text
/// ensures { result ≡ flat_lacking date time offset (written_from items.now 0 count) }
/// ```
///
/// [docs/proofs/STATEMENT.md](crate::proved#contracts) explains the words.
#[inline]
fn lacking_of(
    items: &[Item],
    count: usize,
    date: bool,
    time: bool,
    offset: bool,
) -> Option<Component> {
    let mut items = items;
    let mut count = count;
    while let Some((item, others)) = items.split_first() {
        if count == 0 {
            return None;
        }
        count -= 1;
        let Some(size) = size_of(*item) else {
            if let Item::Part(component) = *item {
                if !by_kind(component, date, time, offset) {
                    return Some(component);
                }
            }
            items = others;
            continue;
        };
        if !is_other(*item) {
            if let Some(component) = lacking_of(others, size.min(count), date, time, offset) {
                return Some(component);
            }
        }
        items = behind(size, others);
        count = count.saturating_sub(size);
    }
    None
}

// One of three, by what a component is of: a date, a time of day or an offset.
/// # Contract
///
/// ```text
/// ensures { result ≡ by_kind component date time offset }
/// ```
///
/// [docs/proofs/STATEMENT.md](crate::proved#contracts) explains the words.
#[inline]
const fn by_kind(component: Component, date: bool, time: bool, offset: bool) -> bool {
    match component {
        Component::Year(_, _, _, _)
        | Component::YearCentury(_, _, _, _)
        | Component::YearLastTwo(_, _)
        | Component::Month(_)
        | Component::MonthName(_, _)
        | Component::Day(_)
        | Component::Ordinal(_)
        | Component::WeekdayName(_, _)
        | Component::WeekdayNumber(_, _)
        | Component::WeekNumber(_, _)
        | Component::IgnoreWeekday(_, _)
        | Component::YearSince(_)
        | Component::YearSix(_) => date,
        Component::Hour(_)
        | Component::Hour12(_)
        | Component::Period(_, _)
        | Component::Minute(_)
        | Component::Second(_)
        | Component::Subsecond(_)
        | Component::HourFraction(_)
        | Component::MinuteFraction(_) => time,
        Component::OffsetHour(_, _)
        | Component::OffsetMinute(_)
        | Component::OffsetSecond(_)
        | Component::OffsetWord(_, _) => offset,
        Component::UnixTimestamp(_, _) => date & (time & offset),
        Component::Ignore(_) | Component::End | Component::IgnoreDigits => true,
    }
}
