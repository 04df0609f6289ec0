// Made by make/erase of crates/zone_files/src/endings.rt. Do not edit.
//! The end of the transitions of a file, by its rule.
use crate::proved::zone_files::kinds::place_of;
use crate::proved::zone_files::tz_rule::{Daylight, TzRule};
use crate::proved::zones::{Cycle, TimeType};

// The first moment of the year 2000.
const FIRST_MOMENT: i64 = 4_000;

// What follows the transitions of a file.
#[derive(Clone, Copy)]
pub(crate) enum Ending {
    NoRule,
    Kept(TimeType),
    Goes(Cycle),
}

// The number of a name of a rule: its first place, or another number.
/// # Contract
///
/// ```text
/// ensures { IsNumber names.now name.now (name_limit names.now) absent result }
/// ```
///
/// [docs/proofs/STATEMENT.md](crate::proved#contracts) explains the words.
#[inline]
fn number(names: &[u8], name: &[u8], absent: u16) -> u16 {
    match place_of(names, name, names.len().min(256)) {
        Some(place) => place as u16,
        None => absent,
    }
}

// The kind of standard time of a rule.
/// # Contract
///
/// ```text
/// ensures { IsKindBy names.now (name_limit names.now) (rule_parts rule.entry).name
///     (rule_parts rule.entry).offset false 256 result }
/// ```
///
/// [docs/proofs/STATEMENT.md](crate::proved#contracts) explains the words.
#[inline]
fn standard(names: &[u8], rule: TzRule<'_>) -> TimeType {
    TimeType {
        offset: rule.offset,
        is_daylight: false,
        designation: number(names, rule.name, 256),
    }
}

// The kind of daylight saving time.
/// # Contract
///
/// ```text
/// ensures { IsKindBy names.now (name_limit names.now) (daylight_parts daylight.entry).name
///     (daylight_parts daylight.entry).offset true 257 result }
/// ```
///
/// [docs/proofs/STATEMENT.md](crate::proved#contracts) explains the words.
#[inline]
fn daylight_kind(names: &[u8], daylight: Daylight<'_>) -> TimeType {
    TimeType {
        offset: daylight.offset,
        is_daylight: true,
        designation: number(names, daylight.name, 257),
    }
}

// The two moments of a rule, in the order that they have in the year 2000.
/// # Contract
///
/// ```text
/// ensures { IsCycleBy names.now (name_limit names.now) (rule_parts rule.entry)
///     (daylight_parts daylight.entry) result }
/// ```
///
/// [docs/proofs/STATEMENT.md](crate::proved#contracts) explains the words.
#[inline]
fn cycle_of(names: &[u8], rule: TzRule<'_>, daylight: Daylight<'_>) -> Cycle {
    let standard = standard(names, rule);
    let daylight_kind = daylight_kind(names, daylight);
    let forward = Cycle {
        first: daylight.from,
        second: daylight.until,
        after_first: daylight_kind,
        after_second: standard,
    };
    if forward.second_of(FIRST_MOMENT) <= forward.second_of(FIRST_MOMENT + 1) {
        return forward;
    }
    Cycle {
        first: daylight.until,
        second: daylight.from,
        after_first: standard,
        after_second: daylight_kind,
    }
}

// What follows by a rule with daylight saving time.
/// # Contract
///
/// ```text
/// ensures { IsDaylightEnding names.now (name_limit names.now) (rule_parts rule.entry)
///     (daylight_parts daylight.entry) result }
/// ```
///
/// [docs/proofs/STATEMENT.md](crate::proved#contracts) explains the words.
#[inline]
fn daylight_ending(names: &[u8], rule: TzRule<'_>, daylight: Daylight<'_>) -> Ending {
    let cycle = cycle_of(names, rule, daylight);
    match cycle.one_type() {
        Some(kind) => Ending::Kept(kind),
        None => Ending::Goes(cycle),
    }
}

// What follows by a rule.
/// # Contract
///
/// ```text
/// ensures { IsRuleEnding names.now (name_limit names.now) (rule_parts rule.entry)
///     (rule_parts rule.entry).daylight result }
/// ```
///
/// [docs/proofs/STATEMENT.md](crate::proved#contracts) explains the words.
#[inline]
fn rule_ending(names: &[u8], rule: TzRule<'_>) -> Ending {
    match rule.daylight {
        Some(daylight) => daylight_ending(names, rule, daylight),
        None => Ending::Kept(standard(names, rule)),
    }
}

// What follows the transitions.
/// # Contract
///
/// ```text
/// ensures { IsEnding names.now (name_limit names.now) (option_map rule_parts rule.entry) result }
/// ```
///
/// [docs/proofs/STATEMENT.md](crate::proved#contracts) explains the words.
#[inline]
pub(crate) fn make_ending(names: &[u8], rule: Option<TzRule<'_>>) -> Ending {
    match rule {
        Some(rule) => rule_ending(names, rule),
        None => Ending::NoRule,
    }
}
