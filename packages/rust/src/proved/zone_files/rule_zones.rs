// Made by make/erase of crates/zone_files/src/rule_zones.rt. Do not edit.
//! The zones of rules alone.
use crate::proved::zone_files::endings::{Ending, make_ending};
use crate::proved::zone_files::tz_rule::TzRule;
use crate::proved::zones::Zone;

/// Returns the zone whose rule holds at all times, or `None` if the rule overlaps itself in some
/// year. It numbers the abbreviation of standard time 256, and that of daylight saving time 257.
///
/// # Contract
///
/// ```text
/// ensures some { IfSome result (λ z. IsRuleZone (rule_parts rule.entry) z) }
/// ensures none { IfNone result (NeverRuleZone (rule_parts rule.entry)) }
/// ```
///
/// [docs/proofs/STATEMENT.md](crate::proved#contracts) explains the words.
#[inline]
pub fn rule_zone<'a>(rule: TzRule<'_>) -> Option<Zone<'a>> {
    match make_ending(&[], Some(rule)) {
        Ending::Kept(kind) => Some(Zone::of_type(kind)),
        Ending::Goes(cycle) => Zone::of_rule(cycle),
        Ending::NoRule => None,
    }
}
