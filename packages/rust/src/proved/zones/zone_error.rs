// Made by make/erase of crates/zones/src/zone_error.rt. Do not edit.
//! Why transitions and a rule make no zone.

/// Why transitions and a rule make no zone.
#[derive(Clone, Copy, Debug, PartialEq, Eq)]
pub enum ZoneError {
    /// The transition at this index is out of range or does not follow the one before it. A
    /// transition starts from the kind of local time that the earlier one left, and comes after it.
    /// Its gap or fold starts no earlier than the other has ended.
    Row(usize),
    /// The rule overlaps itself in some year, or does not follow the last transition.
    Rule,
}
