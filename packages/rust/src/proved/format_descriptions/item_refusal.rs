// Made by make/erase of crates/format_descriptions/src/item_refusal.rt. Do not edit.
//! Why items have no text.

/// Items that have no text: which one, and why.
#[derive(Clone, Copy, Debug, PartialEq, Eq)]
pub struct ItemRefusal {
    /// The place of the item at which the text cannot continue, counted from 0.
    pub place: usize,
    /// The fault.
    pub fault: ItemFault,
}

/// Why items have no text.
#[derive(Clone, Copy, Debug, PartialEq, Eq)]
pub enum ItemFault {
    /// The component has no name in the language of descriptions.
    NoName,
    /// The count of `Ignore` is 0.
    NoCount,
    /// A `]` is in a group, which it would end: version 1 has no other text for it.
    NoEscape,
    /// An `Or` does not directly follow the group of a `First` or of another `Or`.
    NoFirst,
    /// The group has more items than the description or the group around it.
    PastEnd,
    /// More than 32 groups are inside each other.
    TooDeep,
    /// The room has no place for the text of the item.
    NoRoom,
}
