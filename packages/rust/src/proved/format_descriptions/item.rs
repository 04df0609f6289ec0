// Made by make/erase of crates/format_descriptions/src/item.rt. Do not edit.
//! The items of a description.
use crate::proved::format_descriptions::Component;

/// An item of a description. A description is a slice of items.
///
/// `Optional`, `First` and `Or` are heads of groups: each counts the items after it that belong to
/// its group. A count that goes past the end counts up to the end. The count of a group in a group
/// goes up to the end of the outer one.
#[derive(Clone, Copy, Debug, PartialEq, Eq)]
pub enum Item {
    /// A byte that is written as it is.
    Byte(u8),
    /// A part of the value.
    Part(Component),
    /// A group that a text need not have. It is always written. Where a text does not have all its
    /// items, none of them is read.
    Optional(usize),
    /// A group, in place of which a text can have one of the `Or` groups directly after it. It is
    /// written, and those are not. The first of all these groups that a text has is read.
    First(usize),
    /// Another group in place of the `First` before it.
    Or(usize),
}

// How many items belong to the group of this head. None of an item that is no head.
/// # Contract
///
/// ```text
/// ensures { result ≡ size_of item }
/// ```
///
/// [docs/proofs/STATEMENT.md](crate::proved#contracts) explains the words.
#[inline]
pub(crate) const fn size_of(item: Item) -> Option<usize> {
    match item {
        Item::Byte(_) | Item::Part(_) => None,
        Item::Optional(size) | Item::First(size) | Item::Or(size) => Some(size),
    }
}

// Whether this is the head of a group in place of another.
/// # Contract
///
/// ```text
/// ensures { result ≡ is_other item }
/// ```
///
/// [docs/proofs/STATEMENT.md](crate::proved#contracts) explains the words.
#[inline]
pub(crate) const fn is_other(item: Item) -> bool {
    match item {
        Item::Or(_) => true,
        Item::Byte(_) | Item::Part(_) | Item::Optional(_) | Item::First(_) => false,
    }
}

// The fault that waits for another group, after one that could not be read.
/// # Contract
///
/// ```text
/// ensures { result ≡ fault_after item earlier left }
/// ```
///
/// [docs/proofs/STATEMENT.md](crate::proved#contracts) explains the words.
#[inline]
pub(crate) const fn fault_after(item: Item, earlier: Option<usize>, left: usize) -> Option<usize> {
    match item {
        Item::First(_) => Some(left),
        Item::Byte(_) | Item::Part(_) | Item::Optional(_) | Item::Or(_) => earlier,
    }
}

// The items after this number of them.
/// # Contract
///
/// ```text
/// ensures items { result.now ≡ drop count items.now }
/// ensures shorter { length result.now ≤ length items.now }
/// ```
///
/// [docs/proofs/STATEMENT.md](crate::proved#contracts) explains the words.
#[inline]
pub(crate) fn behind(count: usize, items: &[Item]) -> &[Item] {
    if count < items.len() {
        &items[count..]
    } else {
        &[]
    }
}
