//! Descriptions as lists of items.

use alloc::boxed::Box;
use alloc::string::String;
use alloc::vec::Vec;
use core::fmt;

use super::Component;
use crate::error::DifferentVariant;

/// A description, or an item of one.
#[non_exhaustive]
#[derive(Clone, Copy, PartialEq, Eq)]
pub enum BorrowedFormatItem<'a> {
    /// Bytes that are written as they are.
    Literal(&'a [u8]),
    /// A part of a value.
    Component(Component),
    /// Items one after another.
    Compound(&'a [Self]),
    /// An item that a text may lack. It is always written.
    Optional(&'a Self),
    /// The first of these that a text has is read. The first is written.
    First(&'a [Self]),
}

/// A description that owns its items.
#[non_exhaustive]
#[derive(Clone, PartialEq, Eq)]
pub enum OwnedFormatItem {
    /// Bytes that are written as they are.
    Literal(Box<[u8]>),
    /// A part of a value.
    Component(Component),
    /// Items one after another.
    Compound(Box<[Self]>),
    /// An item that a text may lack. It is always written.
    Optional(Box<Self>),
    /// The first of these that a text has is read. The first is written.
    First(Box<[Self]>),
}

macro_rules! shown {
    ($($Name:ident: $Item:ty;)+) => {
        $(
            impl fmt::Debug for $Item {
                fn fmt(&self, f: &mut fmt::Formatter<'_>) -> fmt::Result {
                    match self {
                        Self::Literal(literal) => f.write_str(&String::from_utf8_lossy(literal)),
                        Self::Component(component) => component.fmt(f),
                        Self::Compound(items) => items.fmt(f),
                        Self::Optional(item) => f.debug_tuple("Optional").field(item).finish(),
                        Self::First(items) => f.debug_tuple("First").field(items).finish(),
                    }
                }
            }

            impl From<Component> for $Item {
                fn from(component: Component) -> Self {
                    Self::Component(component)
                }
            }

            impl TryFrom<$Item> for Component {
                type Error = DifferentVariant;

                fn try_from(item: $Item) -> Result<Self, DifferentVariant> {
                    match item {
                        $Name::Component(component) => Ok(component),
                        _ => Err(DifferentVariant),
                    }
                }
            }

            impl PartialEq<Component> for $Item {
                fn eq(&self, other: &Component) -> bool {
                    matches!(self, Self::Component(component) if component == other)
                }
            }

            impl PartialEq<$Item> for Component {
                fn eq(&self, other: &$Item) -> bool {
                    other == self
                }
            }

            impl PartialEq<&[$Item]> for $Item {
                fn eq(&self, other: &&[$Item]) -> bool {
                    matches!(self, Self::Compound(items) if **items == **other)
                }
            }

            impl PartialEq<$Item> for &[$Item] {
                fn eq(&self, other: &$Item) -> bool {
                    other == self
                }
            }
        )+
    };
}

shown! {
    BorrowedFormatItem: BorrowedFormatItem<'_>;
    OwnedFormatItem: OwnedFormatItem;
}

impl<'a> From<&'a [BorrowedFormatItem<'_>]> for BorrowedFormatItem<'a> {
    fn from(items: &'a [BorrowedFormatItem<'_>]) -> BorrowedFormatItem<'a> {
        BorrowedFormatItem::Compound(items)
    }
}

impl<'a> TryFrom<BorrowedFormatItem<'a>> for &'a [BorrowedFormatItem<'a>] {
    type Error = DifferentVariant;

    fn try_from(item: BorrowedFormatItem<'a>) -> Result<Self, DifferentVariant> {
        match item {
            BorrowedFormatItem::Compound(items) => Ok(items),
            _ => Err(DifferentVariant),
        }
    }
}

fn to_owned_items(items: &[BorrowedFormatItem<'_>]) -> Box<[OwnedFormatItem]> {
    items.iter().map(|&item| item.into()).collect()
}

impl From<BorrowedFormatItem<'_>> for OwnedFormatItem {
    fn from(item: BorrowedFormatItem<'_>) -> Self {
        match item {
            BorrowedFormatItem::Literal(literal) => OwnedFormatItem::Literal(literal.into()),
            BorrowedFormatItem::Component(component) => OwnedFormatItem::Component(component),
            BorrowedFormatItem::Compound(items) => OwnedFormatItem::Compound(to_owned_items(items)),
            BorrowedFormatItem::Optional(&item) => OwnedFormatItem::Optional(Box::new(item.into())),
            BorrowedFormatItem::First(items) => OwnedFormatItem::First(to_owned_items(items)),
        }
    }
}

impl From<&BorrowedFormatItem<'_>> for OwnedFormatItem {
    fn from(item: &BorrowedFormatItem<'_>) -> Self {
        (*item).into()
    }
}

impl From<Vec<BorrowedFormatItem<'_>>> for OwnedFormatItem {
    fn from(items: Vec<BorrowedFormatItem<'_>>) -> Self {
        items.as_slice().into()
    }
}

impl From<&[BorrowedFormatItem<'_>]> for OwnedFormatItem {
    fn from(items: &[BorrowedFormatItem<'_>]) -> Self {
        OwnedFormatItem::Compound(to_owned_items(items))
    }
}

impl From<Vec<Self>> for OwnedFormatItem {
    fn from(items: Vec<Self>) -> Self {
        OwnedFormatItem::Compound(items.into_boxed_slice())
    }
}
