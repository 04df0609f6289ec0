// Made by make/erase of crates/format_descriptions/src/description_refusal.rt. Do not edit.
//! Why a text is no description.

/// A text that is no description: where, and why.
#[derive(Clone, Copy, Debug, PartialEq, Eq)]
pub struct DescriptionRefusal {
    /// The place of the byte at which the fault begins, counted from 0.
    pub place: usize,
    /// The fault.
    pub fault: DescriptionFault,
}

/// Why a text is no description.
#[derive(Clone, Copy, Debug, PartialEq, Eq)]
pub enum DescriptionFault {
    /// A `` has no ``. The place is that of the `[`.
    NoEnd,
    /// No name follows a `[`. The place is that of the `[`.
    NoName,
    /// A `[` is inside the brackets of a component.
    NestedBracket,
    /// There is no component of this name.
    UnknownComponent,
    /// The component has no modifier of this name.
    UnknownModifier,
    /// The modifier has no such value. The place is that of the value.
    WrongValue,
    /// The component lacks a modifier that it needs, as `[ignore]` does without `count`. The place
    /// is that of the `[`.
    MissingModifier,
    /// A backslash precedes another byte than ``, `` and a backslash, in version 2.
    WrongEscape,
    /// A `]` ends `[optional` or `[first` with no description in brackets. The place is that of the
    /// `]`.
    NoGroup,
    /// Something else than a description in brackets follows `optional` or `first`, or a second one
    /// follows `optional`.
    WrongGroup,
    /// More than 32 groups are inside each other. The place is that of the `[`.
    TooDeep,
    /// The room has no place for another item.
    NoRoom,
}
