//! Descriptions from their texts: the proved function reads them, and what it reads becomes items
//! here.

use alloc::boxed::Box;
use alloc::string::String;
use alloc::vec;
use alloc::vec::Vec;

use super::{BorrowedFormatItem, Component, OwnedFormatItem};
use crate::error::InvalidFormatDescription;
use crate::proved::format_descriptions as proved;
use proved::{DescriptionFault, DescriptionRefusal, DescriptionVersion, Item};

/// The items from a place up to another.
const fn between<T>(all: &[T], start: usize, end: usize) -> &[T] {
    all.split_at(end).0.split_at(start).1
}

/// The place after the next `]`.
const fn after_bracket(text: &[u8], mut place: usize) -> usize {
    while place < text.len() && text[place] != b']' {
        place += 1;
    }
    place + 1
}

/// Whether an escape is at a place: its second byte is the literal.
const fn is_escape(version: DescriptionVersion, byte: u8) -> bool {
    match version {
        DescriptionVersion::One => byte == b'[',
        DescriptionVersion::Two => byte == b'\\',
    }
}

/// Whether an item is the head of a group.
const fn is_head(item: Item) -> bool {
    matches!(item, Item::Optional(_) | Item::First(_) | Item::Or(_))
}

/// The place after white space.
const fn after_space(text: &[u8], place: usize) -> usize {
    text.len() - text.split_at(place).1.trim_ascii_start().len()
}

/// The place in the first description of a group, whose `[` is at a place.
const fn in_group(text: &[u8], place: usize) -> usize {
    let name_end = word_end(text, after_space(text, place + 1));
    after_space(text, name_end) + 1
}

/// The items of a description, with one literal for each run of bytes: the next one, and where the
/// one after it begins.
struct Runs<'a> {
    version: DescriptionVersion,
    text: &'a [u8],
    place: usize,
    at: usize,
}

impl<'a> Runs<'a> {
    const fn next(self, items: &[Item]) -> (BorrowedFormatItem<'a>, Runs<'a>) {
        let Runs { version, text, mut place, mut at } = self;
        if let Item::Part(component) = items[at] {
            let behind = Runs { version, text, place: after_bracket(text, place), at: at + 1 };
            return (BorrowedFormatItem::Component(Component::of(component)), behind);
        }
        if is_escape(version, text[place]) {
            let literal = BorrowedFormatItem::Literal(between(text, place + 1, place + 2));
            return (literal, Runs { version, text, place: place + 2, at: at + 1 });
        }
        let start = place;
        while at < items.len()
            && matches!(items[at], Item::Byte(_))
            && !is_escape(version, text[place])
        {
            place += 1;
            at += 1;
        }
        (
            BorrowedFormatItem::Literal(between(text, start, place)),
            Runs { version, text, place, at },
        )
    }
}

const fn version_of(version: usize) -> DescriptionVersion {
    match version {
        1 => DescriptionVersion::One,
        2 => DescriptionVersion::Two,
        _ => panic!("a version of format descriptions must be 1 or 2"),
    }
}

/// Items side by side: where the first is, and how many there are.
#[derive(Clone, Copy)]
struct Span {
    start: usize,
    count: usize,
}

impl Span {
    const fn of<T>(self, all: &[T]) -> &[T] {
        between(all, self.start, self.start + self.count)
    }
}

/// An item before it can refer to others: those of a group are named by their places.
#[derive(Clone, Copy)]
enum Slot<'a> {
    Item(BorrowedFormatItem<'a>),
    Compound(Span),
    Optional(Span),
    First(Span),
}

/// The items of a description, those of each group side by side and before those that hold the
/// group. Items that are not settled yet are the last ones of `open`.
struct Layout<'a, 'r> {
    items: &'r [Item],
    slots: &'r mut [Slot<'a>],
    open: &'r mut [Slot<'a>],
    settled: usize,
    height: usize,
}

impl<'a> Layout<'a, '_> {
    const fn push(&mut self, slot: Slot<'a>) {
        self.open[self.height] = slot;
        self.height += 1;
    }

    /// Settles what is open above a height.
    const fn settle(&mut self, height: usize) -> Span {
        let span = Span { start: self.settled, count: self.height - height };
        while self.settled < span.start + span.count {
            self.slots[self.settled] = self.open[height + self.settled - span.start];
            self.settled += 1;
        }
        self.height = height;
        span
    }

    /// The items up to the end of a group, or of the description.
    const fn items(&mut self, mut runs: Runs<'a>, end: usize) -> (Span, Runs<'a>) {
        let height = self.height;
        while runs.at < end {
            let slot;
            (slot, runs) = if is_head(self.items[runs.at]) {
                self.group(runs, end)
            } else {
                let (item, after) = runs.next(self.items.split_at(end).0);
                (Slot::Item(item), after)
            };
            self.push(slot);
        }
        (self.settle(height), runs)
    }

    /// The group whose head comes next.
    const fn group(&mut self, mut runs: Runs<'a>, end: usize) -> (Slot<'a>, Runs<'a>) {
        let height = self.height;
        let is_optional = matches!(self.items[runs.at], Item::Optional(_));
        runs.place = in_group(runs.text, runs.place);
        while let Item::Optional(size) | Item::First(size) | Item::Or(size) = self.items[runs.at] {
            let last = runs.at + 1 + size;
            let span;
            runs.at += 1;
            (span, runs) = self.items(runs, last);
            self.push(Slot::Compound(span));
            runs.place = after_space(runs.text, runs.place + 1) + 1;
            if runs.at == end || !matches!(self.items[runs.at], Item::Or(_)) {
                break;
            }
        }
        let span = self.settle(height);
        (if is_optional { Slot::Optional(span) } else { Slot::First(span) }, runs)
    }
}

/// Lays out the items of a description in the slots, and says which are in no group. There are at
/// most as many as the text has bytes.
const fn lay_out<'a>(
    version: DescriptionVersion,
    text: &'a [u8],
    items: &[Item],
    slots: &mut [Slot<'a>],
    open: &mut [Slot<'a>],
) -> Span {
    let runs = Runs { version, text, place: 0, at: 0 };
    let mut layout = Layout { items, slots, open, settled: 0, height: 0 };
    layout.items(runs, items.len()).0
}

const NO_SLOT: Slot<'_> = Slot::Compound(Span { start: 0, count: 0 });

/// A description that `format_description!` has read.
#[doc(hidden)]
pub struct Laid<const ROOM: usize> {
    slots: [Slot<'static>; ROOM],
    span: Span,
}

impl<const ROOM: usize> Laid<ROOM> {
    /// The description of a text, at compile time.
    #[must_use]
    pub const fn new(version: usize, text: &'static str) -> Self {
        let (version, text) = (version_of(version), text.as_bytes());
        let mut room = [Item::Byte(0); ROOM];
        let read = match proved::parse_description(version, text, &mut room) {
            Ok(count) => count,
            Err(refusal) => fail(text, refusal),
        };
        let (mut slots, mut open) = ([NO_SLOT; ROOM], [NO_SLOT; ROOM]);
        let span = lay_out(version, text, room.split_at(read).0, &mut slots, &mut open);
        Self { slots, span }
    }

    /// How many items there are, with those of groups.
    #[must_use]
    pub const fn count(&self) -> usize {
        self.span.start + self.span.count
    }

    /// The items, which refer to others at the address where they will be.
    #[must_use]
    pub const fn items<const COUNT: usize>(
        &self,
        address: &'static [BorrowedFormatItem<'static>; COUNT],
    ) -> [BorrowedFormatItem<'static>; COUNT] {
        let mut items = [BorrowedFormatItem::Literal(&[]); COUNT];
        let mut at = 0;
        while at < COUNT {
            items[at] = match self.slots[at] {
                Slot::Item(item) => item,
                Slot::Compound(span) => BorrowedFormatItem::Compound(span.of(address)),
                Slot::Optional(span) => BorrowedFormatItem::Optional(&address[span.start]),
                Slot::First(span) => BorrowedFormatItem::First(span.of(address)),
            };
            at += 1;
        }
        items
    }

    /// The items that are in no group.
    #[must_use]
    pub const fn description(
        &self,
        items: &'static [BorrowedFormatItem<'static>],
    ) -> &'static [BorrowedFormatItem<'static>] {
        self.span.of(items)
    }
}

/// The message of a fault, before its word, and whether it has one.
const fn words_of(fault: DescriptionFault) -> (&'static str, bool) {
    match fault {
        DescriptionFault::NoEnd => {
            ("a `[` has no `]`: close it, or write `[[` for a bracket", false)
        }
        DescriptionFault::NoName => {
            ("a `[` has no name after it: name a component, as in `[year]`", false)
        }
        DescriptionFault::NestedBracket => {
            ("a component has a `[` inside: close the component first", false)
        }
        DescriptionFault::UnknownComponent => ("there is no such component: ", true),
        DescriptionFault::UnknownModifier => ("the component has no such modifier: ", true),
        DescriptionFault::WrongValue => ("the modifier has no such value: ", true),
        DescriptionFault::MissingModifier => {
            ("the component lacks a modifier: write `count:N` after `ignore`", false)
        }
        DescriptionFault::WrongEscape => (
            "a backslash precedes another byte than `[`, `]` or a backslash: write two for one",
            false,
        ),
        DescriptionFault::NoGroup => (
            "`optional` and `first` need a description in brackets, as in `[optional [:[second]]]`",
            false,
        ),
        DescriptionFault::WrongGroup => {
            ("only descriptions in brackets follow `first`, and only one follows `optional`", false)
        }
        DescriptionFault::TooDeep => ("more than 32 groups are inside each other", false),
        DescriptionFault::NoRoom => ("the description has too many items", false),
    }
}

/// Where the word at a place ends.
const fn word_end(text: &[u8], mut place: usize) -> usize {
    while place < text.len()
        && !matches!(text[place], b'[' | b']' | b' ' | b'\t' | b'\n' | b'\x0c' | b'\r')
    {
        place += 1;
    }
    place
}

/// Ends the compilation with a message that names the fault, and the word that it is of.
const fn fail(text: &[u8], refusal: DescriptionRefusal) -> ! {
    let (words, has_word) = words_of(refusal.fault);
    let end = if has_word { word_end(text, refusal.place) } else { refusal.place };
    let mut message = [0; 160];
    let mut count = 0;
    while count < words.len() {
        message[count] = words.as_bytes()[count];
        count += 1;
    }
    let mut place = refusal.place;
    while place < end && count < message.len() {
        message[count] = text[place];
        count += 1;
        place += 1;
    }
    match core::str::from_utf8(message.split_at(count).0) {
        Ok(message) => panic!("{}", message),
        Err(_) => panic!("{}", words),
    }
}

fn invalid(text: &str, refusal: DescriptionRefusal) -> InvalidFormatDescription {
    let index = refusal.place;
    let word =
        || String::from(text.get(index..word_end(text.as_bytes(), index)).unwrap_or_default());
    match refusal.fault {
        DescriptionFault::NoEnd => InvalidFormatDescription::UnclosedOpeningBracket { index },
        DescriptionFault::NoName => InvalidFormatDescription::MissingComponentName { index },
        DescriptionFault::NestedBracket => InvalidFormatDescription::NotSupported {
            what: "brackets",
            context: "in components",
            index,
        },
        DescriptionFault::UnknownComponent => {
            InvalidFormatDescription::InvalidComponentName { name: word(), index }
        }
        DescriptionFault::UnknownModifier | DescriptionFault::WrongValue => {
            InvalidFormatDescription::InvalidModifier { value: word(), index }
        }
        DescriptionFault::MissingModifier => {
            InvalidFormatDescription::MissingRequiredModifier { name: "count", index }
        }
        DescriptionFault::WrongEscape => {
            InvalidFormatDescription::Expected { what: "valid escape sequence", index }
        }
        DescriptionFault::NoGroup => {
            InvalidFormatDescription::Expected { what: "a description in brackets", index }
        }
        DescriptionFault::WrongGroup => {
            InvalidFormatDescription::Expected { what: "one description in brackets", index }
        }
        DescriptionFault::TooDeep => InvalidFormatDescription::NotSupported {
            what: "a group",
            context: "inside 32 others",
            index,
        },
        DescriptionFault::NoRoom => {
            InvalidFormatDescription::Expected { what: "end of input", index }
        }
    }
}

/// The items of a description, as the proved function reads them.
fn items_of(
    version: DescriptionVersion,
    text: &str,
) -> Result<Vec<Item>, InvalidFormatDescription> {
    let mut room = vec![Item::Byte(0); text.len()];
    let count = proved::parse_description(version, text.as_bytes(), &mut room)
        .map_err(|refusal| invalid(text, refusal))?;
    room.truncate(count);
    Ok(room)
}

fn read(
    version: DescriptionVersion,
    text: &str,
) -> Result<Vec<BorrowedFormatItem<'_>>, InvalidFormatDescription> {
    let items = items_of(version, text)?;
    let items = &items[..];
    let mut found = Vec::new();
    let mut runs = Runs { version, text: text.as_bytes(), place: 0, at: 0 };
    while runs.at < items.len() {
        if is_head(items[runs.at]) {
            return Err(InvalidFormatDescription::NotSupported {
                what: "optional and first items",
                context: "in borrowed descriptions: parse_owned reads them",
                index: after_space(runs.text, runs.place + 1),
            });
        }
        let (item, after) = runs.next(items);
        found.push(item);
        runs = after;
    }
    Ok(found)
}

/// The items of a description, in version 1 of the language.
///
/// ```
/// use muxandu::format_description;
/// use muxandu::macros::date;
///
/// let description = format_description::parse("[day padding:none] [month repr:short] [year]")?;
/// assert_eq!(date!(2024-02-09).format(&description)?, "9 Feb 2024");
/// # Ok::<(), muxandu::Error>(())
/// ```
///
/// # Errors
///
/// The text is no description: the error names the fault and its place.
pub fn parse(text: &str) -> Result<Vec<BorrowedFormatItem<'_>>, InvalidFormatDescription> {
    read(DescriptionVersion::One, text)
}

/// The items of a description, in version 1 or 2 of the language.
///
/// ```
/// use muxandu::format_description::parse_borrowed;
/// use muxandu::macros::date;
///
/// let description = parse_borrowed::<2>(r"\[[year]-[month]\]")?;
/// assert_eq!(date!(2024-02-09).format(&description)?, "[2024-02]");
/// # Ok::<(), muxandu::Error>(())
/// ```
///
/// # Errors
///
/// As [`parse`].
///
/// # Panics
///
/// There is no such version.
pub fn parse_borrowed<const VERSION: usize>(
    text: &str,
) -> Result<Vec<BorrowedFormatItem<'_>>, InvalidFormatDescription> {
    read(const { version_of(VERSION) }, text)
}

/// The items of a description that are side by side.
fn owned_items(slots: &[Slot<'_>], span: Span) -> Vec<OwnedFormatItem> {
    span.of(slots).iter().map(|&slot| owned_item(slots, slot)).collect()
}

fn owned_item(slots: &[Slot<'_>], slot: Slot<'_>) -> OwnedFormatItem {
    match slot {
        Slot::Item(item) => item.into(),
        Slot::Compound(span) => owned_items(slots, span).into(),
        Slot::Optional(span) => {
            OwnedFormatItem::Optional(Box::new(owned_item(slots, slots[span.start])))
        }
        Slot::First(span) => OwnedFormatItem::First(owned_items(slots, span).into()),
    }
}

/// A description that owns its items, in version 1 or 2 of the language. It may have items that a
/// text may lack, `[optional [..]]`, and alternatives, `[first [..] [..]]`.
///
/// ```
/// use muxandu::Time;
/// use muxandu::format_description::parse_owned;
/// use muxandu::macros::time;
///
/// let description = parse_owned::<2>("[hour]:[minute][optional [:[second]]]")?;
/// assert_eq!(Time::parse("12:34", &description), Ok(time!(12:34)));
/// assert_eq!(Time::parse("12:34:56", &description), Ok(time!(12:34:56)));
/// # Ok::<(), muxandu::Error>(())
/// ```
///
/// # Errors
///
/// As [`parse`].
pub fn parse_owned<const VERSION: usize>(
    text: &str,
) -> Result<OwnedFormatItem, InvalidFormatDescription> {
    let version = const { version_of(VERSION) };
    let items = items_of(version, text)?;
    let (mut slots, mut open) = (vec![NO_SLOT; text.len()], vec![NO_SLOT; text.len()]);
    let span = lay_out(version, text.as_bytes(), &items, &mut slots, &mut open);
    Ok(owned_items(&slots, span).into())
}
