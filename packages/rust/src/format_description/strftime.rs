//! Descriptions from patterns of C's `strftime`.

use alloc::string::String;
use alloc::vec::Vec;

use super::modifier::Padding;
use super::{BorrowedFormatItem, Component, OwnedFormatItem, StaticFormatDescription};
use crate::error::InvalidFormatDescription;
use crate::macros::format_description;

/// The items of each directive, in the locale `C`.
macro_rules! directives {
    ($($letter:literal $description:literal)+) => {
        const fn items_of(letter: u8) -> Option<StaticFormatDescription> {
            match letter {
                $($letter => Some(format_description!($description)),)+
                _ => None,
            }
        }
    };
}

directives! {
    b'a' "[weekday repr:short]"
    b'A' "[weekday]"
    b'b' "[month repr:short]"
    b'B' "[month repr:long]"
    b'c' "[weekday repr:short] [month repr:short] [day padding:space] [hour]:[minute]:[second] [year]"
    b'C' "[year repr:century]"
    b'd' "[day]"
    b'D' "[month]/[day]/[year repr:last_two]"
    b'e' "[day padding:space]"
    b'f' "[subsecond digits:6]"
    b'F' "[year]-[month]-[day]"
    b'g' "[year base:iso_week repr:last_two]"
    b'G' "[year base:iso_week]"
    b'h' "[month repr:short]"
    b'H' "[hour]"
    b'I' "[hour repr:12]"
    b'j' "[ordinal]"
    b'k' "[hour padding:space]"
    b'l' "[hour repr:12 padding:space]"
    b'm' "[month]"
    b'M' "[minute]"
    b'n' "\n"
    b'p' "[period]"
    b'P' "[period case:lower]"
    b'r' "[hour repr:12]:[minute]:[second] [period]"
    b'R' "[hour]:[minute]"
    b's' "[unix_timestamp]"
    b'S' "[second]"
    b't' "\t"
    b'T' "[hour]:[minute]:[second]"
    b'u' "[weekday repr:monday]"
    b'U' "[week_number repr:sunday]"
    b'V' "[week_number]"
    b'w' "[weekday repr:sunday one_indexed:false]"
    b'W' "[week_number repr:monday]"
    b'x' "[month]/[day]/[year repr:last_two]"
    b'X' "[hour]:[minute]:[second]"
    b'y' "[year repr:last_two]"
    b'Y' "[year]"
    b'z' "[offset_hour sign:mandatory][offset_minute]"
    b'%' "%"
}

/// The padding of a flag.
const fn padding_of(flag: u8) -> Option<Padding> {
    match flag {
        b'-' => Some(Padding::None),
        b'_' => Some(Padding::Space),
        b'0' => Some(Padding::Zero),
        _ => None,
    }
}

/// An item with another padding. Names, marks and counts have none.
fn with_padding(item: BorrowedFormatItem<'_>, padding: Padding) -> BorrowedFormatItem<'_> {
    macro_rules! of_numbers {
        ($($Name:ident)+) => {
            match item {
                $(BorrowedFormatItem::Component(Component::$Name(part)) => {
                    Component::$Name(part.with_padding(padding)).into()
                })+
                _ => item,
            }
        };
    }
    of_numbers!(Day Month Ordinal WeekNumber Year Hour Minute Second)
}

/// The items of a directive whose `%` is at a place, and the place after it.
fn directive(
    pattern: &str,
    index: usize,
) -> Result<(BorrowedFormatItem<'_>, usize), InvalidFormatDescription> {
    let after = &pattern.as_bytes()[index + 1..];
    let padding = after.first().copied().and_then(padding_of);
    let place = index + 1 + usize::from(padding.is_some());
    let Some(letter) = pattern[place..].chars().next() else {
        return Err(InvalidFormatDescription::MissingComponentName { index });
    };
    if matches!(letter, 'E' | 'O' | 'Z' | '+') {
        let what = "texts of a locale and names of zones";
        return Err(InvalidFormatDescription::NotSupported {
            what,
            context: "in patterns of strftime",
            index: place,
        });
    }
    let Some(items) = u8::try_from(letter).ok().and_then(items_of) else {
        let name = String::from(letter);
        return Err(InvalidFormatDescription::InvalidComponentName { name, index: place });
    };
    let item = match (items, padding) {
        ([item], Some(padding)) => with_padding(*item, padding),
        ([item], None) => *item,
        (items, _) => BorrowedFormatItem::Compound(items),
    };
    Ok((item, place + 1))
}

/// The items of a pattern of C's `strftime`, in the locale `C`. A flag `-`, `_` or `0` after the
/// `%` pads a number with nothing, spaces or zeros. `%f` is Python's: six digits of the second.
///
/// ```
/// use muxandu::format_description::parse_strftime_borrowed;
/// use muxandu::macros::datetime;
/// use muxandu::PlainDateTime;
///
/// let pattern = parse_strftime_borrowed("%d/%b/%Y:%H:%M:%S")?;
/// let at = datetime!(2024-02-29 12:34:56);
/// assert_eq!(at.format(&pattern)?, "29/Feb/2024:12:34:56");
/// assert_eq!(PlainDateTime::parse("29/Feb/2024:12:34:56", &pattern)?, at);
/// # Ok::<(), muxandu::Error>(())
/// ```
///
/// # Errors
///
/// No description says a directive: the error names it and its place.
pub fn parse_strftime_borrowed(
    pattern: &str,
) -> Result<Vec<BorrowedFormatItem<'_>>, InvalidFormatDescription> {
    let (mut found, mut place) = (Vec::new(), 0);
    while let Some(size) = pattern[place..].find('%') {
        let index = place + size;
        if size > 0 {
            found.push(BorrowedFormatItem::Literal(&pattern.as_bytes()[place..index]));
        }
        let item;
        (item, place) = directive(pattern, index)?;
        found.push(item);
    }
    if place < pattern.len() {
        found.push(BorrowedFormatItem::Literal(&pattern.as_bytes()[place..]));
    }
    Ok(found)
}

/// As [`parse_strftime_borrowed`], with items that own their texts.
///
/// ```
/// use muxandu::format_description::parse_strftime_owned;
/// use muxandu::macros::time;
///
/// let pattern = parse_strftime_owned("%-I:%M %P")?;
/// assert_eq!(time!(13:05).format(&pattern)?, "1:05 pm");
/// # Ok::<(), muxandu::Error>(())
/// ```
///
/// # Errors
///
/// As [`parse_strftime_borrowed`].
pub fn parse_strftime_owned(pattern: &str) -> Result<OwnedFormatItem, InvalidFormatDescription> {
    Ok(parse_strftime_borrowed(pattern)?.into())
}
