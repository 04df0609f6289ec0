// Made by make/erase of crates/format_descriptions/src/iso8601.rt. Do not edit.
//! Texts of ISO 8601, read in each of its forms.
use crate::proved::format_descriptions::read::parse;
use crate::proved::format_descriptions::{
    Component, Item, Padding, Parts, ReadCase, Sign, SubsecondDigits, UtcWord, WeekRule, WeekStart,
    WeekdayCount, YearBase, YearRange,
};

// The date of ISO 8601, `T`, and the time of day with the offset, in each of their forms.
const ISO_8601: [Item; 88] = [
    Item::First(5),
    Item::Part(Component::Year(
        YearBase::Calendar,
        Sign::Automatic,
        Padding::Zero,
        YearRange::Extended,
    )),
    Item::Byte(b'-'),
    Item::Part(Component::Month(Padding::Zero)),
    Item::Byte(b'-'),
    Item::Part(Component::Day(Padding::Zero)),
    Item::Or(3),
    Item::Part(Component::Year(
        YearBase::Calendar,
        Sign::Automatic,
        Padding::Zero,
        YearRange::Extended,
    )),
    Item::Byte(b'-'),
    Item::Part(Component::Ordinal(Padding::Zero)),
    Item::Or(6),
    Item::Part(Component::Year(
        YearBase::IsoWeek,
        Sign::Automatic,
        Padding::Zero,
        YearRange::Extended,
    )),
    Item::Byte(b'-'),
    Item::Byte(b'W'),
    Item::Part(Component::WeekNumber(WeekRule::Iso, Padding::Zero)),
    Item::Byte(b'-'),
    Item::Part(Component::WeekdayNumber(
        WeekStart::Monday,
        WeekdayCount::FromOne,
    )),
    Item::Or(3),
    Item::Part(Component::Year(
        YearBase::Calendar,
        Sign::Automatic,
        Padding::Zero,
        YearRange::Extended,
    )),
    Item::Part(Component::Month(Padding::Zero)),
    Item::Part(Component::Day(Padding::Zero)),
    Item::Or(2),
    Item::Part(Component::Year(
        YearBase::Calendar,
        Sign::Automatic,
        Padding::Zero,
        YearRange::Extended,
    )),
    Item::Part(Component::Ordinal(Padding::Zero)),
    Item::Or(4),
    Item::Part(Component::Year(
        YearBase::IsoWeek,
        Sign::Automatic,
        Padding::Zero,
        YearRange::Extended,
    )),
    Item::Byte(b'W'),
    Item::Part(Component::WeekNumber(WeekRule::Iso, Padding::Zero)),
    Item::Part(Component::WeekdayNumber(
        WeekStart::Monday,
        WeekdayCount::FromOne,
    )),
    Item::Byte(b'T'),
    Item::First(19),
    Item::Part(Component::Hour(Padding::Zero)),
    Item::Byte(b':'),
    Item::Part(Component::Minute(Padding::Zero)),
    Item::Optional(15),
    Item::First(8),
    Item::Byte(b':'),
    Item::Part(Component::Second(Padding::Zero)),
    Item::Optional(5),
    Item::First(1),
    Item::Byte(b'.'),
    Item::Or(1),
    Item::Byte(b','),
    Item::Part(Component::Subsecond(SubsecondDigits::OneOrMore)),
    Item::Or(5),
    Item::First(1),
    Item::Byte(b'.'),
    Item::Or(1),
    Item::Byte(b','),
    Item::Part(Component::MinuteFraction(SubsecondDigits::OneOrMore)),
    Item::Or(17),
    Item::Part(Component::Hour(Padding::Zero)),
    Item::Part(Component::Minute(Padding::Zero)),
    Item::Optional(14),
    Item::First(7),
    Item::Part(Component::Second(Padding::Zero)),
    Item::Optional(5),
    Item::First(1),
    Item::Byte(b'.'),
    Item::Or(1),
    Item::Byte(b','),
    Item::Part(Component::Subsecond(SubsecondDigits::OneOrMore)),
    Item::Or(5),
    Item::First(1),
    Item::Byte(b'.'),
    Item::Or(1),
    Item::Byte(b','),
    Item::Part(Component::MinuteFraction(SubsecondDigits::OneOrMore)),
    Item::Or(7),
    Item::Part(Component::Hour(Padding::Zero)),
    Item::Optional(5),
    Item::First(1),
    Item::Byte(b'.'),
    Item::Or(1),
    Item::Byte(b','),
    Item::Part(Component::HourFraction(SubsecondDigits::OneOrMore)),
    Item::Optional(11),
    Item::First(3),
    Item::Part(Component::OffsetHour(Sign::Mandatory, Padding::Zero)),
    Item::Byte(b':'),
    Item::Part(Component::OffsetMinute(Padding::Zero)),
    Item::Or(2),
    Item::Part(Component::OffsetHour(Sign::Mandatory, Padding::Zero)),
    Item::Part(Component::OffsetMinute(Padding::Zero)),
    Item::Or(1),
    Item::Part(Component::OffsetHour(Sign::Mandatory, Padding::Zero)),
    Item::Or(1),
    Item::Part(Component::OffsetWord(UtcWord::Zulu, ReadCase::Same)),
];

// How many of these items are the date.
const DATE_ITEMS: usize = 29;

/// The parts of a date-time in a form of ISO 8601, as `2024-02-29T12:30:45.5+05:30`. The date can
/// be one of the calendar, a day of the year such as `2024-060`, or one of an ISO week such as
/// `2024-W09-4`. The second and the minute can be absent. A point or a comma, and a fraction of
/// what is last, can follow: `12.5` is half past twelve. The offset can be `Z` or absent. The date,
/// the time of day and the offset can each lack the marks between their parts. Fails as `parse`
/// does.
///
/// ```
/// # use muxandu::proved::*;
/// # fn main() -> Result<(), Box<dyn std::error::Error>> {
/// let parts = format_descriptions::parse_iso8601(b"2024-W09-4T1230Z");
/// assert_eq!(parts.map(|parts| parts.iso_week), Ok(Some(9)));
/// assert_eq!(format_descriptions::parse_iso8601(b"2024-02-29").err(), Some(10));
/// # Ok(())
/// # }
/// ```
///
/// # Contract
///
/// ```text
/// ensures reading { result ≡ result_map_both (λ p. p) (λ left. length text.now - left)
///     (items_at iso8601_items text.now no_parts) }
/// ensures accepted { IfOk result (λ parts. items_at iso8601_items text.now no_parts ≡ Ok parts) }
/// ensures refused { IfErr result (λ place. (left : ℕ) ×
///     (items_at iso8601_items text.now no_parts ≡ Err left) × (place ≡ length text.now - left)) }
/// ```
///
/// [docs/proofs/STATEMENT.md](crate::proved#contracts) explains the words.
#[inline]
pub fn parse_iso8601(text: &[u8]) -> Result<Parts, usize> {
    parse(&ISO_8601, text)
}

/// The parts of a date alone in a form of ISO 8601, as `parse_iso8601` reads it. Fails as `parse`
/// does.
///
/// ```
/// # use muxandu::proved::*;
/// # fn main() -> Result<(), Box<dyn std::error::Error>> {
/// let parts = format_descriptions::parse_iso8601_date(b"2024-060");
/// assert_eq!(parts.map(|parts| parts.ordinal), Ok(Some(60)));
/// # Ok(())
/// # }
/// ```
///
/// # Contract
///
/// ```text
/// ensures reading { result ≡ result_map_both (λ p. p) (λ left. length text.now - left)
///     (items_at iso8601_date_items text.now no_parts) }
/// ensures accepted { IfOk result (λ parts.
///     items_at iso8601_date_items text.now no_parts ≡ Ok parts) }
/// ensures refused { IfErr result (λ place. (left : ℕ) ×
///     (items_at iso8601_date_items text.now no_parts ≡ Err left) ×
///     (place ≡ length text.now - left)) }
/// ```
///
/// [docs/proofs/STATEMENT.md](crate::proved#contracts) explains the words.
#[inline]
pub fn parse_iso8601_date(text: &[u8]) -> Result<Parts, usize> {
    parse(&ISO_8601[..DATE_ITEMS], text)
}

/// The parts of a time of day alone in a form of ISO 8601, with its offset if it has one, as
/// `parse_iso8601` reads them after the `T`. Fails as `parse` does.
///
/// ```
/// # use muxandu::proved::*;
/// # fn main() -> Result<(), Box<dyn std::error::Error>> {
/// let parts = format_descriptions::parse_iso8601_time(b"12.5+02");
/// assert_eq!(parts.map(|parts| parts.minute), Ok(Some(30)));
/// # Ok(())
/// # }
/// ```
///
/// # Contract
///
/// ```text
/// ensures reading { result ≡ result_map_both (λ p. p) (λ left. length text.now - left)
///     (items_at iso8601_time_items text.now no_parts) }
/// ensures accepted { IfOk result (λ parts.
///     items_at iso8601_time_items text.now no_parts ≡ Ok parts) }
/// ensures refused { IfErr result (λ place. (left : ℕ) ×
///     (items_at iso8601_time_items text.now no_parts ≡ Err left) ×
///     (place ≡ length text.now - left)) }
/// ```
///
/// [docs/proofs/STATEMENT.md](crate::proved#contracts) explains the words.
#[inline]
pub fn parse_iso8601_time(text: &[u8]) -> Result<Parts, usize> {
    parse(&ISO_8601[DATE_ITEMS + 1..], text)
}
