//! Values read by descriptions: each component by the proved function, and the value of its parts
//! by proved functions too.

use core::num::{NonZeroU8, NonZeroU16};
use core::ops::Deref;

use crate::error::{ComponentRange, Parse, ParseFromDescription, TryFromParsed};
use crate::format_description::well_known::iso8601::EncodedConfig;
use crate::format_description::well_known::{Iso8601, Rfc2822, Rfc3339};
use crate::format_description::{BorrowedFormatItem, Component, OwnedFormatItem};
use crate::proved::Part;
use crate::proved::format_descriptions::{
    Field, MailRefusal, Parts, ValueRefusal, parse_iso8601, parse_iso8601_date, parse_iso8601_time,
    parse_rfc2822_front_into,
};
use crate::{
    Date, Month, OffsetDateTime, PlainDateTime, Time, Timestamp, UtcDateTime, UtcOffset, Weekday,
};

/// The parts that a text gives.
///
/// ```
/// use muxandu::Date;
/// use muxandu::format_description;
/// use muxandu::parsing::Parsed;
///
/// let mut parsed = Parsed::new();
/// let description = format_description::parse("[day]/[month]")?;
/// let rest = parsed.parse_items(b"29/02, in a leap year", &description)?;
/// assert_eq!(rest, b", in a leap year");
/// parsed.set_year(2024);
/// assert_eq!(Date::try_from(parsed)?.to_string(), "2024-02-29");
/// # Ok::<(), muxandu::Error>(())
/// ```
#[derive(Clone, Copy)]
pub struct Parsed {
    parts: Parts,
}

impl core::fmt::Debug for Parsed {
    fn fmt(&self, f: &mut core::fmt::Formatter<'_>) -> core::fmt::Result {
        f.debug_struct("Parsed").finish_non_exhaustive()
    }
}

impl Default for Parsed {
    fn default() -> Parsed {
        Parsed::new()
    }
}

/// The component that a text does not begin with, or none for a literal. It is small, so that a
/// result of each item fits in two registers.
#[derive(Clone, Copy)]
struct Fault(Option<Component>);

impl From<Fault> for ParseFromDescription {
    fn from(fault: Fault) -> ParseFromDescription {
        match fault.0 {
            Some(component) => ParseFromDescription::InvalidComponent(component.name()),
            None => ParseFromDescription::InvalidLiteral,
        }
    }
}

impl Parsed {
    /// Reads a component, and gives what follows it.
    #[inline(never)]
    fn read<'a>(&mut self, input: &'a [u8], component: Component) -> Result<&'a [u8], Fault> {
        component.read(input, &mut self.parts).ok_or(Fault(Some(component)))
    }

    /// No part is known.
    ///
    /// ```
    /// use muxandu::parsing::Parsed;
    ///
    /// assert_eq!(Parsed::new().year(), None);
    /// ```
    #[must_use]
    pub const fn new() -> Parsed {
        Parsed { parts: Parts::none() }
    }

    /// Reads a component at the front of a text, and returns what follows it.
    ///
    /// ```
    /// use muxandu::format_description::{Component, modifier};
    /// use muxandu::parsing::Parsed;
    ///
    /// let mut parsed = Parsed::new();
    /// let rest = parsed.parse_component(b"29.02.", Component::Day(modifier::Day::default()))?;
    /// assert_eq!((rest, parsed.day().map(|day| day.get())), (b".02.".as_slice(), Some(29)));
    /// # Ok::<(), muxandu::error::ParseFromDescription>(())
    /// ```
    ///
    /// # Errors
    ///
    /// The text does not begin so, or contradicts a known part.
    pub fn parse_component<'a>(
        &mut self,
        input: &'a [u8],
        component: Component,
    ) -> Result<&'a [u8], ParseFromDescription> {
        Ok(self.read(input, component)?)
    }

    /// Returns the bytes after these.
    ///
    /// ```
    /// use muxandu::parsing::Parsed;
    ///
    /// assert_eq!(Parsed::parse_literal(b"T12:34", b"T")?, b"12:34");
    /// # Ok::<(), muxandu::error::ParseFromDescription>(())
    /// ```
    ///
    /// # Errors
    ///
    /// The text does not begin so.
    pub fn parse_literal<'a>(
        input: &'a [u8],
        literal: &[u8],
    ) -> Result<&'a [u8], ParseFromDescription> {
        input.strip_prefix(literal).ok_or(ParseFromDescription::InvalidLiteral)
    }
}

/// The two kinds of items.
trait Read {
    fn read<'a>(&self, parsed: &mut Parsed, input: &'a [u8]) -> Result<&'a [u8], Fault>;
}

macro_rules! read {
    ($($Item:ty)+) => {
        $(impl Read for $Item {
            #[inline(always)]
            fn read<'a>(&self, parsed: &mut Parsed, input: &'a [u8]) -> Result<&'a [u8], Fault> {
                match self {
                    Self::Literal(literal) => after_bytes(literal, input),
                    Self::Component(component) => parsed.read(input, *component),
                    Self::Compound(items) => read_all(items, parsed, input),
                    Self::Optional(item) => Ok(read_one(&**item, parsed, input).unwrap_or(input)),
                    Self::First(items) => read_first(items, parsed, input),
                }
            }
        })+
    };
}

read! { BorrowedFormatItem<'_> OwnedFormatItem }

/// The rest of a text after a literal. Most have one byte, which needs no call to compare.
#[inline(always)]
fn after_bytes<'a>(literal: &[u8], input: &'a [u8]) -> Result<&'a [u8], Fault> {
    match (literal, input) {
        ([byte], [first, rest @ ..]) if byte == first => Ok(rest),
        _ => input.strip_prefix(literal).ok_or(Fault(None)),
    }
}

/// Reads an item of an item.
#[inline(never)]
fn read_one<'a>(item: &impl Read, parsed: &mut Parsed, input: &'a [u8]) -> Result<&'a [u8], Fault> {
    item.read(parsed, input)
}

/// Reads the first of the items that the text has.
#[inline(never)]
fn read_first<'a>(
    items: &[impl Read],
    parsed: &mut Parsed,
    input: &'a [u8],
) -> Result<&'a [u8], Fault> {
    let mut fault = None;
    for item in items {
        match item.read(parsed, input) {
            Ok(rest) => return Ok(rest),
            Err(error) => fault = fault.or(Some(error)),
        }
    }
    fault.map_or(Ok(input), Err)
}

/// Reads items in turn. After an error the parts are those up to it.
#[inline]
fn read_on<'a>(
    items: &[impl Read],
    parsed: &mut Parsed,
    input: &'a [u8],
) -> Result<&'a [u8], Fault> {
    let mut rest = input;
    for item in items {
        rest = item.read(parsed, rest)?;
    }
    Ok(rest)
}

/// Reads items in turn. An error changes nothing.
#[inline(never)]
fn read_all<'a>(
    items: &[impl Read],
    parsed: &mut Parsed,
    input: &'a [u8],
) -> Result<&'a [u8], Fault> {
    let before = *parsed;
    let read = read_on(items, parsed, input);
    if read.is_err() {
        *parsed = before;
    }
    read
}

impl Parsed {
    /// Reads an item at the front of a text, and returns what follows it. An error changes nothing.
    ///
    /// ```
    /// use muxandu::macros::format_description;
    /// use muxandu::parsing::Parsed;
    ///
    /// let mut parsed = Parsed::new();
    /// let rest = parsed.parse_item(b"12:34", &format_description!("[hour]:[minute]")[0])?;
    /// assert_eq!((rest, parsed.hour_24()), (b":34".as_slice(), Some(12)));
    /// # Ok::<(), muxandu::error::ParseFromDescription>(())
    /// ```
    ///
    /// # Errors
    ///
    /// The text does not begin so, or contradicts a known part.
    pub fn parse_item<'a>(
        &mut self,
        input: &'a [u8],
        item: &BorrowedFormatItem<'_>,
    ) -> Result<&'a [u8], ParseFromDescription> {
        Ok(item.read(self, input)?)
    }

    /// Reads items at the front of a text, and returns what follows them. An error changes nothing.
    ///
    /// ```
    /// use muxandu::macros::format_description;
    /// use muxandu::parsing::Parsed;
    ///
    /// let mut parsed = Parsed::new();
    /// let rest = parsed.parse_items(b"12:34 Uhr", format_description!("[hour]:[minute]"))?;
    /// assert_eq!((rest, parsed.minute()), (b" Uhr".as_slice(), Some(34)));
    /// # Ok::<(), muxandu::error::ParseFromDescription>(())
    /// ```
    ///
    /// # Errors
    ///
    /// As [`Parsed::parse_item`].
    pub fn parse_items<'a>(
        &mut self,
        input: &'a [u8],
        items: &[BorrowedFormatItem<'_>],
    ) -> Result<&'a [u8], ParseFromDescription> {
        Ok(read_all(items, self, input)?)
    }
}

/// The example of the three functions of a part, for a value of it.
macro_rules! example {
    ($name:ident $set_name:ident $with_name:ident: $value:expr) => {
        concat!(
            "```\n#[allow(unused_imports)]\nuse core::num::NonZero;\n",
            "#[allow(unused_imports)]\nuse muxandu::{Month, Weekday};\nuse muxandu::parsing::Parsed;\n\n",
            "let value = ", stringify!($value), ";\n",
            "let mut parsed = Parsed::new();\nassert_eq!(parsed.", stringify!($set_name), "(value), Some(()));\n",
            "assert_eq!(parsed.", stringify!($name), "(), Some(value));\n",
            "let made = Parsed::new().", stringify!($with_name), "(value).unwrap();\n",
            "assert_eq!(made.", stringify!($name), "(), Some(value));\n```\n",
        )
    };
}

macro_rules! parts {
    ($($name:ident $set_name:ident $with_name:ident: $Type:ty, $part:ident, $example:expr;
        $number:ident => $known:expr; $value:ident => $set:expr;)+) => {
        impl Parsed {
            $(
                /// This part, if it is known.
                ///
                #[doc = example!($name $set_name $with_name: $example)]
                #[must_use]
                pub const fn $name(&self) -> Option<$Type> {
                    match self.parts.$part {
                        Some($number) => $known,
                        None => None,
                    }
                }

                /// Sets this part.
                ///
                #[doc = example!($name $set_name $with_name: $example)]
                pub const fn $set_name(&mut self, $value: $Type) -> Option<()> {
                    self.parts.$part = Some($set);
                    Some(())
                }

                /// The same with this part.
                ///
                #[doc = example!($name $set_name $with_name: $example)]
                #[must_use]
                pub const fn $with_name(mut self, value: $Type) -> Option<Parsed> {
                    let _ = self.$set_name(value);
                    Some(self)
                }
            )+
        }
    };
}

macro_rules! numbers {
    ($($name:ident $set_name:ident $with_name:ident: $Type:ty, $part:ident: $Part:ty, $example:expr;)+) => {
        parts! {
            $($name $set_name $with_name: $Type, $part, $example; number => Some(number as $Type); value => value as $Part;)+
        }
    };
}

numbers! {
    year set_year with_year: i32, year: i32, 2024;
    year_last_two set_year_last_two with_year_last_two: u8, year_last_two: u32, 24;
    iso_year set_iso_year with_iso_year: i32, iso_year: i32, 2024;
    iso_year_last_two set_iso_year_last_two with_iso_year_last_two: u8, iso_year_last_two: u32, 24;
    sunday_week_number set_sunday_week_number with_sunday_week_number: u8, sunday_week: u32, 9;
    monday_week_number set_monday_week_number with_monday_week_number: u8, monday_week: u32, 9;
    hour_24 set_hour_24 with_hour_24: u8, hour: u32, 23;
    hour_12_is_pm set_hour_12_is_pm with_hour_12_is_pm: bool, is_afternoon: bool, true;
    minute set_minute with_minute: u8, minute: u32, 59;
    second set_second with_second: u8, second: u32, 59;
    subsecond set_subsecond with_subsecond: u32, nanosecond: u32, 500_000_000;
    unix_timestamp_nanos set_unix_timestamp_nanos with_unix_timestamp_nanos: i128, unix_nanosecond: i128, 1_709_210_040_000_000_000;
}

macro_rules! not_zero {
    ($($name:ident $set_name:ident $with_name:ident: $Type:ty, $Number:ty, $part:ident;)+) => {
        parts! {
            $($name $set_name $with_name: $Type, $part, NonZero::new(9).unwrap();
                number => <$Type>::new(number as $Number); value => value.get() as u32;)+
        }
    };
}

not_zero! {
    iso_week_number set_iso_week_number with_iso_week_number: NonZeroU8, u8, iso_week;
    ordinal set_ordinal with_ordinal: NonZeroU16, u16, ordinal;
    day set_day with_day: NonZeroU8, u8, day;
    hour_12 set_hour_12 with_hour_12: NonZeroU8, u8, hour_12;
}

parts! {
    month set_month with_month: Month, month, Month::May;
        number => match Month::from_number(if number > 12 { 0 } else { number as u8 }) {
            Ok(month) => Some(month),
            Err(_) => None,
        };
        month => month as u32;
    weekday set_weekday with_weekday: Weekday, weekday, Weekday::Friday;
        number => if number > 255 { None } else { Some(Weekday::Monday.nth_next(number as u8)) };
        weekday => weekday.number_days_from_monday() as u32;
}

/// The parts of an offset, the greatest first, each with those that are greater.
macro_rules! offset_parts {
    ($($name:ident $set_name:ident $with_name:ident: $part:ident, [$($greater:ident)*];)+) => {
        impl Parsed {
            $(
                /// This part of the offset with its sign, if it is known.
                ///
                #[doc = example!($name $set_name $with_name: -5)]
                #[must_use]
                pub const fn $name(&self) -> Option<i8> {
                    match self.parts.$part {
                        Some(number) if matches!(self.parts.is_west, Some(true)) => Some((number as i8).wrapping_neg()),
                        Some(number) => Some(number as i8),
                        None => None,
                    }
                }

                /// Sets this part of the offset. All parts have the sign of the greatest that is
                /// not 0.
                ///
                #[doc = example!($name $set_name $with_name: -5)]
                pub const fn $set_name(&mut self, value: i8) -> Option<()> {
                    let has_sign = value != 0 $(&& !matches!(self.parts.$greater, Some(1..)))*;
                    if has_sign || self.parts.is_west.is_none() {
                        self.parts.is_west = Some(value < 0);
                    }
                    self.parts.$part = Some(value.unsigned_abs() as u32);
                    Some(())
                }

                /// The same with this part of the offset.
                ///
                #[doc = example!($name $set_name $with_name: -5)]
                #[must_use]
                pub const fn $with_name(mut self, value: i8) -> Option<Parsed> {
                    let _ = self.$set_name(value);
                    Some(self)
                }
            )+
        }
    };
}

offset_parts! {
    offset_hour set_offset_hour with_offset_hour: offset_hour, [];
    offset_minute_signed set_offset_minute_signed with_offset_minute_signed: offset_minute, [offset_hour];
    offset_second_signed set_offset_second_signed with_offset_second_signed: offset_second, [offset_hour offset_minute];
}

/// The older names of parts of an offset, without their sign: what each is called, the names, and
/// those of the part with its sign.
macro_rules! older_names {
    ($($what:literal: $name:ident $set_name:ident $with_name:ident = $signed:ident $set_signed:ident $with_signed:ident;)+) => {
        impl Parsed {
            $(
                #[doc = concat!("The ", $what, " of the offset, if they are known.\n\n")]
                #[doc = older_example!($name $set_name $with_name)]
                #[deprecated(note = "use the part with its sign")]
                #[must_use]
                pub const fn $name(&self) -> Option<u8> {
                    match self.$signed() {
                        Some(number) => Some(number.unsigned_abs()),
                        None => None,
                    }
                }

                #[doc = concat!("Sets the ", $what, " of the offset.\n\n")]
                #[doc = older_example!($name $set_name $with_name)]
                #[deprecated(note = "use the part with its sign")]
                pub const fn $set_name(&mut self, value: u8) -> Option<()> {
                    if value > i8::MAX as u8 { None } else { self.$set_signed(value as i8) }
                }

                #[doc = concat!("The same with these ", $what, " of the offset.\n\n")]
                #[doc = older_example!($name $set_name $with_name)]
                #[deprecated(note = "use the part with its sign")]
                #[must_use]
                pub const fn $with_name(self, value: u8) -> Option<Parsed> {
                    if value > i8::MAX as u8 { None } else { self.$with_signed(value as i8) }
                }
            )+
        }
    };
}

/// The example of the three functions.
macro_rules! older_example {
    ($name:ident $set_name:ident $with_name:ident) => {
        concat!(
            "```\n# #![allow(deprecated)]\nuse muxandu::parsing::Parsed;\n\n",
            "let mut parsed = Parsed::new();\n",
            "assert_eq!((parsed.",
            stringify!($set_name),
            "(30), parsed.",
            stringify!($set_name),
            "(200)), (Some(()), None));\n",
            "assert_eq!(parsed.",
            stringify!($name),
            "(), Some(30));\n",
            "assert!(Parsed::new().",
            stringify!($with_name),
            "(30).is_some());\n```\n",
        )
    };
}

older_names! {
    "minutes": offset_minute set_offset_minute with_offset_minute
        = offset_minute_signed set_offset_minute_signed with_offset_minute_signed;
    "seconds": offset_second set_offset_second with_offset_second
        = offset_second_signed set_offset_second_signed with_offset_second_signed;
}

impl From<MailRefusal> for ParseFromDescription {
    fn from(refusal: MailRefusal) -> ParseFromDescription {
        ParseFromDescription::InvalidComponent(match refusal.part {
            None => return ParseFromDescription::InvalidLiteral,
            Some(Field::Weekday) => "weekday",
            Some(Field::Day) => "day",
            Some(Field::Month) => "month",
            Some(Field::Hour) => "hour",
            Some(Field::Minute) => "minute",
            Some(Field::Second) => "second",
            Some(Field::OffsetHour) => "offset hour",
            Some(Field::OffsetMinute) => "offset minute",
            Some(_) => "year",
        })
    }
}

/// The part that an error names.
const fn part_of(field: Field) -> Part {
    match field {
        Field::Year | Field::YearCentury | Field::YearLastTwo => Part::Year,
        Field::IsoYear | Field::IsoYearCentury | Field::IsoYearLastTwo => Part::Year,
        Field::Month => Part::Month,
        Field::Day | Field::Weekday => Part::Day,
        Field::Ordinal => Part::Ordinal,
        Field::IsoWeek | Field::SundayWeek | Field::MondayWeek => Part::Week,
        Field::Hour | Field::Hour12 | Field::Period => Part::Hour,
        Field::Minute => Part::Minute,
        Field::Second => Part::Second,
        Field::Subsecond => Part::Nanosecond,
        Field::OffsetHour => Part::Hours,
        Field::OffsetMinute => Part::Minutes,
        Field::OffsetSecond => Part::Seconds,
        Field::UnixSecond
        | Field::UnixMillisecond
        | Field::UnixMicrosecond
        | Field::UnixNanosecond => Part::Timestamp,
    }
}

impl From<ValueRefusal> for TryFromParsed {
    fn from(refusal: ValueRefusal) -> TryFromParsed {
        match refusal {
            ValueRefusal::Missing(_) => TryFromParsed::InsufficientInformation,
            ValueRefusal::Wrong(field) => {
                TryFromParsed::ComponentRange(ComponentRange::of_part(part_of(field), false))
            }
        }
    }
}

impl Parsed {
    /// The date of the parts. Texts have wrong days of the week, as that of a cookie: it counts
    /// only where a week names the date.
    #[inline]
    fn date(&self) -> Result<Date, ValueRefusal> {
        let parts = &self.parts;
        let is_named = parts.year.is_some()
            && (parts.ordinal.is_some() || parts.month.is_some() && parts.day.is_some());
        if is_named && parts.weekday.is_some() {
            Parts { weekday: None, ..*parts }.date()
        } else {
            parts.date()
        }
    }

    /// The date and the time of day of the parts.
    #[inline]
    fn plain_date_time(&self) -> Result<PlainDateTime, ValueRefusal> {
        Ok(PlainDateTime::new(self.date()?, self.parts.time()?))
    }
}

/// A value of parts. It takes them by reference, since they have 300 bytes.
trait OfParts: Sized {
    fn of_parts(parsed: &Parsed) -> Result<Self, TryFromParsed>;
}

macro_rules! of_parts {
    ($($Type:ident: $parsed:ident => $value:expr;)+) => {
        $(
            impl OfParts for $Type {
                #[inline]
                fn of_parts($parsed: &Parsed) -> Result<$Type, TryFromParsed> {
                    $value
                }
            }

            impl TryFrom<Parsed> for $Type {
                type Error = TryFromParsed;

                fn try_from(parsed: Parsed) -> Result<$Type, TryFromParsed> {
                    <$Type>::of_parts(&parsed)
                }
            }
        )+
    };
}

of_parts! {
    Date: parsed => Ok(parsed.date()?);
    Time: parsed => Ok(parsed.parts.time()?);
    UtcOffset: parsed => Ok(parsed.parts.offset()?);
    PlainDateTime: parsed => Ok(parsed.plain_date_time()?);
    OffsetDateTime: parsed => match parsed.parts.utc_date_time() {
        Ok(at) => Ok(at.into()),
        Err(ValueRefusal::Missing(_)) => {
            Ok(parsed.plain_date_time()?.assume_offset(parsed.parts.offset()?))
        }
        Err(refusal) => Err(refusal.into()),
    };
    UtcDateTime: parsed => {
        let mut parsed = *parsed;
        parsed.parts.offset_hour = parsed.parts.offset_hour.or(Some(0));
        OffsetDateTime::of_parts(&parsed)?
            .checked_to_utc()
            .ok_or(ComponentRange::of_part(Part::Year, true).into())
    };
    Timestamp: parsed => Ok(UtcDateTime::of_parts(parsed)?.into());
}

/// A form that reads a text: a description, or a format of
/// [`well_known`](crate::format_description::well_known).
pub trait Parsable: sealed::Sealed {}

impl Parsable for BorrowedFormatItem<'_> {}
impl Parsable for [BorrowedFormatItem<'_>] {}
impl Parsable for OwnedFormatItem {}
impl Parsable for [OwnedFormatItem] {}
impl Parsable for Rfc3339 {}
impl Parsable for Rfc2822 {}
impl<const CONFIG: EncodedConfig> Parsable for Iso8601<CONFIG> {}
impl<T: Deref<Target: Parsable>> Parsable for T {}

mod sealed {
    use super::*;

    pub trait Sealed {
        /// Reads the front of a text, and gives what follows. After an error some parts may be
        /// known.
        fn parse_into<'a>(&self, input: &'a [u8], parsed: &mut Parsed) -> Result<&'a [u8], Parse>;

        /// Reads a whole text into parts of which none is known yet.
        #[inline]
        fn parse_whole(&self, input: &[u8], parsed: &mut Parsed) -> Result<(), Parse> {
            if !self.parse_into(input, parsed)?.is_empty() {
                return Err(Parse::UnexpectedTrailingCharacters);
            }
            Ok(())
        }

        /// Returns the parts of a whole text. Crates call it on a description, as `cookie` does.
        fn parse(&self, input: &[u8]) -> Result<Parsed, Parse> {
            let mut parsed = Parsed::new();
            self.parse_whole(input, &mut parsed)?;
            Ok(parsed)
        }

        /// Reads a whole text that has a date, a time of day and an offset.
        fn parse_offset_date_time(&self, input: &[u8]) -> Result<OffsetDateTime, Parse> {
            parse_as(self, input)
        }
    }

    macro_rules! of_items {
        ($($Item:ty)+) => {
            $(
                impl Sealed for $Item {
                    fn parse_into<'a>(&self, input: &'a [u8], parsed: &mut Parsed) -> Result<&'a [u8], Parse> {
                        Ok(self.read(parsed, input).map_err(ParseFromDescription::from)?)
                    }
                }

                impl Sealed for [$Item] {
                    fn parse_into<'a>(&self, input: &'a [u8], parsed: &mut Parsed) -> Result<&'a [u8], Parse> {
                        Ok(read_on(self, parsed, input).map_err(ParseFromDescription::from)?)
                    }
                }
            )+
        };
    }

    of_items! { BorrowedFormatItem<'_> OwnedFormatItem }

    impl<T: Deref<Target: Sealed>> Sealed for T {
        fn parse_into<'a>(&self, input: &'a [u8], parsed: &mut Parsed) -> Result<&'a [u8], Parse> {
            self.deref().parse_into(input, parsed)
        }

        fn parse_offset_date_time(&self, input: &[u8]) -> Result<OffsetDateTime, Parse> {
            self.deref().parse_offset_date_time(input)
        }
    }

    impl Sealed for Rfc3339 {
        fn parse_into<'a>(&self, input: &'a [u8], parsed: &mut Parsed) -> Result<&'a [u8], Parse> {
            let (at, _) = OffsetDateTime::from_rfc3339_leap(input)?;
            parsed.set_date_time(at);
            Ok(&[])
        }

        fn parse_offset_date_time(&self, input: &[u8]) -> Result<OffsetDateTime, Parse> {
            Ok(OffsetDateTime::from_rfc3339_leap(input)?.0)
        }
    }

    impl Sealed for Rfc2822 {
        fn parse_into<'a>(&self, input: &'a [u8], parsed: &mut Parsed) -> Result<&'a [u8], Parse> {
            let rest = parse_rfc2822_front_into(input, &mut parsed.parts)
                .map_err(ParseFromDescription::from)?;
            if parsed.parts.second == Some(60) {
                if let Ok((at, _)) = parsed.parts.leap_date_time() {
                    parsed.set_date_time(at);
                }
            }
            Ok(rest)
        }
    }

    impl<const CONFIG: EncodedConfig> Sealed for Iso8601<CONFIG> {
        fn parse_into<'a>(&self, input: &'a [u8], parsed: &mut Parsed) -> Result<&'a [u8], Parse> {
            let clock = input.strip_prefix(b"T").unwrap_or(input);
            parsed.parts = parse_iso8601(input)
                .or_else(|_| parse_iso8601_date(input))
                .or_else(|_| parse_iso8601_time(clock))
                .map_err(|_| ParseFromDescription::InvalidLiteral)?;
            Ok(&[])
        }
    }
}

impl Parsed {
    /// The parts, and those of the defaults that are not known.
    fn over(self, defaults: Parsed) -> Parsed {
        macro_rules! over {
            ($($name:ident)+) => { Parts { $($name: self.parts.$name.or(defaults.parts.$name),)+ } };
        }
        let parts = over!(year year_century is_before_zero year_last_two iso_year iso_year_century is_iso_before_zero
            iso_year_last_two month day ordinal weekday iso_week sunday_week monday_week hour hour_12 is_afternoon minute
            second nanosecond is_west offset_hour offset_minute offset_second unix_second unix_millisecond
            unix_microsecond unix_nanosecond);
        Parsed { parts }
    }

    /// Sets the parts of a date-time.
    fn set_date_time(&mut self, at: OffsetDateTime) {
        let seconds = at.offset().whole_seconds().unsigned_abs();
        self.parts.year = Some(at.year());
        self.parts.ordinal = Some(at.ordinal().into());
        self.parts.hour = Some(at.hour().into());
        self.parts.minute = Some(at.minute().into());
        self.parts.second = Some(at.second().into());
        self.parts.nanosecond = Some(at.nanosecond());
        self.parts.is_west = Some(at.offset().is_negative());
        self.parts.offset_hour = Some(seconds / 3_600);
        self.parts.offset_minute = Some(seconds / 60 % 60);
        self.parts.offset_second = Some(seconds % 60);
    }
}

/// Reads a whole text into a value.
fn parse_as<T: OfParts>(
    description: &(impl sealed::Sealed + ?Sized),
    input: &[u8],
) -> Result<T, Parse> {
    let mut parsed = Parsed::new();
    description.parse_whole(input, &mut parsed)?;
    Ok(T::of_parts(&parsed)?)
}

macro_rules! parsed {
    ($($Type:ident: $read:path, $macro:literal($literal:literal), $description:literal, $text:literal,
        $set:literal, $others:literal, $rest:literal;)+) => {
        $(
            impl $Type {
                /// Reads a text by a description, or by a format of
                /// [`well_known`](crate::format_description::well_known).
                ///
                /// ```
                #[doc = concat!("use muxandu::", stringify!($Type), ";")]
                #[doc = concat!("use muxandu::macros::{", $macro, ", format_description};")]
                ///
                #[doc = concat!("let format = format_description!(\"", $description, "\");")]
                #[doc = concat!("let read = ", stringify!($Type), "::parse(\"", $text, "\", format)?;")]
                #[doc = concat!("assert_eq!(read, ", $macro, "!(", $literal, "));")]
                /// # Ok::<(), muxandu::Error>(())
                /// ```
                ///
                /// # Errors
                ///
                /// The text is not written so, lacks a part, or has one that is out of its range or
                /// contradicts another.
                pub fn parse(input: &str, description: &(impl Parsable + ?Sized)) -> Result<$Type, Parse> {
                    $read(description, input.as_bytes())
                }

                /// Reads a text by a description. The defaults fill the parts that it does not
                /// have.
                ///
                /// ```
                #[doc = concat!("use muxandu::", stringify!($Type), ";")]
                #[doc = concat!("use muxandu::macros::{", $macro, ", format_description};")]
                /// use muxandu::parsing::Parsed;
                ///
                #[doc = concat!("let defaults = Parsed::new().", $set, ".unwrap();")]
                #[doc = concat!("let format = format_description!(\"", $others, "\");")]
                #[doc = concat!("let read = ", stringify!($Type), "::parse_with_defaults(b\"", $rest, "\", format, defaults)?;")]
                #[doc = concat!("assert_eq!(read, ", $macro, "!(", $literal, "));")]
                /// # Ok::<(), muxandu::Error>(())
                /// ```
                ///
                /// # Errors
                ///
                /// As `parse`.
                pub fn parse_with_defaults(
                    input: &[u8],
                    description: &(impl Parsable + ?Sized),
                    defaults: Parsed,
                ) -> Result<$Type, Parse> {
                    let mut parsed = Parsed::new();
                    sealed::Sealed::parse_whole(description, input, &mut parsed)?;
                    Ok(parsed.over(defaults).try_into()?)
                }
            }
        )+
    };
}

parsed! {
    Date: parse_as, "date"("2024-02-29"), "[day].[month].[year]", "29.02.2024",
        "with_year(2024)", "[day].[month].", "29.02.";
    Time: parse_as, "time"("12:34"), "[hour]h[minute]", "12h34", "with_hour_24(12)", "[minute]'", "34'";
    UtcOffset: parse_as, "offset"("-5"), "GMT[offset_hour sign:mandatory]", "GMT-05",
        "with_offset_hour(-5)", "[offset_minute]", "00";
    PlainDateTime: parse_as, "datetime"("2024-02-29 12:34"), "[year][month][day]T[hour][minute]",
        "20240229T1234", "with_year(2024)", "[day].[month]. [hour]:[minute]", "29.02. 12:34";
    UtcDateTime: parse_as, "utc_datetime"("2024-02-29 12:34"), "[year][ordinal]T[hour][minute]Z",
        "2024060T1234Z", "with_year(2024)", "[day].[month]. [hour]:[minute]", "29.02. 12:34";
    OffsetDateTime: sealed::Sealed::parse_offset_date_time, "datetime"("2024-02-29 12:34 -5"),
        "[year][month][day]T[hour][minute][offset_hour sign:mandatory]", "20240229T1234-05",
        "with_offset_hour(-5)", "[year][month][day]T[hour][minute]", "20240229T1234";
    Timestamp: parse_as, "timestamp"("1_709_210_040"), "[unix_timestamp]", "1709210040",
        "with_hour_24(12)", "[year][month][day] [minute]", "20240229 34";
}
