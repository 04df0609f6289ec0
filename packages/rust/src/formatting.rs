//! Values written by descriptions: each component by the proved function.

use alloc::string::String;
use alloc::vec::Vec;
use core::ops::Deref;
#[cfg(feature = "std")]
use std::io;

use crate::error::Format;
use crate::format_description::well_known::iso8601::{EncodedConfig, form_of};
use crate::format_description::well_known::{Iso8601, Rfc2822, Rfc3339};
use crate::format_description::{BorrowedFormatItem, Component, OwnedFormatItem};
use crate::formatting::sealed::Put;
use crate::proved::format_descriptions::{self as proved, Item};
use crate::{Date, OffsetDateTime, PlainDateTime, Text, Time, Timestamp, UtcDateTime, UtcOffset};

/// A form that writes a value: a description, or a format of
/// [`well_known`](crate::format_description::well_known).
pub trait Formattable: sealed::Sealed {}

impl Formattable for BorrowedFormatItem<'_> {}
impl Formattable for [BorrowedFormatItem<'_>] {}
impl Formattable for OwnedFormatItem {}
impl Formattable for [OwnedFormatItem] {}
impl Formattable for Rfc3339 {}
impl Formattable for Rfc2822 {}
impl<const CONFIG: EncodedConfig> Formattable for Iso8601<CONFIG> {}
impl<T: Deref<Target: Formattable>> Formattable for T {}

/// The date, the time of day and the offset that a value has.
#[derive(Clone, Copy)]
pub struct Value {
    date: Option<Date>,
    time: Option<Time>,
    offset: Option<UtcOffset>,
}

impl Value {
    /// Writes a component.
    #[inline(always)]
    fn put_component(self, component: Component, put: &mut impl Put) -> Result<usize, Format> {
        let Value { date: Some(date), time: Some(time), offset: Some(offset) } = self else {
            return put_all(put, self.component(component)?.as_bytes());
        };
        let mut text = Text::new();
        if !component.write(date, time, offset, &mut text) {
            return Err(Format::InsufficientTypeInformation);
        }
        put_all(put, text.as_bytes())
    }

    /// The text of a component of a value that lacks a date, a time of day or an offset.
    #[inline(never)]
    fn component(self, component: Component) -> Result<Text, Format> {
        let items = [Item::Part(component.to_proved())];
        let Value { date, time, offset } = self;
        match (date, time, offset) {
            (Some(date), Some(time), None) => {
                proved::format_plain(&items, PlainDateTime::new(date, time)).ok()
            }
            (Some(date), None, None) => proved::format_date(&items, date).ok(),
            (None, Some(time), None) => proved::format_time(&items, time).ok(),
            (None, None, Some(offset)) => proved::format_offset(&items, offset).ok(),
            _ => None,
        }
        .ok_or(Format::InsufficientTypeInformation)
    }

    fn date_time(self) -> Result<OffsetDateTime, Format> {
        match (self.date, self.time, self.offset) {
            (Some(date), Some(time), Some(offset)) => {
                Ok(PlainDateTime::new(date, time).assume_offset(offset))
            }
            _ => Err(Format::InsufficientTypeInformation),
        }
    }
}

impl Put for Vec<u8> {
    #[inline]
    fn put_bytes(&mut self, bytes: &[u8]) -> Result<(), Format> {
        self.extend_from_slice(bytes);
        Ok(())
    }
}

/// A writer, as one that takes bytes.
#[cfg(feature = "std")]
struct Output<'a, W: ?Sized>(&'a mut W);

#[cfg(feature = "std")]
impl<W: io::Write + ?Sized> Put for Output<'_, W> {
    #[inline]
    fn put_bytes(&mut self, bytes: &[u8]) -> Result<(), Format> {
        self.0.write_all(bytes).map_err(Format::StdIo)
    }
}

#[inline]
fn put_all(put: &mut impl Put, bytes: &[u8]) -> Result<usize, Format> {
    put.put_bytes(bytes)?;
    Ok(bytes.len())
}

/// Writes a literal. Most have one byte, which needs no call to copy.
#[inline(always)]
fn put_literal(put: &mut impl Put, literal: &[u8]) -> Result<usize, Format> {
    match literal {
        &[byte] => put_all(put, &[byte]),
        _ => put_all(put, literal),
    }
}

mod sealed {
    use super::*;

    /// Takes bytes that are written.
    pub trait Put {
        /// Takes these bytes.
        fn put_bytes(&mut self, bytes: &[u8]) -> Result<(), Format>;
    }

    pub trait Sealed {
        /// Writes a value, and gives the count of the bytes.
        fn put_value(&self, value: Value, put: &mut impl Put) -> Result<usize, Format>;
    }

    macro_rules! written {
        ($($Item:ty)+) => {
            $(
                impl Sealed for $Item {
                    #[inline(always)]
                    fn put_value(&self, value: Value, put: &mut impl Put) -> Result<usize, Format> {
                        match self {
                            Self::Literal(literal) => put_literal(put, literal),
                            Self::Component(component) => value.put_component(*component, put),
                            Self::Compound(items) => items.put_value(value, put),
                            Self::Optional(item) => put_items(core::slice::from_ref(&**item), value, put),
                            Self::First(items) => put_items(&items[..items.len().min(1)], value, put),
                        }
                    }
                }

                impl Sealed for [$Item] {
                    fn put_value(&self, value: Value, put: &mut impl Put) -> Result<usize, Format> {
                        put_items(self, value, put)
                    }
                }
            )+
        };
    }

    written! { BorrowedFormatItem<'_> OwnedFormatItem }

    #[inline(never)]
    fn put_items(items: &[impl Sealed], value: Value, put: &mut impl Put) -> Result<usize, Format> {
        let mut count = 0;
        for item in items {
            count += item.put_value(value, put)?;
        }
        Ok(count)
    }

    impl<T: Deref<Target: Sealed>> Sealed for T {
        fn put_value(&self, value: Value, put: &mut impl Put) -> Result<usize, Format> {
            self.deref().put_value(value, put)
        }
    }

    impl Sealed for Rfc3339 {
        fn put_value(&self, value: Value, put: &mut impl Put) -> Result<usize, Format> {
            let at = value.date_time()?;
            match at.to_rfc3339() {
                Some(text) => put_all(put, text.as_bytes()),
                None if !(0..10_000).contains(&at.year()) => Err(Format::InvalidComponent("year")),
                None if at.offset().seconds_past_minute() != 0 => {
                    Err(Format::InvalidComponent("offset_second"))
                }
                None => Err(Format::InvalidComponent("offset_hour")),
            }
        }
    }

    impl Sealed for Rfc2822 {
        fn put_value(&self, value: Value, put: &mut impl Put) -> Result<usize, Format> {
            let at = value.date_time()?;
            if !(1900..10_000).contains(&at.year()) {
                return Err(Format::InvalidComponent("year"));
            }
            if at.offset().seconds_past_minute() != 0 {
                return Err(Format::InvalidComponent("offset_second"));
            }
            RFC_2822.put_value(value, put)
        }
    }

    impl<const CONFIG: EncodedConfig> Sealed for Iso8601<CONFIG> {
        #[track_caller]
        fn put_value(&self, value: Value, put: &mut impl Put) -> Result<usize, Format> {
            let form = const { form_of(CONFIG) };
            let is_lacking = form.date.is_some() && value.date.is_none()
                || form.time.is_some() && value.time.is_none()
                || form.offset.is_some() && value.offset.is_none();
            if is_lacking {
                return Err(Format::InsufficientTypeInformation);
            }
            let is_written = form.date.is_some() || form.time.is_some() || form.offset.is_some();
            assert!(is_written, "`Iso8601` must have parts to write: `PARSING` reads alone");
            let date = value.date.unwrap_or(Date::UNIX_EPOCH);
            let time = value.time.unwrap_or(Time::MIDNIGHT);
            let offset = value.offset.unwrap_or(UtcOffset::UTC);
            let at = PlainDateTime::new(date, time).assume_offset(offset);
            match proved::format_iso8601(form, at) {
                Some(text) => put_all(put, text.as_bytes()),
                None => Err(Format::InvalidComponent(part_without_text(form, at))),
            }
        }
    }
}

/// The first part that has no text in a form of ISO 8601.
fn part_without_text(form: proved::Iso8601, at: OffsetDateTime) -> &'static str {
    if proved::format_iso8601(proved::Iso8601 { offset: None, ..form }, at).is_none() {
        "year"
    } else if at.offset().seconds_past_minute() != 0 {
        "offset_second"
    } else {
        "offset_minute"
    }
}

/// How RFC 2822 writes.
pub(crate) const RFC_2822: &[BorrowedFormatItem<'static>] = crate::macros::format_description!(
    "[weekday repr:short], [day] [month repr:short] [year] [hour]:[minute]:[second] [offset_hour sign:mandatory][offset_minute]"
);

fn text_of(format: &(impl Formattable + ?Sized), value: Value) -> Result<String, Format> {
    let mut bytes = Vec::with_capacity(64);
    format.put_value(value, &mut bytes)?;
    Ok(match String::from_utf8(bytes) {
        Ok(text) => text,
        Err(error) => String::from_utf8_lossy(error.as_bytes()).into_owned(),
    })
}

#[cfg(feature = "std")]
fn write_to(
    output: &mut (impl io::Write + ?Sized),
    format: &(impl Formattable + ?Sized),
    value: Value,
) -> Result<usize, Format> {
    format.put_value(value, &mut Output(output))
}

macro_rules! formatted {
    ($($Type:ident($value:ident), $macro:literal($literal:literal), $description:literal, $text:literal: $parts:expr;)+) => {
        $(
            impl $Type {
                /// The text by a description, or by a format of
                /// [`well_known`](crate::format_description::well_known).
                ///
                /// ```
                #[doc = concat!("use muxandu::macros::{", $macro, ", format_description};")]
                ///
                #[doc = concat!("let format = format_description!(\"", $description, "\");")]
                #[doc = concat!("assert_eq!(", $macro, "!(", $literal, ").format(format)?, \"", $text, "\");")]
                /// # Ok::<(), muxandu::Error>(())
                /// ```
                ///
                /// # Errors
                ///
                /// The value has no part for a component, or no text of a well-known format.
                pub fn format(self, format: &(impl Formattable + ?Sized)) -> Result<String, Format> {
                    let $value = self;
                    text_of(format, $parts)
                }

                /// Writes the text by a description, and returns the count of its bytes.
                ///
                /// ```
                /// # #[cfg(feature = "std")] {
                #[doc = concat!("use muxandu::macros::{", $macro, ", format_description};")]
                ///
                /// let mut output = Vec::new();
                #[doc = concat!("let format = format_description!(\"", $description, "\");")]
                #[doc = concat!("let count = ", $macro, "!(", $literal, ").format_into(&mut output, format)?;")]
                #[doc = concat!("assert_eq!((count, &output[..]), (output.len(), &b\"", $text, "\"[..]));")]
                /// # }
                /// # Ok::<(), muxandu::Error>(())
                /// ```
                ///
                /// # Errors
                ///
                /// As `format`, and those of the writer.
                #[cfg(feature = "std")]
                pub fn format_into(
                    self,
                    output: &mut (impl io::Write + ?Sized),
                    format: &(impl Formattable + ?Sized),
                ) -> Result<usize, Format> {
                    let $value = self;
                    write_to(output, format, $parts)
                }
            }
        )+
    };
}

formatted! {
    Date(date), "date"("2024-02-29"), "[day].[month].[year]", "29.02.2024":
        Value { date: Some(date), time: None, offset: None };
    Time(time), "time"("12:34"), "[hour]h[minute]", "12h34":
        Value { date: None, time: Some(time), offset: None };
    UtcOffset(offset), "offset"("-5"), "GMT[offset_hour sign:mandatory]", "GMT-05":
        Value { date: None, time: None, offset: Some(offset) };
    PlainDateTime(at), "datetime"("2024-02-29 12:34"), "[day].[month]. [hour]:[minute]", "29.02. 12:34":
        Value { date: Some(at.date()), time: Some(at.time()), offset: None };
    UtcDateTime(at), "utc_datetime"("2024-02-29 12:34"), "[year][ordinal]T[hour][minute]Z", "2024060T1234Z":
        Value { date: Some(at.date()), time: Some(at.time()), offset: Some(UtcOffset::UTC) };
    OffsetDateTime(at), "datetime"("2024-02-29 12:34 -5"), "[hour]:[minute] [offset_hour]", "12:34 -05":
        Value { date: Some(at.date()), time: Some(at.time()), offset: Some(at.offset()) };
    Timestamp(at), "timestamp"("1_709_210_040"), "[year]-[month]-[day] [hour]:[minute]", "2024-02-29 12:34":
        Value { date: Some(at.date()), time: Some(at.time()), offset: Some(UtcOffset::UTC) };
}
