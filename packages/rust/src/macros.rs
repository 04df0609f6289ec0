//! Literals of dates and times, in the forms that `time`'s macros take.
//!
//! A literal is a constant expression. An invalid one does not compile. The error of the compiler
//! names its line and its fault:
//!
//! ```compile_fail
//! let date = muxandu::macros::date!(2023-02-29);
//! ```
//!
//! ```
//! use muxandu::macros::{date, datetime, offset, time, timestamp, utc_datetime};
//!
//! assert_eq!(date!(2024-060), date!(2024-02-29));
//! assert_eq!(date!(2024-W09-4), date!(2024-02-29));
//! assert_eq!(datetime!(2024-02-29 1:02:03.5), date!(2024-02-29).with_time(time!(1:02:03.500)));
//! let plain = datetime!(2024-02-29 1:02);
//! assert_eq!(datetime!(2024-02-29 1:02 +1), plain.assume_offset(offset!(+1:00)));
//! assert_eq!(timestamp!(-0.5), utc_datetime!(1969-12-31 23:59:59.5));
//! ```

pub use crate::{date, datetime, format_description, offset, time, timestamp, utc_datetime};

/// A [`Date`](crate::Date): `date!(2024-02-29)`, `date!(2024-060)` or `date!(2024-W09-4)`.
#[macro_export]
macro_rules! date {
    ($($token:tt)+) => {
        $crate::__literal!(Date, date, "no date: ", ::core::stringify!($($token)+))
    };
}

/// A [`Time`](crate::Time): `time!(1:02)`, `time!(1:02:03)` or `time!(1:02:03.004)`.
#[macro_export]
macro_rules! time {
    ($($token:tt)+) => {
        $crate::__literal!(Time, time, "no time of day: ", ::core::stringify!($($token)+))
    };
}

/// A [`UtcOffset`](crate::UtcOffset): `offset!(UTC)`, `offset!(+1)`, `offset!(-1:30)` or
/// `offset!(+1:02:03)`.
#[macro_export]
macro_rules! offset {
    ($($token:tt)+) => {
        $crate::__literal!(UtcOffset, offset, "no offset: ", ::core::stringify!($($token)+))
    };
}

/// A [`Timestamp`](crate::Timestamp), in seconds: `timestamp!(1_546_398_245)` or
/// `timestamp!(-0.5)`.
#[macro_export]
macro_rules! timestamp {
    ($($token:tt)+) => {
        $crate::__literal!(Timestamp, timestamp, "no timestamp: ", ::core::stringify!($($token)+))
    };
}

/// A [`UtcDateTime`](crate::UtcDateTime): `utc_datetime!(2024-02-29 1:02:03)`.
#[macro_export]
macro_rules! utc_datetime {
    ($($token:tt)+) => {
        $crate::__literal!(PlainDateTime, plain_literal, "no date and time of day: ", ::core::stringify!($($token)+))
            .as_utc()
    };
}

/// A [`PlainDateTime`](crate::PlainDateTime), `datetime!(2024-02-29 1:02:03)`, or with an offset an
/// [`OffsetDateTime`](crate::OffsetDateTime), `datetime!(2024-02-29 1:02:03 -5)` or
/// `datetime!(2024-02-29 1:02:03 UTC)`.
#[macro_export]
macro_rules! datetime {
    ($($token:tt)+) => {
        $crate::__datetime_before_time!((::core::stringify!($($token)+)) $($token)+)
    };
}

/// Goes to the first `:`, which is that of the time of day.
#[doc(hidden)]
#[macro_export]
macro_rules! __datetime_before_time {
    ($text:tt : $($rest:tt)+) => { $crate::__datetime_after_date!($text $($rest)+) };
    ($text:tt $skipped:tt $($rest:tt)*) => { $crate::__datetime_before_time!($text $($rest)*) };
    (($text:expr)) => {
        ::core::compile_error!(::core::concat!("no date and time of day: ", $text))
    };
}

/// Looks for an offset after the time of day.
#[doc(hidden)]
#[macro_export]
macro_rules! __datetime_after_date {
    (($text:expr)) => {
        $crate::__literal!(PlainDateTime, plain_literal, "no date and time of day: ", $text)
    };
    (($text:expr) + $($rest:tt)+) => { $crate::__datetime_at_offset!($text) };
    (($text:expr) - $($rest:tt)+) => { $crate::__datetime_at_offset!($text) };
    (($text:expr) UTC) => { $crate::__datetime_at_offset!($text) };
    (($text:expr) utc) => { $crate::__datetime_at_offset!($text) };
    ($text:tt $skipped:tt $($rest:tt)*) => { $crate::__datetime_after_date!($text $($rest)*) };
}

#[doc(hidden)]
#[macro_export]
macro_rules! __datetime_at_offset {
    ($text:expr) => {
        $crate::__literal!(OffsetDateTime, date_time, "no date, time of day and offset: ", $text)
    };
}

/// The value of a literal, by the function that reads it and the message of another form.
#[doc(hidden)]
#[macro_export]
macro_rules! __literal {
    ($Type:ident, $read:ident, $message:literal, $text:expr) => {{
        const LITERAL: $crate::$Type = $crate::literal::of_form(
            $crate::literal::$read($text),
            ::core::concat!($message, $text),
        )
        .value();
        LITERAL
    }};
}

/// A format description, which is read at compile time:
/// `format_description!("[year]-[month]-[day]")`, and with `version = 2` before the text,
/// `format_description!(version = 2, r"\[[year]\]")`. It may have items that a text may lack,
/// `[optional [..]]`, and alternatives, `[first [..] [..]]`:
///
/// ```
/// use muxandu::Time;
/// use muxandu::macros::{format_description, time};
///
/// let clock = format_description!("[hour]:[minute][optional [:[second]]]");
/// assert_eq!(Time::parse("12:34", clock)?, time!(12:34));
/// assert_eq!(Time::parse("12:34:56", clock)?, time!(12:34:56));
/// # Ok::<(), muxandu::Error>(())
/// ```
///
/// A text that is no description does not compile:
///
/// ```compile_fail
/// let description = muxandu::macros::format_description!("[year]-[mouth]");
/// ```
#[macro_export]
macro_rules! format_description {
    ($text:expr $(,)?) => {
        $crate::format_description!(version = 1, $text)
    };
    (version = $version:expr, $text:expr $(,)?) => {{
        const TEXT: &::core::primitive::str = $text;
        const LAID: $crate::format_description::Laid<{ TEXT.len() }> =
            $crate::format_description::Laid::new($version, TEXT);
        static ITEMS: [$crate::format_description::BorrowedFormatItem<'static>; LAID.count()] =
            LAID.items(&ITEMS);
        const DESCRIPTION: $crate::format_description::StaticFormatDescription =
            LAID.description(&ITEMS);
        DESCRIPTION
    }};
}
