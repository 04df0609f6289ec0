//! `Serialize` and `Deserialize` of each type: its numbers, or its text for people.

use core::fmt;
use core::marker::PhantomData;

use ::serde::de::{Error, SeqAccess, Visitor};
use ::serde::{Deserialize, Deserializer, Serialize, Serializer};

#[cfg(feature = "serde-human-readable")]
use super::human::{Human, Written};
use crate::{
    Date, Month, OffsetDateTime, PlainDateTime, RangeResult, SignedDuration, Time, Timestamp,
    UtcDateTime, UtcOffset, Weekday,
};

/// Without texts for people each type has what they want.
#[cfg(not(feature = "serde-human-readable"))]
trait Human {}

#[cfg(not(feature = "serde-human-readable"))]
impl<T> Human for T {}

/// A type as numbers.
trait Numbers: Human + Sized {
    /// The numbers: one, or more in a tuple.
    type Parts: Serialize;

    /// How many numbers there are, or 0 for a type of one that is no tuple.
    const COUNT: usize;

    const EXPECTED: &'static str;

    fn parts(&self) -> Self::Parts;

    fn of_sequence<'de, A: SeqAccess<'de>>(sequence: A) -> Result<Self, A::Error>;

    fn of_number<E: Error>(number: u64) -> Result<Self, E>;
}

/// The next number of a sequence.
fn next<'de, T: Deserialize<'de>, A: SeqAccess<'de>>(
    sequence: &mut A,
    name: &'static str,
) -> Result<T, A::Error> {
    let missing = || A::Error::custom(format_args!("the sequence ends before the {name}"));
    sequence.next_element()?.ok_or_else(missing)
}

struct Read<T>(PhantomData<T>);

impl<'de, T: Numbers> Visitor<'de> for Read<T> {
    type Value = T;

    fn expecting(&self, f: &mut fmt::Formatter<'_>) -> fmt::Result {
        f.write_str(T::EXPECTED)
    }

    #[cfg(feature = "serde-human-readable")]
    fn visit_str<E: Error>(self, text: &str) -> Result<T, E> {
        T::read(text).map_err(E::custom)
    }

    fn visit_u64<E: Error>(self, number: u64) -> Result<T, E> {
        T::of_number(number)
    }

    fn visit_i64<E: Error>(self, number: i64) -> Result<T, E> {
        T::of_number(u64::try_from(number).unwrap_or(0))
    }

    fn visit_seq<A: SeqAccess<'de>>(self, sequence: A) -> Result<T, A::Error> {
        T::of_sequence(sequence)
    }
}

fn write<T: Numbers, S: Serializer>(value: &T, serializer: S) -> Result<S::Ok, S::Error> {
    #[cfg(feature = "serde-human-readable")]
    if serializer.is_human_readable() {
        return serializer.collect_str(&Written(value));
    }
    value.parts().serialize(serializer)
}

fn read<'de, T: Numbers, D: Deserializer<'de>>(deserializer: D) -> Result<T, D::Error> {
    if cfg!(feature = "serde-human-readable") && deserializer.is_human_readable() {
        deserializer.deserialize_any(Read(PhantomData))
    } else if T::COUNT == 0 {
        deserializer.deserialize_u8(Read(PhantomData))
    } else {
        deserializer.deserialize_tuple(T::COUNT, Read(PhantomData))
    }
}

macro_rules! serialized {
    ($($Type:ident)+) => {
        $(
            /// As the table of the module [`serde`](crate::serde) says.
            impl Serialize for $Type {
                fn serialize<S: Serializer>(&self, serializer: S) -> Result<S::Ok, S::Error> {
                    write(self, serializer)
                }
            }

            /// As the table of the module [`serde`](crate::serde) says.
            impl<'de> Deserialize<'de> for $Type {
                fn deserialize<D: Deserializer<'de>>(deserializer: D) -> Result<$Type, D::Error> {
                    read(deserializer)
                }
            }
        )+
    };
}

serialized! {
    Date Month OffsetDateTime PlainDateTime SignedDuration Time Timestamp UtcDateTime UtcOffset Weekday
}

/// How many names there are.
macro_rules! count {
    () => { 0 };
    ($first:ident $($rest:ident)*) => { 1 + count!($($rest)*) };
}

/// A type of several numbers: the numbers of a value, their names and types, and the value of them.
macro_rules! of_sequence {
    ($($Type:ident, $expected:literal: $value:ident => $parts:expr; $($name:ident: $Part:ident),+ => $made:expr;)+) => {
        $(impl Numbers for $Type {
            type Parts = ($($Part,)+);

            const COUNT: usize = count!($($name)+);

            const EXPECTED: &'static str = $expected;

            fn parts(&self) -> Self::Parts {
                let $value = *self;
                $parts
            }

            fn of_sequence<'de, A: SeqAccess<'de>>(mut sequence: A) -> Result<$Type, A::Error> {
                $(let $name: $Part = next(&mut sequence, stringify!($name))?;)+
                let made: RangeResult<$Type> = $made;
                made.map_err(A::Error::custom)
            }

            fn of_number<E: Error>(number: u64) -> Result<$Type, E> {
                let unexpected = ::serde::de::Unexpected::Unsigned(number);
                Err(E::invalid_type(unexpected, &Self::EXPECTED))
            }
        })+
    };
}

/// A date of its year and day of the year, at a time of day.
fn from_parts(
    (year, ordinal): (i32, u16),
    (hour, minute, second, nanosecond): (u8, u8, u8, u32),
) -> RangeResult<PlainDateTime> {
    Date::from_ordinal_date(year, ordinal)?.with_hms_nano(hour, minute, second, nanosecond)
}

of_sequence! {
    Date, "a date": date => date.to_ordinal_date();
        year: i32, ordinal: u16 => Date::from_ordinal_date(year, ordinal);
    Time, "a time of day": time => time.as_hms_nano();
        hour: u8, minute: u8, second: u8, nanosecond: u32 => Time::from_hms_nano(hour, minute, second, nanosecond);
    UtcOffset, "an offset from UTC": offset => offset.as_hms();
        hours: i8, minutes: i8, seconds: i8 => UtcOffset::from_hms(hours, minutes, seconds);
    PlainDateTime, "a date and a time of day": at => {
            let ((year, ordinal), (hour, minute, second, nanosecond)) = (at.to_ordinal_date(), at.as_hms_nano());
            (year, ordinal, hour, minute, second, nanosecond)
        };
        year: i32, ordinal: u16, hour: u8, minute: u8, second: u8, nanosecond: u32
        => from_parts((year, ordinal), (hour, minute, second, nanosecond));
    UtcDateTime, "a date and a time of day in UTC": at => {
            let ((year, ordinal), (hour, minute, second, nanosecond)) = (at.to_ordinal_date(), at.as_hms_nano());
            (year, ordinal, hour, minute, second, nanosecond)
        };
        year: i32, ordinal: u16, hour: u8, minute: u8, second: u8, nanosecond: u32
        => Ok(from_parts((year, ordinal), (hour, minute, second, nanosecond)).map_err(A::Error::custom)?.as_utc());
    OffsetDateTime, "a date, a time of day and an offset from UTC": at => {
            let ((year, ordinal), (hour, minute, second, nanosecond)) = (at.to_ordinal_date(), at.to_hms_nano());
            let (hours, minutes, seconds) = at.offset().as_hms();
            (year, ordinal, hour, minute, second, nanosecond, hours, minutes, seconds)
        };
        year: i32, ordinal: u16, hour: u8, minute: u8, second: u8, nanosecond: u32, hours: i8, minutes: i8, seconds: i8
        => {
            let plain = from_parts((year, ordinal), (hour, minute, second, nanosecond)).map_err(A::Error::custom)?;
            UtcOffset::from_hms(hours, minutes, seconds).map(|offset| plain.assume_offset(offset))
        };
    Timestamp, "a timestamp": at => (at.as_seconds(), at.nanosecond());
        seconds: i64, nanosecond: u32 => Timestamp::new(seconds, nanosecond);
    SignedDuration, "a duration": duration => (duration.whole_seconds(), duration.subsec_nanoseconds());
        seconds: i64, nanoseconds: i32 => {
            let whole = i128::from(seconds) * 1_000_000_000 + i128::from(nanoseconds);
            let duration = SignedDuration::of_nanoseconds(whole);
            Ok(duration.ok_or_else(|| A::Error::custom(crate::error::ConversionRange))?)
        };
}

/// A type of one number from 1 on.
macro_rules! of_number {
    ($($Type:ident, $expected:literal: $value:ident => $number:expr; $given:ident => $made:expr;)+) => {
        $(impl Numbers for $Type {
            type Parts = u8;

            const COUNT: usize = 0;

            const EXPECTED: &'static str = $expected;

            fn parts(&self) -> u8 {
                let $value = *self;
                $number
            }

            fn of_sequence<'de, A: SeqAccess<'de>>(_: A) -> Result<$Type, A::Error> {
                let unexpected = ::serde::de::Unexpected::Seq;
                Err(A::Error::invalid_type(unexpected, &Self::EXPECTED))
            }

            fn of_number<E: Error>(number: u64) -> Result<$Type, E> {
                let $given = u8::try_from(number).unwrap_or(0);
                let unexpected = ::serde::de::Unexpected::Unsigned(number);
                $made.ok_or_else(|| E::invalid_value(unexpected, &Self::EXPECTED))
            }
        })+
    };
}

of_number! {
    Month, "a month, 1 to 12": month => month as u8; number => Month::from_number(number).ok();
    Weekday, "a day of the week, 1 to 7": weekday => weekday.number_from_monday();
        number => Weekday::from_number_days_from_monday(number.wrapping_sub(1));
}
