//! Conversions with the types of the crate `chrono`, with the feature `chrono` of the folder
//! `time`: `From` where each value has one that is the same, and else `TryFrom`. A value that the
//! other type does not hold is an error, and none is rounded.
//!
//! The types of `chrono` have the years -262144 to 262143 or fewer, offsets below 24 hours, and
//! leap seconds, whose nanosecond is 1,000,000,000 or more.

use ::chrono::{DateTime, Datelike, FixedOffset, NaiveDate, NaiveDateTime, NaiveTime};
use ::chrono::{Offset, TimeZone, Timelike, Utc};

use crate::error::{ComponentRange, ConversionRange};
use crate::proved::Part;
use crate::{
    Date, Month, OffsetDateTime, PlainDateTime, SignedDuration, Time, Timestamp, UtcDateTime,
    UtcOffset, Weekday,
};

/// The error of a date that the other type does not hold.
const NO_YEAR: ComponentRange = ComponentRange::of_part(Part::Year, true);

macro_rules! exact {
    ($($From:ty, $To:ty: $value:ident => $made:expr;)+) => {
        $(
            /// Each value has one that is the same.
            impl From<$From> for $To {
                fn from($value: $From) -> $To {
                    $made
                }
            }
        )+
    };
}

macro_rules! checked {
    ($($From:ty, $To:ty, $Error:ty: $value:ident => $made:expr;)+) => {
        $(
            /// Fails for a value that the type does not hold.
            impl TryFrom<$From> for $To {
                type Error = $Error;

                fn try_from($value: $From) -> Result<$To, $Error> {
                    $made
                }
            }
        )+
    };
}

exact! {
    NaiveDate, Date: date => {
        // The range of `chrono` lies in that of `Date`.
        Date::from_ordinal_date(date.year(), date.ordinal() as u16).expect("a date of chrono")
    };
    Time, NaiveTime: time => {
        let (hour, minute, second, nanosecond) = time.as_hms_nano();
        NaiveTime::from_hms_nano_opt(hour.into(), minute.into(), second.into(), nanosecond)
            .expect("a time of day")
    };
    FixedOffset, UtcOffset: offset => {
        UtcOffset::from_whole_seconds(offset.local_minus_utc()).expect("an offset of chrono")
    };
    ::chrono::Duration, SignedDuration: duration => {
        let seconds = duration.num_seconds();
        let rest = duration - ::chrono::Duration::seconds(seconds);
        let nanoseconds = rest.num_nanoseconds().expect("less than a second");
        SignedDuration::seconds(seconds) + SignedDuration::nanoseconds(nanoseconds)
    };
}

checked! {
    Date, NaiveDate, ComponentRange:
        date => NaiveDate::from_yo_opt(date.year(), date.ordinal().into()).ok_or(NO_YEAR);
    NaiveTime, Time, ComponentRange: time => Time::from_hms_nano(
        time.hour() as u8,
        time.minute() as u8,
        time.second() as u8,
        time.nanosecond(),
    );
    UtcOffset, FixedOffset, ComponentRange: offset => FixedOffset::east_opt(offset.whole_seconds())
        .ok_or(ComponentRange::of_part(Part::Hours, false));
    SignedDuration, ::chrono::Duration, ConversionRange: duration => {
        let size = ::chrono::Duration::from_std(duration.unsigned_abs());
        let size = size.map_err(|_| ConversionRange)?;
        Ok(if duration.is_negative() { -size } else { size })
    };
    PlainDateTime, NaiveDateTime, ComponentRange:
        at => Ok(NaiveDate::try_from(at.date())?.and_time(at.time().into()));
    NaiveDateTime, PlainDateTime, ComponentRange:
        at => Ok(PlainDateTime::new(at.date().into(), at.time().try_into()?));
    UtcDateTime, DateTime<Utc>, ComponentRange: at => {
        let plain = PlainDateTime::new(at.date(), at.time());
        Ok(Utc.from_utc_datetime(&plain.try_into()?))
    };
    DateTime<Utc>, UtcDateTime, ComponentRange:
        at => Ok(PlainDateTime::try_from(at.naive_utc())?.as_utc());
    Timestamp, DateTime<Utc>, ComponentRange: at => UtcDateTime::from(at).try_into();
    DateTime<Utc>, Timestamp, ComponentRange: at => Ok(UtcDateTime::try_from(at)?.into());
    OffsetDateTime, DateTime<FixedOffset>, ComponentRange: at => {
        // Both what its clocks show and the instant must be in the range of `chrono`.
        NaiveDate::try_from(at.date())?;
        let utc = DateTime::<Utc>::try_from(at.checked_to_utc().ok_or(NO_YEAR)?)?;
        Ok(utc.with_timezone(&FixedOffset::try_from(at.offset())?))
    };
}

/// Fails for a leap second.
impl<Zone: TimeZone> TryFrom<DateTime<Zone>> for OffsetDateTime {
    type Error = ComponentRange;

    fn try_from(at: DateTime<Zone>) -> Result<OffsetDateTime, ComponentRange> {
        let utc = PlainDateTime::try_from(at.naive_utc())?.as_utc();
        utc.checked_to_offset(at.offset().fix().into()).ok_or(NO_YEAR)
    }
}

/// The cases of both, by their names.
macro_rules! named {
    ($($Type:ident: $($Name:ident = $Other:ident),+;)+) => {
        $(exact! {
            $Type, ::chrono::$Type:
                name => match name { $($Type::$Name => ::chrono::$Type::$Other,)+ };
            ::chrono::$Type, $Type:
                name => match name { $(::chrono::$Type::$Other => $Type::$Name,)+ };
        })+
    };
}

named! {
    Month: January = January, February = February, March = March, April = April, May = May, June = June,
        July = July, August = August, September = September, October = October, November = November,
        December = December;
    Weekday: Monday = Mon, Tuesday = Tue, Wednesday = Wed, Thursday = Thu, Friday = Fri, Saturday = Sat,
        Sunday = Sun;
}
