//! Values for `quickcheck`, with the feature `quickcheck`, each of which shrinks to simpler ones.

use alloc::boxed::Box;

use ::quickcheck::{Arbitrary, Gen, empty_shrinker, single_shrinker};

use crate::{
    Date, Month, OffsetDateTime, PlainDateTime, SignedDuration, Time, Timestamp, UtcDateTime,
    UtcOffset, Weekday,
};

/// A number of `least` to `most`, its ends too.
macro_rules! within {
    ($Number:ident, $g:expr, $least:expr, $most:expr) => {{
        let (least, most): ($Number, $Number) = ($least, $most);
        $Number::arbitrary($g).rem_euclid(most - least + 1) + least
    }};
}

/// A type: a value of random numbers, parts that shrink, and the value of such parts, if there is
/// one.
macro_rules! arbitrary {
    ($($Type:ident: $g:ident => $made:expr; $value:ident => $parts:expr; $simpler:pat => $remade:expr;)+) => {
        $(
            /// Any value of the range.
            impl Arbitrary for $Type {
                fn arbitrary($g: &mut Gen) -> $Type {
                    $made
                }

                fn shrink(&self) -> Box<dyn Iterator<Item = $Type>> {
                    let $value = *self;
                    Box::new($parts.shrink().filter_map(|$simpler| $remade))
                }
            }
        )+
    };
}

arbitrary! {
    Date: g => {
        let days = within!(i32, g, Date::MIN.to_julian_day(), Date::MAX.to_julian_day());
        Date::from_julian_day(days).expect("a day of the range")
    };
    date => date.to_ordinal_date();
    (year, ordinal) => Date::from_ordinal_date(year, ordinal).ok();

    Time: g => {
        let (hour, minute, second) = (within!(u8, g, 0, 23), within!(u8, g, 0, 59), within!(u8, g, 0, 59));
        Time::from_hms_nano(hour, minute, second, within!(u32, g, 0, 999_999_999)).expect("a time of day")
    };
    time => time.as_hms_nano();
    (hour, minute, second, nanosecond) => Time::from_hms_nano(hour, minute, second, nanosecond).ok();

    // Less than 24 hours, as `time` has them.
    UtcOffset: g => {
        let seconds = within!(i32, g, -86_399, 86_399);
        UtcOffset::from_whole_seconds(seconds).expect("an offset of the range")
    };
    offset => offset.as_hms();
    (hours, minutes, seconds) => UtcOffset::from_hms(hours, minutes, seconds).ok();

    PlainDateTime: g => PlainDateTime::new(Date::arbitrary(g), Time::arbitrary(g));
    at => (at.date(), at.time());
    (date, time) => Some(PlainDateTime::new(date, time));

    UtcDateTime: g => PlainDateTime::arbitrary(g).as_utc();
    at => (at.date(), at.time());
    (date, time) => Some(UtcDateTime::new(date, time));

    OffsetDateTime: g => PlainDateTime::arbitrary(g).assume_offset(UtcOffset::arbitrary(g));
    at => (PlainDateTime::new(at.date(), at.time()), at.offset());
    (plain, offset) => Some(plain.assume_offset(offset));

    Timestamp: g => {
        let seconds = within!(i64, g, Timestamp::MIN.as_seconds(), Timestamp::MAX.as_seconds());
        Timestamp::new(seconds, within!(u32, g, 0, 999_999_999)).expect("an instant of the range")
    };
    at => (at.as_seconds(), at.nanosecond());
    (seconds, nanosecond) => Timestamp::new(seconds, nanosecond).ok();

    SignedDuration: g => {
        let (least, most) = (SignedDuration::MIN.whole_nanoseconds(), SignedDuration::MAX.whole_nanoseconds());
        SignedDuration::of_nanoseconds(within!(i128, g, least, most)).expect("a duration of the range")
    };
    duration => duration.whole_nanoseconds();
    nanoseconds => SignedDuration::of_nanoseconds(nanoseconds);
}

/// Types whose values shrink to the one before, and the first to none.
macro_rules! ring {
    ($($Type:ident: $first:ident, $count:literal;)+) => {
        $(
            /// Any value.
            impl Arbitrary for $Type {
                fn arbitrary(g: &mut Gen) -> $Type {
                    $Type::$first.nth_next(within!(u8, g, 0, $count - 1))
                }

                fn shrink(&self) -> Box<dyn Iterator<Item = $Type>> {
                    match self {
                        $Type::$first => empty_shrinker(),
                        _ => single_shrinker(self.previous()),
                    }
                }
            }
        )+
    };
}

ring! {
    Month: January, 12;
    Weekday: Monday, 7;
}
