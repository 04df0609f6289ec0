//! Random values of each type, with the feature `rand`: the values that `time` makes of the same
//! random numbers.

use ::rand::Rng;
use ::rand::distributions::{Distribution, Standard};

use crate::{
    Date, Month, OffsetDateTime, PlainDateTime, SignedDuration, Time, Timestamp, UtcDateTime,
    UtcOffset, Weekday,
};

/// Values of a type, of random numbers of its range.
macro_rules! random {
    ($($Type:ident: $rng:ident => $made:expr;)+) => {
        $(
            /// Any value of the range.
            impl Distribution<$Type> for Standard {
                fn sample<R: Rng + ?Sized>(&self, $rng: &mut R) -> $Type {
                    $made
                }
            }
        )+
    };
}

random! {
    Date: rng => {
        let days = rng.gen_range(Date::MIN.to_julian_day()..=Date::MAX.to_julian_day());
        Date::from_julian_day(days).expect("a day of the range")
    };
    Time: rng => {
        let (hour, minute, second) = (rng.gen_range(0..24), rng.gen_range(0..60), rng.gen_range(0..60));
        let nanosecond = rng.gen_range(0..1_000_000_000);
        Time::from_hms_nano(hour, minute, second, nanosecond).expect("a time of day")
    };
    // Less than 24 hours, as `time` has them.
    UtcOffset: rng => {
        let seconds = rng.gen_range(-86_399..=86_399);
        UtcOffset::from_whole_seconds(seconds).expect("an offset of the range")
    };
    PlainDateTime: rng => PlainDateTime::new(rng.r#gen(), rng.r#gen());
    UtcDateTime: rng => rng.r#gen::<PlainDateTime>().as_utc();
    OffsetDateTime: rng => rng.r#gen::<PlainDateTime>().assume_offset(rng.r#gen());
    Timestamp: rng => {
        let seconds = rng.gen_range(Timestamp::MIN.as_seconds()..=Timestamp::MAX.as_seconds());
        Timestamp::new(seconds, rng.gen_range(0..1_000_000_000)).expect("an instant of the range")
    };
    SignedDuration: rng => {
        let (least, most) = (SignedDuration::MIN.whole_nanoseconds(), SignedDuration::MAX.whole_nanoseconds());
        let nanoseconds = rng.gen_range(least..=most);
        SignedDuration::of_nanoseconds(nanoseconds).expect("a duration of the range")
    };
    Month: rng => Month::from_number(rng.gen_range(1..=12)).expect("a month");
    Weekday: rng => Weekday::Monday.nth_next(rng.gen_range(0..7));
}
