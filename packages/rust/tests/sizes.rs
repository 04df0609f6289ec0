//! What values take of memory: no `Option` takes more than its type. docs/guide/RUST.md has the table.

use std::mem::size_of;

use muxandu::{
    Date, Month, OffsetDateTime, PlainDateTime, SignedDuration, Time, Timestamp, UtcDateTime,
    UtcOffset, Weekday,
};

#[test]
fn an_option_is_as_large_as_its_type() {
    macro_rules! are_sized {
        ($($Type:ident: $bytes:literal;)+) => {
            $(
                let sizes = (size_of::<$Type>(), size_of::<Option<$Type>>(), size_of::<Option<Option<$Type>>>());
                assert_eq!(sizes, ($bytes, $bytes, $bytes), "{}", stringify!($Type));
            )+
        };
    }
    are_sized! {
        Date: 8;
        Month: 1;
        OffsetDateTime: 20;
        PlainDateTime: 16;
        SignedDuration: 16;
        Time: 8;
        Timestamp: 16;
        UtcDateTime: 16;
        UtcOffset: 4;
        Weekday: 1;
    }
}

#[test]
fn a_missing_value_is_none() {
    let dates = [Some(Date::MIN), None, Some(Date::MAX)];
    assert_eq!(dates.iter().flatten().count(), 2);
    assert_ne!(Some(Time::MIDNIGHT), None);
    assert_ne!(Some(UtcOffset::UTC), None);
    assert_ne!(Some(SignedDuration::ZERO), None);
    assert_ne!(Some(Timestamp::UNIX_EPOCH), None);
    assert_eq!(Date::MAX.next_day(), None);
}
