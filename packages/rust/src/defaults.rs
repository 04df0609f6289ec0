//! The values that Rust takes where none is named.

use crate::{Date, OffsetDateTime, Time, Timestamp, UtcOffset};

macro_rules! defaults {
    ($($Type:ident: $value:ident;)+) => {
        $(impl Default for $Type {
            #[inline]
            fn default() -> $Type {
                $Type::$value
            }
        })+
    };
}

defaults! {
    Date: UNIX_EPOCH;
    Time: MIDNIGHT;
    UtcOffset: UTC;
    OffsetDateTime: UNIX_EPOCH;
    Timestamp: UNIX_EPOCH;
}
