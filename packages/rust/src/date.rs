//! Days by more of `time`'s names.

use crate::{Date, PlainDateTime, RangeResult, SignedDuration, Time};

impl Date {
    /// The day later by the whole days of a duration, or the end of the range that it is beyond.
    ///
    /// ```
    /// use muxandu::ext::NumericalDuration as _;
    /// use muxandu::Date;
    ///
    /// assert_eq!(Date::MIN.saturating_add(36.hours()), Date::MIN.next_day().unwrap());
    /// assert_eq!(Date::MAX.saturating_add(1.days()), Date::MAX);
    /// ```
    #[must_use]
    #[inline]
    pub const fn saturating_add(self, duration: SignedDuration) -> Date {
        let end = if duration.is_negative() { Date::MIN } else { Date::MAX };
        match self.checked_add(duration) {
            Some(date) => date,
            None => end,
        }
    }

    /// The day earlier by the whole days of a duration, or the end of the range that it is beyond.
    ///
    /// ```
    /// use muxandu::ext::NumericalDuration as _;
    /// use muxandu::Date;
    ///
    /// assert_eq!(Date::MAX.saturating_sub(36.hours()), Date::MAX.previous_day().unwrap());
    /// assert_eq!(Date::MIN.saturating_sub(1.days()), Date::MIN);
    /// ```
    #[must_use]
    #[inline]
    pub const fn saturating_sub(self, duration: SignedDuration) -> Date {
        let end = if duration.is_negative() { Date::MAX } else { Date::MIN };
        match self.checked_sub(duration) {
            Some(date) => date,
            None => end,
        }
    }

    /// The day at 0:00.
    ///
    /// ```
    /// use muxandu::macros::{date, datetime};
    ///
    /// assert_eq!(date!(2024-02-29).midnight(), datetime!(2024-02-29 0:00));
    /// ```
    #[must_use]
    #[inline]
    pub const fn midnight(self) -> PlainDateTime {
        self.with_time(Time::MIDNIGHT)
    }

    /// The day at a time of day.
    ///
    /// ```
    /// use muxandu::macros::{date, datetime, time};
    ///
    /// assert_eq!(date!(2024-02-29).with_time(time!(1:02)), datetime!(2024-02-29 1:02));
    /// ```
    #[must_use]
    #[inline]
    pub const fn with_time(self, time: Time) -> PlainDateTime {
        PlainDateTime::new(self, time)
    }
}

/// The day at the time of day that a call of `Time` makes.
macro_rules! with_parts {
    ($($(#[$doc:meta])* $name:ident: $make:ident($($part:ident: $Part:ty),+);)+) => {
        impl Date {
            $(
                $(#[$doc])*
                #[inline]
                pub const fn $name(self, $($part: $Part),+) -> RangeResult<PlainDateTime> {
                    match Time::$make($($part),+) {
                        Ok(time) => Ok(self.with_time(time)),
                        Err(refused) => Err(refused),
                    }
                }
            )+
        }
    };
}

with_parts! {
    /// The day at an hour, a minute and a second.
    ///
    /// ```
    /// use muxandu::macros::{date, datetime};
    ///
    /// assert_eq!(date!(2024-02-29).with_hms(1, 2, 3), Ok(datetime!(2024-02-29 1:02:03)));
    /// assert_eq!(date!(2024-02-29).with_hms(24, 0, 0).unwrap_err().name(), "hour");
    /// ```
    ///
    /// # Errors
    ///
    /// `hour`, `minute` or `second`.
    with_hms: from_hms(hour: u8, minute: u8, second: u8);
    /// The day at an hour, a minute, a second and a millisecond of it.
    ///
    /// ```
    /// use muxandu::macros::{date, datetime};
    ///
    /// let at = date!(2024-02-29).with_hms_milli(1, 2, 3, 4);
    /// assert_eq!(at, Ok(datetime!(2024-02-29 1:02:03.004)));
    /// ```
    ///
    /// # Errors
    ///
    /// `hour`, `minute`, `second` or `millisecond`.
    with_hms_milli: from_hms_milli(hour: u8, minute: u8, second: u8, millisecond: u16);
    /// The day at an hour, a minute, a second and a microsecond of it.
    ///
    /// ```
    /// use muxandu::macros::{date, datetime};
    ///
    /// let at = date!(2024-02-29).with_hms_micro(1, 2, 3, 4);
    /// assert_eq!(at, Ok(datetime!(2024-02-29 1:02:03.000_004)));
    /// ```
    ///
    /// # Errors
    ///
    /// `hour`, `minute`, `second` or `microsecond`.
    with_hms_micro: from_hms_micro(hour: u8, minute: u8, second: u8, microsecond: u32);
    /// The day at an hour, a minute, a second and a nanosecond of it.
    ///
    /// ```
    /// use muxandu::macros::{date, datetime};
    ///
    /// let at = date!(2024-02-29).with_hms_nano(1, 2, 3, 4);
    /// assert_eq!(at, Ok(datetime!(2024-02-29 1:02:03.000_000_004)));
    /// ```
    ///
    /// # Errors
    ///
    /// `hour`, `minute`, `second` or `nanosecond`.
    with_hms_nano: from_hms_nano(hour: u8, minute: u8, second: u8, nanosecond: u32);
}

const NO_SUM: &str = "the sum is out of range: use `checked_add`";
const NO_DIFFERENCE: &str = "the difference is out of range: use `checked_sub`";

sums! {
    /// # Panics
    ///
    /// The range does not have the result.
    Date, SignedDuration: self, duration =>
        self.checked_add(duration).expect(NO_SUM), self.checked_sub(duration).expect(NO_DIFFERENCE);
    /// # Panics
    ///
    /// The range does not have the result.
    Date, core::time::Duration: self, duration =>
        self.checked_add_std(duration).expect(NO_SUM), self.checked_sub_std(duration).expect(NO_DIFFERENCE);
}
