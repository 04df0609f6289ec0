//! Months and days of the week in their rings, by `time`'s names.

use core::hash::{Hash, Hasher};
use core::str::FromStr;

use crate::error::{ComponentRange, InvalidVariant};
use crate::spelled::named;
use crate::{Month, Weekday, days_in_month};

const MONTHS: [Month; 12] = [
    Month::January,
    Month::February,
    Month::March,
    Month::April,
    Month::May,
    Month::June,
    Month::July,
    Month::August,
    Month::September,
    Month::October,
    Month::November,
    Month::December,
];

const WEEKDAYS: [Weekday; 7] = [
    Weekday::Monday,
    Weekday::Tuesday,
    Weekday::Wednesday,
    Weekday::Thursday,
    Weekday::Friday,
    Weekday::Saturday,
    Weekday::Sunday,
];

/// The place a number of places after another one of a ring.
const fn ahead(place: usize, count: u8, length: usize) -> usize {
    (place + count as usize) % length
}

/// The place a number of places before another one of a ring.
const fn behind(place: usize, count: u8, length: usize) -> usize {
    (place + length - count as usize % length) % length
}

impl Month {
    /// The place in the year, from 0.
    const fn place(self) -> usize {
        self as usize - 1
    }

    /// How many days the month has in a year.
    ///
    /// ```
    /// use muxandu::Month;
    ///
    /// assert_eq!((Month::February.length(2023), Month::February.length(2024)), (28, 29));
    /// ```
    #[must_use]
    #[inline]
    pub fn length(self, year: i32) -> u8 {
        days_in_month(year, self)
    }
}

impl Weekday {
    /// The place in the week, from 0.
    const fn place(self) -> usize {
        self as usize
    }

    /// 1 for Monday to 7 for Sunday.
    ///
    /// ```
    /// use muxandu::Weekday;
    ///
    /// assert_eq!(Weekday::Sunday.number_from_monday(), 7);
    /// ```
    #[must_use]
    #[inline]
    pub const fn number_from_monday(self) -> u8 {
        self.number_days_from_monday() + 1
    }

    /// 1 for Sunday to 7 for Saturday.
    ///
    /// ```
    /// use muxandu::Weekday;
    ///
    /// assert_eq!(Weekday::Saturday.number_from_sunday(), 7);
    /// ```
    #[must_use]
    #[inline]
    pub const fn number_from_sunday(self) -> u8 {
        self.number_days_from_sunday() + 1
    }

    /// 0 for Sunday to 6 for Saturday.
    ///
    /// ```
    /// use muxandu::Weekday;
    ///
    /// assert_eq!(Weekday::Saturday.number_days_from_sunday(), 6);
    /// ```
    #[must_use]
    #[inline]
    pub const fn number_days_from_sunday(self) -> u8 {
        self.next().number_days_from_monday()
    }
}

/// Fails with `month` if the number is not 1 to 12.
impl TryFrom<u8> for Month {
    type Error = ComponentRange;

    #[inline]
    fn try_from(number: u8) -> Result<Month, ComponentRange> {
        Month::from_number(number)
    }
}

macro_rules! named_values {
    ($($Type:ident: $all:ident;)+) => {
        $(
            /// Reads the English name.
            impl FromStr for $Type {
                type Err = InvalidVariant;

                fn from_str(text: &str) -> Result<$Type, InvalidVariant> {
                    named(&$all, $Type::text, text)
                }
            }

            impl Hash for $Type {
                fn hash<H: Hasher>(&self, state: &mut H) {
                    (*self as u8).hash(state);
                }
            }

            impl $Type {
                /// The one before, the last before the first.
                ///
                /// ```
                /// use muxandu::{Month, Weekday};
                ///
                /// assert_eq!(Month::January.previous(), Month::December);
                /// assert_eq!(Weekday::Monday.previous(), Weekday::Sunday);
                /// ```
                #[must_use]
                #[inline]
                pub const fn previous(self) -> $Type {
                    self.nth_prev(1)
                }

                /// The one after, the first after the last.
                ///
                /// ```
                /// use muxandu::{Month, Weekday};
                ///
                /// assert_eq!(Month::December.next(), Month::January);
                /// assert_eq!(Weekday::Sunday.next(), Weekday::Monday);
                /// ```
                #[must_use]
                #[inline]
                pub const fn next(self) -> $Type {
                    self.nth_next(1)
                }

                /// The one a number of places later.
                ///
                /// ```
                /// use muxandu::{Month, Weekday};
                ///
                /// assert_eq!(Month::November.nth_next(15), Month::February);
                /// assert_eq!(Weekday::Saturday.nth_next(9), Weekday::Monday);
                /// ```
                #[must_use]
                #[inline]
                pub const fn nth_next(self, n: u8) -> $Type {
                    $all[ahead(self.place(), n, $all.len())]
                }

                /// The one a number of places earlier.
                ///
                /// ```
                /// use muxandu::{Month, Weekday};
                ///
                /// assert_eq!(Month::February.nth_prev(15), Month::November);
                /// assert_eq!(Weekday::Monday.nth_prev(9), Weekday::Saturday);
                /// ```
                #[must_use]
                #[inline]
                pub const fn nth_prev(self, n: u8) -> $Type {
                    $all[behind(self.place(), n, $all.len())]
                }
            }
        )+
    };
}

named_values! {
    Month: MONTHS;
    Weekday: WEEKDAYS;
}
