//! How components are written and read, by `time`'s names.

use core::num::NonZeroU16;

pub use crate::proved::format_descriptions::SubsecondDigits;

/// The filler before a number that has fewer digits than its width.
#[non_exhaustive]
#[derive(Clone, Copy, Debug, Default, PartialEq, Eq)]
pub enum Padding {
    /// Spaces.
    Space,
    /// Zeros.
    #[default]
    Zero,
    /// Nothing.
    None,
}

/// How a month is written.
#[non_exhaustive]
#[derive(Clone, Copy, Debug, Default, PartialEq, Eq)]
pub enum MonthRepr {
    /// Its number, 1 for January.
    #[default]
    Numerical,
    /// Its English name.
    Long,
    /// The first three letters of its English name.
    Short,
}

/// How a day of the week is written.
#[non_exhaustive]
#[derive(Clone, Copy, Debug, Default, PartialEq, Eq)]
pub enum WeekdayRepr {
    /// The first three letters of its English name.
    Short,
    /// Its English name.
    #[default]
    Long,
    /// Its number in a week from Sunday on.
    Sunday,
    /// Its number in a week from Monday on.
    Monday,
}

/// How the weeks of a year are counted.
#[non_exhaustive]
#[derive(Clone, Copy, Debug, Default, PartialEq, Eq)]
pub enum WeekNumberRepr {
    /// By ISO 8601.
    #[default]
    Iso,
    /// From the first Sunday on.
    Sunday,
    /// From the first Monday on.
    Monday,
}

/// How a year is written.
#[non_exhaustive]
#[derive(Clone, Copy, Debug, Default, PartialEq, Eq)]
pub enum YearRepr {
    /// All of it.
    #[default]
    Full,
    /// All but its last two digits.
    Century,
    /// Its last two digits.
    LastTwo,
}

/// Which years are read.
#[non_exhaustive]
#[derive(Clone, Copy, Debug, Default, PartialEq, Eq)]
pub enum YearRange {
    /// -9999 to 9999.
    Standard,
    /// -999999 to 999999.
    #[default]
    Extended,
}

/// The unit that a Unix timestamp counts.
#[non_exhaustive]
#[derive(Clone, Copy, Debug, Default, PartialEq, Eq)]
pub enum UnixTimestampPrecision {
    /// Seconds.
    #[default]
    Second,
    /// Milliseconds.
    Millisecond,
    /// Microseconds.
    Microsecond,
    /// Nanoseconds.
    Nanosecond,
}

// The type is of the proved text, which derives nothing.
#[allow(clippy::derivable_impls)]
impl Default for SubsecondDigits {
    fn default() -> SubsecondDigits {
        SubsecondDigits::OneOrMore
    }
}

macro_rules! modifiers {
    ($($(#[$doc:meta])* $Name:ident { $($(#[$of:meta])* $field:ident: $Type:ty = $value:expr, $with:ident;)* })+) => {
        $(
            $(#[$doc])*
            #[non_exhaustive]
            #[derive(Clone, Copy, Debug, PartialEq, Eq)]
            pub struct $Name {
                $($(#[$of])* pub $field: $Type,)*
            }

            impl $Name {
                /// Returns the modifiers of a description without modifiers.
                ///
                #[doc = concat!("```\nuse muxandu::format_description::modifier::", stringify!($Name), ";\n\n")]
                #[doc = concat!("const PLAIN: ", stringify!($Name), " = ", stringify!($Name), "::default();\n")]
                #[doc = concat!("assert_eq!(PLAIN, <", stringify!($Name), " as Default>::default());\n```")]
                #[must_use]
                #[allow(clippy::should_implement_trait)]
                pub const fn default() -> $Name {
                    $Name { $($field: $value,)* }
                }

                $(
                    /// The same with this modifier.
                    ///
                    #[doc = concat!("```\nuse muxandu::format_description::modifier::*;\n\n")]
                    #[doc = concat!("let value = ", stringify!($value), ";\n")]
                    #[doc = concat!("let part = ", stringify!($Name), "::default().", stringify!($with), "(value);\n")]
                    #[doc = concat!("assert_eq!(part.", stringify!($field), ", value);\n```")]
                    #[must_use]
                    pub const fn $with(self, $field: $Type) -> $Name {
                        $Name { $field, ..self }
                    }
                )*
            }

            impl Default for $Name {
                fn default() -> $Name {
                    $Name::default()
                }
            }
        )+
    };
}

modifiers! {
    /// A day of the month.
    Day {
        /// The filler.
        padding: Padding = Padding::Zero, with_padding;
    }
    /// A month.
    Month {
        /// The filler of the number.
        padding: Padding = Padding::Zero, with_padding;
        /// The form.
        repr: MonthRepr = MonthRepr::Numerical, with_repr;
        /// Whether a name is read in its case alone.
        case_sensitive: bool = true, with_case_sensitive;
    }
    /// A day of the year.
    Ordinal {
        /// The filler.
        padding: Padding = Padding::Zero, with_padding;
    }
    /// A day of the week.
    Weekday {
        /// The form.
        repr: WeekdayRepr = WeekdayRepr::Long, with_repr;
        /// Whether the first number is 1, and not 0.
        one_indexed: bool = true, with_one_indexed;
        /// Whether a name is read in its case alone.
        case_sensitive: bool = true, with_case_sensitive;
    }
    /// A week of the year.
    WeekNumber {
        /// The filler.
        padding: Padding = Padding::Zero, with_padding;
        /// The rule.
        repr: WeekNumberRepr = WeekNumberRepr::Iso, with_repr;
    }
    /// A year.
    Year {
        /// The filler.
        padding: Padding = Padding::Zero, with_padding;
        /// The form.
        repr: YearRepr = YearRepr::Full, with_repr;
        /// Which years are read.
        range: YearRange = YearRange::Extended, with_range;
        /// Whether it is the year of the ISO week.
        iso_week_based: bool = false, with_iso_week_based;
        /// Whether it always has a sign.
        sign_is_mandatory: bool = false, with_sign_is_mandatory;
    }
    /// An hour.
    Hour {
        /// The filler.
        padding: Padding = Padding::Zero, with_padding;
        /// Whether the clock has 12 hours.
        is_12_hour_clock: bool = false, with_is_12_hour_clock;
    }
    /// A minute.
    Minute {
        /// The filler.
        padding: Padding = Padding::Zero, with_padding;
    }
    /// The half of the day.
    Period {
        /// Whether it has capitals.
        is_uppercase: bool = true, with_is_uppercase;
        /// Whether it is read in its case alone.
        case_sensitive: bool = true, with_case_sensitive;
    }
    /// A second.
    Second {
        /// The filler.
        padding: Padding = Padding::Zero, with_padding;
    }
    /// Digits of the fraction of the second.
    Subsecond {
        /// How many.
        digits: SubsecondDigits = SubsecondDigits::OneOrMore, with_digits;
    }
    /// The hours of an offset.
    OffsetHour {
        /// Whether they always have a sign.
        sign_is_mandatory: bool = false, with_sign_is_mandatory;
        /// The filler.
        padding: Padding = Padding::Zero, with_padding;
    }
    /// The minutes of an offset.
    OffsetMinute {
        /// The filler.
        padding: Padding = Padding::Zero, with_padding;
    }
    /// The seconds of an offset.
    OffsetSecond {
        /// The filler.
        padding: Padding = Padding::Zero, with_padding;
    }
    /// A Unix timestamp.
    UnixTimestamp {
        /// The unit that it counts.
        precision: UnixTimestampPrecision = UnixTimestampPrecision::Second, with_precision;
        /// Whether it always has a sign.
        sign_is_mandatory: bool = false, with_sign_is_mandatory;
    }
    /// The end of the text.
    End {}
}

/// Bytes that are passed over.
#[non_exhaustive]
#[derive(Clone, Copy, Debug, PartialEq, Eq)]
pub struct Ignore {
    /// How many.
    pub count: NonZeroU16,
}

impl Ignore {
    /// Returns the component that ignores a number of bytes.
    ///
    /// ```
    /// use core::num::NonZeroU16;
    /// use muxandu::format_description::modifier::Ignore;
    ///
    /// let four = Ignore::count(NonZeroU16::new(4).unwrap());
    /// assert_eq!(four.count.get(), 4);
    /// ```
    #[must_use]
    pub const fn count(count: NonZeroU16) -> Ignore {
        Ignore { count }
    }
}
