// Made by make/erase of crates/format_descriptions/src/parts.rt. Do not edit.
//! The parts that a text names.
use crate::proved::format_descriptions::{Component, UnixPrecision, WeekRule, YearBase};

/// The parts of a value that a text gives: each is None where no component of the description gives
/// it. A part need not be in its range, and the parts need not be those of one value.
#[derive(Clone, Copy)]
pub struct Parts {
    /// The year.
    pub year: Option<i32>,
    /// The year without its last two digits and its sign.
    pub year_century: Option<u32>,
    /// Whether the year without its last two digits has the sign `-`.
    pub is_before_zero: Option<bool>,
    /// The last two digits of the year.
    pub year_last_two: Option<u32>,
    /// The year of the ISO week.
    pub iso_year: Option<i32>,
    /// The year of the ISO week without its last two digits and its sign.
    pub iso_year_century: Option<u32>,
    /// Whether the year of the ISO week without its last two digits has the sign `-`.
    pub is_iso_before_zero: Option<bool>,
    /// The last two digits of the year of the ISO week.
    pub iso_year_last_two: Option<u32>,
    /// The number of the month.
    pub month: Option<u32>,
    /// The day of the month.
    pub day: Option<u32>,
    /// The day of the year.
    pub ordinal: Option<u32>,
    /// The day of the week, 0 for Monday.
    pub weekday: Option<u32>,
    /// The ISO week.
    pub iso_week: Option<u32>,
    /// The week by the Sundays of the year.
    pub sunday_week: Option<u32>,
    /// The week by the Mondays of the year.
    pub monday_week: Option<u32>,
    /// The hour of the day.
    pub hour: Option<u32>,
    /// The hour on a clock of 12 hours.
    pub hour_12: Option<u32>,
    /// Whether the half of the day is the second.
    pub is_afternoon: Option<bool>,
    /// The minute.
    pub minute: Option<u32>,
    /// The second.
    pub second: Option<u32>,
    /// The nanosecond of the second.
    pub nanosecond: Option<u32>,
    /// Whether the offset has the sign `-`, which `-00` has too.
    pub is_west: Option<bool>,
    /// The hours of the offset, without the sign.
    pub offset_hour: Option<u32>,
    /// The minutes of the offset, without the sign.
    pub offset_minute: Option<u32>,
    /// The seconds of the offset, without the sign.
    pub offset_second: Option<u32>,
    /// The Unix time in seconds.
    pub unix_second: Option<i128>,
    /// The Unix time in milliseconds.
    pub unix_millisecond: Option<i128>,
    /// The Unix time in microseconds.
    pub unix_microsecond: Option<i128>,
    /// The Unix time in nanoseconds.
    pub unix_nanosecond: Option<i128>,
}

impl Parts {
    /// The parts of a text that gives none.
    ///
    /// ```
    /// # use muxandu::proved::*;
    /// # fn main() -> Result<(), Box<dyn std::error::Error>> {
    /// use format_descriptions::Parts;
    /// assert_eq!(Parts::none().day, None);
    /// # Ok(())
    /// # }
    /// ```
    ///
    /// # Contract
    ///
    /// ```text
    /// ensures { result ≡ no_parts }
    /// ```
    ///
    /// [docs/proofs/STATEMENT.md](crate::proved#contracts) explains the words.
    #[inline]
    pub const fn none() -> Parts {
        Parts {
            year: None,
            year_century: None,
            is_before_zero: None,
            year_last_two: None,
            iso_year: None,
            iso_year_century: None,
            is_iso_before_zero: None,
            iso_year_last_two: None,
            month: None,
            day: None,
            ordinal: None,
            weekday: None,
            iso_week: None,
            sunday_week: None,
            monday_week: None,
            hour: None,
            hour_12: None,
            is_afternoon: None,
            minute: None,
            second: None,
            nanosecond: None,
            is_west: None,
            offset_hour: None,
            offset_minute: None,
            offset_second: None,
            unix_second: None,
            unix_millisecond: None,
            unix_microsecond: None,
            unix_nanosecond: None,
        }
    }

    // Whether what a component gives contradicts none of the parts.
    /// # Contract
    ///
    /// ```text
    /// requires number { given.1 ≤ 1_000_000_000 }
    /// requires small { has_large_number component ≡ false }
    /// ensures { result ≡ agrees component given self.now }
    /// ```
    ///
    /// [docs/proofs/STATEMENT.md](crate::proved#contracts) explains the words.
    #[inline]
    pub(crate) const fn agrees(&self, component: Component, given: (bool, u32)) -> bool {
        let (sign, number) = given;
        match component {
            Component::Year(YearBase::Calendar, _, _, _) => {
                fits_signed(self.year, signed(sign, number))
            }
            Component::Year(YearBase::IsoWeek, _, _, _) => {
                fits_signed(self.iso_year, signed(sign, number))
            }
            Component::YearCentury(YearBase::Calendar, _, _, _) => {
                fits_choice(self.is_before_zero, sign) & fits(self.year_century, number)
            }
            Component::YearCentury(YearBase::IsoWeek, _, _, _) => {
                fits_choice(self.is_iso_before_zero, sign) & fits(self.iso_year_century, number)
            }
            Component::YearLastTwo(YearBase::Calendar, _) => fits(self.year_last_two, number),
            Component::YearLastTwo(YearBase::IsoWeek, _) => fits(self.iso_year_last_two, number),
            Component::Month(_) | Component::MonthName(_, _) => fits(self.month, number),
            Component::Day(_) => fits(self.day, number),
            Component::Ordinal(_) => fits(self.ordinal, number),
            Component::WeekdayName(_, _) | Component::WeekdayNumber(_, _) => {
                fits(self.weekday, number)
            }
            Component::WeekNumber(WeekRule::Iso, _) => fits(self.iso_week, number),
            Component::WeekNumber(WeekRule::Sunday, _) => fits(self.sunday_week, number),
            Component::WeekNumber(WeekRule::Monday, _) => fits(self.monday_week, number),
            Component::Hour(_) => fits(self.hour, number),
            Component::Hour12(_) => fits(self.hour_12, number),
            Component::Period(_, _) => fits_choice(self.is_afternoon, sign),
            Component::Minute(_) => fits(self.minute, number),
            Component::Second(_) => fits(self.second, number),
            Component::Subsecond(_) => fits(self.nanosecond, number),
            Component::OffsetHour(_, _) => {
                fits_choice(self.is_west, sign) & fits(self.offset_hour, number)
            }
            Component::OffsetMinute(_) => fits(self.offset_minute, number),
            Component::OffsetSecond(_) => fits(self.offset_second, number),
            Component::OffsetWord(_, _) => {
                fits_choice(self.is_west, sign)
                    & fits(self.offset_hour, number / 3_600)
                    & fits(self.offset_minute, number / 60 % 60)
                    & fits(self.offset_second, number % 60)
            }
            Component::YearSince(_) | Component::YearSix(YearBase::Calendar) => {
                fits_signed(self.year, signed(sign, number))
            }
            Component::YearSix(YearBase::IsoWeek) => {
                fits_signed(self.iso_year, signed(sign, number))
            }
            Component::UnixTimestamp(_, _)
            | Component::HourFraction(_)
            | Component::MinuteFraction(_)
            | Component::Ignore(_)
            | Component::End
            | Component::IgnoreWeekday(_, _)
            | Component::IgnoreDigits => true,
        }
    }

    // Sets what a component gives.
    /// # Contract
    ///
    /// ```text
    /// requires number { given.1 ≤ 1_000_000_000 }
    /// requires small { has_large_number component ≡ false }
    /// ensures { self.new ≡ with_part component given self.old }
    /// ```
    ///
    /// [docs/proofs/STATEMENT.md](crate::proved#contracts) explains the words.
    #[inline]
    pub(crate) const fn set(&mut self, component: Component, given: (bool, u32)) {
        let (sign, number) = given;
        let part = Some(number);
        match component {
            Component::Year(YearBase::Calendar, _, _, _) => self.year = Some(signed(sign, number)),
            Component::Year(YearBase::IsoWeek, _, _, _) => {
                self.iso_year = Some(signed(sign, number))
            }
            Component::YearCentury(YearBase::Calendar, _, _, _) => {
                self.is_before_zero = Some(sign);
                self.year_century = part;
            }
            Component::YearCentury(YearBase::IsoWeek, _, _, _) => {
                self.is_iso_before_zero = Some(sign);
                self.iso_year_century = part;
            }
            Component::YearLastTwo(YearBase::Calendar, _) => self.year_last_two = part,
            Component::YearLastTwo(YearBase::IsoWeek, _) => self.iso_year_last_two = part,
            Component::Month(_) | Component::MonthName(_, _) => self.month = part,
            Component::Day(_) => self.day = part,
            Component::Ordinal(_) => self.ordinal = part,
            Component::WeekdayName(_, _) | Component::WeekdayNumber(_, _) => self.weekday = part,
            Component::WeekNumber(WeekRule::Iso, _) => self.iso_week = part,
            Component::WeekNumber(WeekRule::Sunday, _) => self.sunday_week = part,
            Component::WeekNumber(WeekRule::Monday, _) => self.monday_week = part,
            Component::Hour(_) => self.hour = part,
            Component::Hour12(_) => self.hour_12 = part,
            Component::Period(_, _) => self.is_afternoon = Some(sign),
            Component::Minute(_) => self.minute = part,
            Component::Second(_) => self.second = part,
            Component::Subsecond(_) => self.nanosecond = part,
            Component::OffsetHour(_, _) => {
                self.is_west = Some(sign);
                self.offset_hour = part;
            }
            Component::OffsetMinute(_) => self.offset_minute = part,
            Component::OffsetSecond(_) => self.offset_second = part,
            Component::OffsetWord(_, _) => {
                self.is_west = Some(sign);
                self.offset_hour = Some(number / 3_600);
                self.offset_minute = Some(number / 60 % 60);
                self.offset_second = Some(number % 60);
            }
            Component::YearSince(_) | Component::YearSix(YearBase::Calendar) => {
                self.year = Some(signed(sign, number))
            }
            Component::YearSix(YearBase::IsoWeek) => self.iso_year = Some(signed(sign, number)),
            Component::UnixTimestamp(_, _)
            | Component::HourFraction(_)
            | Component::MinuteFraction(_)
            | Component::Ignore(_)
            | Component::End
            | Component::IgnoreWeekday(_, _)
            | Component::IgnoreDigits => (),
        }
    }

    // Whether a Unix timestamp contradicts none of the parts.
    /// # Contract
    ///
    /// ```text
    /// requires { given.1 < 10 ^ 23 }
    /// ensures { (sign : Sign) → result
    ///     ≡ agrees (UnixTimestamp precision sign) given self.now }
    /// ```
    ///
    /// [docs/proofs/STATEMENT.md](crate::proved#contracts) explains the words.
    #[inline]
    pub(crate) const fn agrees_unix(&self, precision: UnixPrecision, given: (bool, u128)) -> bool {
        let count = signed_count(given.0, given.1);
        match precision {
            UnixPrecision::Seconds => fits_count(self.unix_second, count),
            UnixPrecision::Milliseconds => fits_count(self.unix_millisecond, count),
            UnixPrecision::Microseconds => fits_count(self.unix_microsecond, count),
            UnixPrecision::Nanoseconds => fits_count(self.unix_nanosecond, count),
        }
    }

    // Sets a Unix timestamp.
    /// # Contract
    ///
    /// ```text
    /// requires { given.1 < 10 ^ 23 }
    /// ensures { (sign : Sign) → self.new
    ///     ≡ with_part (UnixTimestamp precision sign) given self.old }
    /// ```
    ///
    /// [docs/proofs/STATEMENT.md](crate::proved#contracts) explains the words.
    #[inline]
    pub(crate) const fn set_unix(&mut self, precision: UnixPrecision, given: (bool, u128)) {
        let count = Some(signed_count(given.0, given.1));
        match precision {
            UnixPrecision::Seconds => self.unix_second = count,
            UnixPrecision::Milliseconds => self.unix_millisecond = count,
            UnixPrecision::Microseconds => self.unix_microsecond = count,
            UnixPrecision::Nanoseconds => self.unix_nanosecond = count,
        }
    }
}

// A number with its sign.
/// # Contract
///
/// ```text
/// requires { number ≤ 1_000_000_000 }
/// ensures { result ≡ signed is_negative number }
/// ```
///
/// [docs/proofs/STATEMENT.md](crate::proved#contracts) explains the words.
#[inline]
pub(crate) const fn signed(is_negative: bool, number: u32) -> i32 {
    if is_negative {
        -(number as i32)
    } else {
        number as i32
    }
}

// A large number with its sign.
/// # Contract
///
/// ```text
/// requires { number < 10 ^ 23 }
/// ensures { result ≡ signed is_negative number }
/// ```
///
/// [docs/proofs/STATEMENT.md](crate::proved#contracts) explains the words.
#[inline]
const fn signed_count(is_negative: bool, number: u128) -> i128 {
    if is_negative {
        -(number as i128)
    } else {
        number as i128
    }
}

// Whether a part is not known yet, or is known to be this.
/// # Contract
///
/// ```text
/// ensures { result ≡ fits known number }
/// ```
///
/// [docs/proofs/STATEMENT.md](crate::proved#contracts) explains the words.
#[inline]
pub(crate) const fn fits(known: Option<u32>, number: u32) -> bool {
    match known {
        None => true,
        Some(known) => known == number,
    }
}

// The same of a number with a sign.
/// # Contract
///
/// ```text
/// ensures { result ≡ fits_signed known number }
/// ```
///
/// [docs/proofs/STATEMENT.md](crate::proved#contracts) explains the words.
#[inline]
pub(crate) const fn fits_signed(known: Option<i32>, number: i32) -> bool {
    match known {
        None => true,
        Some(known) => known == number,
    }
}

// The same of a large number with a sign.
/// # Contract
///
/// ```text
/// ensures { result ≡ fits_signed known number }
/// ```
///
/// [docs/proofs/STATEMENT.md](crate::proved#contracts) explains the words.
#[inline]
pub(crate) const fn fits_count(known: Option<i128>, number: i128) -> bool {
    match known {
        None => true,
        Some(known) => known == number,
    }
}

// The same of a choice of two.
/// # Contract
///
/// ```text
/// ensures { result ≡ fits_choice known choice }
/// ```
///
/// [docs/proofs/STATEMENT.md](crate::proved#contracts) explains the words.
#[inline]
pub(crate) const fn fits_choice(known: Option<bool>, choice: bool) -> bool {
    match known {
        None => true,
        Some(true) => choice,
        Some(false) => !choice,
    }
}
