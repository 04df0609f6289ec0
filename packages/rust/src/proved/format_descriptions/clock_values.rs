// Made by make/erase of crates/format_descriptions/src/clock_values.rt. Do not edit.
//! The time of day that the parts of a text name.
use crate::proved::format_descriptions::parts::{fits, fits_choice};
use crate::proved::format_descriptions::pieces::hour_12;
use crate::proved::format_descriptions::{Field, Parts, ValueRefusal};
use crate::proved::calendar_values::Time;

impl Parts {
    /// The time of day of these parts: its hour, or its hour on a clock of 12 hours and the half of
    /// the day. A minute, a second or a fraction that the text does not give is 0. Fails with
    /// `Missing` if there are too few parts. Fails with `Wrong` for the first part out of range, or
    /// other than that of the hour.
    ///
    /// ```
    /// # use muxandu::proved::*;
    /// # fn main() -> Result<(), Box<dyn std::error::Error>> {
    /// use format_descriptions::{Component, Item, Padding};
    /// let items = [Item::Part(Component::Hour(Padding::Zero))];
    /// let parts = format_descriptions::parse(&items, b"15");
    /// assert_eq!(parts.map(|parts| parts.time()), Ok(Ok(Time::from_hms(15, 0, 0)?)));
    /// # Ok(())
    /// # }
    /// ```
    ///
    /// # Contract
    ///
    /// ```text
    /// ensures equation { result ≡ time_of_parts self.now }
    /// ensures value { IfOk result (λ clock. HasTimeParts self.now clock) }
    /// ensures only { (clock : ℕ) → IsClock clock → IsTrue (tells_time self.now) →
    ///     HasTimeParts self.now clock → result ≡ Ok clock }
    /// ```
    ///
    /// [docs/proofs/STATEMENT.md](crate::proved#contracts) explains the words.
    #[inline]
    pub const fn time(&self) -> Result<Time, ValueRefusal> {
        named_time(self)
    }
}

// The same.
/// # Contract
///
/// ```text
/// ensures { result ≡ time_of_parts parts.now }
/// ```
///
/// [docs/proofs/STATEMENT.md](crate::proved#contracts) explains the words.
#[inline]
const fn named_time(parts: &Parts) -> Result<Time, ValueRefusal> {
    match parts.hour {
        Some(hour) => clock_at(parts, hour),
        None => match parts.hour_12 {
            Some(hour) => match parts.is_afternoon {
                Some(is_afternoon) => clock_of_half(parts, hour, is_afternoon),
                None => Err(ValueRefusal::Missing(Field::Period)),
            },
            None => Err(ValueRefusal::Missing(Field::Hour)),
        },
    }
}

// The time of day of an hour of a clock of 12 hours.
/// # Contract
///
/// ```text
/// ensures { result ≡ clock_of_half parts.now hour is_afternoon }
/// ```
///
/// [docs/proofs/STATEMENT.md](crate::proved#contracts) explains the words.
#[inline]
const fn clock_of_half(parts: &Parts, hour: u32, is_afternoon: bool) -> Result<Time, ValueRefusal> {
    if hour == 0 || hour > 12 {
        return Err(ValueRefusal::Wrong(Field::Hour12));
    }
    let morning = hour % 12;
    if is_afternoon {
        clock_at(parts, morning + 12)
    } else {
        clock_at(parts, morning)
    }
}

// The time of day of an hour.
/// # Contract
///
/// ```text
/// ensures { result ≡ clock_at parts.now hour }
/// ```
///
/// [docs/proofs/STATEMENT.md](crate::proved#contracts) explains the words.
#[inline]
const fn clock_at(parts: &Parts, hour: u32) -> Result<Time, ValueRefusal> {
    let minute = or_zero(parts.minute);
    let second = or_zero(parts.second);
    let nanosecond = or_zero(parts.nanosecond);
    if hour > 23 {
        return Err(ValueRefusal::Wrong(Field::Hour));
    }
    if minute > 59 {
        return Err(ValueRefusal::Wrong(Field::Minute));
    }
    if second > 59 {
        return Err(ValueRefusal::Wrong(Field::Second));
    }
    if nanosecond > 999_999_999 {
        return Err(ValueRefusal::Wrong(Field::Subsecond));
    }
    if !fits(parts.hour_12, hour_12(hour as u8) as u32) {
        return Err(ValueRefusal::Wrong(Field::Hour12));
    }
    if !fits_choice(parts.is_afternoon, hour >= 12) {
        return Err(ValueRefusal::Wrong(Field::Period));
    }
    match Time::from_hms_nano(hour as u8, minute as u8, second as u8, nanosecond) {
        Ok(time) => Ok(time),
        Err(_) => Err(ValueRefusal::Wrong(Field::Hour)),
    }
}

// A number that is 0 where it is not known.
/// # Contract
///
/// ```text
/// ensures { result ≡ or_zero known }
/// ```
///
/// [docs/proofs/STATEMENT.md](crate::proved#contracts) explains the words.
#[inline]
pub(crate) const fn or_zero(known: Option<u32>) -> u32 {
    match known {
        Some(number) => number,
        None => 0,
    }
}
