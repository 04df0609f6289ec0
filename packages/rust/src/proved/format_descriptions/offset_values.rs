// Made by make/erase of crates/format_descriptions/src/offset_values.rt. Do not edit.
//! The offset that the parts of a text name.
use crate::proved::format_descriptions::clock_values::or_zero;
use crate::proved::format_descriptions::parts::signed;
use crate::proved::format_descriptions::{Field, Parts, ValueRefusal};
use crate::proved::calendar_values::UtcOffset;

impl Parts {
    /// The offset of these parts: its hours with their sign, which holds for `-00:30` too. Minutes
    /// or seconds that the text does not give are 0. Fails with `Missing` without the hours, and
    /// with `Wrong` for the first part out of range.
    ///
    /// ```
    /// # use muxandu::proved::*;
    /// # fn main() -> Result<(), Box<dyn std::error::Error>> {
    /// use format_descriptions::{Component, Item, Padding, Sign};
    /// let items = [Item::Part(Component::OffsetHour(Sign::Mandatory, Padding::Zero))];
    /// let parts = format_descriptions::parse(&items, b"-05");
    /// assert_eq!(parts.map(|parts| parts.offset()), Ok(Ok(UtcOffset::from_hms(-5, 0, 0)?)));
    /// # Ok(())
    /// # }
    /// ```
    ///
    /// # Contract
    ///
    /// ```text
    /// ensures equation { result ≡ offset_of_parts self.now }
    /// ensures value { IfOk result (λ offset. HasOffsetParts self.now offset) }
    /// ensures only { (offset : ℤ) → IsOffset offset → IsTrue (tells_offset self.now) →
    ///     HasOffsetParts self.now offset → result ≡ Ok offset }
    /// ```
    ///
    /// [docs/proofs/STATEMENT.md](crate::proved#contracts) explains the words.
    #[inline]
    pub const fn offset(&self) -> Result<UtcOffset, ValueRefusal> {
        named_offset(self)
    }
}

// The same.
/// # Contract
///
/// ```text
/// ensures { result ≡ offset_of_parts parts.now }
/// ```
///
/// [docs/proofs/STATEMENT.md](crate::proved#contracts) explains the words.
#[inline]
const fn named_offset(parts: &Parts) -> Result<UtcOffset, ValueRefusal> {
    match parts.offset_hour {
        Some(hour) => offset_at(parts, hour),
        None => Err(ValueRefusal::Missing(Field::OffsetHour)),
    }
}

// The offset of this number of hours.
/// # Contract
///
/// ```text
/// ensures { result ≡ offset_at parts.now hour }
/// ```
///
/// [docs/proofs/STATEMENT.md](crate::proved#contracts) explains the words.
#[inline]
const fn offset_at(parts: &Parts, hour: u32) -> Result<UtcOffset, ValueRefusal> {
    let minute = or_zero(parts.offset_minute);
    let second = or_zero(parts.offset_second);
    if hour > 25 {
        return Err(ValueRefusal::Wrong(Field::OffsetHour));
    }
    if minute > 59 {
        return Err(ValueRefusal::Wrong(Field::OffsetMinute));
    }
    if second > 59 {
        return Err(ValueRefusal::Wrong(Field::OffsetSecond));
    }
    let seconds = signed(or_false(parts.is_west), hour * 3_600 + minute * 60 + second);
    match UtcOffset::from_whole_seconds(seconds) {
        Ok(offset) => Ok(offset),
        Err(_) => Err(ValueRefusal::Wrong(Field::OffsetHour)),
    }
}

// A choice that is false where it is not known.
/// # Contract
///
/// ```text
/// ensures { result ≡ or_false known }
/// ```
///
/// [docs/proofs/STATEMENT.md](crate::proved#contracts) explains the words.
#[inline]
const fn or_false(known: Option<bool>) -> bool {
    match known {
        Some(choice) => choice,
        None => false,
    }
}
