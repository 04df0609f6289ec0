// Made by make/erase of crates/format_descriptions/src/iso8601_forms.rt. Do not edit.
//! Forms of ISO 8601 for writing.
use crate::proved::format_descriptions::write::format_date_time;
use crate::proved::format_descriptions::{
    Component, Description, Item, Padding, ReadCase, Sign, SubsecondDigits, UtcWord, WeekRule,
    WeekStart, WeekdayCount, YearBase, YearRange,
};
use crate::proved::calendar_values::{Date, Text, UtcOffset};
use crate::proved::offset_times::OffsetDateTime;

/// A form of ISO 8601: the parts that are written, and how.
#[derive(Clone, Copy, Debug, PartialEq, Eq)]
pub struct Iso8601 {
    /// The date, or none.
    pub date: Option<Iso8601Date>,
    /// The time of day, or none.
    pub time: Option<Iso8601Time>,
    /// The offset, or none.
    pub offset: Option<Iso8601Offset>,
    /// Whether `T` is written before the time of day.
    pub has_time_mark: bool,
    /// Whether `-` and `:` are written between the parts.
    pub has_separators: bool,
    /// Whether a year has its sign and six digits, in place of four digits.
    pub has_six_digit_years: bool,
}

/// The form of a date.
#[derive(Clone, Copy, Debug, PartialEq, Eq)]
pub enum Iso8601Date {
    /// The year, the month and the day, as `2024-02-29`.
    Calendar,
    /// The ISO year, the ISO week and the day of the week, as `2024-W09-4`.
    Week,
    /// The year and its day, as `2024-060`.
    Ordinal,
}

/// The last part of a time of day, with the digits of its fraction, or with none.
#[derive(Clone, Copy, Debug, PartialEq, Eq)]
pub enum Iso8601Time {
    /// The hour, as `12` or `12.5`.
    Hour(Option<SubsecondDigits>),
    /// The minute, as `12:30` or `12:30.5`.
    Minute(Option<SubsecondDigits>),
    /// The second, as `12:30:45` or `12:30:45.5`.
    Second(Option<SubsecondDigits>),
}

/// The last part of an offset.
#[derive(Clone, Copy, Debug, PartialEq, Eq)]
pub enum Iso8601Offset {
    /// The hour, as `+05`.
    Hour,
    /// The minute, as `+05:30`.
    Minute,
}

impl Iso8601 {
    /// `2024-02-29T12:30:45.500000000+05:30`, the default of `time`.
    pub const DEFAULT: Iso8601 = Iso8601 {
        date: Some(Iso8601Date::Calendar),
        time: Some(Iso8601Time::Second(Some(SubsecondDigits::Nine))),
        offset: Some(Iso8601Offset::Minute),
        has_time_mark: true,
        has_separators: true,
        has_six_digit_years: false,
    };

    /// The description of this form, for the offset 0 or for another: with a time of day, the
    /// offset 0 is `Z`.
    ///
    /// ```
    /// # use muxandu::proved::*;
    /// # fn main() -> Result<(), Box<dyn std::error::Error>> {
    /// use format_descriptions::{Iso8601, Iso8601Offset};
    /// let form = Iso8601 { date: None, ..Iso8601::DEFAULT };
    /// assert_eq!(form.description(true).items().len(), 9);
    /// # Ok(())
    /// # }
    /// ```
    ///
    /// # Contract
    ///
    /// ```text
    /// ensures { result ≡ iso8601_form self is_utc }
    /// ```
    ///
    /// [docs/proofs/STATEMENT.md](crate::proved#contracts) explains the words.
    #[inline]
    pub fn description(self, is_utc: bool) -> Description {
        let mut items = Description::new();
        push_date(
            &mut items,
            self.has_six_digit_years,
            self.has_separators,
            self.date,
        );
        push_time(
            &mut items,
            self.has_time_mark,
            self.has_separators,
            self.time,
        );
        let is_zulu = is_utc && self.time.is_some();
        push_offset(&mut items, is_zulu, self.has_separators, self.offset);
        items
    }
}

/// The text of a date-time in a form of ISO 8601, by its own wall clock and offset. None of a year
/// below 0 or above 9999 without six digits, and of an offset that the form cuts: seconds, or
/// minutes in a form of hours.
///
/// ```
/// # use muxandu::proved::*;
/// # fn main() -> Result<(), Box<dyn std::error::Error>> {
/// use format_descriptions::{Iso8601, Iso8601Date, Iso8601Time, format_iso8601};
/// let form = Iso8601 {
///     date: Some(Iso8601Date::Week),
///     time: Some(Iso8601Time::Minute(None)),
///     has_separators: false,
///     ..Iso8601::DEFAULT
/// };
/// let text = format_iso8601(form, OffsetDateTime::UNIX_EPOCH);
/// assert_eq!(text.map(|text| text.as_bytes() == b"1970W014T0000Z".as_slice()), Some(true));
/// # Ok(())
/// # }
/// ```
///
/// # Contract
///
/// ```text
/// ensures text { let items = iso8601_form form (unsigned_abs at.offset == 0) in SomeIff result
///     (IsTrue (has_iso8601_text form at) × Fits (described_text items at))
///     (described_text items at) }
/// ```
///
/// [docs/proofs/STATEMENT.md](crate::proved#contracts) explains the words.
#[inline]
pub fn format_iso8601(form: Iso8601, at: OffsetDateTime) -> Option<Text> {
    if !has_iso8601_text(form, at) {
        return None;
    }
    let items = form.description(at.offset().whole_seconds().unsigned_abs() == 0);
    format_date_time(items.items(), at)
}

// Whether the date-time has a text of the form.
/// # Contract
///
/// ```text
/// ensures { result ≡ has_iso8601_text form at }
/// ```
///
/// [docs/proofs/STATEMENT.md](crate::proved#contracts) explains the words.
#[inline]
const fn has_iso8601_text(form: Iso8601, at: OffsetDateTime) -> bool {
    let (date, _, offset) = at.parts();
    (form.has_six_digit_years || has_short_year(form.date, date))
        && has_whole_offset(form.offset, offset)
}

// Whether the year of a form has four digits.
/// # Contract
///
/// ```text
/// ensures { result ≡ has_short_year form date }
/// ```
///
/// [docs/proofs/STATEMENT.md](crate::proved#contracts) explains the words.
#[inline]
const fn has_short_year(form: Option<Iso8601Date>, date: Date) -> bool {
    match form {
        None => true,
        Some(Iso8601Date::Calendar | Iso8601Date::Ordinal) => is_short_year(date.year()),
        Some(Iso8601Date::Week) => is_short_year(date.to_iso_week_date().0),
    }
}

// Whether a year is one from 0 to 9999.
/// # Contract
///
/// ```text
/// ensures { result ≡ is_short_year year }
/// ```
///
/// [docs/proofs/STATEMENT.md](crate::proved#contracts) explains the words.
#[inline]
const fn is_short_year(year: i32) -> bool {
    (year >= 0) & (year < 10_000)
}

// Whether a form cuts nothing of an offset.
/// # Contract
///
/// ```text
/// ensures { result ≡ has_whole_offset form offset }
/// ```
///
/// [docs/proofs/STATEMENT.md](crate::proved#contracts) explains the words.
#[inline]
const fn has_whole_offset(form: Option<Iso8601Offset>, offset: UtcOffset) -> bool {
    let seconds = offset.whole_seconds().unsigned_abs();
    match form {
        None => true,
        Some(Iso8601Offset::Hour) => seconds % 3_600 == 0,
        Some(Iso8601Offset::Minute) => seconds % 60 == 0,
    }
}

// Adds the date.
/// # Contract
///
/// ```text
/// requires room { length items.old ≤ 0 }
/// ensures value { items.new ≡ items.old ++ date_part is_six has_marks form }
/// ensures length { length items.new ≤ length items.old + 6 }
/// ```
///
/// [docs/proofs/STATEMENT.md](crate::proved#contracts) explains the words.
#[inline]
fn push_date(items: &mut Description, is_six: bool, has_marks: bool, form: Option<Iso8601Date>) {
    if let Some(form) = form {
        push_date_form(items, is_six, has_marks, form);
    }
}

// Adds a date.
/// # Contract
///
/// ```text
/// requires room { length items.old ≤ 0 }
/// ensures value { items.new ≡ items.old ++ date_form is_six has_marks form }
/// ensures length { length items.new ≤ length items.old + 6 }
/// ```
///
/// [docs/proofs/STATEMENT.md](crate::proved#contracts) explains the words.
#[inline]
fn push_date_form(items: &mut Description, is_six: bool, has_marks: bool, form: Iso8601Date) {
    let month = Item::Part(Component::Month(Padding::Zero));
    let day = Item::Part(Component::Day(Padding::Zero));
    let ordinal = Item::Part(Component::Ordinal(Padding::Zero));
    let week = Item::Part(Component::WeekNumber(WeekRule::Iso, Padding::Zero));
    let weekday = Item::Part(Component::WeekdayNumber(
        WeekStart::Monday,
        WeekdayCount::FromOne,
    ));
    let year = year_form(is_six, YearBase::Calendar);
    let iso_year = year_form(is_six, YearBase::IsoWeek);
    let dash = Item::Byte(b'-');
    let letter = Item::Byte(b'W');
    match form {
        Iso8601Date::Calendar => {
            if has_marks {
                items.push(&[year, dash, month, dash, day]);
            } else {
                items.push(&[year, month, day]);
            }
        }
        Iso8601Date::Week => {
            if has_marks {
                items.push(&[iso_year, dash, letter, week, dash, weekday]);
            } else {
                items.push(&[iso_year, letter, week, weekday]);
            }
        }
        Iso8601Date::Ordinal => {
            if has_marks {
                items.push(&[year, dash, ordinal]);
            } else {
                items.push(&[year, ordinal]);
            }
        }
    }
}

// The year, in four digits, or with its sign and six digits.
/// # Contract
///
/// ```text
/// ensures { result ≡ year_form is_six base }
/// ```
///
/// [docs/proofs/STATEMENT.md](crate::proved#contracts) explains the words.
#[inline]
const fn year_form(is_six: bool, base: YearBase) -> Item {
    if is_six {
        Item::Part(Component::YearSix(base))
    } else {
        Item::Part(Component::Year(
            base,
            Sign::Automatic,
            Padding::Zero,
            YearRange::Standard,
        ))
    }
}

// Adds the time of day.
/// # Contract
///
/// ```text
/// requires room { length items.old ≤ 6 }
/// ensures value { items.new ≡ items.old ++ time_part has_mark has_marks form }
/// ensures length { length items.new ≤ length items.old + 8 }
/// ```
///
/// [docs/proofs/STATEMENT.md](crate::proved#contracts) explains the words.
#[inline]
fn push_time(items: &mut Description, has_mark: bool, has_marks: bool, form: Option<Iso8601Time>) {
    if let Some(form) = form {
        push_mark(items, has_mark);
        push_clock(items, has_marks, form);
        push_fraction(items, form);
    }
}

// Adds `T`.
/// # Contract
///
/// ```text
/// requires room { length items.old ≤ 6 }
/// ensures value { items.new ≡ items.old ++ mark_part has_mark }
/// ensures length { length items.new ≤ length items.old + 1 }
/// ```
///
/// [docs/proofs/STATEMENT.md](crate::proved#contracts) explains the words.
#[inline]
fn push_mark(items: &mut Description, has_mark: bool) {
    if has_mark {
        items.push(&[Item::Byte(b'T')]);
    }
}

// Adds a time of day down to its last part.
/// # Contract
///
/// ```text
/// requires room { length items.old ≤ 7 }
/// ensures value { items.new ≡ items.old ++ clock_form has_marks form }
/// ensures length { length items.new ≤ length items.old + 5 }
/// ```
///
/// [docs/proofs/STATEMENT.md](crate::proved#contracts) explains the words.
#[inline]
fn push_clock(items: &mut Description, has_marks: bool, form: Iso8601Time) {
    let hour = Item::Part(Component::Hour(Padding::Zero));
    let minute = Item::Part(Component::Minute(Padding::Zero));
    let second = Item::Part(Component::Second(Padding::Zero));
    let colon = Item::Byte(b':');
    match form {
        Iso8601Time::Hour(_) => items.push(&[hour]),
        Iso8601Time::Minute(_) => {
            if has_marks {
                items.push(&[hour, colon, minute]);
            } else {
                items.push(&[hour, minute]);
            }
        }
        Iso8601Time::Second(_) => {
            if has_marks {
                items.push(&[hour, colon, minute, colon, second]);
            } else {
                items.push(&[hour, minute, second]);
            }
        }
    }
}

// Adds a point and the fraction of the last part.
/// # Contract
///
/// ```text
/// requires room { length items.old ≤ 12 }
/// ensures value { items.new ≡ items.old ++ fraction_form form }
/// ensures length { length items.new ≤ length items.old + 2 }
/// ```
///
/// [docs/proofs/STATEMENT.md](crate::proved#contracts) explains the words.
#[inline]
fn push_fraction(items: &mut Description, form: Iso8601Time) {
    let fraction = match form {
        Iso8601Time::Hour(Some(digits)) => Component::HourFraction(digits),
        Iso8601Time::Minute(Some(digits)) => Component::MinuteFraction(digits),
        Iso8601Time::Second(Some(digits)) => Component::Subsecond(digits),
        Iso8601Time::Hour(None) | Iso8601Time::Minute(None) | Iso8601Time::Second(None) => return,
    };
    items.push(&[Item::Byte(b'.'), Item::Part(fraction)]);
}

// Adds the offset, or `Z`.
/// # Contract
///
/// ```text
/// requires room { length items.old ≤ 14 }
/// ensures value { items.new ≡ items.old ++ offset_part is_zulu has_marks form }
/// ensures length { length items.new ≤ length items.old + 3 }
/// ```
///
/// [docs/proofs/STATEMENT.md](crate::proved#contracts) explains the words.
#[inline]
fn push_offset(
    items: &mut Description,
    is_zulu: bool,
    has_marks: bool,
    form: Option<Iso8601Offset>,
) {
    if let Some(form) = form {
        if is_zulu {
            items.push(&[Item::Part(Component::OffsetWord(
                UtcWord::Zulu,
                ReadCase::Same,
            ))]);
        } else {
            push_offset_form(items, has_marks, form);
        }
    }
}

// Adds an offset down to its last part.
/// # Contract
///
/// ```text
/// requires room { length items.old ≤ 14 }
/// ensures value { items.new ≡ items.old ++ offset_form has_marks form }
/// ensures length { length items.new ≤ length items.old + 3 }
/// ```
///
/// [docs/proofs/STATEMENT.md](crate::proved#contracts) explains the words.
#[inline]
fn push_offset_form(items: &mut Description, has_marks: bool, form: Iso8601Offset) {
    let hour = Item::Part(Component::OffsetHour(Sign::Mandatory, Padding::Zero));
    let minute = Item::Part(Component::OffsetMinute(Padding::Zero));
    match form {
        Iso8601Offset::Hour => items.push(&[hour]),
        Iso8601Offset::Minute => {
            if has_marks {
                items.push(&[hour, Item::Byte(b':'), minute]);
            } else {
                items.push(&[hour, minute]);
            }
        }
    }
}
