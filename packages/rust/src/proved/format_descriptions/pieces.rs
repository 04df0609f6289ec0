// Made by make/erase of crates/format_descriptions/src/pieces.rt. Do not edit.
//! The text of each component.
use crate::proved::format_descriptions::clock_fractions::{hour_fraction, minute_fraction};
use crate::proved::format_descriptions::names::{month_word, period_word, weekday_word};
use crate::proved::format_descriptions::numbers::{
    put_century_digits, put_four, put_six_digits, put_subsecond, put_three, put_two,
};
use crate::proved::format_descriptions::unix::{put_unix, unix_count};
use crate::proved::format_descriptions::{
    Component, Padding, Sign, UtcWord, WeekRule, WeekStart, WeekdayCount, YearBase,
};
use crate::proved::calendar_values::{Date, Text, Time, UtcOffset};

// Adds the text of a component of a date, a time of day and an offset, and returns whether it did. It does not where the
// component cannot write the value.
/// # Contract
///
/// ```text
/// requires room { length text.old ≤ 32 }
/// ensures text { OnTrue result
///     (text.new ≡ text.old ++ component_text component date time offset) }
/// ensures none { OnFalse result (¬ IsAscii (component_text component date time offset)) }
/// ensures unchanged { OnFalse result (text.new ≡ text.old) }
/// ```
///
/// [docs/proofs/STATEMENT.md](crate::proved#contracts) explains the words.
#[inline(always)]
pub(crate) fn put_component(
    component: Component,
    date: Date,
    time: Time,
    offset: UtcOffset,
    text: &mut Text,
) -> bool {
    match component {
        Component::OffsetWord(word, _) => put_offset_word(word, offset, text),
        Component::YearSince(first) => put_year_since(first, date, text),
        _ => {
            put_number(component, date, time, offset, text);
            true
        }
    }
}

// Adds the text of a component of a date, a time of day and an offset, if each value has one.
/// # Contract
///
/// ```text
/// requires whole { is_partial component ≡ false }
/// requires room { length text.old ≤ 32 }
/// ensures { text.new ≡ text.old ++ component_text component date time offset }
/// ```
///
/// [docs/proofs/STATEMENT.md](crate::proved#contracts) explains the words.
#[inline(always)]
fn put_number(component: Component, date: Date, time: Time, offset: UtcOffset, text: &mut Text) {
    match component {
        Component::Year(base, sign, padding, _) => {
            put_year(sign, padding, year_by(base, date), text)
        }
        Component::YearCentury(base, sign, padding, _) => {
            put_century(sign, padding, year_by(base, date), text)
        }
        Component::YearLastTwo(base, padding) => put_two(
            padding,
            (year_by(base, date).unsigned_abs() % 100) as u8,
            text,
        ),
        Component::Month(padding) => put_two(padding, u8::from(date.month()), text),
        Component::MonthName(form, _) => text.push_bytes(month_word(form, u8::from(date.month()))),
        Component::Day(padding) => put_two(padding, date.day(), text),
        Component::Ordinal(padding) => put_three(padding, date.ordinal(), text),
        Component::WeekdayName(form, _) | Component::IgnoreWeekday(form, _) => {
            text.push_bytes(weekday_word(form, date.weekday().number_days_from_monday()))
        }
        Component::WeekdayNumber(start, count) => {
            let weekday = date.weekday().number_days_from_monday();
            text.push_decimal(weekday_number_by(start, count, weekday) as u64);
        }
        Component::WeekNumber(rule, padding) => put_two(padding, week_by(rule, date), text),
        Component::Hour(padding) => put_two(padding, time.hour(), text),
        Component::Hour12(padding) => put_two(padding, hour_12(time.hour()), text),
        Component::Period(case, _) => text.push_bytes(period_word(case, time.hour())),
        Component::Minute(padding) => put_two(padding, time.minute(), text),
        Component::Second(padding) => put_two(padding, time.second(), text),
        Component::Subsecond(digits) => put_subsecond(digits, time.nanosecond(), text),
        Component::OffsetHour(sign, padding) => put_offset_hour(sign, padding, offset, text),
        Component::OffsetMinute(padding) => put_two(padding, offset_numbers(offset).1, text),
        Component::OffsetSecond(padding) => put_two(padding, offset_numbers(offset).2, text),
        Component::UnixTimestamp(precision, sign) => {
            put_unix(sign, unix_count(precision, date, time, offset), text)
        }
        Component::YearSix(base) => put_six(year_by(base, date), text),
        Component::HourFraction(digits) => put_subsecond(digits, hour_fraction(time), text),
        Component::MinuteFraction(digits) => put_subsecond(digits, minute_fraction(time), text),
        Component::Ignore(_)
        | Component::End
        | Component::IgnoreDigits
        | Component::OffsetWord(_, _)
        | Component::YearSince(_) => (),
    }
}

// Adds a word for UTC, and returns whether it did: no other offset has one.
/// # Contract
///
/// ```text
/// requires room { length text.old ≤ 32 }
/// ensures text { OnTrue result (text.new ≡ text.old ++ offset_word_text word offset) }
/// ensures none { OnFalse result (¬ IsAscii (offset_word_text word offset)) }
/// ensures unchanged { OnFalse result (text.new ≡ text.old) }
/// ```
///
/// [docs/proofs/STATEMENT.md](crate::proved#contracts) explains the words.
#[inline]
fn put_offset_word(word: UtcWord, offset: UtcOffset, text: &mut Text) -> bool {
    if !is_zero(offset) {
        return false;
    }
    text.push_bytes(word.letters());
    true
}

// Whether the offset is 0.
/// # Contract
///
/// ```text
/// ensures { result ≡ (unsigned_abs offset == 0) }
/// ```
///
/// [docs/proofs/STATEMENT.md](crate::proved#contracts) explains the words.
#[inline]
const fn is_zero(offset: UtcOffset) -> bool {
    offset.whole_seconds().unsigned_abs() == 0
}

// Adds the last two digits of a year of the hundred years from this one on, and returns whether it did: no other year has
// them.
/// # Contract
///
/// ```text
/// requires room { length text.old ≤ 32 }
/// ensures text { OnTrue result
///     (text.new ≡ text.old ++ year_since_text first (year_by Calendar date)) }
/// ensures none { OnFalse result (¬ IsAscii (year_since_text first (year_by Calendar date))) }
/// ensures unchanged { OnFalse result (text.new ≡ text.old) }
/// ```
///
/// [docs/proofs/STATEMENT.md](crate::proved#contracts) explains the words.
#[inline]
fn put_year_since(first: u16, date: Date, text: &mut Text) -> bool {
    let year = date.year();
    if !is_year_since(first, year) {
        return false;
    }
    put_two(Padding::Zero, (year.unsigned_abs() % 100) as u8, text);
    true
}

// Whether the year is one of the hundred years from this one on.
/// # Contract
///
/// ```text
/// ensures { result ≡ is_year_since first year }
/// ```
///
/// [docs/proofs/STATEMENT.md](crate::proved#contracts) explains the words.
#[inline]
const fn is_year_since(first: u16, year: i32) -> bool {
    let first = first as i32;
    (year >= first) & (year < first + 100)
}

// The year of the calendar, or that of the ISO week.
/// # Contract
///
/// ```text
/// ensures value { result ≡ year_by base date }
/// ensures in_range { IsYear result }
/// ```
///
/// [docs/proofs/STATEMENT.md](crate::proved#contracts) explains the words.
#[inline]
const fn year_by(base: YearBase, date: Date) -> i32 {
    match base {
        YearBase::Calendar => date.year(),
        YearBase::IsoWeek => date.to_iso_week_date().0,
    }
}

// Adds the sign of a year.
/// # Contract
///
/// ```text
/// requires room { length text.old ≤ 32 }
/// ensures text { text.new ≡ text.old ++ year_sign sign year }
/// ensures length { length text.new ≤ 33 }
/// ```
///
/// [docs/proofs/STATEMENT.md](crate::proved#contracts) explains the words.
#[inline]
const fn put_year_sign(sign: Sign, year: i32, text: &mut Text) {
    if year < 0 {
        text.push(b'-');
    } else if sign.is_mandatory() | (year > 9_999) {
        text.push(b'+');
    }
}

// Adds the year with its sign.
/// # Contract
///
/// ```text
/// requires year { IsYear year }
/// requires room { length text.old ≤ 32 }
/// ensures { text.new ≡ text.old ++ year_text sign padding year }
/// ```
///
/// [docs/proofs/STATEMENT.md](crate::proved#contracts) explains the words.
#[inline]
fn put_year(sign: Sign, padding: Padding, year: i32, text: &mut Text) {
    put_year_sign(sign, year, text);
    put_four(padding, year.unsigned_abs(), text);
}

// Adds the sign of the year, and its six digits.
/// # Contract
///
/// ```text
/// requires year { IsYear year }
/// requires room { length text.old ≤ 32 }
/// ensures { text.new ≡ text.old ++ six_text year }
/// ```
///
/// [docs/proofs/STATEMENT.md](crate::proved#contracts) explains the words.
#[inline(never)]
fn put_six(year: i32, text: &mut Text) {
    put_year_sign(Sign::Mandatory, year, text);
    put_six_digits(year.unsigned_abs(), text);
}

// Adds the sign of the year, and the year without its last two digits.
/// # Contract
///
/// ```text
/// requires year { IsYear year }
/// requires room { length text.old ≤ 32 }
/// ensures { text.new ≡ text.old ++ century_text sign padding year }
/// ```
///
/// [docs/proofs/STATEMENT.md](crate::proved#contracts) explains the words.
#[inline(never)]
fn put_century(sign: Sign, padding: Padding, year: i32, text: &mut Text) {
    put_year_sign(sign, year, text);
    put_century_digits(padding, year.unsigned_abs() / 100, text);
}

// The week of a day by each rule.
/// # Contract
///
/// ```text
/// ensures value { result ≡ week_by rule date }
/// ensures in_range { result < 100 }
/// ```
///
/// [docs/proofs/STATEMENT.md](crate::proved#contracts) explains the words.
#[inline(never)]
const fn week_by(rule: WeekRule, date: Date) -> u8 {
    match rule {
        WeekRule::Iso => date.iso_week(),
        WeekRule::Sunday => date.sunday_based_week(),
        WeekRule::Monday => date.monday_based_week(),
    }
}

// The number of a day of the week from the first day of the week on.
/// # Contract
///
/// ```text
/// requires { weekday < 7 }
/// ensures { result ≡ weekday_number_by start count weekday }
/// ```
///
/// [docs/proofs/STATEMENT.md](crate::proved#contracts) explains the words.
#[inline]
const fn weekday_number_by(start: WeekStart, count: WeekdayCount, weekday: u8) -> u8 {
    (weekday + 7 - start.weekday()) % 7 + count.first()
}

// The hour on a clock of 12 hours.
/// # Contract
///
/// ```text
/// ensures value { result ≡ hour_12 hour }
/// ensures below { result < 13 }
/// ```
///
/// [docs/proofs/STATEMENT.md](crate::proved#contracts) explains the words.
#[inline]
pub(crate) const fn hour_12(hour: u8) -> u8 {
    let past = hour % 12;
    if past == 0 { 12 } else { past }
}

// Adds the sign and the hours of an offset.
/// # Contract
///
/// ```text
/// requires room { length text.old ≤ 32 }
/// ensures { text.new ≡ text.old ++ offset_hour_text sign padding offset }
/// ```
///
/// [docs/proofs/STATEMENT.md](crate::proved#contracts) explains the words.
#[inline]
fn put_offset_hour(sign: Sign, padding: Padding, offset: UtcOffset, text: &mut Text) {
    if offset.is_negative() {
        text.push(b'-');
    } else if sign.is_mandatory() {
        text.push(b'+');
    }
    put_two(padding, offset_numbers(offset).0, text);
}

// The hours, the minutes and the seconds of an offset, without its sign.
/// # Contract
///
/// ```text
/// ensures value { let n = unsigned_abs offset in result ≡ (n / 3_600, n / 60 % 60, n % 60) }
/// ensures below { (result.0 < 100) × (result.1 < 100) × (result.2 < 100) }
/// ```
///
/// [docs/proofs/STATEMENT.md](crate::proved#contracts) explains the words.
#[inline]
const fn offset_numbers(offset: UtcOffset) -> (u8, u8, u8) {
    let (hours, minutes, seconds) = offset.as_hms();
    (
        hours.unsigned_abs(),
        minutes.unsigned_abs(),
        seconds.unsigned_abs(),
    )
}
