// Made by make/erase of crates/format_descriptions/src/description_components.rt. Do not edit.
//! The components that descriptions name.
use crate::proved::format_descriptions::Component;
use crate::proved::format_descriptions::description_modifiers::Modifiers;
use crate::proved::format_descriptions::description_names::Name;
use crate::proved::format_descriptions::description_values::Repr;
use crate::proved::format_descriptions::modifiers::{NameForm, WeekRule, WeekStart};

// The component of a name and its modifiers. None where it lacks one that it needs.
/// # Contract
///
/// ```text
/// ensures { result ≡ component_of name modifiers }
/// ```
///
/// [docs/proofs/STATEMENT.md](crate::proved#contracts) explains the words.
#[inline]
pub(crate) const fn component_of(name: Name, modifiers: Modifiers) -> Option<Component> {
    match name {
        Name::Year => Some(year_of(modifiers)),
        Name::Month => Some(month_of(modifiers)),
        Name::Day => Some(Component::Day(modifiers.padding)),
        Name::Ordinal => Some(Component::Ordinal(modifiers.padding)),
        Name::Weekday => Some(weekday_of(modifiers)),
        Name::WeekNumber => Some(week_of(modifiers)),
        Name::Hour => Some(hour_of(modifiers)),
        Name::Minute => Some(Component::Minute(modifiers.padding)),
        Name::Period => Some(Component::Period(modifiers.case, modifiers.read_case)),
        Name::Second => Some(Component::Second(modifiers.padding)),
        Name::Subsecond => Some(Component::Subsecond(modifiers.digits)),
        Name::OffsetHour => Some(Component::OffsetHour(modifiers.sign, modifiers.padding)),
        Name::OffsetMinute => Some(Component::OffsetMinute(modifiers.padding)),
        Name::OffsetSecond => Some(Component::OffsetSecond(modifiers.padding)),
        Name::UnixTimestamp => Some(Component::UnixTimestamp(
            modifiers.precision,
            modifiers.sign,
        )),
        Name::Ignore => match modifiers.count {
            Some(count) => Some(Component::Ignore(count)),
            None => None,
        },
        Name::End => Some(Component::End),
    }
}

// A year, in its form.
/// # Contract
///
/// ```text
/// ensures { result ≡ year_of modifiers modifiers.repr }
/// ```
///
/// [docs/proofs/STATEMENT.md](crate::proved#contracts) explains the words.
#[inline]
const fn year_of(modifiers: Modifiers) -> Component {
    let Modifiers {
        base,
        sign,
        padding,
        range,
        ..
    } = modifiers;
    match modifiers.repr {
        Some(Repr::Century) => Component::YearCentury(base, sign, padding, range),
        Some(Repr::LastTwo) => Component::YearLastTwo(base, padding),
        _ => Component::Year(base, sign, padding, range),
    }
}

// A month, in its form.
/// # Contract
///
/// ```text
/// ensures { result ≡ month_of modifiers modifiers.repr }
/// ```
///
/// [docs/proofs/STATEMENT.md](crate::proved#contracts) explains the words.
#[inline]
const fn month_of(modifiers: Modifiers) -> Component {
    match modifiers.repr {
        Some(Repr::Long) => Component::MonthName(NameForm::Long, modifiers.read_case),
        Some(Repr::Short) => Component::MonthName(NameForm::Short, modifiers.read_case),
        _ => Component::Month(modifiers.padding),
    }
}

// A day of the week, in its form.
/// # Contract
///
/// ```text
/// ensures { result ≡ weekday_of modifiers modifiers.repr }
/// ```
///
/// [docs/proofs/STATEMENT.md](crate::proved#contracts) explains the words.
#[inline]
const fn weekday_of(modifiers: Modifiers) -> Component {
    match modifiers.repr {
        Some(Repr::Short) => Component::WeekdayName(NameForm::Short, modifiers.read_case),
        Some(Repr::Sunday) => Component::WeekdayNumber(WeekStart::Sunday, modifiers.first_number),
        Some(Repr::Monday) => Component::WeekdayNumber(WeekStart::Monday, modifiers.first_number),
        _ => Component::WeekdayName(NameForm::Long, modifiers.read_case),
    }
}

// A week of the year, by its rule.
/// # Contract
///
/// ```text
/// ensures { result ≡ week_of modifiers modifiers.repr }
/// ```
///
/// [docs/proofs/STATEMENT.md](crate::proved#contracts) explains the words.
#[inline]
const fn week_of(modifiers: Modifiers) -> Component {
    match modifiers.repr {
        Some(Repr::Sunday) => Component::WeekNumber(WeekRule::Sunday, modifiers.padding),
        Some(Repr::Monday) => Component::WeekNumber(WeekRule::Monday, modifiers.padding),
        _ => Component::WeekNumber(WeekRule::Iso, modifiers.padding),
    }
}

// An hour, by its clock.
/// # Contract
///
/// ```text
/// ensures { result ≡ hour_of modifiers modifiers.repr }
/// ```
///
/// [docs/proofs/STATEMENT.md](crate::proved#contracts) explains the words.
#[inline]
const fn hour_of(modifiers: Modifiers) -> Component {
    match modifiers.repr {
        Some(Repr::Twelve) => Component::Hour12(modifiers.padding),
        _ => Component::Hour(modifiers.padding),
    }
}
