//! Components by `time`'s names, and as the proved functions have them.

use core::num::NonZeroU16;

use super::modifier;
use crate::proved::format_descriptions as proved;
use crate::{Date, Text, Time, UtcOffset};
use proved::{Component as Proved, Parts};

macro_rules! components {
    ($($Name:ident: $name:literal;)+) => {
        /// A component of a description.
        #[non_exhaustive]
        #[derive(Clone, Copy, Debug, PartialEq, Eq)]
        #[allow(missing_docs)]
        pub enum Component {
            $($Name(modifier::$Name),)+
        }

        impl Component {
            /// The name that errors have.
            pub(crate) const fn name(self) -> &'static str {
                match self {
                    $(Component::$Name(_) => $name,)+
                }
            }
        }
    };
}

components! {
    Day: "day";
    Month: "month";
    Ordinal: "ordinal";
    Weekday: "weekday";
    WeekNumber: "week number";
    Year: "year";
    Hour: "hour";
    Minute: "minute";
    Period: "period";
    Second: "second";
    Subsecond: "subsecond";
    OffsetHour: "offset hour";
    OffsetMinute: "offset minute";
    OffsetSecond: "offset second";
    Ignore: "ignore";
    UnixTimestamp: "unix_timestamp";
    End: "end";
}

/// A modifier as the proved functions have it, and back.
macro_rules! paired {
    ($($to:ident, $back:ident: modifier::$Ours:ident { $($ours:ident = $theirs:ident),+ } proved::$Theirs:ident;)+) => {
        $(
            #[inline(always)]
            const fn $to(ours: modifier::$Ours) -> proved::$Theirs {
                match ours {
                    $(modifier::$Ours::$ours => proved::$Theirs::$theirs,)+
                }
            }

            const fn $back(theirs: proved::$Theirs) -> modifier::$Ours {
                match theirs {
                    $(proved::$Theirs::$theirs => modifier::$Ours::$ours,)+
                }
            }
        )+
    };
}

paired! {
    padding, padding_of: modifier::Padding { Zero = Zero, Space = Space, None = Bare } proved::Padding;
    range, range_of: modifier::YearRange { Standard = Standard, Extended = Extended } proved::YearRange;
    rule, rule_of: modifier::WeekNumberRepr { Iso = Iso, Sunday = Sunday, Monday = Monday } proved::WeekRule;
    precision, precision_of: modifier::UnixTimestampPrecision {
        Second = Seconds, Millisecond = Milliseconds, Microsecond = Microseconds, Nanosecond = Nanoseconds
    } proved::UnixPrecision;
}

/// A modifier that is a condition, as the proved functions have it, and back.
macro_rules! conditions {
    ($($to:ident, $back:ident: proved::$Theirs:ident, $holds:ident or $fails:ident;)+) => {
        $(
            #[inline(always)]
            const fn $to(holds: bool) -> proved::$Theirs {
                if holds { proved::$Theirs::$holds } else { proved::$Theirs::$fails }
            }

            const fn $back(theirs: proved::$Theirs) -> bool {
                matches!(theirs, proved::$Theirs::$holds)
            }
        )+
    };
}

conditions! {
    sign, is_mandatory: proved::Sign, Mandatory or Automatic;
    read_case, is_sensitive: proved::ReadCase, Same or Any;
    base, is_iso: proved::YearBase, IsoWeek or Calendar;
    count, is_from_one: proved::WeekdayCount, FromOne or FromZero;
    case, is_upper: proved::Case, Upper or Lower;
}

/// Gives the component, as the proved functions have it, to a macro. Each form has its own code, so
/// the compiler knows the form there.
macro_rules! by_form {
    ($component:expr, $act:ident) => {
        match $component {
            Component::Day(it) => $act!(Proved::Day(padding(it.padding))),
            Component::Month(it) => {
                let case = read_case(it.case_sensitive);
                match it.repr {
                    modifier::MonthRepr::Numerical => $act!(Proved::Month(padding(it.padding))),
                    modifier::MonthRepr::Long => {
                        $act!(Proved::MonthName(proved::NameForm::Long, case))
                    }
                    modifier::MonthRepr::Short => {
                        $act!(Proved::MonthName(proved::NameForm::Short, case))
                    }
                }
            }
            Component::Ordinal(it) => $act!(Proved::Ordinal(padding(it.padding))),
            Component::Weekday(it) => {
                let (case, count) = (read_case(it.case_sensitive), count(it.one_indexed));
                match it.repr {
                    modifier::WeekdayRepr::Long => {
                        $act!(Proved::WeekdayName(proved::NameForm::Long, case))
                    }
                    modifier::WeekdayRepr::Short => {
                        $act!(Proved::WeekdayName(proved::NameForm::Short, case))
                    }
                    modifier::WeekdayRepr::Sunday => {
                        $act!(Proved::WeekdayNumber(proved::WeekStart::Sunday, count))
                    }
                    modifier::WeekdayRepr::Monday => {
                        $act!(Proved::WeekdayNumber(proved::WeekStart::Monday, count))
                    }
                }
            }
            Component::WeekNumber(it) => {
                $act!(Proved::WeekNumber(rule(it.repr), padding(it.padding)))
            }
            Component::Year(it) => {
                let (base, sign) = (base(it.iso_week_based), sign(it.sign_is_mandatory));
                let (padding, range) = (padding(it.padding), range(it.range));
                match it.repr {
                    modifier::YearRepr::Full => $act!(Proved::Year(base, sign, padding, range)),
                    modifier::YearRepr::Century => {
                        $act!(Proved::YearCentury(base, sign, padding, range))
                    }
                    modifier::YearRepr::LastTwo => $act!(Proved::YearLastTwo(base, padding)),
                }
            }
            Component::Hour(it) if it.is_12_hour_clock => {
                $act!(Proved::Hour12(padding(it.padding)))
            }
            Component::Hour(it) => $act!(Proved::Hour(padding(it.padding))),
            Component::Minute(it) => $act!(Proved::Minute(padding(it.padding))),
            Component::Period(it) => {
                $act!(Proved::Period(case(it.is_uppercase), read_case(it.case_sensitive)))
            }
            Component::Second(it) => $act!(Proved::Second(padding(it.padding))),
            Component::Subsecond(it) => $act!(Proved::Subsecond(it.digits)),
            Component::OffsetHour(it) => {
                $act!(Proved::OffsetHour(sign(it.sign_is_mandatory), padding(it.padding)))
            }
            Component::OffsetMinute(it) => $act!(Proved::OffsetMinute(padding(it.padding))),
            Component::OffsetSecond(it) => $act!(Proved::OffsetSecond(padding(it.padding))),
            Component::Ignore(it) => $act!(Proved::Ignore(it.count.get())),
            Component::UnixTimestamp(it) => {
                $act!(Proved::UnixTimestamp(precision(it.precision), sign(it.sign_is_mandatory)))
            }
            Component::End(_) => $act!(Proved::End),
        }
    };
}

impl Component {
    /// The component as the proved functions have it.
    #[inline(always)]
    pub(crate) const fn to_proved(self) -> Proved {
        macro_rules! same {
            ($form:expr) => {
                $form
            };
        }
        by_form!(self, same)
    }

    /// Reads the component at the front of a text into the parts, as the proved function does.
    #[inline(always)]
    pub(crate) fn read<'a>(self, text: &'a [u8], parts: &mut Parts) -> Option<&'a [u8]> {
        macro_rules! read {
            ($form:expr) => {
                proved::parse_component_into($form, text, parts)
            };
        }
        by_form!(self, read)
    }

    /// Adds the text of the component to a text, as the proved function does.
    #[inline(never)]
    pub(crate) fn write(self, date: Date, time: Time, offset: UtcOffset, text: &mut Text) -> bool {
        macro_rules! write {
            ($form:expr) => {
                proved::format_component_into($form, date, time, offset, text)
            };
        }
        by_form!(self, write)
    }

    /// The component that the proved functions have so.
    pub(crate) const fn of(component: Proved) -> Component {
        /// A component with these modifiers.
        macro_rules! with {
            ($Name:ident: $($with:ident($value:expr)),*) => {
                Component::$Name(modifier::$Name::default()$(.$with($value))*)
            };
        }
        match component {
            Proved::Year(base, sign, padding, range) => {
                year_of(base, sign, padding, range, modifier::YearRepr::Full)
            }
            Proved::YearCentury(base, sign, padding, range) => {
                year_of(base, sign, padding, range, modifier::YearRepr::Century)
            }
            Proved::YearLastTwo(base, padding) => {
                let (sign, range) = (proved::Sign::Automatic, proved::YearRange::Extended);
                year_of(base, sign, padding, range, modifier::YearRepr::LastTwo)
            }
            Proved::Month(it) => with!(Month: with_padding(padding_of(it))),
            Proved::MonthName(form, case) => {
                let repr = match form {
                    proved::NameForm::Long => modifier::MonthRepr::Long,
                    proved::NameForm::Short => modifier::MonthRepr::Short,
                };
                with!(Month: with_repr(repr), with_case_sensitive(is_sensitive(case)))
            }
            Proved::Day(it) => with!(Day: with_padding(padding_of(it))),
            Proved::Ordinal(it) => with!(Ordinal: with_padding(padding_of(it))),
            Proved::WeekdayName(form, case) => {
                let repr = match form {
                    proved::NameForm::Long => modifier::WeekdayRepr::Long,
                    proved::NameForm::Short => modifier::WeekdayRepr::Short,
                };
                with!(Weekday: with_repr(repr), with_case_sensitive(is_sensitive(case)))
            }
            Proved::WeekdayNumber(start, count) => {
                let repr = match start {
                    proved::WeekStart::Sunday => modifier::WeekdayRepr::Sunday,
                    proved::WeekStart::Monday => modifier::WeekdayRepr::Monday,
                };
                with!(Weekday: with_repr(repr), with_one_indexed(is_from_one(count)))
            }
            Proved::WeekNumber(rule, it) => {
                with!(WeekNumber: with_padding(padding_of(it)), with_repr(rule_of(rule)))
            }
            Proved::Hour(it) => with!(Hour: with_padding(padding_of(it))),
            Proved::Hour12(it) => {
                with!(Hour: with_padding(padding_of(it)), with_is_12_hour_clock(true))
            }
            Proved::Period(case, read) => {
                with!(Period: with_is_uppercase(is_upper(case)), with_case_sensitive(is_sensitive(read)))
            }
            Proved::Minute(it) => with!(Minute: with_padding(padding_of(it))),
            Proved::Second(it) => with!(Second: with_padding(padding_of(it))),
            Proved::Subsecond(digits) => with!(Subsecond: with_digits(digits)),
            Proved::OffsetHour(sign, it) => {
                with!(OffsetHour: with_sign_is_mandatory(is_mandatory(sign)), with_padding(padding_of(it)))
            }
            Proved::OffsetMinute(it) => with!(OffsetMinute: with_padding(padding_of(it))),
            Proved::OffsetSecond(it) => with!(OffsetSecond: with_padding(padding_of(it))),
            Proved::UnixTimestamp(precision, sign) => with!(
                UnixTimestamp: with_precision(precision_of(precision)), with_sign_is_mandatory(is_mandatory(sign))
            ),
            Proved::Ignore(count) => match NonZeroU16::new(count) {
                Some(count) => Component::Ignore(modifier::Ignore::count(count)),
                // A description says no count of 0.
                None => Component::Ignore(modifier::Ignore::count(NonZeroU16::MIN)),
            },
            Proved::End => with!(End:),
            Proved::IgnoreWeekday(_, _)
            | Proved::IgnoreDigits
            | Proved::OffsetWord(_, _)
            | Proved::YearSince(_)
            | Proved::YearSix(_)
            | Proved::HourFraction(_)
            | Proved::MinuteFraction(_) => {
                panic!("no text of a description names a component that `time` lacks")
            }
        }
    }
}

const fn year_of(
    base: proved::YearBase,
    sign: proved::Sign,
    padding: proved::Padding,
    range: proved::YearRange,
    repr: modifier::YearRepr,
) -> Component {
    Component::Year(
        modifier::Year::default()
            .with_padding(padding_of(padding))
            .with_repr(repr)
            .with_range(range_of(range))
            .with_iso_week_based(is_iso(base))
            .with_sign_is_mandatory(is_mandatory(sign)),
    )
}
