// Made by make/erase of crates/stamp_times/src/runs/moment.rt. Do not edit.
//! The calls that instants of every type have in common.
use crate::proved::stamp_times::Timestamp;
use crate::proved::stamp_times::runs::calls::{
    ClockPart, ClockRead, DatePart, DateRead, Replace, Shift,
};
use crate::proved::calendar_values::{ComponentRange, Date, Time, UtcOffset};
use crate::proved::offset_times::{OffsetDateTime, ToOffset};
use std::hash::Hash;
use crate::proved::utc_times::UtcDateTime;

/// An instant of the range, whatever type holds it. Its calls give what a counter of nanoseconds
/// gives, and values are equal, are ordered and feed a hasher by their instants.
///
/// # Contract
///
/// ```text
/// ghost instant: { Self → ℤ };
/// ghost eq_by_instant: { (x y : Self) → Self.eq x y ≡ int_eq (instant x) (instant y) };
/// ghost cmp_by_instant: { (x y : Self) → Self.cmp x y ≡ int_cmp (instant x) (instant y) };
/// ```
///
/// [docs/proofs/STATEMENT.md](crate::proved#contracts) explains the words.
pub trait Moment: Copy + Eq + Ord + Hash {
    /// A part of the date in UTC.
    ///
    /// ```
    /// # use muxandu::proved::*;
    /// # fn main() -> Result<(), Box<dyn std::error::Error>> {
    /// assert_eq!(
    ///     Timestamp::UNIX_EPOCH.date_part(stamp_times::DateRead::Year),
    ///     stamp_times::DatePart::Year(1970)
    /// );
    /// # Ok(())
    /// # }
    /// ```
    ///
    /// # Contract
    ///
    /// ```text
    /// ensures { result ≡ date_part_of (wall_day (instant self)) read }
    /// ```
    ///
    /// [docs/proofs/STATEMENT.md](crate::proved#contracts) explains the words.
    fn date_part(self, read: DateRead) -> DatePart;

    /// A part of the time of day in UTC.
    ///
    /// ```
    /// # use muxandu::proved::*;
    /// # fn main() -> Result<(), Box<dyn std::error::Error>> {
    /// assert_eq!(
    ///     Timestamp::UNIX_EPOCH.clock_part(stamp_times::ClockRead::Hour),
    ///     stamp_times::ClockPart::Hour(0)
    /// );
    /// # Ok(())
    /// # }
    /// ```
    ///
    /// # Contract
    ///
    /// ```text
    /// ensures { result ≡ clock_part_of (wall_time (instant self)) read }
    /// ```
    ///
    /// [docs/proofs/STATEMENT.md](crate::proved#contracts) explains the words.
    fn clock_part(self, read: ClockRead) -> ClockPart;

    /// A sum or a difference, or None if a checked one is out of the range.
    ///
    /// ```
    /// # use muxandu::proved::*;
    /// # fn main() -> Result<(), Box<dyn std::error::Error>> {
    /// let day = stamp_times::Shift::CheckedAdd(SignedDuration::DAY);
    /// assert_eq!(Timestamp::UNIX_EPOCH.shift(day), Some(Timestamp::from_seconds(86_400)?));
    /// assert_eq!(Timestamp::MAX.shift(day), None);
    /// # Ok(())
    /// # }
    /// ```
    ///
    /// # Contract
    ///
    /// ```text
    /// ensures value { option_map instant result ≡ instant_after_shift (instant self) shift }
    /// ensures sum { Shifts (instant self) shift (option_map instant result) }
    /// ensures order { IfSome result (λ next. Saturates (instant self) shift (instant next)) }
    /// ```
    ///
    /// [docs/proofs/STATEMENT.md](crate::proved#contracts) explains the words.
    fn shift(self, shift: Shift) -> Option<Self>;

    /// The value with a part replaced in UTC. Fails as the replacement of that part does, exactly
    /// if the part does not fit.
    ///
    /// ```
    /// # use muxandu::proved::*;
    /// # fn main() -> Result<(), Box<dyn std::error::Error>> {
    /// let six = stamp_times::Replace::Hour(6);
    /// assert_eq!(Timestamp::UNIX_EPOCH.replace(six), Ok(Timestamp::from_seconds(21_600)?));
    /// assert_eq!(
    ///     Timestamp::UNIX_EPOCH.replace(stamp_times::Replace::Hour(24)),
    ///     Err(ComponentRange::new("hour", false))
    /// );
    /// # Ok(())
    /// # }
    /// ```
    ///
    /// # Contract
    ///
    /// ```text
    /// ensures value { result_map_both instant (λ refusal. refusal) result ≡
    ///     instant_after_replacement (instant self) replace }
    /// ensures accepted { IsOk result ↔ IsReplaceable (instant self) replace }
    /// ensures refused { IfErr result (RefusesReplaced (instant self) replace) }
    /// ensures shown { IfOk result (λ next.
    ///     ShowsReplaced (instant self) replace (instant next)) }
    /// ```
    ///
    /// [docs/proofs/STATEMENT.md](crate::proved#contracts) explains the words.
    fn replace(self, replace: Replace) -> Result<Self, ComponentRange>;

    /// The date and the time of day in UTC.
    ///
    /// ```
    /// # use muxandu::proved::*;
    /// # fn main() -> Result<(), Box<dyn std::error::Error>> {
    /// let (date, time) = Moment::parts(Timestamp::UNIX_EPOCH);
    /// assert_eq!(date, Date::UNIX_EPOCH);
    /// assert_eq!(time, Time::MIDNIGHT);
    /// # Ok(())
    /// # }
    /// ```
    ///
    /// # Contract
    ///
    /// ```text
    /// ensures date { result.0 ≡ wall_day (instant self) }
    /// ensures time { result.1 ≡ wall_time (instant self) }
    /// ensures self_in_range { IsInstant (instant self) }
    /// ```
    ///
    /// [docs/proofs/STATEMENT.md](crate::proved#contracts) explains the words.
    fn parts(self) -> (Date, Time);

    /// The wall clock of the instant at the offset, with the offset, as
    /// [`ToOffset::checked_to_offset`]. None if that is out of the range.
    ///
    /// ```
    /// # use muxandu::proved::*;
    /// # fn main() -> Result<(), Box<dyn std::error::Error>> {
    /// let west = UtcOffset::from_hms(-8, 0, 0)?;
    /// assert_eq!(
    ///     Moment::at_offset(Timestamp::UNIX_EPOCH, west).map(|shown| shown.hour()),
    ///     Some(16)
    /// );
    /// assert_eq!(Moment::at_offset(Timestamp::MIN, west), None);
    /// # Ok(())
    /// # }
    /// ```
    ///
    /// # Contract
    ///
    /// ```text
    /// ensures value { ShownAt result (instant self) offset }
    /// ensures instant { IfSome result (λ at. instant_of at ≡ instant self) }
    /// ```
    ///
    /// [docs/proofs/STATEMENT.md](crate::proved#contracts) explains the words.
    fn at_offset(self, offset: UtcOffset) -> Option<OffsetDateTime>;
}

macro_rules! date_part {
    ($at:expr, $read:expr) => {
        match $read {
            DateRead::Date => DatePart::Date($at.date()),
            DateRead::Year => DatePart::Year($at.year()),
            DateRead::Month => DatePart::Month($at.month()),
            DateRead::Day => DatePart::Day($at.day()),
            DateRead::Ordinal => DatePart::Ordinal($at.ordinal()),
            DateRead::IsoWeek => DatePart::IsoWeek($at.iso_week()),
            DateRead::SundayWeek => DatePart::SundayWeek($at.sunday_based_week()),
            DateRead::MondayWeek => DatePart::MondayWeek($at.monday_based_week()),
            DateRead::CalendarDate => {
                let (year, month, day) = $at.to_calendar_date();
                DatePart::CalendarDate((year, month, day))
            }
            DateRead::OrdinalDate => {
                let (year, ordinal) = $at.to_ordinal_date();
                DatePart::OrdinalDate((year, ordinal))
            }
            DateRead::IsoWeekDate => {
                let (year, week, weekday) = $at.to_iso_week_date();
                DatePart::IsoWeekDate((year, week, weekday))
            }
            DateRead::Weekday => DatePart::Weekday($at.weekday()),
            DateRead::JulianDay => DatePart::JulianDay($at.to_julian_day()),
        }
    };
}

macro_rules! clock_part {
    ($at:expr, $read:expr) => {
        match $read {
            ClockRead::Time => ClockPart::Time($at.time()),
            ClockRead::Hms => ClockPart::Hms($at.as_hms()),
            ClockRead::HmsMilli => ClockPart::HmsMilli($at.as_hms_milli()),
            ClockRead::HmsMicro => ClockPart::HmsMicro($at.as_hms_micro()),
            ClockRead::HmsNano => ClockPart::HmsNano($at.as_hms_nano()),
            ClockRead::Hour => ClockPart::Hour($at.hour()),
            ClockRead::Minute => ClockPart::Minute($at.minute()),
            ClockRead::Second => ClockPart::Second($at.second()),
            ClockRead::Millisecond => ClockPart::Millisecond($at.millisecond()),
            ClockRead::Microsecond => ClockPart::Microsecond($at.microsecond()),
            ClockRead::Nanosecond => ClockPart::Nanosecond($at.nanosecond()),
        }
    };
}

macro_rules! shift {
    ($at:expr, $shift:expr) => {
        match $shift {
            Shift::CheckedAdd(duration) => $at.checked_add(duration),
            Shift::CheckedSub(duration) => $at.checked_sub(duration),
            Shift::SaturatingAdd(duration) => Some($at.saturating_add(duration)),
            Shift::SaturatingSub(duration) => Some($at.saturating_sub(duration)),
        }
    };
}

macro_rules! replace {
    ($at:expr, $replace:expr) => {
        match $replace {
            Replace::Time(time) => Ok($at.replace_time(time)),
            Replace::Date(date) => Ok($at.replace_date(date)),
            Replace::Year(year) => $at.replace_year(year),
            Replace::Month(month) => $at.replace_month(month),
            Replace::Day(day) => $at.replace_day(day),
            Replace::Ordinal(ordinal) => $at.replace_ordinal(ordinal),
            Replace::Hour(hour) => $at.replace_hour(hour),
            Replace::Minute(minute) => $at.replace_minute(minute),
            Replace::Second(second) => $at.replace_second(second),
            Replace::Millisecond(millisecond) => $at.replace_millisecond(millisecond),
            Replace::Microsecond(microsecond) => $at.replace_microsecond(microsecond),
            Replace::Nanosecond(nanosecond) => $at.replace_nanosecond(nanosecond),
        }
    };
}

// A date-time in UTC with a part replaced.
/// # Contract
///
/// ```text
/// ensures value { result_map_both (λ i. i) (λ refusal. refusal) result ≡
///     instant_after_replacement at replace }
/// ensures shown { IfOk result (ShowsReplaced at replace) }
/// ```
///
/// [docs/proofs/STATEMENT.md](crate::proved#contracts) explains the words.
#[inline]
const fn utc_with(at: UtcDateTime, replace: Replace) -> Result<UtcDateTime, ComponentRange> {
    replace!(at, replace)
}

/// # Contract
///
/// ```text
/// ghost instant = { λ i. i };
/// ghost eq_by_instant = { λ x y. refl };
/// ghost cmp_by_instant = { λ x y. refl };
/// ```
///
/// [docs/proofs/STATEMENT.md](crate::proved#contracts) explains the words.
impl Moment for UtcDateTime {
    #[inline]
    fn date_part(self, read: DateRead) -> DatePart {
        date_part!(self, read)
    }

    #[inline]
    fn clock_part(self, read: ClockRead) -> ClockPart {
        clock_part!(self, read)
    }
    #[inline]
    fn shift(self, shift: Shift) -> Option<UtcDateTime> {
        shift!(self, shift)
    }

    #[inline]
    fn replace(self, replace: Replace) -> Result<UtcDateTime, ComponentRange> {
        utc_with(self, replace)
    }

    #[inline]
    fn parts(self) -> (Date, Time) {
        (self.date(), self.time())
    }

    #[inline]
    fn at_offset(self, offset: UtcOffset) -> Option<OffsetDateTime> {
        self.checked_to_offset(offset)
    }
}

// A timestamp with a part replaced.
/// # Contract
///
/// ```text
/// ensures value { result_map_both (λ i. i) (λ refusal. refusal) result ≡
///     instant_after_replacement at replace }
/// ensures shown { IfOk result (ShowsReplaced at replace) }
/// ```
///
/// [docs/proofs/STATEMENT.md](crate::proved#contracts) explains the words.
#[inline]
const fn stamp_with(at: Timestamp, replace: Replace) -> Result<Timestamp, ComponentRange> {
    replace!(at, replace)
}

/// # Contract
///
/// ```text
/// ghost instant = { λ i. i };
/// ghost eq_by_instant = { λ x y. refl };
/// ghost cmp_by_instant = { λ x y. refl };
/// ```
///
/// [docs/proofs/STATEMENT.md](crate::proved#contracts) explains the words.
impl Moment for Timestamp {
    #[inline]
    fn date_part(self, read: DateRead) -> DatePart {
        date_part!(self, read)
    }

    #[inline]
    fn clock_part(self, read: ClockRead) -> ClockPart {
        clock_part!(self, read)
    }
    #[inline]
    fn shift(self, shift: Shift) -> Option<Timestamp> {
        shift!(self, shift)
    }

    #[inline]
    fn replace(self, replace: Replace) -> Result<Timestamp, ComponentRange> {
        stamp_with(self, replace)
    }

    #[inline]
    fn parts(self) -> (Date, Time) {
        (self.date(), self.time())
    }

    #[inline]
    fn at_offset(self, offset: UtcOffset) -> Option<OffsetDateTime> {
        self.checked_to_offset(offset)
    }
}
