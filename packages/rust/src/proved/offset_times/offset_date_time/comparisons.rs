// Made by make/erase of crates/offset_times/src/offset_date_time/comparisons.rt. Do not edit.
//! Date-times with an offset compare, and feed a hasher, by their instants.
use crate::proved::offset_times::OffsetDateTime;
use crate::proved::offset_times::carries::{to_offset_raw, to_utc_raw};
use crate::proved::calendar_values::UtcOffset;
use crate::proved::calendar_values::units::NANOS_PER_SECOND;
use crate::proved::plain_times::packed_number;
use std::cmp::Ordering;
use std::hash::{Hash, Hasher};

impl OffsetDateTime {
    /// # Contract
    ///
    /// ```text
    /// ensures { result ≡ int_cmp (instant_of self.now) (instant_of other.now) }
    /// ```
    ///
    /// [docs/proofs/STATEMENT.md](crate::proved#contracts) explains the words.
    #[inline(always)]
    fn by_instant(&self, other: &OffsetDateTime) -> Ordering {
        self.sign_after(other).cmp(&0)
    }

    // A number of the sign of the time from the other instant to this one. Dates more than four days apart
    // decide alone, dates of one year by the nanoseconds between, and others by what clocks show.
    /// # Contract
    ///
    /// ```text
    /// ensures { int_cmp result (pos 0) ≡ int_cmp (instant_of self.now)
    ///     (instant_of other.now) }
    /// ```
    ///
    /// [docs/proofs/STATEMENT.md](crate::proved#contracts) explains the words.
    #[inline(always)]
    const fn sign_after(&self, other: &OffsetDateTime) -> i64 {
        let days = self.rough_days_from(*other);
        if days < -4 || days > 4 {
            return days;
        }
        if self.year() == other.year() {
            return self.nanoseconds_within_year(*other);
        }
        self.sign_converted_after(*other)
    }

    // The nanoseconds from the other instant to this one, where clocks show dates of one year. No branch waits
    // for a part.
    /// # Contract
    ///
    /// ```text
    /// requires { year_of (wall_day self.wall) ≡ year_of (wall_day other.wall) }
    /// ensures value { result ≡ instant_of self -ℤ instant_of other }
    /// ensures sign { int_cmp result (pos 0) ≡ int_cmp (instant_of self) (instant_of other) }
    /// ```
    ///
    /// [docs/proofs/STATEMENT.md](crate::proved#contracts) explains the words.
    #[inline(always)]
    const fn nanoseconds_within_year(self, other: OffsetDateTime) -> i64 {
        let (at, other_at) = (self.time(), other.time());
        let (from, other_from) = (self.offset(), other.offset());
        let days = days_between(self.ordinal(), other.ordinal());
        let hours = part_between(
            at.hour(),
            from.whole_hours(),
            other_at.hour(),
            other_from.whole_hours(),
        );
        let minutes = part_between(
            at.minute(),
            from.minutes_past_hour(),
            other_at.minute(),
            other_from.minutes_past_hour(),
        );
        let seconds = part_between(
            at.second(),
            from.seconds_past_minute(),
            other_at.second(),
            other_from.seconds_past_minute(),
        );
        let fractions = fractions_between(at.nanosecond(), other_at.nanosecond());
        in_nanoseconds(in_seconds(days, hours, minutes, seconds), fractions)
    }

    // The sign by what clocks at the offset of this one show at both instants. No other call has it in line, so
    // that a comparison stays short. It takes copies, which are made for this call alone.
    /// # Contract
    ///
    /// ```text
    /// ensures { int_cmp result (pos 0) ≡ int_cmp (instant_of self) (instant_of other) }
    /// ```
    ///
    /// [docs/proofs/STATEMENT.md](crate::proved#contracts) explains the words.
    #[inline(never)]
    const fn sign_converted_after(self, other: OffsetDateTime) -> i64 {
        sign_of_parts_after(self.raw(), other.shown_raw(self.offset()))
    }

    // What clocks at the offset show then: the year, the day of the year and the nanosecond of the day, which
    // are told of a date outside the range too.
    /// # Contract
    ///
    /// ```text
    /// ensures parts { IsParts result.0 result.1 result.2 }
    /// ensures shown { wall_clock_of_parts result.0 result.1 result.2 ≡
    ///     shown_at (instant_of self) offset }
    /// ```
    ///
    /// [docs/proofs/STATEMENT.md](crate::proved#contracts) explains the words.
    #[inline(always)]
    const fn shown_raw(self, offset: UtcOffset) -> (i32, u16, u64) {
        let (year, ordinal, time) = to_offset_raw(self, offset);
        (year, ordinal, time.nanosecond_of_day())
    }

    // The year, the day of the year and the nanosecond of the day of the wall clock.
    /// # Contract
    ///
    /// ```text
    /// ensures parts { IsParts result.0 result.1 result.2 }
    /// ensures shown { wall_clock_of_parts result.0 result.1 result.2 ≡ self.wall }
    /// ```
    ///
    /// [docs/proofs/STATEMENT.md](crate::proved#contracts) explains the words.
    #[inline(always)]
    const fn raw(self) -> (i32, u16, u64) {
        let (year, ordinal) = self.to_ordinal_date();
        (year, ordinal, self.time().nanosecond_of_day())
    }

    // What clocks in UTC show then, in one number, which is told of an instant outside the range too.
    /// # Contract
    ///
    /// ```text
    /// ensures { result ≡ packed_wall_clock (instant_of self) }
    /// ```
    ///
    /// [docs/proofs/STATEMENT.md](crate::proved#contracts) explains the words.
    #[inline]
    const fn packed_instant(self) -> i128 {
        let (year, ordinal, time) = to_utc_raw(self);
        packed_number(year, ordinal, time)
    }

    // The days from the other date to this one, as if each year had 366.
    /// # Contract
    ///
    /// ```text
    /// ensures later { pos 4 <ℤ result → instant_of other <ℤ instant_of self }
    /// ensures earlier { result <ℤ neg_ℤ (pos 4) → instant_of self <ℤ instant_of other }
    /// ```
    ///
    /// [docs/proofs/STATEMENT.md](crate::proved#contracts) explains the words.
    #[inline(always)]
    const fn rough_days_from(self, other: OffsetDateTime) -> i64 {
        let day = self.date_time().to_ordinal_date();
        rough_days(day, other.date_time().to_ordinal_date())
    }
}

// The days from the second day of a year to the first.
/// # Contract
///
/// ```text
/// requires ordinal { ordinal ≤ 366 }
/// requires other { other ≤ 366 }
/// ensures value { result ≡ pos ordinal -ℤ pos other }
/// ensures few { IsWithin 366 result }
/// ```
///
/// [docs/proofs/STATEMENT.md](crate::proved#contracts) explains the words.
#[inline(always)]
const fn days_between(ordinal: u16, other: u16) -> i64 {
    ordinal as i64 - other as i64
}

// The nanoseconds from the second fraction of a second to the first.
/// # Contract
///
/// ```text
/// requires nanosecond { nanosecond < nanos_per_second }
/// requires other { other < nanos_per_second }
/// ensures value { result ≡ pos nanosecond -ℤ pos other }
/// ensures few { IsWithin 1_000_000_000 result }
/// ```
///
/// [docs/proofs/STATEMENT.md](crate::proved#contracts) explains the words.
#[inline(always)]
const fn fractions_between(nanosecond: u32, other: u32) -> i64 {
    nanosecond as i64 - other as i64
}

// From the second of two parts of times of day to the first, where each is less that of its offset.
/// # Contract
///
/// ```text
/// requires part { part < 60 }
/// requires offset { unsigned_abs offset ≤ 59 }
/// requires other { other < 60 }
/// requires other_offset { unsigned_abs other_offset ≤ 59 }
/// ensures value { result ≡ (pos part -ℤ offset) -ℤ (pos other -ℤ other_offset) }
/// ensures few { IsWithin 240 result }
/// ```
///
/// [docs/proofs/STATEMENT.md](crate::proved#contracts) explains the words.
#[inline(always)]
const fn part_between(part: u8, offset: i8, other: u8, other_offset: i8) -> i64 {
    less_offset(part, offset) - less_offset(other, other_offset)
}

// A part of a time of day, less that of an offset.
/// # Contract
///
/// ```text
/// requires part { part < 60 }
/// requires offset { unsigned_abs offset ≤ 59 }
/// ensures value { result ≡ pos part -ℤ offset }
/// ensures few { IsWithin 120 result }
/// ```
///
/// [docs/proofs/STATEMENT.md](crate::proved#contracts) explains the words.
#[inline(always)]
const fn less_offset(part: u8, offset: i8) -> i64 {
    part as i64 - offset as i64
}

// Days, hours, minutes and seconds, in seconds.
/// # Contract
///
/// ```text
/// requires days { IsWithin 366 days }
/// requires hours { IsWithin 240 hours }
/// requires minutes { IsWithin 240 minutes }
/// requires seconds { IsWithin 240 seconds }
/// ensures value { result ≡ ((days *ℤ pos 24 +ℤ hours) *ℤ pos 60 +ℤ minutes) *ℤ pos 60 +ℤ
///     seconds }
/// ensures few { IsWithin 100_000_000 result }
/// ```
///
/// [docs/proofs/STATEMENT.md](crate::proved#contracts) explains the words.
#[inline(always)]
const fn in_seconds(days: i64, hours: i64, minutes: i64, seconds: i64) -> i64 {
    in_sixtieths(in_sixtieths(in_hours(days, hours), minutes), seconds)
}

// Days and hours, in hours.
/// # Contract
///
/// ```text
/// requires days { IsWithin 366 days }
/// requires hours { IsWithin 240 hours }
/// ensures value { result ≡ days *ℤ pos 24 +ℤ hours }
/// ensures few { IsWithin 10_000 result }
/// ```
///
/// [docs/proofs/STATEMENT.md](crate::proved#contracts) explains the words.
#[inline(always)]
const fn in_hours(days: i64, hours: i64) -> i64 {
    days * 24 + hours
}

// Units and sixtieths of a unit, in sixtieths.
/// # Contract
///
/// ```text
/// requires units { IsWithin 1_000_000 units }
/// requires sixtieths { IsWithin 240 sixtieths }
/// ensures { result ≡ units *ℤ pos 60 +ℤ sixtieths }
/// ```
///
/// [docs/proofs/STATEMENT.md](crate::proved#contracts) explains the words.
#[inline(always)]
const fn in_sixtieths(units: i64, sixtieths: i64) -> i64 {
    units * 60 + sixtieths
}

// Seconds and nanoseconds, in nanoseconds.
/// # Contract
///
/// ```text
/// requires seconds { IsWithin 100_000_000 seconds }
/// requires nanoseconds { IsWithin 1_000_000_000 nanoseconds }
/// ensures { result ≡ seconds *ℤ pos nanos_per_second +ℤ nanoseconds }
/// ```
///
/// [docs/proofs/STATEMENT.md](crate::proved#contracts) explains the words.
#[inline(always)]
const fn in_nanoseconds(seconds: i64, nanoseconds: i64) -> i64 {
    seconds * NANOS_PER_SECOND as i64 + nanoseconds
}

// A number of the sign of the time from the second wall clock to the first.
/// # Contract
///
/// ```text
/// requires parts { IsParts at.0 at.1 at.2 }
/// requires other_parts { IsParts other.0 other.1 other.2 }
/// ensures { int_cmp result (pos 0) ≡ int_cmp (wall_clock_of_parts at.0 at.1 at.2)
///     (wall_clock_of_parts other.0 other.1 other.2) }
/// ```
///
/// [docs/proofs/STATEMENT.md](crate::proved#contracts) explains the words.
#[inline(always)]
const fn sign_of_parts_after(at: (i32, u16, u64), other: (i32, u16, u64)) -> i64 {
    let (year, ordinal, nanosecond) = at;
    let (other_year, other_ordinal, other_nanosecond) = other;
    let days = rough_days((year, ordinal), (other_year, other_ordinal));
    // Told before the days are looked at, so that no branch waits for them.
    let nanoseconds = nanosecond as i64 - other_nanosecond as i64;
    if days == 0 { nanoseconds } else { days }
}

// The days from the second day to the first, as if each year had 366.
/// # Contract
///
/// ```text
/// ensures { result ≡ (day.0 -ℤ other.0) *ℤ pos 366 +ℤ pos day.1 -ℤ pos other.1 }
/// ```
///
/// [docs/proofs/STATEMENT.md](crate::proved#contracts) explains the words.
#[inline(always)]
const fn rough_days(day: (i32, u16), other: (i32, u16)) -> i64 {
    let (year, ordinal) = day;
    let (other_year, other_ordinal) = other;
    (year as i64 - other_year as i64) * 366 + ordinal as i64 - other_ordinal as i64
}

/// # Contract
///
/// ```text
/// ghost eq = { on instant_of int_eq };
/// ```
///
/// [docs/proofs/STATEMENT.md](crate::proved#contracts) explains the words.
impl PartialEq for OffsetDateTime {
    #[inline]
    fn eq(&self, other: &OffsetDateTime) -> bool {
        self.by_instant(other).is_eq()
    }
}

impl Eq for OffsetDateTime {}

/// # Contract
///
/// ```text
/// ghost cmp = { on instant_of int_cmp };
/// ```
///
/// [docs/proofs/STATEMENT.md](crate::proved#contracts) explains the words.
impl Ord for OffsetDateTime {
    #[inline]
    fn cmp(&self, other: &OffsetDateTime) -> Ordering {
        self.by_instant(other)
    }
}

/// # Contract
///
/// ```text
/// ghost partial_cmp = { as_partial_cmp (on instant_of int_cmp) };
/// ```
///
/// [docs/proofs/STATEMENT.md](crate::proved#contracts) explains the words.
impl PartialOrd for OffsetDateTime {
    #[inline]
    fn partial_cmp(&self, other: &OffsetDateTime) -> Option<Ordering> {
        Some(self.cmp(other))
    }
}

// What a hasher is fed today is no promise to callers.
/// # Contract
///
/// ```text
/// ghost hash_input = { λ at. fed.i128 (packed_wall_clock (instant_of at)) };
/// ```
///
/// [docs/proofs/STATEMENT.md](crate::proved#contracts) explains the words.
impl Hash for OffsetDateTime {
    #[inline]
    fn hash<H: Hasher>(&self, state: &mut H) {
        self.packed_instant().hash(state);
    }
}
