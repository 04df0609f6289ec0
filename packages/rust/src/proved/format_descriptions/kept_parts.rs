// Made by make/erase of crates/format_descriptions/src/kept_parts.rt. Do not edit.
//! Which parts of a text are known before a group is tried, and stay where it cannot be read.
use crate::proved::format_descriptions::Parts;

// Which parts are known before a group is tried. An item adds parts, and changes none that is known, so these marks are
// enough to have the parts back. A group in a group has marks of its own on the stack, and so each of them takes a byte.
#[derive(Clone, Copy)]
pub(crate) struct KeptParts {
    year: bool,
    year_century: bool,
    is_before_zero: bool,
    year_last_two: bool,
    iso_year: bool,
    iso_year_century: bool,
    is_iso_before_zero: bool,
    iso_year_last_two: bool,
    month: bool,
    day: bool,
    ordinal: bool,
    weekday: bool,
    iso_week: bool,
    sunday_week: bool,
    monday_week: bool,
    hour: bool,
    hour_12: bool,
    is_afternoon: bool,
    minute: bool,
    second: bool,
    nanosecond: bool,
    is_west: bool,
    offset_hour: bool,
    offset_minute: bool,
    offset_second: bool,
    unix_second: bool,
    unix_millisecond: bool,
    unix_microsecond: bool,
    unix_nanosecond: bool,
}

// Which of the parts are known.
/// # Contract
///
/// ```text
/// ensures { result ≡ kept_of parts.now }
/// ```
///
/// [docs/proofs/STATEMENT.md](crate::proved#contracts) explains the words.
#[inline(never)]
pub(crate) const fn keep(parts: &Parts) -> KeptParts {
    KeptParts {
        year: parts.year.is_some(),
        year_century: parts.year_century.is_some(),
        is_before_zero: parts.is_before_zero.is_some(),
        year_last_two: parts.year_last_two.is_some(),
        iso_year: parts.iso_year.is_some(),
        iso_year_century: parts.iso_year_century.is_some(),
        is_iso_before_zero: parts.is_iso_before_zero.is_some(),
        iso_year_last_two: parts.iso_year_last_two.is_some(),
        month: parts.month.is_some(),
        day: parts.day.is_some(),
        ordinal: parts.ordinal.is_some(),
        weekday: parts.weekday.is_some(),
        iso_week: parts.iso_week.is_some(),
        sunday_week: parts.sunday_week.is_some(),
        monday_week: parts.monday_week.is_some(),
        hour: parts.hour.is_some(),
        hour_12: parts.hour_12.is_some(),
        is_afternoon: parts.is_afternoon.is_some(),
        minute: parts.minute.is_some(),
        second: parts.second.is_some(),
        nanosecond: parts.nanosecond.is_some(),
        is_west: parts.is_west.is_some(),
        offset_hour: parts.offset_hour.is_some(),
        offset_minute: parts.offset_minute.is_some(),
        offset_second: parts.offset_second.is_some(),
        unix_second: parts.unix_second.is_some(),
        unix_millisecond: parts.unix_millisecond.is_some(),
        unix_microsecond: parts.unix_microsecond.is_some(),
        unix_nanosecond: parts.unix_nanosecond.is_some(),
    }
}

// Takes away the parts that were not known.
/// # Contract
///
/// ```text
/// ensures { parts.new ≡ parts_kept kept.now parts.old }
/// ```
///
/// [docs/proofs/STATEMENT.md](crate::proved#contracts) explains the words.
#[inline(never)]
pub(crate) const fn restore(kept: &KeptParts, parts: &mut Parts) {
    restore_part(kept.year, &mut parts.year);
    restore_part(kept.year_century, &mut parts.year_century);
    restore_part(kept.is_before_zero, &mut parts.is_before_zero);
    restore_part(kept.year_last_two, &mut parts.year_last_two);
    restore_part(kept.iso_year, &mut parts.iso_year);
    restore_part(kept.iso_year_century, &mut parts.iso_year_century);
    restore_part(kept.is_iso_before_zero, &mut parts.is_iso_before_zero);
    restore_part(kept.iso_year_last_two, &mut parts.iso_year_last_two);
    restore_part(kept.month, &mut parts.month);
    restore_part(kept.day, &mut parts.day);
    restore_part(kept.ordinal, &mut parts.ordinal);
    restore_part(kept.weekday, &mut parts.weekday);
    restore_part(kept.iso_week, &mut parts.iso_week);
    restore_part(kept.sunday_week, &mut parts.sunday_week);
    restore_part(kept.monday_week, &mut parts.monday_week);
    restore_part(kept.hour, &mut parts.hour);
    restore_part(kept.hour_12, &mut parts.hour_12);
    restore_part(kept.is_afternoon, &mut parts.is_afternoon);
    restore_part(kept.minute, &mut parts.minute);
    restore_part(kept.second, &mut parts.second);
    restore_part(kept.nanosecond, &mut parts.nanosecond);
    restore_part(kept.is_west, &mut parts.is_west);
    restore_part(kept.offset_hour, &mut parts.offset_hour);
    restore_part(kept.offset_minute, &mut parts.offset_minute);
    restore_part(kept.offset_second, &mut parts.offset_second);
    restore_part(kept.unix_second, &mut parts.unix_second);
    restore_part(kept.unix_millisecond, &mut parts.unix_millisecond);
    restore_part(kept.unix_microsecond, &mut parts.unix_microsecond);
    restore_part(kept.unix_nanosecond, &mut parts.unix_nanosecond);
}

// Takes a part away, unless it was known.
/// # Contract
///
/// ```text
/// ensures { part.new ≡ part_if is_known part.old }
/// ```
///
/// [docs/proofs/STATEMENT.md](crate::proved#contracts) explains the words.
#[inline]
const fn restore_part<T: Copy>(is_known: bool, part: &mut Option<T>) {
    if !is_known {
        *part = None;
    }
}
