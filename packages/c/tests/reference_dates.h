/* The reference for what dates show and come to, for parts that are replaced, and for offsets,
 * over the calendar of reference.h. */
#ifndef REFERENCE_DATES_H
#define REFERENCE_DATES_H

#include "reference.h"

static inline int64_t day_of_date(MuxanduDate date) {
    return era_day(date.year, date.month, date.day);
}

/* Weeks are counted as strftime has %U and %W. */
static inline uint32_t reference_date_reads(MuxanduDate date, MuxanduDateReads *out) {
    int64_t day, thursday, first;
    int of_week, of_year;
    REFUSE(reference_date_check(date));
    day = day_of_date(date);
    of_week = (int)(day + 3 - floor_divide(day + 3, 7) * 7);
    of_year = (int)(day - era_day(date.year, 1, 1));
    thursday = day - of_week + 3;
    out->day = (int32_t)day;
    out->julian_day = (int32_t)(day + 2440588);
    out->iso_year = era_date(thursday).year;
    first = era_day(out->iso_year, 1, 1);
    out->iso_week = (uint8_t)((thursday - first) / 7 + 1);
    out->ordinal = (uint16_t)(of_year + 1);
    out->weekday = (uint8_t)of_week;
    out->sunday_based_week = (uint8_t)((of_year + 7 - (of_week + 1) % 7) / 7);
    out->monday_based_week = (uint8_t)((of_year + 7 - of_week) / 7);
    return MUXANDU_OK;
}

static inline uint32_t reference_date_from_julian_day(int32_t julian_day, MuxanduDate *out) {
    int64_t day = (int64_t)julian_day - 2440588;
    if (day < REFERENCE_FIRST_DAY || day > REFERENCE_LAST_DAY) return MUXANDU_REFUSED_DAY_NUMBER;
    *out = era_date(day);
    return MUXANDU_OK;
}

static inline uint32_t reference_date_add_days(MuxanduDate date, int32_t days, MuxanduDate *out) {
    int64_t day;
    REFUSE(reference_date_check(date));
    day = day_of_date(date) + days;
    if (day < REFERENCE_FIRST_DAY || day > REFERENCE_LAST_DAY) return MUXANDU_REFUSED_RESULT;
    *out = era_date(day);
    return MUXANDU_OK;
}

static inline uint32_t reference_date_add_months(MuxanduDate date, int32_t months, MuxanduDate *out) {
    int64_t year, month;
    REFUSE(reference_date_check(date));
    month = date.month - 1 + (int64_t)months;
    year = date.year + floor_divide(month, 12);
    month = month - floor_divide(month, 12) * 12 + 1;
    if (year < -REFERENCE_LAST_YEAR || year > REFERENCE_LAST_YEAR) return MUXANDU_REFUSED_RESULT;
    while (date.day > month_length((int32_t)year, (uint32_t)month)) date.day--;
    out->year = (int32_t)year;
    out->month = (uint8_t)month;
    out->day = date.day;
    return MUXANDU_OK;
}

static inline uint8_t at_most_255(uint32_t number) {
    return number > 255 ? 255 : (uint8_t)number;
}

static inline uint32_t reference_time_check(uint32_t hour, uint32_t minute, uint32_t second, uint32_t nanosecond) {
    MuxanduDateTime at = {1970, 1, 1, 0, 0, 0, nanosecond, 0};
    at.hour = at_most_255(hour);
    at.minute = at_most_255(minute);
    at.second = at_most_255(second);
    return reference_date_time_check(at);
}

/* The parts without their signs, and the sign of the first that is not 0. */
static inline uint32_t reference_offset_from_parts(MuxanduOffset parts, int32_t *out) {
    int hours = parts.hours < 0 ? -parts.hours : parts.hours;
    int minutes = parts.minutes < 0 ? -parts.minutes : parts.minutes;
    int seconds = parts.seconds < 0 ? -parts.seconds : parts.seconds;
    int first = parts.hours != 0 ? parts.hours : parts.minutes != 0 ? parts.minutes : parts.seconds;
    if (hours > 25) return MUXANDU_REFUSED_OFFSET_HOUR;
    if (minutes > 59) return MUXANDU_REFUSED_OFFSET_MINUTE;
    if (seconds > 59) return MUXANDU_REFUSED_OFFSET_SECONDS;
    *out = (hours * 3600 + minutes * 60 + seconds) * (first < 0 ? -1 : 1);
    return MUXANDU_OK;
}

static inline uint32_t reference_offset_to_parts(int32_t offset_seconds, MuxanduOffset *out) {
    REFUSE(reference_offset_check(offset_seconds));
    out->hours = (int8_t)(offset_seconds / 3600);
    out->minutes = (int8_t)(offset_seconds % 3600 / 60);
    out->seconds = (int8_t)(offset_seconds % 60);
    return MUXANDU_OK;
}

static inline int reference_leap(int32_t year) {
    return month_length(year, 2) == 29;
}

/* A part as a byte, and 255, which is no part, for another number. */
static inline uint8_t byte_of(int32_t value) {
    return value < 0 || value > 254 ? 255 : (uint8_t)value;
}

static inline uint32_t reference_date_time_replace(MuxanduDateTime at, uint32_t part, int32_t value,
                                                   MuxanduDateTime *out) {
    MuxanduDate date;
    REFUSE(reference_date_time_check(at));
    switch (part) {
    case MUXANDU_PART_YEAR: at.year = value; break;
    case MUXANDU_PART_MONTH: at.month = byte_of(value); break;
    case MUXANDU_PART_DAY: at.day = byte_of(value); break;
    case MUXANDU_PART_ORDINAL:
        if (value < 1 || value > 366) return MUXANDU_REFUSED_ORDINAL;
        if (value == 366 && !reference_leap(at.year)) return MUXANDU_REFUSED_ORDINAL_OF_YEAR;
        date = era_date(era_day(at.year, 1, 1) + value - 1);
        at.month = date.month;
        at.day = date.day;
        break;
    case MUXANDU_PART_HOUR: at.hour = byte_of(value); break;
    case MUXANDU_PART_MINUTE: at.minute = byte_of(value); break;
    case MUXANDU_PART_SECOND: at.second = byte_of(value); break;
    case MUXANDU_PART_NANOSECOND: at.nanosecond = value < 0 ? UINT32_MAX : (uint32_t)value; break;
    default: return MUXANDU_REFUSED_UNIT;
    }
    REFUSE(reference_date_time_check(at));
    *out = at;
    return MUXANDU_OK;
}

static inline uint32_t reference_timestamp_replace(MuxanduTimestamp at, uint32_t part, int32_t value,
                                                   MuxanduTimestamp *out) {
    MuxanduDateTime shown;
    REFUSE(reference_timestamp_check(at));
    shown = date_time_of(instant_of(at), 0);
    REFUSE(reference_date_time_replace(shown, part, value, &shown));
    return give_stamp(date_time_instant(shown), out);
}

#endif
