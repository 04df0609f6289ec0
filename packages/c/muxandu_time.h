/* SPDX-License-Identifier: MIT OR Apache-2.0
 *
 * The structs of time.h, both ways, by calls of muxandu.h. Your compiler compiles these four,
 * and no proof covers them; they answer by proved calls. They fail as those calls do, and then
 * leave 'out' as it was. */
#ifndef MUXANDU_TIME_H
#define MUXANDU_TIME_H

#include <string.h>
#include <time.h>

#include "muxandu.h"

#ifdef __cplusplus
extern "C" {
#endif

#if (defined(__STDC_VERSION__) && __STDC_VERSION__ >= 201112L) || (defined(__cplusplus) && __cplusplus >= 201703L) ||  \
    defined(_POSIX_C_SOURCE)
#define MUXANDU_HAS_TIMESPEC 1

/* The instant of a struct timespec. Refused TIMESTAMP, then NANOSECOND. */
MUXANDU_NODISCARD
MUXANDU_INLINE MuxanduStatus muxandu_timestamp_from_timespec(const struct timespec *from,
                                                             MuxanduTimestamp *out) MUXANDU_NOEXCEPT {
    MuxanduTimestamp at;
    MuxanduStatus status;
    at.seconds = from->tv_sec;
    at.nanoseconds =
        from->tv_nsec < 0 || from->tv_nsec > 999999999 ? UINT32_MAX : MUXANDU_CAST(uint32_t, from->tv_nsec);
    status = muxandu_timestamp_check(at);
    if (status == MUXANDU_OK) *out = at;
    return status;
}

/* The struct timespec of an instant. Refused as the timestamp, then RESULT if time_t has 32 bits
 * and does not hold the second. */
MUXANDU_NODISCARD
MUXANDU_INLINE MuxanduStatus muxandu_timespec_from_timestamp(MuxanduTimestamp at,
                                                             struct timespec *out) MUXANDU_NOEXCEPT {
    MuxanduStatus status = muxandu_timestamp_check(at);
    if (status != MUXANDU_OK) return status;
    if (sizeof(time_t) < sizeof at.seconds && (at.seconds < INT32_MIN || at.seconds > INT32_MAX)) {
        return MUXANDU_REFUSED_RESULT;
    }
    out->tv_sec = at.seconds;
    out->tv_nsec = at.nanoseconds;
    return MUXANDU_OK;
}
#endif

/* A part of a struct tm as a byte, and 255, which is no part, for another number. */
MUXANDU_INLINE uint8_t muxandu_part_of_tm(int part) MUXANDU_NOEXCEPT {
    return part < 0 || part > 254 ? 255 : MUXANDU_CAST(uint8_t, part);
}

/* Returns the date-time of a struct tm, with a nanosecond and an offset, which it does not have.
 * The call does not read its days of the week and of the year or its tm_isdst. It fails as
 * muxandu_date_time_check does. */
MUXANDU_NODISCARD
MUXANDU_INLINE MuxanduStatus muxandu_date_time_from_tm(const struct tm *from, uint32_t nanosecond,
                                                       int32_t offset_seconds, MuxanduDateTime *out) MUXANDU_NOEXCEPT {
    MuxanduDateTime at;
    MuxanduStatus status;
    at.year = from->tm_year > INT32_MAX - 1900 ? INT32_MAX : from->tm_year + 1900;
    at.month = MUXANDU_CAST(uint8_t, from->tm_mon < 0 || from->tm_mon > 11 ? 0 : from->tm_mon + 1);
    at.day = muxandu_part_of_tm(from->tm_mday);
    at.hour = muxandu_part_of_tm(from->tm_hour);
    at.minute = muxandu_part_of_tm(from->tm_min);
    at.second = muxandu_part_of_tm(from->tm_sec);
    at.nanosecond = nanosecond;
    at.offset_seconds = offset_seconds;
    status = muxandu_date_time_check(at);
    if (status == MUXANDU_OK) *out = at;
    return status;
}

/* The struct tm of what clocks show, with its days of the week and of the year; tm_isdst is -1,
 * since it is not known, and what else the struct has is 0. Refused as the date-time. */
MUXANDU_NODISCARD
MUXANDU_INLINE MuxanduStatus muxandu_tm_from_date_time(MuxanduDateTime at, struct tm *out) MUXANDU_NOEXCEPT {
    MuxanduDate date;
    MuxanduDateReads reads;
    MuxanduStatus status = muxandu_date_time_check(at);
    if (status != MUXANDU_OK) return status;
    date.year = at.year;
    date.month = at.month;
    date.day = at.day;
    status = muxandu_date_reads(date, &reads);
    if (status != MUXANDU_OK) return status;
    memset(out, 0, sizeof *out);
    out->tm_year = at.year - 1900;
    out->tm_mon = at.month - 1;
    out->tm_mday = at.day;
    out->tm_hour = at.hour;
    out->tm_min = at.minute;
    out->tm_sec = at.second;
    out->tm_wday = reads.weekday == 6 ? 0 : reads.weekday + 1;
    out->tm_yday = reads.ordinal - 1;
    out->tm_isdst = -1;
    return MUXANDU_OK;
}

#ifdef __cplusplus
}
#endif

#endif
