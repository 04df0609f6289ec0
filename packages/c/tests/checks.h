/* What the programs of this folder share: how they count, and values in short. */
#ifndef CHECKS_H
#define CHECKS_H

#include <stdio.h>
#include <string.h>

#include "muxandu.h"

static int passed, failed;

static inline void tell_failure(const char *what, const char *file, int line) {
    failed++;
    printf("%s, line %d: not so: %s\n", file, line, what);
}

/* Counts a case, and tells of it where it does not hold. */
#define CHECK(holds) ((holds) ? (void)passed++ : tell_failure(#holds, __FILE__, __LINE__))

/* Prints the count, and gives what the program ends with. */
static inline int counted(void) {
    printf("%d passed, %d failed\n", passed, failed);
    return failed != 0 || passed == 0;
}

static const int64_t FIRST = -31619087596800, LAST = 31494784780799;

static inline MuxanduTimestamp stamp(int64_t seconds, uint32_t nanoseconds) {
    MuxanduTimestamp at = {seconds, nanoseconds};
    return at;
}

static inline MuxanduDuration length(int64_t seconds, int32_t nanoseconds) {
    MuxanduDuration duration = {seconds, nanoseconds};
    return duration;
}

static inline MuxanduDate date(int32_t year, uint8_t month, uint8_t day) {
    MuxanduDate value = {year, month, day};
    return value;
}

static inline MuxanduDateTime date_time(int32_t year, uint8_t month, uint8_t day, uint8_t hour, uint8_t minute,
                                        uint8_t second, uint32_t nanosecond, int32_t offset_seconds) {
    MuxanduDateTime at = {year, month, day, hour, minute, second, nanosecond, offset_seconds};
    return at;
}

/* Numbers as units and as parts, also where they are none. */
static inline MuxanduUnit unit_of(uint32_t number) {
    return MUXANDU_CAST(MuxanduUnit, number);
}

static inline MuxanduPart part_of(uint32_t number) {
    return MUXANDU_CAST(MuxanduPart, number);
}

static inline int is_stamp(MuxanduTimestamp at, int64_t seconds, uint32_t nanoseconds) {
    return at.seconds == seconds && at.nanoseconds == nanoseconds;
}

static inline int is_length(MuxanduDuration duration, int64_t seconds, int32_t nanoseconds) {
    return duration.seconds == seconds && duration.nanoseconds == nanoseconds;
}

static inline int is_date(MuxanduDate value, int32_t year, int month, int day) {
    return value.year == year && value.month == month && value.day == day;
}

static inline int is_date_time(MuxanduDateTime a, MuxanduDateTime b) {
    int is_day = a.year == b.year && a.month == b.month && a.day == b.day;
    int is_clock = a.hour == b.hour && a.minute == b.minute && a.second == b.second && a.nanosecond == b.nanosecond;
    return is_day && is_clock && a.offset_seconds == b.offset_seconds;
}

static inline int is_text(const char *bytes, size_t size, const char *text) {
    return size == strlen(text) && memcmp(bytes, text, size) == 0;
}

/* Whether the library's own text of a date-time is this one. */
static inline int shows(MuxanduDateTime at, const char *text) {
    char bytes[MUXANDU_TEXT_ROOM];
    size_t size = 0;
    return muxandu_date_time_text(at, bytes, sizeof bytes, &size) == MUXANDU_OK && is_text(bytes, size, text);
}

#endif
