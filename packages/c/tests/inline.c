/* Tries the calls that are written in the header itself over the whole range of each number that they
 * take, and compares each answer with a plain reference that counts in 128 bits.
 *
 * inline [--names | NAME [STEP] | STEP]
 *
 * A range has all values of a number of 32 bits; the other numbers are valid. A number of 64
 * bits has all values of its lower half, each with three values of its upper half, and all
 * values of its upper half, each with three of its lower half. Dates, months with days, and
 * times of day have all combinations. NAME tries one range. With STEP it tries one value in STEP
 * of a range, and those next to an end; a range of at most 2^24 values is tried whole. The last
 * line is 'N passed, M failed', a value each. */
#define _POSIX_C_SOURCE 200809L

#include <limits.h>
#include <stdio.h>
#include <stdlib.h>
#include <string.h>
#include <time.h>

#include "muxandu_time.h"

#include "counter.h"

__extension__ typedef __int128 Wide;

/* How many failures are printed, and how near to an end a value is always tried. */
enum { SHOWN = 10, NEAR = 4096 };

static const int64_t FIRST_SECOND = -31619087596800, LAST_SECOND = 31494784780799;
static const uint64_t WHOLE = (uint64_t)1 << 32;

static uint64_t passed, failed;

static void count(int is_so, const char *name, uint64_t point) {
    passed += (uint64_t)is_so;
    if (is_so) return;
    failed++;
    if (failed <= SHOWN) printf("%s, value %llu: not so\n", name, (unsigned long long)point);
}

/* A number of 64 bits in two's complement, by its halves, and one of 32 bits. */
static int64_t joined(uint32_t upper, uint32_t lower) {
    return (int64_t)((uint64_t)upper << 32 | lower);
}

static int32_t signed_of(uint64_t point) {
    return (int32_t)(uint32_t)point;
}

/* The number of 64 bits for a point below six times 2^32: each lower half with the upper halves
 * of the ends of the range and of 0, and each upper half with their lower halves. */
static int64_t sixth(uint64_t point) {
    static const int64_t corners[] = {-31619087596800, 31494784780799, 0};
    uint32_t half = (uint32_t)(point % WHOLE);
    uint64_t corner = (uint64_t)corners[point / WHOLE % 3];
    return point / WHOLE < 3 ? joined((uint32_t)(corner >> 32), half) : joined(half, (uint32_t)corner);
}

static int is_second(int64_t seconds) {
    return seconds >= FIRST_SECOND && seconds <= LAST_SECOND;
}

static MuxanduStatus refusal_of_instant(int64_t seconds, int64_t nanoseconds) {
    if (!is_second(seconds)) return MUXANDU_REFUSED_TIMESTAMP;
    return nanoseconds < 0 || nanoseconds >= 1000000000 ? MUXANDU_REFUSED_NANOSECOND : MUXANDU_OK;
}

static Wide instant(int64_t seconds, int64_t nanoseconds) {
    return (Wide)seconds * 1000000000 + nanoseconds;
}

static int is_from_timespec(int64_t seconds, int64_t nanoseconds) {
    struct timespec from;
    MuxanduTimestamp at = {-7, 77};
    MuxanduStatus wanted = refusal_of_instant(seconds, nanoseconds), status;
    memset(&from, 0, sizeof from);
    from.tv_sec = seconds;
    from.tv_nsec = nanoseconds;
    status = muxandu_timestamp_from_timespec(&from, &at);
    if (status != MUXANDU_OK) return status == wanted && at.seconds == -7 && at.nanoseconds == 77;
    return wanted == MUXANDU_OK && instant(at.seconds, at.nanoseconds) == instant(seconds, nanoseconds) &&
           at.nanoseconds < 1000000000;
}

static int is_to_timespec(int64_t seconds, uint32_t nanoseconds) {
    struct timespec to;
    MuxanduTimestamp at = {seconds, nanoseconds};
    MuxanduStatus wanted = refusal_of_instant(seconds, nanoseconds), status;
    memset(&to, 0, sizeof to);
    to.tv_sec = -7;
    to.tv_nsec = 77;
    status = muxandu_timespec_from_timestamp(at, &to);
    if (status != MUXANDU_OK) return status == wanted && to.tv_sec == -7 && to.tv_nsec == 77;
    return wanted == MUXANDU_OK && instant(to.tv_sec, to.tv_nsec) == instant(seconds, nanoseconds) && to.tv_nsec >= 0 &&
           to.tv_nsec < 1000000000;
}

static int timespec_seconds(uint64_t point) {
    return is_from_timespec(sixth(point), 999999999);
}

/* All lower halves of tv_nsec with the upper halves 0 and -1, and all its upper halves with
 * lower ones that are in order by themselves and that are not. */
static int timespec_nanoseconds(uint64_t point) {
    static const uint32_t lower[] = {0, 999999999, 1000000000};
    uint32_t half = (uint32_t)(point % WHOLE);
    uint64_t turn = point / WHOLE;
    return is_from_timespec(LAST_SECOND,
                            turn < 2 ? joined(turn == 0 ? 0 : UINT32_MAX, half) : joined(half, lower[turn - 2]));
}

static int timestamp_seconds(uint64_t point) {
    return is_to_timespec(sixth(point), 1);
}

static int timestamp_nanoseconds(uint64_t point) {
    return is_to_timespec(FIRST_SECOND, (uint32_t)point);
}

/* The parts of a date-time, each as any whole number. */
typedef struct Parts {
    int64_t year, month, day, hour, minute, second, nanosecond, offset_seconds;
} Parts;

/* A Thursday, which is day 4 of a struct tm. */
static const Parts LEAP_DAY = {2024, 2, 29, 23, 59, 58, 999999999, -93599};
static const int LEAP_WEEKDAY = 4;

static int64_t days_of_month(int64_t year, int64_t month) {
    if (month == 2) return year % 400 == 0 || (year % 4 == 0 && year % 100 != 0) ? 29 : 28;
    return month == 4 || month == 6 || month == 9 || month == 11 ? 30 : 31;
}

static MuxanduStatus refusal_of_parts(const Parts *at) {
    if (at->month < 1 || at->month > 12) return MUXANDU_REFUSED_MONTH;
    if (at->year < -999999 || at->year > 999999) return MUXANDU_REFUSED_YEAR;
    if (at->day < 1 || at->day > 31) return MUXANDU_REFUSED_DAY;
    if (at->day > days_of_month(at->year, at->month)) return MUXANDU_REFUSED_DAY_OF_MONTH;
    if (at->hour < 0 || at->hour > 23) return MUXANDU_REFUSED_HOUR;
    if (at->minute < 0 || at->minute > 59) return MUXANDU_REFUSED_MINUTE;
    if (at->second < 0 || at->second > 59) return MUXANDU_REFUSED_SECOND;
    if (at->nanosecond < 0 || at->nanosecond > 999999999) return MUXANDU_REFUSED_NANOSECOND;
    return at->offset_seconds < -93599 || at->offset_seconds > 93599 ? MUXANDU_REFUSED_OFFSET_SECONDS : MUXANDU_OK;
}

static int has_parts(const MuxanduDateTime *at, const Parts *wanted) {
    return at->year == wanted->year && at->month == wanted->month && at->day == wanted->day &&
           at->hour == wanted->hour && at->minute == wanted->minute && at->second == wanted->second &&
           at->nanosecond == wanted->nanosecond && at->offset_seconds == wanted->offset_seconds;
}

/* Whether the call refuses, or gives the date-time of a struct tm with these parts. Its year is
 * counted from 1900 and its month from 0. */
static int is_from_tm(const Parts *parts) {
    static const Parts before = {7, 7, 7, 7, 7, 7, 7, 7};
    struct tm from;
    MuxanduDateTime at = {7, 7, 7, 7, 7, 7, 7, 7};
    MuxanduStatus wanted = refusal_of_parts(parts), status;
    memset(&from, 0x55, sizeof from);
    from.tm_year = (int)(parts->year - 1900);
    from.tm_mon = (int)(parts->month - 1);
    from.tm_mday = (int)parts->day;
    from.tm_hour = (int)parts->hour;
    from.tm_min = (int)parts->minute;
    from.tm_sec = (int)parts->second;
    status = muxandu_date_time_from_tm(&from, (uint32_t)parts->nanosecond, (int32_t)parts->offset_seconds, &at);
    return status == wanted && has_parts(&at, status == MUXANDU_OK ? parts : &before);
}

/* Whether the call refuses, or gives the struct tm with these parts and 0 in all others. The day
 * of the week is counted from Sunday on; one below 0 is not known, and then it and the day of
 * the year may be any. */
static int is_to_tm(const Parts *parts, int weekday, int ordinal) {
    MuxanduDateTime at;
    struct tm to, right, before;
    MuxanduStatus wanted = refusal_of_parts(parts), status;
    memset(&at, 0, sizeof at);
    at.year = (int32_t)parts->year;
    at.month = (uint8_t)parts->month;
    at.day = (uint8_t)parts->day;
    at.hour = (uint8_t)parts->hour;
    at.minute = (uint8_t)parts->minute;
    at.second = (uint8_t)parts->second;
    at.nanosecond = (uint32_t)parts->nanosecond;
    at.offset_seconds = (int32_t)parts->offset_seconds;
    memset(&to, 0x55, sizeof to);
    before = to;
    status = muxandu_tm_from_date_time(at, &to);
    if (status != MUXANDU_OK) return status == wanted && memcmp(&to, &before, sizeof to) == 0;
    memset(&right, 0, sizeof right);
    right.tm_year = (int)(parts->year - 1900);
    right.tm_mon = (int)(parts->month - 1);
    right.tm_mday = (int)parts->day;
    right.tm_hour = (int)parts->hour;
    right.tm_min = (int)parts->minute;
    right.tm_sec = (int)parts->second;
    right.tm_wday = weekday < 0 ? to.tm_wday : weekday;
    right.tm_yday = weekday < 0 ? to.tm_yday : ordinal - 1;
    right.tm_isdst = -1;
    return wanted == MUXANDU_OK && memcmp(&to, &right, sizeof to) == 0;
}

/* The parts that are each number of 32 bits: the part, that number for it, and the call that takes it. */
#define EACH_PART(each)                                                                                                \
    each(tm_year, year, (int64_t)signed_of(point) + 1900,                                                              \
         is_from_tm(&at)) each(tm_month, month, (int64_t)signed_of(point) + 1, is_from_tm(&at))                        \
        each(tm_day, day, signed_of(point), is_from_tm(&at)) each(tm_hour, hour, signed_of(point), is_from_tm(&at))    \
            each(tm_minute, minute, signed_of(point), is_from_tm(&at)) each(tm_second, second, signed_of(point),       \
                                                                            is_from_tm(&at))                           \
                each(tm_nanosecond, nanosecond, (uint32_t)point,                                                       \
                     is_from_tm(&at)) each(tm_offset, offset_seconds, signed_of(point), is_from_tm(&at))               \
                    each(date_time_year, year, signed_of(point), is_to_tm(&at, -1, 0))                                 \
                        each(date_time_nanosecond, nanosecond, (uint32_t)point, is_to_tm(&at, LEAP_WEEKDAY, 60))       \
                            each(date_time_offset, offset_seconds, signed_of(point), is_to_tm(&at, LEAP_WEEKDAY, 60))
#define TRIED_PART(name, part, number, is_so)                                                                          \
    static int name(uint64_t point) {                                                                                  \
        Parts at = LEAP_DAY;                                                                                           \
        at.part = number;                                                                                              \
        return is_so;                                                                                                  \
    }
#define RANGE_OF_PART(name, part, number, is_so) {#name, (uint64_t)1 << 32, name},

EACH_PART(TRIED_PART)

/* Each byte of a month with each of a day, in years of each kind and around the ends of the
 * range; in a struct tm also numbers that do not fit a byte. */
static const int64_t YEARS[] = {2023, 2024, 1900, 2000, 0, -1, -4, -100, -999999, 999999, -1000000, 1000000};
enum { YEAR_COUNT = sizeof YEARS / sizeof *YEARS };

static int months_with_days(uint64_t point) {
    Parts at = LEAP_DAY;
    at.year = YEARS[point / 1048576];
    at.month = (int64_t)(point / 1024 % 1024) - 512;
    at.day = (int64_t)(point % 1024) - 512;
    return is_from_tm(&at) && (at.month < 0 || at.month > 255 || at.day < 0 || at.day > 255 || is_to_tm(&at, -1, 0));
}

static int times_of_day(uint64_t point) {
    Parts at = LEAP_DAY;
    at.hour = (int64_t)(point / 65536);
    at.minute = (int64_t)(point / 256 % 256);
    at.second = (int64_t)(point % 256);
    return is_from_tm(&at) && is_to_tm(&at, LEAP_WEEKDAY, 60);
}

/* A day of the range, both ways. The counter counts to a later day from that of the last call. */
static int dates(uint64_t point) {
    static Counter day;
    Parts at = LEAP_DAY;
    int64_t left = (int64_t)point - ((int64_t)day.number - COUNTER_FIRST);
    if (day.month == 0 || left < 0 || left > COUNTER_CYCLE) {
        day = counter_after((int64_t)point);
        left = 0;
    }
    for (; left > 0; left--) count_day(&day);
    at.year = day.year;
    at.month = day.month;
    at.day = day.day;
    return counter_is_anchored(&day) && is_from_tm(&at) && is_to_tm(&at, (day.weekday + 1) % 7, day.ordinal);
}

/* The range of each name: how many values it has, and how one is tried. */
static const struct Range {
    const char *name;
    uint64_t values;
    int (*is_so)(uint64_t point);
} RANGES[] = {
    {"timespec_seconds", (uint64_t)6 << 32, timespec_seconds},
    {"timespec_nanoseconds", (uint64_t)5 << 32, timespec_nanoseconds},
    {"timestamp_seconds", (uint64_t)6 << 32, timestamp_seconds},
    {"timestamp_nanoseconds", (uint64_t)1 << 32, timestamp_nanoseconds},
    EACH_PART(RANGE_OF_PART){"months_with_days", (uint64_t)YEAR_COUNT << 20, months_with_days},
    {"times_of_day", (uint64_t)1 << 24, times_of_day},
    {"dates", COUNTER_DAYS, dates},
};
enum { RANGE_COUNT = sizeof RANGES / sizeof *RANGES };

static void walk(const struct Range *range, uint64_t step) {
    uint64_t point;
    if (range->values <= (uint64_t)1 << 24) step = 1;
    for (point = 0; point < range->values; point += step) count(range->is_so(point), range->name, point);
}

/* Tries the values around 0, 10^9 and 2^31 in each half of a range that a walk with steps passes
 * over. */
static void walk_ends(const struct Range *range) {
    static const uint64_t ends[] = {0, 1000000000, (uint64_t)1 << 31};
    uint64_t block, point;
    size_t end;
    for (block = 0; block < range->values / WHOLE; block++) {
        for (end = 0; end < sizeof ends / sizeof *ends; end++) {
            for (point = 0; point < 2 * NEAR; point++) {
                uint64_t value = block * WHOLE + (ends[end] + point + WHOLE - NEAR) % WHOLE;
                count(range->is_so(value), range->name, value);
            }
        }
    }
}

int main(int words, char **word) {
    const char *name = words > 1 && (word[1][0] < '0' || word[1][0] > '9') ? word[1] : "";
    uint64_t step = words > 1 + (*name != 0) ? strtoull(word[1 + (*name != 0)], NULL, 10) : 1;
    int range;
    if (step == 0) return 2;
    for (range = 0; range < RANGE_COUNT; range++) {
        if (strcmp(name, "--names") == 0) {
            printf("%s\n", RANGES[range].name);
        } else if (*name == 0 || strcmp(name, RANGES[range].name) == 0) {
            walk(&RANGES[range], step);
            if (step > 1) walk_ends(&RANGES[range]);
        }
    }
    if (strcmp(name, "--names") == 0) return 0;
    printf("%llu passed, %llu failed\n", (unsigned long long)passed, (unsigned long long)failed);
    return failed != 0 || passed == 0;
}
