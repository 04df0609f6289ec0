/* The quickest conversions that were found, with the structs of the library for C and its tests, for measure/library_peers.cpp:
 *
 * - dates of days, and back, by Cassio Neri and Lorenz Schneider, Euclidean affine functions and their application to calendar
 *   algorithms (2022): sections 'to_date' and 'to_rata_die',
 * - texts of RFC 3339, written by a table of pairs of digits, and read sixteen bytes at a time by SSE4.1. */
#ifndef LIBRARY_PEERS_H
#define LIBRARY_PEERS_H

#include <stdint.h>
#include <string.h>

#include "muxandu.h"

/* What the range has: its seconds, its days, and the end of its years and offsets. */
static const int64_t PEER_FIRST_SECOND = -31619087596800, PEER_LAST_SECOND = 31494784780799;
static const int32_t PEER_FIRST_DAY = -365961662, PEER_LAST_DAY = 364522971;
static const int32_t PEER_LAST_YEAR = 999999, PEER_LAST_OFFSET = 93599;

/* The eras of 400 years that are added, so that no year and no day is negative. */
static const uint32_t PEER_ERAS = 2501, PEER_DAYS = 719468 + 146097 * 2501, PEER_YEARS = 400 * 2501;

static inline MuxanduDate peer_date_of_day(int32_t day) {
    uint32_t quarters = 4 * ((uint32_t)day + PEER_DAYS) + 3;
    uint32_t century = quarters / 146097, of_century = quarters % 146097 / 4;
    uint64_t product = (uint64_t)2939745 * (4 * of_century + 3);
    uint32_t of_year = (uint32_t)product / 2939745 / 4;
    uint32_t numerator = 2141 * of_year + 197913;
    uint32_t month = numerator >> 16, is_before_march = of_year >= 306;
    MuxanduDate date;
    date.year = (int32_t)(100 * century + (uint32_t)(product >> 32) - PEER_YEARS + is_before_march);
    date.month = (uint8_t)(is_before_march ? month - 12 : month);
    date.day = (uint8_t)((numerator & 0xffff) / 2141 + 1);
    return date;
}

static inline int32_t peer_day_of_date(int32_t year, uint32_t month, uint32_t day) {
    uint32_t is_before_march = month <= 2, years = (uint32_t)year + PEER_YEARS - is_before_march, century = years / 100;
    uint32_t from_march = is_before_march ? month + 12 : month;
    return (int32_t)(1461 * years / 4 - century + century / 4 + (979 * from_march - 2919) / 32 + day - 1 - PEER_DAYS);
}

static inline int peer_is_leap(int32_t year) {
    return year % 4 == 0 && (year % 100 != 0 || year % 16 == 0);
}

static inline int peer_is_date(int32_t year, uint32_t month, uint32_t day) {
    static const uint8_t lengths[16] = {0, 31, 28, 31, 30, 31, 30, 31, 31, 30, 31, 30, 31, 0, 0, 0};
    return month - 1 < 12 && day - 1 < (uint32_t)lengths[month & 15] + (month == 2 && peer_is_leap(year));
}

/* Whether it is a date-time of the range of the library. */
static inline int peer_is_date_time(const MuxanduDateTime *at) {
    return peer_is_date(at->year, at->month, at->day) && (uint32_t)(at->year + PEER_LAST_YEAR) <= 2 * PEER_LAST_YEAR &&
           at->hour < 24 && at->minute < 60 && at->second < 60 && at->nanosecond < 1000000000 &&
           (uint32_t)(at->offset_seconds + PEER_LAST_OFFSET) <= 2 * PEER_LAST_OFFSET;
}

static inline int peer_is_day(int32_t day) {
    return (uint32_t)(day - PEER_FIRST_DAY) <= (uint32_t)(PEER_LAST_DAY - PEER_FIRST_DAY);
}

static inline int peer_is_second(int64_t second) {
    return (uint64_t)(second - PEER_FIRST_SECOND) <= (uint64_t)(PEER_LAST_SECOND - PEER_FIRST_SECOND);
}

/* What clocks at an offset show at a second: 0 where the range has no such second, or no such clocks. */
static inline int peer_date_time_of(int64_t second, uint32_t nanosecond, int32_t offset, MuxanduDateTime *out) {
    uint64_t shown;
    uint32_t day, clock, minutes;
    MuxanduDate date;
    if (!peer_is_second(second) || !peer_is_second(second + offset)) return 0;
    /* 400,000,000 days, so that the number is not negative */
    shown = (uint64_t)(second + offset + 34560000000000);
    day = (uint32_t)(shown / 86400);
    clock = (uint32_t)(shown - (uint64_t)day * 86400);
    date = peer_date_of_day((int32_t)(day - 400000000));
    minutes = clock / 60;
    out->year = date.year;
    out->month = date.month;
    out->day = date.day;
    out->hour = (uint8_t)(minutes / 60);
    out->minute = (uint8_t)(minutes % 60);
    out->second = (uint8_t)(clock % 60);
    out->nanosecond = nanosecond;
    out->offset_seconds = offset;
    return 1;
}

/* The second of a date-time: 0 where it is none, or where the range has no such second. */
static inline int peer_second_of(const MuxanduDateTime *at, int64_t *out) {
    int64_t second;
    if (!peer_is_date_time(at)) return 0;
    second = (int64_t)peer_day_of_date(at->year, at->month, at->day) * 86400 + at->hour * 3600 + at->minute * 60 +
             at->second - at->offset_seconds;
    if (!peer_is_second(second)) return 0;
    *out = second;
    return 1;
}

/* The sum of a second, a nanosecond, and a duration of not more than the range, of one sign. */
static inline int peer_sum(int64_t *second, uint32_t *nanosecond, MuxanduDuration duration) {
    int64_t nanoseconds = (int64_t)*nanosecond + duration.nanoseconds;
    int64_t carry = (nanoseconds > 999999999) - (nanoseconds < 0);
    if (duration.seconds > PEER_LAST_SECOND - PEER_FIRST_SECOND ||
        duration.seconds < PEER_FIRST_SECOND - PEER_LAST_SECOND)
        return 0;
    *second += duration.seconds + carry;
    *nanosecond = (uint32_t)(nanoseconds - carry * 1000000000);
    return peer_is_second(*second);
}

/* The numbers 0 to 99, two digits each. */
static char PEER_PAIRS[200];

static inline void peer_fill_pairs(void) {
    int k;
    for (k = 0; k < 100; k++) {
        PEER_PAIRS[2 * k] = (char)('0' + k / 10);
        PEER_PAIRS[2 * k + 1] = (char)('0' + k % 10);
    }
}

static inline void peer_put_pair(char *out, uint32_t number) {
    memcpy(out, PEER_PAIRS + 2 * number, 2);
}

/* The size of the text of a date-time, which has room for 35 bytes: 0 where it has none. */
static inline size_t peer_write(const MuxanduDateTime *at, char *out) {
    uint32_t year = (uint32_t)at->year, size, minutes;
    char *end = out + 19;
    if (!peer_is_date_time(at) || year > 9999) return 0;
    peer_put_pair(out, year / 100);
    peer_put_pair(out + 2, year % 100);
    out[4] = '-';
    peer_put_pair(out + 5, at->month);
    out[7] = '-';
    peer_put_pair(out + 8, at->day);
    out[10] = 'T';
    peer_put_pair(out + 11, at->hour);
    out[13] = ':';
    peer_put_pair(out + 14, at->minute);
    out[16] = ':';
    peer_put_pair(out + 17, at->second);
    if (at->nanosecond != 0) {
        uint32_t first = at->nanosecond / 10000000, rest = at->nanosecond % 10000000;
        uint64_t digits;
        *end = '.';
        peer_put_pair(end + 1, first);
        peer_put_pair(end + 3, rest / 100000);
        peer_put_pair(end + 5, rest / 1000 % 100);
        peer_put_pair(end + 7, rest / 10 % 100);
        end[9] = (char)('0' + rest % 10);
        memcpy(&digits, end + 2, 8);
        digits ^= 0x3030303030303030;
        end += 10 - (digits != 0 ? __builtin_clzll(digits) / 8 : 8);
    }
    if (at->offset_seconds == 0) {
        *end = 'Z';
        return (size_t)(end + 1 - out);
    }
    size = (uint32_t)(at->offset_seconds < 0 ? -at->offset_seconds : at->offset_seconds);
    minutes = size / 60;
    if (minutes * 60 != size || minutes >= 1440) return 0;
    *end = at->offset_seconds < 0 ? '-' : '+';
    peer_put_pair(end + 1, minutes / 60);
    end[3] = ':';
    peer_put_pair(end + 4, minutes % 60);
    return (size_t)(end + 6 - out);
}

#ifdef __SSE4_1__
#include <smmintrin.h>

static inline int peer_is_digit(char byte) {
    return (uint8_t)(byte - '0') < 10;
}

/* The number of a fraction of up to nine digits in nanoseconds, and where it ends: NULL where it has no digit, or more. */
static inline const char *peer_fraction(const char *text, const char *end, uint32_t *out) {
    uint64_t digits = 0, others, weighted;
    size_t left = (size_t)(end - text), count;
    memcpy(&digits, text, left < 8 ? left : 8);
    digits ^= 0x3030303030303030;
    others = ((digits + 0x7676767676767676) | digits) & 0x8080808080808080;
    count = others != 0 ? (size_t)__builtin_ctzll(others) / 8 : 8;
    if (count == 0) return NULL;
    if (count < 8) digits &= ((uint64_t)1 << (8 * count)) - 1;
    digits = digits * 10 + (digits >> 8);
    weighted =
        (digits & 0x000000ff000000ff) * 0x000f424000000064 + (digits >> 16 & 0x000000ff000000ff) * 0x0000271000000001;
    *out = (uint32_t)(weighted >> 32) * 10;
    text += count;
    if (count < 8 || text == end || !peer_is_digit(*text)) return text;
    *out += (uint32_t)(*text - '0');
    return text + 1 == end || !peer_is_digit(text[1]) ? text + 1 : NULL;
}

/* The instant of a text with `T`, with `Z` or an offset, and of at most nine digits: 0 where it is none. */
static inline int peer_read(const char *text, size_t size, MuxanduTimestamp *out) {
    const __m128i marks = _mm_setr_epi8(0, 0, 0, 0, '-', 0, 0, '-', 0, 0, 'T', 0, 0, ':', 0, 0);
    const __m128i pairs = _mm_setr_epi8(0, 1, 2, 3, 5, 6, 8, 9, 11, 12, 14, 15, -1, -1, -1, -1);
    const __m128i weights = _mm_setr_epi8(10, 1, 10, 1, 10, 1, 10, 1, 10, 1, 10, 1, 0, 0, 0, 0);
    const char *end = text + size, *at = text + 19;
    uint32_t year, month, day, hour, minute, second, nanoseconds = 0;
    int32_t offset = 0;
    uint64_t low, high;
    __m128i bytes, digits, are_digits, are_marks, numbers;
    if (size < 20) return 0;
    bytes = _mm_loadu_si128((const __m128i *)text);
    digits = _mm_sub_epi8(bytes, _mm_set1_epi8('0'));
    are_digits = _mm_cmpeq_epi8(_mm_min_epu8(digits, _mm_set1_epi8(9)), digits);
    are_marks = _mm_cmpeq_epi8(bytes, marks);
    if ((_mm_movemask_epi8(are_digits) | 0x2490) != 0xffff || (_mm_movemask_epi8(are_marks) & 0x2490) != 0x2490)
        return 0;
    if (text[16] != ':' || !peer_is_digit(text[17]) || !peer_is_digit(text[18])) return 0;
    numbers = _mm_maddubs_epi16(_mm_shuffle_epi8(digits, pairs), weights);
    low = (uint64_t)_mm_cvtsi128_si64(numbers);
    high = (uint64_t)_mm_extract_epi64(numbers, 1);
    year = (uint32_t)(low & 0xffff) * 100 + (uint32_t)(low >> 16 & 0xffff);
    month = (uint32_t)(low >> 32 & 0xffff);
    day = (uint32_t)(low >> 48);
    hour = (uint32_t)(high & 0xffff);
    minute = (uint32_t)(high >> 16 & 0xffff);
    second = (uint32_t)(text[17] - '0') * 10 + (uint32_t)(text[18] - '0');
    if (!peer_is_date((int32_t)year, month, day) || hour > 23 || minute > 59 || second > 59) return 0;
    if (*at == '.') at = peer_fraction(at + 1, end, &nanoseconds);
    if (at == NULL || at == end) return 0;
    if (*at != 'Z' || end - at != 1) {
        uint32_t hours, minutes;
        if (end - at != 6 || (*at != '+' && *at != '-') || at[3] != ':') return 0;
        if (!peer_is_digit(at[1]) || !peer_is_digit(at[2]) || !peer_is_digit(at[4]) || !peer_is_digit(at[5])) return 0;
        hours = (uint32_t)(at[1] - '0') * 10 + (uint32_t)(at[2] - '0');
        minutes = (uint32_t)(at[4] - '0') * 10 + (uint32_t)(at[5] - '0');
        if (hours > 23 || minutes > 59) return 0;
        offset = (int32_t)(hours * 3600 + minutes * 60);
        if (*at == '-') offset = -offset;
    }
    out->seconds =
        (int64_t)peer_day_of_date((int32_t)year, month, day) * 86400 + hour * 3600 + minute * 60 + second - offset;
    out->nanoseconds = nanoseconds;
    return 1;
}
#endif

#endif
