/* Random calls of all kinds, each compared with the calendar of reference.h: status, what is written,
 * and what is not.
 *
 * random [COUNT [SEED]]
 *
 * The last line is 'N passed, M failed', a call each. */
#include <stdlib.h>

#include "checks.h"
#include "reference.h"
#include "reference_dates.h"

static uint64_t state;

static uint64_t next(void) {
    state ^= state << 13;
    state ^= state >> 7;
    state ^= state << 17;
    return state;
}

/* One of so many, 0 first. */
static uint32_t one_of(uint32_t count) {
    return (uint32_t)((next() >> 32) % count);
}

/* A number from low to high. */
static int64_t between(int64_t low, int64_t high) {
    return low + (int64_t)(next() % ((uint64_t)(high - low) + 1));
}

/* A number near one of two ends, outside or inside. */
static int64_t near(int64_t low, int64_t high) {
    return (one_of(2) ? low : high) + between(-2, 2);
}

static int64_t some_second(void) {
    switch (one_of(16)) {
    case 0: return near(FIRST, LAST);
    case 1: return near(FIRST + 93599, LAST - 93599);
    case 2: return between(-2, 2);
    case 3: return one_of(8) ? between(FIRST, LAST) : (int64_t)next();
    case 4:
    case 5:
    case 6:
    case 7: return between(-2208988800, 4102444800);
    case 8: return between(-62167219200 - 86400, -62167219200 + 86400);
    case 9: return between(253402300800 - 86400, 253402300800 + 86400);
    default: return between(FIRST, LAST);
    }
}

static uint32_t some_nanosecond(void) {
    switch (one_of(16)) {
    case 0: return (uint32_t)near(2, 999999999);
    case 1: return one_of(4) ? one_of(1000) * 1000000 : (uint32_t)next();
    case 2:
    case 3:
    case 4: return 0;
    default: return one_of(1000000000);
    }
}

/* One in eight has the second of the one before it, and one in eight is near 1970. */
static MuxanduTimestamp some_stamp(void) {
    static int64_t last;
    MuxanduTimestamp at = {some_second(), some_nanosecond()};
    if (one_of(8) == 0) at.seconds = last;
    if (one_of(8) == 0) at.seconds >>= one_of(24);
    last = at.seconds;
    return at;
}

static int32_t some_offset(void) {
    switch (one_of(16)) {
    case 0: return (int32_t)near(-93599, 93599);
    case 1: return one_of(4) ? (int32_t)between(-93599, 93599) : (int32_t)next();
    case 2:
    case 3: return 0;
    case 4:
    case 5:
    case 6:
    case 7: return (int32_t)between(-1439, 1439) * 60;
    default: return (int32_t)between(-93599, 93599);
    }
}

static int32_t some_year(void) {
    return one_of(8) ? (int32_t)between(-999999, 999999) : one_of(8) ? (int32_t)near(-999999, 999999) : (int32_t)next();
}

static MuxanduDateTime some_date_time(void) {
    MuxanduDateTime at;
    MuxanduTimestamp instant = some_stamp();
    if (reference_date_time_from_timestamp(instant, some_offset(), &at) != MUXANDU_OK) at = date_time_of(0, 0);
    if (one_of(16) == 0) at.offset_seconds = some_offset();
    if (one_of(16) == 0) at = date_time_of(one_of(2) ? reference_first() : reference_last(), some_offset());
    if (one_of(8) != 0) return at;
    switch (one_of(8)) {
    case 0: at.year = some_year(); break;
    case 1: at.month = (uint8_t)one_of(16); break;
    case 2: at.day = (uint8_t)(27 + one_of(6)); break;
    case 3: at.day = (uint8_t)next(); break;
    case 4: at.hour = (uint8_t)next(); break;
    case 5: at.minute = (uint8_t)next(); break;
    case 6: at.second = (uint8_t)next(); break;
    default: at.nanosecond = (uint32_t)next(); break;
    }
    return at;
}

static MuxanduDate some_date(void) {
    MuxanduDateTime at = some_date_time();
    return date(at.year, at.month, at.day);
}

static int32_t some_day(void) {
    if (one_of(8)) return (int32_t)between(REFERENCE_FIRST_DAY, REFERENCE_LAST_DAY);
    return one_of(4) ? (int32_t)near(REFERENCE_FIRST_DAY, REFERENCE_LAST_DAY) : (int32_t)next();
}

static MuxanduDuration some_duration(void) {
    MuxanduDuration duration = {0, (int32_t)between(-999999999, 999999999)};
    switch (one_of(8)) {
    case 0: duration.seconds = (int64_t)next(); break;
    case 1:
        duration.seconds = one_of(2) ? INT64_MAX : INT64_MIN;
        duration.nanoseconds = (int32_t)next();
        break;
    case 2: duration.seconds = between(-2, 2); break;
    case 3: duration.seconds = between(-400, 400) * 86400; break;
    default: duration.seconds = between(FIRST, LAST) * (one_of(2) ? 1 : -1); break;
    }
    return duration;
}

/* A number of 32 bits for a month or a part of a time of day, which may have one in its lowest
 * byte. */
static uint32_t some_wide(void) {
    uint32_t number = one_of(8) ? one_of(61) >> one_of(4) : one_of(256);
    return one_of(8) ? number : ((uint32_t)next() & ~(uint32_t)255) | number;
}

static uint32_t some_digits(void) {
    return one_of(8) ? one_of(11) : (uint32_t)next();
}

static uint32_t some_part(void) {
    return one_of(16) ? 1 + one_of(8) : (uint32_t)next() >> one_of(32);
}

static int32_t some_days(void) {
    return (int32_t)((int64_t)next() >> (32 + one_of(32)));
}

static int64_t some_count(void) {
    return (int64_t)next() >> one_of(40);
}

static int32_t some_julian_day(void) {
    return one_of(2) ? (int32_t)between(-363521074 - 2, 366963559 + 2) : some_day();
}

static MuxanduOffset some_parts_of_offset(void) {
    MuxanduOffset parts = {(int8_t)between(-26, 26), (int8_t)between(-60, 60), (int8_t)between(-60, 60)};
    if (one_of(8) == 0) parts.hours = one_of(2) ? 0 : (int8_t)next();
    if (one_of(8) == 0) parts.minutes = one_of(2) ? 0 : (int8_t)next();
    return parts;
}

static uint32_t some_unit(void) {
    return one_of(16) ? 1 + one_of(7) : one_of(2) ? one_of(10) : (uint32_t)next();
}

static MuxanduOrdinalDate some_ordinal_date(void) {
    MuxanduOrdinalDate value = {some_year(), (uint16_t)(1 + one_of(366))};
    if (one_of(4) == 0) value.ordinal = (uint16_t)(364 + one_of(4));
    if (one_of(8) == 0) value.ordinal = (uint16_t)next();
    return value;
}

static MuxanduWeekDate some_week_date(void) {
    MuxanduWeekDate value = {some_year(), (uint8_t)(1 + one_of(53)), (uint8_t)one_of(7)};
    if (one_of(8) == 0) value.week = (uint8_t)next();
    if (one_of(8) == 0) value.weekday = (uint8_t)next();
    if (one_of(8) == 0) {
        value.year = 999999;
        value.week = (uint8_t)(51 + one_of(3));
    }
    return value;
}

/* A value for a part, mostly one that it can have. */
static int32_t some_value(uint32_t part) {
    static const int32_t most[] = {31, 999999, 12, 31, 366, 23, 59, 59, 999999999};
    if (part == MUXANDU_PART_YEAR) return some_year();
    if (one_of(16) == 0) return (int32_t)next();
    return (int32_t)between(one_of(8) ? 1 : -1, part < 9 ? most[part] + (one_of(8) == 0) : 1);
}

static int same_stamp(MuxanduTimestamp a, MuxanduTimestamp b) {
    return is_stamp(a, b.seconds, b.nanoseconds);
}

static int same_date(MuxanduDate a, MuxanduDate b) {
    return is_date(a, b.year, b.month, b.day);
}

static int same_number(int64_t a, int64_t b) {
    return a == b;
}

static void tell(const char *call, int is_same) {
    if (is_same) {
        passed++;
    } else if (++failed <= 20) {
        printf("call %d: %s answers other than the reference\n", passed + failed, call);
    }
}

#include "random_calls.h"

/* Whether a text was written as it must: status, bytes, what is behind them, and the size. */
static int is_written(uint32_t status, const char *buffer, size_t room, size_t size, uint32_t refused, const char *text,
                      size_t whole) {
    size_t place;
    if (refused != MUXANDU_OK) whole = 7;
    if (refused == MUXANDU_OK && whole > room) refused = MUXANDU_REFUSED_BUFFER;
    if (status != refused || size != whole) return 0;
    for (place = 0; place < REFERENCE_ROOM; place++) {
        if (buffer[place] != (refused == MUXANDU_OK && place < whole ? text[place] : 'x')) return 0;
    }
    return 1;
}

#define COMPARE_TEXT(call, value, refused, whole)                                                                      \
    do {                                                                                                               \
        char buffer[REFERENCE_ROOM], text[REFERENCE_ROOM];                                                             \
        size_t size = 7, room = one_of(8) ? MUXANDU_TEXT_ROOM : one_of(REFERENCE_ROOM + 1), wanted = 7;                \
        uint32_t refusal = refused, status;                                                                            \
        memset(buffer, 'x', sizeof buffer);                                                                            \
        if (refusal == MUXANDU_OK) wanted = whole;                                                                     \
        if (refusal == MUXANDU_OK && wanted == 0) refusal = MUXANDU_REFUSED_NO_TEXT;                                   \
        status = muxandu_##call(value, buffer, room, &size);                                                           \
        tell(#call, is_written(status, buffer, room, size, refusal, text, wanted));                                    \
    } while (0)

/* The digits that the next text has, and the call with them. */
static uint32_t digits_of_texts;
#define muxandu_date_time_to_rfc3339_digits(value, buffer, room, size)                                                 \
    muxandu_date_time_to_rfc3339_digits(value, digits_of_texts, buffer, room, size)

static void compare_texts(uint32_t kind) {
    MuxanduDateTime date_time = some_date_time(), in_utc = date_time_of(0, 0);
    MuxanduTimestamp at = some_stamp();
    uint32_t refused;
    if (one_of(2))
        date_time =
            date_time_of((Nanoseconds)between(-62167219200, 253402300799) * 1000000000 + some_nanosecond() % 1000000000,
                         some_offset());
    if (one_of(2)) at.seconds = between(-62167219200 - 86400, 253402300799 + 86400);
    refused = reference_timestamp_check(at);
    if (refused == MUXANDU_OK) in_utc = date_time_of(instant_of(at), 0);
    switch (kind) {
    case 0:
        COMPARE_TEXT(date_time_text, date_time, reference_date_time_check(date_time),
                     reference_date_time_text(date_time, text));
        break;
    case 1: COMPARE_TEXT(timestamp_text, at, refused, reference_timestamp_text(at, text)); break;
    case 2:
        COMPARE_TEXT(date_time_to_rfc3339, date_time, reference_date_time_check(date_time),
                     reference_to_rfc3339(date_time, text));
        break;
    case 3: COMPARE_TEXT(timestamp_to_rfc3339, at, refused, reference_to_rfc3339(in_utc, text)); break;
    case 4: {
        digits_of_texts = one_of(8) ? one_of(11) : some_digits();
        COMPARE_TEXT(date_time_to_rfc3339_digits, date_time, reference_date_time_check(date_time),
                     reference_to_rfc3339_digits(date_time, digits_of_texts, text));
        break;
    }
    default: COMPARE_TEXT(timestamp_to_rfc3339_nanos, at, refused, reference_to_rfc3339_nanos(in_utc, text)); break;
    }
}

/* A text of RFC 3339 spelled in a random way, one in four of them spoiled, with a byte 0 behind
 * its end. */
static size_t some_text(char *out) {
    MuxanduDateTime at =
        date_time_of((Nanoseconds)between(-62167219200, 253402300799) * 1000000000 + some_nanosecond() % 1000000000,
                     (int32_t)between(-1439, 1439) * 60);
    size_t size = one_of(4) ? reference_to_rfc3339(at, out) : reference_to_rfc3339_nanos(at, out);
    if (size == 0) size = reference_to_rfc3339(date_time_of(0, 0), out);
    out[size] = 0;
    if (one_of(4) == 0) out[10] = "t "[one_of(2)];
    if (one_of(4) == 0 && out[size - 1] == 'Z') out[size - 1] = 'z';
    if (one_of(4) == 0) out[one_of((uint32_t)size)] = "0123456789:.-+TZ x"[one_of(18)];
    if (one_of(16) == 0) {
        size = one_of((uint32_t)size);
        out[size] = 0;
    }
    return size;
}

static void compare_reading(int is_date_time_wanted) {
    char text[REFERENCE_ROOM];
    size_t size = some_text(text);
    MuxanduDateTime date_time = date_time_of(7, 7), wanted = date_time;
    MuxanduTimestamp at = stamp(7, 7), instant = at;
    if (is_date_time_wanted) {
        uint32_t status = muxandu_date_time_from_rfc3339(text, size, &date_time);
        tell("date_time_from_rfc3339",
             status == reference_date_time_from_rfc3339(text, &wanted) && is_date_time(date_time, wanted));
    } else {
        uint32_t status = muxandu_timestamp_from_rfc3339(text, size, &at);
        tell("timestamp_from_rfc3339",
             status == reference_timestamp_from_rfc3339(text, &instant) && same_stamp(at, instant));
    }
}

/* The text of the last second of a month in UTC, or of a second a minute, an hour or a day
 * beside it. */
static size_t last_second_of_month(char *out) {
    static const int64_t beside[] = {0, 0, 0, 60, -60, 3600, -3600, 86400, -86400};
    MuxanduDateTime at = date_time_of((Nanoseconds)between(-62167219200, 253402300799) * 1000000000, 0);
    Nanoseconds last = (Nanoseconds)(era_day(at.year, at.month, 1) * 86400 - 1 + beside[one_of(9)]) * 1000000000;
    int32_t offset = one_of(4) ? (int32_t)between(-1439, 1439) * 60 : 0;
    size_t size = reference_to_rfc3339(
        date_time_of(last + offset * (Nanoseconds)1000000000 + some_nanosecond() % 1000000000, offset), out);
    if (size == 0) size = reference_to_rfc3339(date_time_of(0, 0), out);
    out[size] = 0;
    return size;
}

/* The same texts with more behind them, with a second of 60, and where they are at fault. */
static void compare_other_reading(uint32_t kind) {
    static const char *const behind[] = {"", " done", "0", ".", "Z", "+01:00", "1970-01-01T00:00:00Z"};
    char text[2 * REFERENCE_ROOM];
    size_t size = some_text(text), length = 7, wanted_length = 7;
    MuxanduDateTime date_time = date_time_of(7, 7), wanted = date_time;
    uint8_t is_leap = 7, wanted_leap = 7;
    uint32_t status;
    if (kind == 0) {
        if (size < 35) strcpy(text + size, behind[one_of(7)]);
        status = muxandu_date_time_from_rfc3339_front(text, strlen(text), &date_time, &length);
        tell("date_time_from_rfc3339_front",
             status == reference_date_time_from_rfc3339_front(text, &wanted, &wanted_length) &&
                 is_date_time(date_time, wanted) && length == wanted_length);
    } else if (kind == 1) {
        if (one_of(2)) size = last_second_of_month(text);
        if (size > 18 && one_of(2)) memcpy(text + 17, "60", 2);
        status = muxandu_date_time_from_rfc3339_leap(text, size, &date_time, &is_leap);
        tell("date_time_from_rfc3339_leap",
             status == reference_date_time_from_rfc3339_leap(text, &wanted, &wanted_leap) &&
                 is_date_time(date_time, wanted) && is_leap == wanted_leap);
    } else {
        if (size > 0 && one_of(2)) text[one_of((uint32_t)size)] = "0123456789:.-+TZ x"[one_of(18)];
        tell("rfc3339_fault", muxandu_rfc3339_fault(text, size) == reference_rfc3339_fault(text));
    }
}

/* A date and a text of one, one in two of them spoiled. */
static void compare_dates_as_texts(int is_read) {
    char text[REFERENCE_ROOM];
    MuxanduDate value = some_date(), ours = {7, 7, 7}, theirs = ours;
    uint32_t status;
    if (one_of(4)) value.year = (int32_t)one_of(10001) - 1;
    if (!is_read) {
        COMPARE_TEXT(date_to_rfc3339, value, reference_date_check(value), reference_date_to_rfc3339(value, text));
        return;
    }
    sprintf(text, "%04d-%02d-%02d", (int)one_of(10000), (int)one_of(14), (int)one_of(33));
    if (one_of(2) == 0) text[one_of(11)] = "0123456789:.-+TZ x"[one_of(18)];
    text[10] = 0;
    if (one_of(8) == 0) text[one_of(10)] = 0;
    status = muxandu_date_from_rfc3339(text, strlen(text), &ours);
    tell("date_from_rfc3339",
         status == reference_date_from_rfc3339(text, &theirs) && is_date(ours, theirs.year, theirs.month, theirs.day));
}

enum { MOST_ITEMS = 13 };

/* Compares a batch with calls of the reference, item by item: `one` converts item k into
 * theirs[k]. */
#define COMPARE_BATCH(type, same, name, batch, one)                                                                    \
    do {                                                                                                               \
        type ours[MOST_ITEMS], theirs[MOST_ITEMS];                                                                     \
        MuxanduBatch done;                                                                                             \
        size_t k = 0;                                                                                                  \
        uint32_t status = MUXANDU_OK;                                                                                  \
        int is_same = 1;                                                                                               \
        memset(ours, 7, sizeof ours);                                                                                  \
        memcpy(theirs, ours, sizeof ours);                                                                             \
        if (room < count) status = MUXANDU_REFUSED_BUFFER;                                                             \
        while (status == MUXANDU_OK && k < count) {                                                                    \
            status = one;                                                                                              \
            if (status == MUXANDU_OK) k++;                                                                             \
        }                                                                                                              \
        done = batch;                                                                                                  \
        is_same = done.count == k && done.status == status;                                                            \
        for (k = 0; k < MOST_ITEMS; k++) is_same = is_same && same(ours[k], theirs[k]);                                \
        tell(name, is_same);                                                                                           \
    } while (0)

static uint32_t second_of(MuxanduDateTime date_time, int64_t *out) {
    MuxanduTimestamp at;
    REFUSE(reference_timestamp_from_date_time(date_time, &at));
    *out = at.seconds;
    return MUXANDU_OK;
}

/* What batches are made of: the items, the offset and the place for results, and texts with their spans, one in so many of
 * which lies outside the block. */
static int64_t seconds[MOST_ITEMS], counts[MOST_ITEMS];
static int32_t days[MOST_ITEMS], offset;
static MuxanduDateTime date_times[MOST_ITEMS];
static MuxanduDate dates[MOST_ITEMS];
static char texts[MOST_ITEMS][REFERENCE_ROOM];
static MuxanduSpan spans[MOST_ITEMS];
static size_t count, room, statuses_room;

static size_t some_room(void) {
    return one_of(16) ? count + one_of(2) * one_of((uint32_t)(MOST_ITEMS - count) + 1) : one_of(MOST_ITEMS + 1);
}

static void fill_items(void) {
    size_t item;
    count = one_of(MOST_ITEMS + 1);
    room = some_room();
    statuses_room = some_room();
    offset = some_offset();
    for (item = 0; item < MOST_ITEMS; item++) {
        seconds[item] = some_second();
        days[item] = some_day();
        date_times[item] = some_date_time();
        dates[item] = some_date();
    }
}

static void fill_texts(uint32_t one_outside) {
    size_t item;
    count = one_of(MOST_ITEMS + 1);
    room = some_room();
    statuses_room = some_room();
    for (item = 0; item < MOST_ITEMS; item++) {
        spans[item].start = item * REFERENCE_ROOM;
        spans[item].length = some_text(texts[item]);
        if (one_of(one_outside) == 0)
            spans[item].start = one_of(2) ? sizeof texts : sizeof texts + 1 + ((size_t)next() >> one_of(64));
    }
}

/* The error of a span that was moved, or 0. */
static uint32_t refused_span(size_t k) {
    if (spans[k].start == k * REFERENCE_ROOM) return MUXANDU_OK;
    return spans[k].start == sizeof texts && spans[k].length == 0 ? MUXANDU_REFUSED_SYNTAX : MUXANDU_REFUSED_SPAN;
}

/* What each unit below the second counts as an instant, and back. */
static uint32_t from_count(uint32_t unit, int64_t count, MuxanduTimestamp *out) {
    if (unit == 0) return reference_timestamp_from_milliseconds(count, out);
    *out = unit == 1 ? reference_timestamp_from_microseconds(count) : reference_timestamp_from_nanoseconds(count);
    return MUXANDU_OK;
}

static uint32_t to_count(uint32_t unit, MuxanduTimestamp at, int64_t *out) {
    if (unit == 0) return reference_timestamp_to_milliseconds(at, out);
    return unit == 1 ? reference_timestamp_to_microseconds(at, out) : reference_timestamp_to_nanoseconds(at, out);
}

static uint32_t shown_at_count(uint32_t unit, int64_t count, int32_t offset, MuxanduDateTime *out) {
    MuxanduTimestamp at;
    REFUSE(from_count(unit, count, &at));
    return reference_date_time_from_timestamp(at, offset, out);
}

static uint32_t count_of(uint32_t unit, MuxanduDateTime date_time, int64_t *out) {
    MuxanduTimestamp at;
    REFUSE(reference_timestamp_from_date_time(date_time, &at));
    return to_count(unit, at, out);
}

static MuxanduBatch (*const SHOWN[])(const int64_t *, size_t, int32_t, MuxanduDateTime *, size_t) = {
    muxandu_date_times_from_milliseconds, muxandu_date_times_from_microseconds, muxandu_date_times_from_nanoseconds};
static MuxanduBatch (*const COUNTED_OF[])(const MuxanduDateTime *, size_t, int64_t *, size_t) = {
    muxandu_milliseconds_from_date_times, muxandu_microseconds_from_date_times, muxandu_nanoseconds_from_date_times};

static void fill_counts(uint32_t unit) {
    size_t item;
    fill_items();
    if (one_of(8)) offset = (int32_t)one_of(7200) - 3600;
    for (item = 0; item < MOST_ITEMS; item++) {
        counts[item] = one_of(16) ? (int64_t)((uint64_t)some_second() * 1000 + one_of(1000)) : (int64_t)next();
        if (one_of(2) && unit == 2) date_times[item].year = 1678 + (int32_t)one_of(580);
    }
}

/* Compares a batch that goes on after refusals with calls of the reference: each item has a
 * status. */
#define COMPARE_EACH(type, same, name, batch, one)                                                                     \
    do {                                                                                                               \
        type ours[MOST_ITEMS], theirs[MOST_ITEMS];                                                                     \
        uint32_t statuses[MOST_ITEMS], wanted[MOST_ITEMS];                                                             \
        MuxanduBatch done;                                                                                             \
        size_t k, converted = 0;                                                                                       \
        int has_room = room >= count && statuses_room >= count, is_same;                                               \
        memset(ours, 7, sizeof ours);                                                                                  \
        memcpy(theirs, ours, sizeof ours);                                                                             \
        memset(statuses, 7, sizeof statuses);                                                                          \
        memcpy(wanted, statuses, sizeof statuses);                                                                     \
        for (k = 0; has_room && k < count; k++) {                                                                      \
            wanted[k] = one;                                                                                           \
            converted += wanted[k] == MUXANDU_OK;                                                                      \
        }                                                                                                              \
        done = batch;                                                                                                  \
        is_same = done.count == converted && done.status == (has_room ? 0 : (uint32_t)MUXANDU_REFUSED_BUFFER);         \
        for (k = 0; k < MOST_ITEMS; k++) is_same = is_same && same(ours[k], theirs[k]) && statuses[k] == wanted[k];    \
        tell(name, is_same);                                                                                           \
    } while (0)

/* A batch of any kind. */
static void compare_batch(uint32_t kind) {
    static const char *const shown[] = {"date_times_from_milliseconds", "date_times_from_microseconds",
                                        "date_times_from_nanoseconds"},
                             *const counted_of[] = {"milliseconds_from_date_times", "microseconds_from_date_times",
                                                    "nanoseconds_from_date_times"};
    const uint32_t unit = kind % 3;
    if (kind < 6)
        fill_counts(unit);
    else if (kind < 12)
        fill_items();
    else
        fill_texts(kind < 14 ? 64 : 16);
    switch (kind) {
    case 0:
    case 1:
    case 2:
        COMPARE_BATCH(MuxanduDateTime, is_date_time, shown[unit], SHOWN[unit](counts, count, offset, ours, room),
                      shown_at_count(unit, counts[k], offset, theirs + k));
        break;
    case 3:
    case 4:
    case 5:
        COMPARE_BATCH(int64_t, same_number, counted_of[unit], COUNTED_OF[unit](date_times, count, ours, room),
                      count_of(unit, date_times[k], theirs + k));
        break;
    case 6:
        COMPARE_BATCH(MuxanduDateTime, is_date_time, "date_times_from_seconds",
                      muxandu_date_times_from_seconds(seconds, count, offset, ours, room),
                      reference_date_time_from_timestamp(stamp(seconds[k], 0), offset, theirs + k));
        break;
    case 7:
        COMPARE_BATCH(int64_t, same_number, "seconds_from_date_times",
                      muxandu_seconds_from_date_times(date_times, count, ours, room),
                      second_of(date_times[k], theirs + k));
        break;
    case 8:
        COMPARE_BATCH(MuxanduDate, same_date, "dates_from_days", muxandu_dates_from_days(days, count, ours, room),
                      reference_date_from_day(days[k], theirs + k));
        break;
    case 9:
        COMPARE_BATCH(int32_t, same_number, "days_from_dates", muxandu_days_from_dates(dates, count, ours, room),
                      reference_day_from_date(dates[k], theirs + k));
        break;
    case 10:
        COMPARE_EACH(MuxanduDateTime, is_date_time, "date_times_from_each_second",
                     muxandu_date_times_from_each_second(seconds, count, offset, ours, room, statuses, statuses_room),
                     reference_date_time_from_timestamp(stamp(seconds[k], 0), offset, theirs + k));
        break;
    case 11:
        COMPARE_EACH(int64_t, same_number, "seconds_from_each_date_time",
                     muxandu_seconds_from_each_date_time(date_times, count, ours, room, statuses, statuses_room),
                     second_of(date_times[k], theirs + k));
        break;
    case 12:
        COMPARE_BATCH(MuxanduTimestamp, same_stamp, "timestamps_from_rfc3339",
                      muxandu_timestamps_from_rfc3339(texts[0], sizeof texts, spans, count, ours, room),
                      refused_span(k) ? refused_span(k) : reference_timestamp_from_rfc3339(texts[k], theirs + k));
        break;
    case 13:
        COMPARE_BATCH(MuxanduDateTime, is_date_time, "date_times_from_rfc3339",
                      muxandu_date_times_from_rfc3339(texts[0], sizeof texts, spans, count, ours, room),
                      refused_span(k) ? refused_span(k) : reference_date_time_from_rfc3339(texts[k], theirs + k));
        break;
    default:
        COMPARE_EACH(MuxanduDateTime, is_date_time, "date_times_from_each_rfc3339",
                     muxandu_date_times_from_each_rfc3339(texts[0], sizeof texts, spans, count, ours, room, statuses,
                                                          statuses_room),
                     refused_span(k) ? refused_span(k) : reference_date_time_from_rfc3339(texts[k], theirs + k));
        break;
    }
}

/* A date-time that has a text, mostly. */
static MuxanduDateTime some_written(void) {
    if (one_of(16) == 0) return some_date_time();
    return date_time_of((Nanoseconds)between(-62167219200, 253402300799) * 1000000000 + some_nanosecond() % 1000000000,
                        one_of(16) ? (int32_t)between(-1439, 1439) * 60 : some_offset());
}

/* Texts written into one block, which is now and then too short for the last of them. */
static void compare_block_of_texts(void) {
    char written[MOST_ITEMS * 36], wanted[MOST_ITEMS * 36], text[REFERENCE_ROOM];
    MuxanduSpan wanted_spans[MOST_ITEMS];
    size_t block = one_of(2) ? sizeof written : one_of(sizeof written + 1), start = 0, item;
    uint32_t status;
    MuxanduBatch done;
    fill_items();
    status = room < count ? MUXANDU_REFUSED_BUFFER : MUXANDU_OK;
    for (item = 0; item < MOST_ITEMS; item++) date_times[item] = some_written();
    memset(written, 'x', sizeof written);
    memset(wanted, 'x', sizeof wanted);
    memset(spans, 7, sizeof spans);
    memset(wanted_spans, 7, sizeof wanted_spans);
    for (item = 0; status == MUXANDU_OK && item < count; item++) {
        size_t length;
        status = reference_date_time_check(date_times[item]);
        if (status != MUXANDU_OK) break;
        length = reference_to_rfc3339(date_times[item], text);
        if (length == 0 || start + length > block) {
            status = length == 0 ? MUXANDU_REFUSED_NO_TEXT : MUXANDU_REFUSED_BUFFER;
            break;
        }
        memcpy(wanted + start, text, length);
        wanted_spans[item].start = start;
        wanted_spans[item].length = length;
        start += length;
    }
    done = muxandu_date_times_to_rfc3339(date_times, count, written, block, spans, room);
    tell("date_times_to_rfc3339", done.count == item && done.status == status &&
                                      memcmp(written, wanted, sizeof written) == 0 &&
                                      memcmp(spans, wanted_spans, sizeof spans) == 0);
}

/* A call of any kind, each as often as another. */
static void compare_one(void) {
    const uint32_t tried = sizeof TRIED / sizeof *TRIED;
    uint32_t kind = one_of(tried + 29);
    if (kind < tried) {
        TRIED[kind]();
        return;
    }
    kind -= tried;
    if (kind < 15) {
        compare_batch(kind);
    } else if (kind < 21) {
        compare_texts(kind - 15);
    } else if (kind < 23) {
        compare_dates_as_texts(kind == 21);
    } else if (kind < 26) {
        compare_other_reading(kind - 23);
    } else if (kind < 28) {
        compare_reading(kind == 26);
    } else {
        compare_block_of_texts();
    }
}

int main(int words, char **word) {
    long count = words > 1 ? atol(word[1]) : 1000000;
    state = 88172645463325252u + (words > 2 ? strtoull(word[2], NULL, 10) * 2654435761u : 0);
    while (count-- > 0) compare_one();
    return counted();
}
