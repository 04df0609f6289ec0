/* Calls of the library for C whose instructions gate/instructions counts: instructions_calls COUNT makes each call COUNT
 * times, or a call over COUNT items. Each row is a function of its own, by whose name the counts are found. The inputs are the
 * same at each run. Ends with 1 where a call does not succeed. */
#include <stdio.h>
#include <stdlib.h>

#include "muxandu.h"

enum { ITEMS = 1 << 13, PLACE = 40, OFFSETS = 6, STAMP = 20 };

static int64_t seconds[ITEMS], second_answers[ITEMS];
static int32_t days[ITEMS];
static MuxanduDate date_answers[ITEMS];
static MuxanduTimestamp stamps[ITEMS], stamp_answers[ITEMS];
static MuxanduMoment moments[ITEMS], moment_answers[ITEMS];
static MuxanduDateTime date_times[ITEMS], near_date_times[ITEMS], utc_date_times[ITEMS], date_time_answers[ITEMS];
static MuxanduSpan spans[ITEMS];
static char texts[ITEMS * PLACE], utc_texts[ITEMS * PLACE], text[MUXANDU_TEXT_ROOM];
static int32_t order;
static size_t size;

/* How many items a row goes over, and what the statuses of all calls are together: 0, which is MUXANDU_OK. */
static size_t count;
static uint32_t statuses;

static const MuxanduDuration HALF_DAY = {43200, 500000000};

/* A row of single calls. */
#define CALLS(name, call)                                                                                              \
    static void name(void) {                                                                                           \
        size_t k;                                                                                                      \
        for (k = 0; k < count; k++) statuses |= call;                                                                  \
    }

/* A row of one call over all items. */
#define BATCH(name, call)                                                                                              \
    static void name(void) {                                                                                           \
        statuses |= call.status;                                                                                       \
    }

CALLS(text_to_timestamp, muxandu_timestamp_from_rfc3339(texts + spans[k].start, spans[k].length, stamp_answers + k))
CALLS(text_to_date_time, muxandu_date_time_from_rfc3339(texts + spans[k].start, spans[k].length, date_time_answers + k))
CALLS(utc_text_to_timestamp, muxandu_timestamp_from_rfc3339(utc_texts + k * STAMP, STAMP, stamp_answers + k))
CALLS(timestamp_to_text, muxandu_timestamp_to_rfc3339(stamps[k], text, sizeof text, &size))
CALLS(date_time_to_text, muxandu_date_time_to_rfc3339(date_times[k], text, sizeof text, &size))
CALLS(utc_date_time_to_text, muxandu_date_time_to_rfc3339(utc_date_times[k], text, sizeof text, &size))
CALLS(date_time_to_timestamp, muxandu_timestamp_from_date_time(date_times[k], stamp_answers + k))
CALLS(timestamp_to_date_time, muxandu_date_time_from_timestamp(stamps[k], 3600, date_time_answers + k))
CALLS(timestamp_plus_duration, muxandu_timestamp_add(stamps[k], HALF_DAY, stamp_answers + k))
CALLS(timestamp_to_the_hour, muxandu_timestamp_truncate(stamps[k], MUXANDU_UNIT_HOUR, stamp_answers + k))
CALLS(timestamp_to_three_digits, muxandu_timestamp_truncate_digits(stamps[k], 3, stamp_answers + k))
CALLS(date_time_plus_duration, muxandu_date_time_add(date_times[k], HALF_DAY, date_time_answers + k))
CALLS(order_of_date_times, muxandu_date_time_compare(date_times[k], date_times[k ^ 1], &order))
CALLS(order_of_near, muxandu_date_time_compare(near_date_times[k], near_date_times[k ^ 1], &order))
BATCH(batch_of_seconds, muxandu_date_times_from_seconds(seconds, count, 3600, date_time_answers, ITEMS))
BATCH(batch_of_date_times, muxandu_seconds_from_date_times(date_times, count, second_answers, ITEMS))
BATCH(batch_of_days, muxandu_dates_from_days(days, count, date_answers, ITEMS))
BATCH(batch_to_the_hour, muxandu_moments_truncate(moments, count, MUXANDU_UNIT_HOUR, moment_answers, ITEMS))
BATCH(batch_to_the_millisecond,
      muxandu_moments_truncate(moments, count, MUXANDU_UNIT_MILLISECOND, moment_answers, ITEMS))
BATCH(batch_of_texts, muxandu_timestamps_from_rfc3339(texts, sizeof texts, spans, count, stamp_answers, ITEMS))

static void (*const ROWS[])(void) = {
    text_to_timestamp,       text_to_date_time,     utc_text_to_timestamp,     timestamp_to_text,
    date_time_to_text,       utc_date_time_to_text, date_time_to_timestamp,    timestamp_to_date_time,
    timestamp_plus_duration, timestamp_to_the_hour, timestamp_to_three_digits, date_time_plus_duration,
    order_of_date_times,     order_of_near,         batch_of_seconds,          batch_of_date_times,
    batch_of_days,           batch_to_the_hour,     batch_to_the_millisecond,  batch_of_texts,
};

/* Half of the seconds lie in the years 2017 to 2021, and half in the years 2 to 9998; near ones within two days. A text in four has
 * no fraction, one milliseconds, one microseconds, one nanoseconds. Those in UTC are of the years 2017 to 2021, of 20 bytes. */
static void fill(void) {
    static const int32_t offsets[OFFSETS] = {0, 3600, 7200, -18000, 19800, -12600};
    static const uint32_t units[] = {1000000000, 1000000, 1000, 1};
    MuxanduTimestamp near = {0, 0};
    uint64_t state = 88172645463325252u;
    size_t k;
    for (k = 0; k < ITEMS; k++) {
        uint32_t fraction, unit = units[k / 2 % 4];
        state ^= state << 13;
        state ^= state >> 7;
        state ^= state << 17;
        fraction = (uint32_t)(state >> 33) % 1000000000;
        seconds[k] = 1483228800 + (int64_t)(state % 157766400);
        stamps[k].seconds = seconds[k];
        statuses |= muxandu_date_time_from_timestamp(stamps[k], 0, utc_date_times + k);
        statuses |= muxandu_timestamp_to_rfc3339(stamps[k], utc_texts + k * STAMP, STAMP, &size);
        if (k % 2 != 0) seconds[k] = -62104060800 + (int64_t)(state % 315474912000);
        stamps[k].seconds = seconds[k];
        stamps[k].nanoseconds = fraction / unit * unit;
        statuses |= muxandu_date_time_from_timestamp(stamps[k], offsets[state % OFFSETS], date_times + k);
        days[k] = (int32_t)((seconds[k] + 62135596800) / 86400 - 719162);
        moments[k].seconds = seconds[k];
        moments[k].nanoseconds = fraction;
        moments[k].offset_seconds = offsets[state % OFFSETS];
        near.seconds = 1709164800 + (int64_t)(state >> 20) % 172800;
        statuses |= muxandu_date_time_from_timestamp(near, offsets[state % OFFSETS], near_date_times + k);
        spans[k].start = k * PLACE;
        statuses |= muxandu_date_time_to_rfc3339(date_times[k], texts + k * PLACE, PLACE, &spans[k].length);
    }
}

int main(int words, char **word) {
    size_t row;
    count = words > 1 ? (size_t)atoi(word[1]) : 0;
    if (count < 1 || count > ITEMS) return 2;
    fill();
    for (row = 0; row < sizeof ROWS / sizeof *ROWS; row++) ROWS[row]();
    if (statuses != MUXANDU_OK) printf("a call did not succeed: the statuses together are %u\n", (unsigned)statuses);
    return statuses != MUXANDU_OK;
}
