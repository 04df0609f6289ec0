/* Walks over days by batches, and compares each with a counter that counts one day at a time: date,
 * day of the year, ISO week date, day of the week, and a second of the day at an offset, all both
 * ways.
 *
 * walk [COUNT [BEFORE]]
 *
 * It walks over COUNT days after the first BEFORE days; without a number over all 730,484,634.
 * It ends at the first batch with a day that is not so. The last line is 'N passed, M failed', a
 * day each. */
#include <stdlib.h>

#include "checks.h"
#include "counter.h"

enum { BATCH = 4096 };

/* The day that comes next. */
static Counter next;

static int is_day(int32_t day) {
    MuxanduDate of_month;
    MuxanduOrdinalDate of_year;
    MuxanduWeekDate of_week;
    MuxanduDateReads reads;
    int32_t first, second, third;
    uint8_t weekday;
    return counter_is_anchored(&next) && day == next.number && muxandu_date_from_day(day, &of_month) == MUXANDU_OK &&
           is_date(of_month, next.year, next.month, next.day) &&
           muxandu_ordinal_date_from_day(day, &of_year) == MUXANDU_OK && of_year.year == next.year &&
           of_year.ordinal == next.ordinal && muxandu_week_date_from_day(day, &of_week) == MUXANDU_OK &&
           of_week.year == next.week_year && of_week.week == next.week && of_week.weekday == next.weekday &&
           muxandu_weekday_from_day(day, &weekday) == MUXANDU_OK && weekday == next.weekday &&
           muxandu_day_from_date(of_month, &first) == MUXANDU_OK && first == day &&
           muxandu_day_from_ordinal_date(of_year, &second) == MUXANDU_OK && second == day &&
           muxandu_day_from_week_date(of_week, &third) == MUXANDU_OK && third == day &&
           muxandu_date_reads(of_month, &reads) == MUXANDU_OK && reads.day == day &&
           reads.julian_day == day + 2440588 && reads.iso_year == next.week_year && reads.iso_week == next.week &&
           reads.ordinal == next.ordinal && reads.weekday == next.weekday;
}

/* Compares the next days. */
static void walk(size_t count) {
    static int32_t days[BATCH], back[BATCH];
    static int64_t seconds[BATCH], seconds_back[BATCH];
    static MuxanduDate dates[BATCH];
    static MuxanduDateTime date_times[BATCH];
    int32_t day = next.number, offset_seconds = (day % 2003) * 46;
    int is_whole;
    size_t item;
    for (item = 0; item < count; item++) {
        days[item] = day + (int32_t)item;
        /* A second of the day at the offset, another one each day, and one whose instant is in
         * the range. */
        seconds[item] = (int64_t)days[item] * 86400 + (int64_t)(item * 21) % 86400 - offset_seconds;
        if (seconds[item] < FIRST || seconds[item] > LAST) seconds[item] = offset_seconds < 0 ? LAST : FIRST;
    }
    is_whole = muxandu_dates_from_days(days, count, dates, BATCH).count == count &&
               muxandu_days_from_dates(dates, count, back, BATCH).count == count &&
               memcmp(days, back, count * sizeof *days) == 0 &&
               muxandu_date_times_from_seconds(seconds, count, offset_seconds, date_times, BATCH).count == count &&
               muxandu_seconds_from_date_times(date_times, count, seconds_back, BATCH).count == count &&
               memcmp(seconds, seconds_back, count * sizeof *seconds) == 0;
    for (item = 0; item < count; item++) {
        uint32_t clock = (uint32_t)(item * 21) % 86400;
        MuxanduDateTime wanted = {next.year,
                                  (uint8_t)next.month,
                                  (uint8_t)next.day,
                                  (uint8_t)(clock / 3600),
                                  (uint8_t)(clock / 60 % 60),
                                  (uint8_t)(clock % 60),
                                  0,
                                  offset_seconds};
        int is_moved = seconds[item] == FIRST || seconds[item] == LAST;
        CHECK(is_whole && is_date(dates[item], next.year, next.month, next.day) &&
              (is_moved || is_date_time(date_times[item], wanted)) && is_day(days[item]));
        count_day(&next);
    }
}

/* Whether there is no day before the first and after the last: the counter ends at
 * 1000000-01-01, a Saturday. */
static int ends_there(void) {
    MuxanduDate unset;
    int is_end = next.year == 1000000 && next.ordinal == 1 && next.weekday == 5 && next.number == COUNTER_LAST + 1;
    return is_end && muxandu_date_from_day(COUNTER_FIRST - 1, &unset) == MUXANDU_REFUSED_DAY_NUMBER &&
           muxandu_date_from_day(COUNTER_LAST + 1, &unset) == MUXANDU_REFUSED_DAY_NUMBER;
}

int main(int words, char **word) {
    int64_t before = words > 2 ? atoll(word[2]) : 0;
    int64_t left = words > 1 ? atoll(word[1]) : COUNTER_DAYS;
    next = counter_after(before);
    while (left > 0 && failed == 0) {
        size_t count = left < BATCH ? (size_t)left : BATCH;
        walk(count);
        left -= (int64_t)count;
    }
    if (next.number > COUNTER_LAST && !ends_there()) failed++;
    return counted();
}
