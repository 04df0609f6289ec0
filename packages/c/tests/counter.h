/* A counter of days: the dates of all days, counted one day at a time from -999999-01-01, by the
 * leap rule and the lengths of the months alone. That day was a Monday, as 1 January of the year
 * 1 was, since 400 years have 20,871 whole weeks. */
#ifndef COUNTER_H
#define COUNTER_H

#include <stdint.h>

/* The day numbers of -999999-01-01 and of 999999-12-31, and how many days there are. */
#define COUNTER_FIRST (-365961662)
#define COUNTER_LAST 364522971
#define COUNTER_DAYS 730484634

/* The days of 400 years, with which the calendar begins again. */
#define COUNTER_CYCLE 146097

/* A day number, 0 on 1970-01-01, its date, its day of the year, and its ISO week date, 0 for
 * Monday. */
typedef struct Counter {
    int32_t number;
    int32_t year;
    int32_t month;
    int32_t day;
    int32_t ordinal;
    int32_t week_year;
    int32_t week;
    int32_t weekday;
} Counter;

static const Counter COUNTER_START = {COUNTER_FIRST, -999999, 1, 1, 1, -999999, 1, 0};

static inline int counter_is_leap(int32_t year) {
    return year % 400 == 0 || (year % 4 == 0 && year % 100 != 0);
}

static inline int32_t counter_month_length(const Counter *at) {
    static const int32_t lengths[] = {31, 28, 31, 30, 31, 30, 31, 31, 30, 31, 30, 31};
    return lengths[at->month - 1] + (at->month == 2 && counter_is_leap(at->year));
}

/* Whether a Monday begins an ISO year: its Thursday is in January, and the Thursday before is
 * not. */
static inline int counter_begins_year(const Counter *at) {
    return (at->month == 12 && at->day >= 29) || (at->month == 1 && at->day <= 4);
}

/* Counts on by a day. */
static inline void count_day(Counter *at) {
    at->number++;
    at->ordinal++;
    if (++at->day > counter_month_length(at)) {
        at->day = 1;
        if (++at->month > 12) {
            at->month = 1;
            at->year++;
            at->ordinal = 1;
        }
    }
    if (++at->weekday == 7) {
        at->weekday = 0;
        at->week++;
        if (counter_begins_year(at)) {
            at->week = 1;
            at->week_year++;
        }
    }
}

/* The counter after a number of days: it skips whole spans of 400 years, and counts the other
 * days. */
static inline Counter counter_after(int64_t days) {
    Counter at = COUNTER_START;
    int32_t cycles = (int32_t)(days / COUNTER_CYCLE), left = (int32_t)(days % COUNTER_CYCLE);
    at.number += COUNTER_CYCLE * cycles;
    at.year += 400 * cycles;
    at.week_year += 400 * cycles;
    while (left-- > 0) count_day(&at);
    return at;
}

static inline int counter_is(const Counter *at, const Counter *other) {
    return at->number == other->number && at->year == other->year && at->month == other->month &&
           at->day == other->day && at->ordinal == other->ordinal && at->week_year == other->week_year &&
           at->week == other->week && at->weekday == other->weekday;
}

/* Whether 1970-01-01, a Thursday, and no other date has the number 0. */
static inline int counter_is_anchored(const Counter *at) {
    int is_first_of_1970 = at->year == 1970 && at->ordinal == 1;
    return is_first_of_1970 == (at->number == 0) && (!is_first_of_1970 || at->weekday == 3);
}

#endif
