/* Prints lines for times_bench about days, or compares its answers with a counter of days.
 *
 *     day_lines ask COUNT BEFORE
 *     day_lines compare COUNT BEFORE
 *     day_lines count
 *
 * The first two walk over COUNT days after the first BEFORE days. They ask for the text of each day's first second, for the text
 * and the date of its last nanosecond, and with its date for its Unix second, day of the year, week date and Julian day. At an
 * end of the range they also ask for the second that is out of it. `compare` ends at the first wrong answer; its last line is 'N
 * passed, M failed', a day each. `count` counts all days one by one, and sees that the counter begins each 400 years as the
 * others begin there: a case each. */
#include <stdio.h>
#include <stdlib.h>
#include <string.h>

#include "../packages/c/tests/counter.h"

/* The most bytes of the lines of a day, and of their answers. */
enum { MOST = 512, ROOM = 1 << 16 };

static const char *const WEEKDAYS[] = {"Monday", "Tuesday", "Wednesday", "Thursday", "Friday", "Saturday", "Sunday"};

static char *put_text(char *at, const char *text) {
    size_t size = strlen(text);
    memcpy(at, text, size);
    return at + size;
}

/* Writes a number with zeros in front of it up to the least count of digits. */
static char *put_number(char *at, int64_t number, int least) {
    char digits[24];
    int count = 0;
    uint64_t left = number < 0 ? 0 - (uint64_t)number : (uint64_t)number;
    if (number < 0) *at++ = '-';
    while (left > 0 || count < least) {
        digits[count++] = (char)('0' + left % 10);
        left /= 10;
    }
    while (count > 0) *at++ = digits[--count];
    return at;
}

static char *put_date(char *at, const Counter *day) {
    if (day->year > 9999) *at++ = '+';
    at = put_number(at, day->year, 4);
    *at++ = '-';
    at = put_number(at, day->month, 2);
    *at++ = '-';
    return put_number(at, day->day, 2);
}

static char *put_lines(char *at, const Counter *day) {
    int64_t first = (int64_t)day->number * 86400;
    if (day->number == COUNTER_FIRST) at = put_text(put_number(put_text(at, "unix "), first - 1, 1), "\n");
    at = put_number(put_text(at, "unix "), first, 1);
    at = put_text(put_number(put_text(at, "\nstamp "), first + 86399, 1), " 999999999\nrun 43200 0 replace_date=");
    at = put_number(at, day->year, 1);
    *at++ = ',';
    at = put_number(at, day->month, 1);
    *at++ = ',';
    at = put_text(put_number(at, day->day, 1), " ordinal to_iso_week_date to_julian_day\n");
    if (day->number == COUNTER_LAST) at = put_text(put_number(put_text(at, "unix "), first + 86400, 1), "\n");
    return at;
}

static char *put_answers(char *at, const Counter *day) {
    static const char outside[] = "refused timestamp\n";
    char date[32], *end = put_date(date, day);
    *end = 0;
    if (day->number == COUNTER_FIRST) at = put_text(at, outside);
    at = put_text(put_text(at, date), " 0:00:00.0 +00\n");
    at = put_number(put_text(put_text(at, date), " 23:59:59.999999999 +00 "), day->ordinal, 1);
    *at++ = ' ';
    at = put_text(at, WEEKDAYS[day->weekday]);
    *at++ = ' ';
    at = put_number(at, (int64_t)day->number + 2440588, 1);
    *at++ = '\n';
    at = put_number(put_text(put_text(at, date), " 12:00:00.0; "), day->ordinal, 1);
    at = put_number(put_text(at, "; "), day->week_year, 1);
    *at++ = ' ';
    at = put_number(at, day->week, 1);
    *at++ = ' ';
    at = put_text(put_text(at, WEEKDAYS[day->weekday]), "; ");
    at = put_number(at, (int64_t)day->number + 2440588, 1);
    at = put_number(put_text(at, "; end "), (int64_t)day->number * 86400 + 43200, 1);
    *at++ = '\n';
    if (day->number == COUNTER_LAST) at = put_text(at, outside);
    return at;
}

static int ask(int64_t count, Counter day) {
    static char room[ROOM];
    char *at = room;
    for (; count > 0; count--) {
        at = put_lines(at, &day);
        count_day(&day);
        if (at - room > ROOM - MOST || count == 1) {
            if (fwrite(room, 1, (size_t)(at - room), stdout) != (size_t)(at - room)) return 1;
            at = room;
        }
    }
    return fflush(stdout) != 0;
}

/* Prints what must come for a day, and what came. */
static void tell(const Counter *day, const char *wanted, const char *found, size_t size) {
    printf("day %d: must be\n%s", day->number, wanted);
    printf("and is\n%.*s\n", (int)size, found);
}

static int compare(int64_t count, Counter day) {
    static char found[MOST];
    char wanted[MOST];
    int64_t passed = 0;
    int is_so = 1;
    for (; is_so && passed < count; passed += is_so) {
        char *end = put_answers(wanted, &day);
        size_t size = (size_t)(end - wanted), got = fread(found, 1, size, stdin);
        *end = 0;
        is_so = got == size && memcmp(wanted, found, size) == 0 && counter_is_anchored(&day);
        if (!is_so) tell(&day, wanted, found, got);
        count_day(&day);
    }
    if (is_so && fread(found, 1, 1, stdin) != 0) {
        puts("there are more answers than lines");
        is_so = 0;
    }
    if (is_so && day.number > COUNTER_LAST && !(day.year == 1000000 && day.ordinal == 1 && day.weekday == 5)) {
        puts("the counter does not end at 1000000-01-01, a Saturday");
        is_so = 0;
    }
    printf("%lld passed, %d failed\n", (long long)passed, !is_so);
    return !is_so || passed == 0;
}

/* Counts from the first day to the last, one by one. */
static int count_all(void) {
    Counter day = COUNTER_START;
    int64_t days;
    int passed = 0, failed = 0;
    for (days = 0; days < COUNTER_DAYS; days++) {
        if (days % COUNTER_CYCLE == 0) {
            Counter there = counter_after(days);
            counter_is(&day, &there) ? passed++ : failed++;
        }
        failed += !counter_is_anchored(&day);
        count_day(&day);
    }
    printf("%d passed, %d failed\n", passed, failed);
    return failed != 0;
}

int main(int words, char **word) {
    if (words == 2 && strcmp(word[1], "count") == 0) return count_all();
    if (words == 4 && strcmp(word[1], "ask") == 0) return ask(atoll(word[2]), counter_after(atoll(word[3])));
    if (words == 4 && strcmp(word[1], "compare") == 0) return compare(atoll(word[2]), counter_after(atoll(word[3])));
    fprintf(stderr, "usage: %s ask|compare COUNT BEFORE | count\n", word[0]);
    return 2;
}
