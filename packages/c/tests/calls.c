/* Calls beside others, where a table of rows is not enough: batches beside single calls, each offset beside each other, and
 * the structs of the library of C. The program that make/cases writes makes each call. */
#include "checks.h"

#include "muxandu_time.h"
#include "zone_file.h"

static const MuxanduDateTime JUNK = {1, 2, 3, 4, 5, 6, 7, 8};

/* The wall clocks at both ends of the range, at five offsets each: which others show the
 * instant. */
static void ends_at_offsets(void) {
    static const int32_t offsets[] = {-93599, -1, 0, 1, 93599};
    size_t from, to;
    for (from = 0; from < sizeof offsets / sizeof *offsets; from++) {
        MuxanduDateTime first = date_time(-999999, 1, 1, 0, 0, 0, 0, offsets[from]),
                        last = date_time(999999, 12, 31, 23, 59, 59, 999999999, offsets[from]), out;
        MuxanduTimestamp at;
        CHECK((muxandu_timestamp_from_date_time(first, &at) == MUXANDU_OK) == (offsets[from] <= 0));
        CHECK((muxandu_timestamp_from_date_time(last, &at) == MUXANDU_OK) == (offsets[from] >= 0));
        for (to = 0; to < sizeof offsets / sizeof *offsets; to++) {
            CHECK((muxandu_date_time_to_offset(first, offsets[to], &out) == MUXANDU_OK) ==
                  (offsets[to] >= offsets[from]));
            CHECK((muxandu_date_time_to_offset(last, offsets[to], &out) == MUXANDU_OK) ==
                  (offsets[to] <= offsets[from]));
        }
    }
}

static void structs_of_the_c_library(void) {
    static const int64_t seconds[] = {0, -1, 951782399, 951782400, 1709210096, -2208988800, 253402300799, -62167219200};
    MuxanduDateTime shown = JUNK, wanted = JUNK;
    struct tm odd;
    size_t place;
    for (place = 0; place < sizeof seconds / sizeof *seconds; place++) {
        time_t second = (time_t)seconds[place];
        struct tm theirs = *gmtime(&second), ours = theirs;
        CHECK(muxandu_date_time_from_timestamp(stamp(second, 7), 0, &wanted) == MUXANDU_OK);
        CHECK(muxandu_date_time_from_tm(&theirs, 7, 0, &shown) == MUXANDU_OK && is_date_time(shown, wanted));
        CHECK(muxandu_tm_from_date_time(wanted, &ours) == MUXANDU_OK && ours.tm_isdst == -1);
        CHECK(ours.tm_year == theirs.tm_year && ours.tm_mon == theirs.tm_mon && ours.tm_mday == theirs.tm_mday);
        CHECK(ours.tm_hour == theirs.tm_hour && ours.tm_min == theirs.tm_min && ours.tm_sec == theirs.tm_sec);
        CHECK(ours.tm_wday == theirs.tm_wday && ours.tm_yday == theirs.tm_yday);
    }
    shown = JUNK;
    memset(&odd, 0, sizeof odd);
    odd.tm_year = INT32_MAX;
    odd.tm_mday = 1;
    CHECK(muxandu_date_time_from_tm(&odd, 0, 0, &shown) == MUXANDU_REFUSED_YEAR && is_date_time(shown, JUNK));
    odd.tm_mon = 12;
    CHECK(muxandu_date_time_from_tm(&odd, 0, 0, &shown) == MUXANDU_REFUSED_MONTH);
    odd.tm_year = odd.tm_mon = 0;
    odd.tm_mday = 256 + 1;
    CHECK(muxandu_date_time_from_tm(&odd, 0, 0, &shown) == MUXANDU_REFUSED_DAY);
    odd.tm_mday = 1;
    odd.tm_hour = -1;
    CHECK(muxandu_date_time_from_tm(&odd, 0, 0, &shown) == MUXANDU_REFUSED_HOUR);
    odd.tm_hour = 0;
    odd.tm_sec = 60;
    CHECK(muxandu_date_time_from_tm(&odd, 0, 0, &shown) == MUXANDU_REFUSED_SECOND && is_date_time(shown, JUNK));
    odd.tm_sec = 7;
    CHECK(muxandu_tm_from_date_time(date_time(2023, 2, 29, 0, 0, 0, 0, 0), &odd) == MUXANDU_REFUSED_DAY_OF_MONTH);
    CHECK(odd.tm_sec == 7);
#ifdef MUXANDU_HAS_TIMESPEC
    {
        struct timespec spec = {-1, 500000000};
        MuxanduTimestamp at = stamp(7, 7);
        CHECK(muxandu_timestamp_from_timespec(&spec, &at) == MUXANDU_OK && is_stamp(at, -1, 500000000));
        CHECK(muxandu_timespec_from_timestamp(stamp(5, 6), &spec) == MUXANDU_OK && spec.tv_sec == 5 &&
              spec.tv_nsec == 6);
        CHECK(muxandu_timespec_from_timestamp(stamp(LAST + 1, 6), &spec) == MUXANDU_REFUSED_TIMESTAMP &&
              spec.tv_sec == 5);
        spec.tv_nsec = -1;
        CHECK(muxandu_timestamp_from_timespec(&spec, &at) == MUXANDU_REFUSED_NANOSECOND && is_stamp(at, -1, 500000000));
        spec.tv_nsec = 1000000000;
        CHECK(muxandu_timestamp_from_timespec(&spec, &at) == MUXANDU_REFUSED_NANOSECOND);
        spec.tv_sec = (time_t)FIRST - 1;
        CHECK(muxandu_timestamp_from_timespec(&spec, &at) == MUXANDU_REFUSED_TIMESTAMP);
    }
#endif
}

static int is_batch(MuxanduBatch batch, size_t count, uint32_t status) {
    return batch.count == count && batch.status == status;
}

/* The longest batch that is tried with each item refused: three groups of four, and an item. */
enum { GROUPED = 13 };

/* Whether a batch of seconds is what single calls give, and the one after them. */
static int seconds_as_single(const MuxanduDateTime *items, size_t count) {
    int64_t out[GROUPED + 1];
    uint32_t status = MUXANDU_OK;
    size_t done = 0, item;
    MuxanduBatch batch;
    for (item = 0; item <= GROUPED; item++) out[item] = 7;
    batch = muxandu_seconds_from_date_times(items, count, out, GROUPED + 1);
    while (done < count && status == MUXANDU_OK) {
        MuxanduTimestamp at;
        status = muxandu_timestamp_from_date_time(items[done], &at);
        if (status == MUXANDU_OK && out[done++] != at.seconds) return 0;
    }
    for (item = done; item <= GROUPED; item++)
        if (out[item] != 7) return 0;
    return is_batch(batch, done, status);
}

static int date_times_as_single(const int64_t *items, size_t count, int32_t offset) {
    MuxanduDateTime out[GROUPED + 1];
    uint32_t status = MUXANDU_OK;
    size_t done = 0, item;
    MuxanduBatch batch;
    for (item = 0; item <= GROUPED; item++) out[item] = JUNK;
    batch = muxandu_date_times_from_seconds(items, count, offset, out, GROUPED + 1);
    while (done < count && status == MUXANDU_OK) {
        MuxanduDateTime at;
        status = muxandu_date_time_from_timestamp(stamp(items[done], 0), offset, &at);
        if (status == MUXANDU_OK && !is_date_time(out[done++], at)) return 0;
    }
    for (item = done; item <= GROUPED; item++)
        if (!is_date_time(out[item], JUNK)) return 0;
    return is_batch(batch, done, status);
}

/* Batches take four items at a time: with an item at an end of its range, or past it, at each
 * place of each length. */
static void batches_in_groups(void) {
    static const MuxanduDateTime odd[] = {
        {-1000000, 1, 1, 0, 0, 0, 0, 0},      {-999999, 1, 1, 0, 0, 0, 0, 0},
        {-999999, 1, 1, 0, 0, 0, 0, 1},       {-999998, 1, 1, 0, 0, 0, 0, 93599},
        {1000000, 1, 1, 0, 0, 0, 0, 0},       {999999, 12, 31, 23, 59, 59, 0, 0},
        {999999, 12, 31, 23, 59, 59, 0, -1},  {999998, 12, 31, 23, 59, 59, 0, -1},
        {INT32_MIN, 1, 1, 0, 0, 0, 0, 0},     {INT32_MAX, 1, 1, 0, 0, 0, 0, 0},
        {2024, 0, 1, 0, 0, 0, 0, 0},          {2024, 13, 1, 0, 0, 0, 0, 0},
        {2024, 255, 1, 0, 0, 0, 0, 0},        {2024, 1, 0, 0, 0, 0, 0, 0},
        {2024, 1, 32, 0, 0, 0, 0, 0},         {2024, 2, 29, 0, 0, 0, 0, 0},
        {2023, 2, 29, 0, 0, 0, 0, 0},         {2000, 2, 29, 0, 0, 0, 0, 0},
        {1900, 2, 29, 0, 0, 0, 0, 0},         {0, 2, 29, 0, 0, 0, 0, 0},
        {-4, 2, 30, 0, 0, 0, 0, 0},           {2024, 4, 31, 0, 0, 0, 0, 0},
        {2024, 12, 31, 23, 59, 59, 0, 0},     {2024, 12, 255, 0, 0, 0, 0, 0},
        {2024, 1, 1, 24, 0, 0, 0, 0},         {2024, 1, 1, 0, 60, 0, 0, 0},
        {2024, 1, 1, 0, 0, 60, 0, 0},         {2024, 1, 1, 0, 0, 0, 999999999, 0},
        {2024, 1, 1, 0, 0, 0, 1000000000, 0}, {2024, 1, 1, 0, 0, 0, UINT32_MAX, 0},
        {2024, 1, 1, 0, 0, 0, 0, 93599},      {2024, 1, 1, 0, 0, 0, 0, 93600},
        {2024, 1, 1, 0, 0, 0, 0, -93599},     {2024, 1, 1, 0, 0, 0, 0, -93600},
        {2024, 1, 1, 0, 0, 0, 0, INT32_MIN},  {2024, 1, 1, 0, 0, 0, 0, INT32_MAX},
    };
    const int64_t ends[] = {FIRST,    FIRST - 1,    FIRST + 93598, FIRST + 93599, LAST,
                            LAST + 1, LAST - 93598, LAST - 93599,  INT64_MIN,     INT64_MAX};
    static const int32_t offsets[] = {0, 3600, -3600, 93599, -93599, 93600};
    size_t size, place, item, row;
    for (size = 0; size <= GROUPED; size++) {
        for (place = 0; place < size; place++) {
            MuxanduDateTime items[GROUPED];
            int64_t seconds[GROUPED];
            for (item = 0; item < size; item++) {
                seconds[item] = (int64_t)item * 98765432123 - 444444444444;
                CHECK(muxandu_date_time_from_timestamp(stamp(seconds[item], 999999999), offsets[item % 5],
                                                       items + item) == MUXANDU_OK);
            }
            CHECK(seconds_as_single(items, size));
            for (row = 0; row < sizeof odd / sizeof *odd; row++) {
                MuxanduDateTime kept = items[place];
                items[place] = odd[row];
                CHECK(seconds_as_single(items, size));
                items[place] = kept;
            }
            for (row = 0; row < sizeof ends / sizeof *ends * (sizeof offsets / sizeof *offsets); row++) {
                int64_t kept = seconds[place];
                seconds[place] = ends[row % (sizeof ends / sizeof *ends)];
                CHECK(date_times_as_single(seconds, size, offsets[row / (sizeof ends / sizeof *ends)]));
                seconds[place] = kept;
            }
        }
    }
}

static MuxanduKind kind_of(uint32_t number) {
    return MUXANDU_CAST(MuxanduKind, number);
}

static int is_outcome(MuxanduOutcome found, size_t size, uint32_t status, uint32_t reason) {
    return found.size == size && (uint32_t)found.status == status && (uint32_t)found.reason == reason;
}

/* Whether each byte of a buffer is this one. */
static int is_filled(const char *buffer, size_t size, char byte) {
    size_t k;
    for (k = 0; k < size; k++)
        if (buffer[k] != byte) return 0;
    return 1;
}

static const char DAY_FORM[] = "[year]-[month]-[day]";

static void descriptions_are_kept(void) {
    MuxanduItem items[8];
    char text[40];
    memset(items, 0, sizeof items);
    memset(text, '!', sizeof text);
    CHECK(is_outcome(muxandu_description_parse(2, DAY_FORM, strlen(DAY_FORM), items, 8), 5, MUXANDU_OK, 0));
    CHECK(items[5].kind == 0);
    CHECK(is_outcome(muxandu_description_text(2, items, 5, text, sizeof text), 20, MUXANDU_OK, 0));
    CHECK(memcmp(text, "[year]-[month]-[day]!", 21) == 0);
    memset(text, '!', sizeof text);
    CHECK(
        is_outcome(muxandu_description_text(2, items, 5, text, 19), 4, MUXANDU_REFUSED_BUFFER, MUXANDU_REASON_NO_ROOM));
    CHECK(is_outcome(muxandu_description_text(2, items, 6, text, 40), 0, MUXANDU_REFUSED_UNIT, 0));
    CHECK(is_outcome(muxandu_description_text(3, items, 5, text, 40), 0, MUXANDU_REFUSED_UNIT, 0));
    /* an item of logs, which no text names, after items that have one */
    items[5].kind = 28;
    CHECK(is_outcome(muxandu_description_text(2, items, 6, text, 40), 5, MUXANDU_REFUSED_NO_TEXT,
                     MUXANDU_REASON_NO_TEXT));
    items[5].kind = 0;
    CHECK(is_filled(text, sizeof text, '!'));
    CHECK(is_outcome(muxandu_description_parse(2, DAY_FORM, strlen(DAY_FORM), items, 4), 5, MUXANDU_REFUSED_BUFFER, 0));
    CHECK(is_outcome(muxandu_description_parse(2, "[year]-[mont]", 13, items, 8), 8, MUXANDU_REFUSED_SYNTAX,
                     MUXANDU_REASON_UNKNOWN_COMPONENT));
    CHECK(is_outcome(muxandu_description_parse(2, "[day", 4, items, 8), 0, MUXANDU_REFUSED_SYNTAX,
                     MUXANDU_REASON_NO_END));
    CHECK(is_outcome(muxandu_description_parse(0, "[day]", 5, items, 8), 0, MUXANDU_REFUSED_UNIT, 0));
    CHECK(is_outcome(muxandu_description_parse(1, "[[[day]", 7, items, 8), 2, MUXANDU_OK, 0));
}

static void descriptions_write(void) {
    MuxanduDateTime at = date_time(2024, 2, 29, 12, 34, 56, 500000000, 19800), wrong = at;
    MuxanduItem items[8];
    MuxanduSpan spans[3] = {{7, 7}, {7, 7}, {7, 7}};
    MuxanduDateTime two[2];
    char text[64], block[25];
    size_t size = 7;
    wrong.day = 30;
    memset(items, 0, sizeof items);
    CHECK(muxandu_description_parse(2, DAY_FORM, strlen(DAY_FORM), items, 8).size == 5);
    CHECK(muxandu_format_items(MUXANDU_KIND_DATE, items, 5, at, text, 10, &size) == MUXANDU_OK && size == 10 &&
          memcmp(text, "2024-02-29", 10) == 0);
    CHECK(muxandu_format_items(MUXANDU_KIND_TIME, items, 5, at, text, 64, &size) == MUXANDU_REFUSED_NO_TEXT);
    CHECK(muxandu_format_items(kind_of(0), items, 5, at, text, 64, &size) == MUXANDU_REFUSED_UNIT);
    CHECK(muxandu_format_items(MUXANDU_KIND_DATE, items, 6, at, text, 64, &size) == MUXANDU_REFUSED_UNIT);
    CHECK(muxandu_format_items(MUXANDU_KIND_DATE, items, 5, wrong, text, 64, &size) == MUXANDU_REFUSED_DAY_OF_MONTH);
    CHECK(size == 10);
    CHECK(muxandu_format(MUXANDU_KIND_OFFSET_DATE_TIME, "[weekday], [hour repr:12] [period] [offset_hour]", 48, at,
                         text, 64, &size) == MUXANDU_OK &&
          size == 18 && memcmp(text, "Thursday, 12 PM 05", 18) == 0);
    CHECK(muxandu_format(MUXANDU_KIND_OFFSET_DATE_TIME, "[unix_timestamp precision:nanosecond]", 37, at, text, 64,
                         &size) == MUXANDU_OK &&
          size == 19 && memcmp(text, "1709190296500000000", 19) == 0);
    CHECK(muxandu_format(MUXANDU_KIND_PLAIN_DATE_TIME, "[offset_hour]", 13, at, text, 64, &size) ==
          MUXANDU_REFUSED_NO_TEXT);
    CHECK(muxandu_format(MUXANDU_KIND_DATE, "[day]\xc3", 6, at, text, 64, &size) == MUXANDU_REFUSED_NO_TEXT);
    CHECK(muxandu_format(MUXANDU_KIND_DATE, "[day", 4, at, text, 64, &size) == MUXANDU_REFUSED_SYNTAX);
    CHECK(size == 19);
    CHECK(muxandu_format(MUXANDU_KIND_DATE, "[day]", 5, at, text, 1, &size) == MUXANDU_REFUSED_BUFFER && size == 2);
    two[0] = at, two[1] = date_time(1, 1, 1, 0, 0, 0, 0, 0);
    memset(block, '!', sizeof block);
    CHECK(is_batch(muxandu_format_all(MUXANDU_KIND_DATE, items, 5, two, 2, block, 19, spans, 3), 1,
                   MUXANDU_REFUSED_BUFFER));
    CHECK(is_batch(muxandu_format_all(MUXANDU_KIND_DATE, items, 5, two, 2, block, 25, spans, 3), 2, MUXANDU_OK));
    CHECK(memcmp(block, "2024-02-290001-01-01!", 21) == 0 && spans[1].start == 10 && spans[1].length == 10 &&
          spans[2].start == 7);
    CHECK(is_batch(muxandu_format_all(MUXANDU_KIND_DATE, items, 6, two, 2, block, 25, spans, 3), 0,
                   MUXANDU_REFUSED_UNIT));
    CHECK(is_batch(muxandu_format_all(MUXANDU_KIND_DATE, items, 5, two, 2, block, 25, spans, 1), 0,
                   MUXANDU_REFUSED_BUFFER));
}

static void descriptions_read(void) {
    static const char form[] = "[year]-[ordinal] [hour]:[minute]:[second].[subsecond][offset_hour][offset_minute]";
    static const char texts[] = "2024-02-29,2024-13-01,1999-12-31";
    MuxanduSpan spans[4] = {{0, 10}, {11, 10}, {SIZE_MAX, 2}, {22, 10}};
    uint32_t statuses[5] = {99, 99, 99, 99, 99};
    MuxanduDateTime out = JUNK, many[4] = {JUNK, JUNK, JUNK, JUNK};
    MuxanduItem items[8];
    memset(items, 0, sizeof items);
    CHECK(muxandu_description_parse(2, DAY_FORM, strlen(DAY_FORM), items, 8).size == 5);
    CHECK(is_outcome(muxandu_parse_items(MUXANDU_KIND_DATE, items, 5, "2024-2-29", 9, &out), 5, MUXANDU_REFUSED_SYNTAX,
                     0));
    CHECK(is_outcome(muxandu_parse_items(MUXANDU_KIND_DATE, items, 5, "2023-02-29", 10, &out), 8,
                     MUXANDU_REFUSED_RESULT, MUXANDU_REASON_DAY));
    CHECK(is_outcome(muxandu_parse_items(MUXANDU_KIND_TIME, items, 5, "2023-02-28", 10, &out), 0,
                     MUXANDU_REFUSED_SYNTAX, MUXANDU_REASON_HOUR));
    CHECK(is_outcome(muxandu_parse_items(kind_of(6), items, 5, "2023-02-28", 10, &out), 0, MUXANDU_REFUSED_UNIT, 0));
    CHECK(is_outcome(muxandu_parse_items(MUXANDU_KIND_DATE, items, 6, "2023-02-28", 10, &out), 0, MUXANDU_REFUSED_UNIT,
                     0));
    CHECK(is_outcome(muxandu_parse(MUXANDU_KIND_DATE, "[day", 4, "28", 2, &out), 0, MUXANDU_REFUSED_SYNTAX,
                     MUXANDU_REASON_NO_END));
    CHECK(is_date_time(out, JUNK));
    CHECK(is_outcome(muxandu_parse_items(MUXANDU_KIND_DATE, items, 5, "2024-02-29", 10, &out), 10, MUXANDU_OK, 0));
    CHECK(is_date_time(out, date_time(2024, 2, 29, 0, 0, 0, 0, 0)));
    CHECK(is_outcome(
        muxandu_parse(MUXANDU_KIND_OFFSET_DATE_TIME, form, strlen(form), "2024-060 12:34:56.5-0130", 24, &out), 24,
        MUXANDU_OK, 0));
    CHECK(is_date_time(out, date_time(2024, 2, 29, 12, 34, 56, 500000000, -5400)));
    CHECK(is_outcome(muxandu_parse(MUXANDU_KIND_OFFSET_DATE_TIME, "[unix_timestamp] [hour]", 23, "3600 02", 7, &out), 0,
                     MUXANDU_REFUSED_RESULT, MUXANDU_REASON_UNIX_SECOND));
    CHECK(is_outcome(
        muxandu_parse(MUXANDU_KIND_OFFSET_DATE_TIME, "[unix_timestamp] [offset_hour]", 30, "-1 +01", 6, &out), 6,
        MUXANDU_OK, 0));
    CHECK(is_date_time(out, date_time(1970, 1, 1, 0, 59, 59, 0, 3600)));
    out = JUNK;
    CHECK(is_outcome(muxandu_parse_items_front(MUXANDU_KIND_DATE, items, 5, "2023-02-29 INFO", 15, &out), 8,
                     MUXANDU_REFUSED_RESULT, MUXANDU_REASON_DAY));
    CHECK(is_outcome(muxandu_parse_items_front(MUXANDU_KIND_DATE, items, 5, "INFO", 4, &out), 0, MUXANDU_REFUSED_SYNTAX,
                     0));
    CHECK(is_outcome(muxandu_parse_items_front(MUXANDU_KIND_DATE, items, 6, "2023-02-28", 10, &out), 0,
                     MUXANDU_REFUSED_UNIT, 0));
    CHECK(is_date_time(out, JUNK));
    CHECK(is_outcome(muxandu_parse_items_front(MUXANDU_KIND_DATE, items, 5, "2024-02-29 INFO", 15, &out), 10,
                     MUXANDU_OK, 0));
    CHECK(is_date_time(out, date_time(2024, 2, 29, 0, 0, 0, 0, 0)));
    CHECK(is_batch(muxandu_parse_all(MUXANDU_KIND_DATE, items, 5, texts, 32, spans, 4, many, 4), 1,
                   MUXANDU_REFUSED_RESULT));
    CHECK(is_batch(muxandu_parse_all(MUXANDU_KIND_DATE, items, 5, texts, 32, spans, 4, many, 3), 0,
                   MUXANDU_REFUSED_BUFFER));
    CHECK(is_batch(muxandu_parse_each(MUXANDU_KIND_DATE, items, 5, texts, 32, spans, 4, many, 4, statuses, 3), 0,
                   MUXANDU_REFUSED_BUFFER));
    CHECK(is_batch(muxandu_parse_each(MUXANDU_KIND_DATE, items, 6, texts, 32, spans, 4, many, 4, statuses, 5), 0,
                   MUXANDU_REFUSED_UNIT));
    CHECK(statuses[0] == 99);
    CHECK(is_batch(muxandu_parse_each(MUXANDU_KIND_DATE, items, 5, texts, 32, spans, 4, many, 4, statuses, 5), 2,
                   MUXANDU_OK));
    CHECK(statuses[0] == MUXANDU_OK && statuses[1] == MUXANDU_REFUSED_RESULT && statuses[2] == MUXANDU_REFUSED_SPAN &&
          statuses[3] == MUXANDU_OK && statuses[4] == 99);
    CHECK(is_date_time(many[3], date_time(1999, 12, 31, 0, 0, 0, 0, 0)) && is_date_time(many[1], JUNK));
}

/* What stands in each byte of a place before a call. */
#define PAINT 0x2a

/* Whether the second of three items alone was converted, and each byte of the other places is as it was: also those that are
 * between and behind the fields of a struct. */
static int are_kept(MuxanduBatch done, const void *out, size_t size, const MuxanduStatus *statuses) {
    const char *first = MUXANDU_CAST(const char *, out);
    int is_told = done.count == 1 && done.status == MUXANDU_OK && statuses[1] == MUXANDU_OK;
    return is_told && statuses[0] != MUXANDU_OK && statuses[2] != MUXANDU_OK && !is_filled(first + size, size, PAINT) &&
           is_filled(first, size, PAINT) && is_filled(first + 2 * size, size, PAINT);
}

/* Calls that go on after an error leave the place of an item that fails. */
static void failed_items_keep_their_bytes(void) {
    static const char texts[] = "2023-02-29T00:00:00Z,2024-02-29T00:00:00Z,2024-02-29_00:00:00Z";
    static const char days[] = "2023-02-29,2024-02-29,2024-02_29";
    static const MuxanduSpan at[] = {{0, 20}, {21, 20}, {42, 20}}, at_days[] = {{0, 10}, {11, 10}, {22, 10}};
    static const int32_t offsets[] = {0, 3600, 0};
    int64_t seconds[] = {INT64_MIN, 0, INT64_MAX}, made[3];
    MuxanduMoment moments[] = {{0, 1000000000, 0}, {0, 0, 3600}, {0, 0, 93600}},
                  others[] = {{0, 0, 0}, {-9, 9, 0}, {0, 0, 0}};
    MuxanduDateTime shown[3], given[3];
    MuxanduMoment moved[3];
    MuxanduDuration lengths[3];
    int32_t orders[3];
    MuxanduStatus told[3];
    MuxanduItem items[5];
    CHECK(muxandu_description_parse(2, DAY_FORM, strlen(DAY_FORM), items, 5).size == 5);
    memset(given, 0, sizeof given);
    given[1] = date_time(2024, 2, 29, 0, 0, 0, 0, 0);
#define KEEPS(call, out) (memset(out, PAINT, sizeof out), are_kept(call, out, sizeof *out, told))
    CHECK(KEEPS(muxandu_date_times_from_each_second(seconds, 3, 0, shown, 3, told, 3), shown));
    CHECK(KEEPS(muxandu_seconds_from_each_date_time(given, 3, made, 3, told, 3), made));
    CHECK(KEEPS(muxandu_date_times_from_each_moment(moments, 3, shown, 3, told, 3), shown));
    CHECK(KEEPS(muxandu_moments_from_each_date_time(given, 3, moved, 3, told, 3), moved));
    CHECK(KEEPS(muxandu_each_moment_to_offset(moments, 3, 60, moved, 3, told, 3), moved));
    CHECK(KEEPS(muxandu_each_moment_truncate(moments, 3, MUXANDU_UNIT_DAY, moved, 3, told, 3), moved));
    CHECK(KEEPS(muxandu_each_moment_add_months(moments, 3, 1, moved, 3, told, 3), moved));
    CHECK(KEEPS(muxandu_each_moment_difference(moments, 3, others, 3, lengths, 3, told, 3), lengths));
    CHECK(KEEPS(muxandu_each_moment_compare(moments, 3, others, 3, orders, 3, told, 3), orders));
    CHECK(KEEPS(muxandu_moments_from_each_rfc3339(texts, 62, at, 3, moved, 3, told, 3), moved));
    CHECK(KEEPS(muxandu_date_times_from_each_rfc3339(texts, 62, at, 3, shown, 3, told, 3), shown));
    CHECK(KEEPS(muxandu_date_times_from_each_local(texts, 62, at, 3, 60, shown, 3, told, 3), shown));
    CHECK(KEEPS(muxandu_date_times_from_each_local_at(texts, 62, at, 3, offsets, 3, shown, 3, told, 3), shown));
    CHECK(KEEPS(muxandu_moments_from_each_local(texts, 62, at, 3, 60, moved, 3, told, 3), moved));
    CHECK(KEEPS(muxandu_moments_from_each_local_at(texts, 62, at, 3, offsets, 3, moved, 3, told, 3), moved));
    CHECK(KEEPS(muxandu_parse_each(MUXANDU_KIND_DATE, items, 5, days, 32, at_days, 3, shown, 3, told, 3), shown));
    memset(lengths, 0, sizeof lengths);
    CHECK(KEEPS(muxandu_each_moment_add(moments, 3, lengths, 3, moved, 3, told, 3), moved));
    CHECK(KEEPS(muxandu_each_moment_subtract(moments, 3, lengths, 3, moved, 3, told, 3), moved));
#undef KEEPS
}

/* The abbreviations of a file, and columns of date-times, as Python's zoneinfo has them. */
static void columns_of_files(MuxanduZone zone, const MuxanduTransition *rows, size_t count) {
    static const MuxanduTimestamp instants[] = {{1711846799, 5}, {1711846800, 5}};
    static const char *const names[] = {"CET", "CEST"};
    MuxanduDateTime shown[2];
    MuxanduTimeType kind;
    MuxanduOutcome named;
    char name[8];
    size_t place;
    for (place = 0; place < 2; place++) {
        CHECK(muxandu_zone_type_at(zone, rows, count, instants[place], &kind) == MUXANDU_OK);
        CHECK(kind.offset_seconds == (place ? 7200 : 3600) && kind.is_daylight == place);
        named = muxandu_zone_abbreviation_from_tzif(BERLIN, sizeof BERLIN - 1, kind.designation, name, sizeof name);
        CHECK(is_outcome(named, strlen(names[place]), MUXANDU_OK, 0));
        CHECK(memcmp(name, names[place], named.size) == 0);
    }
    CHECK(muxandu_timestamps_to_zone(instants, 2, zone, rows, count, shown, 2).count == 2);
    CHECK(is_date_time(shown[0], date_time(2024, 3, 31, 1, 59, 59, 5, 3600)));
    CHECK(is_date_time(shown[1], date_time(2024, 3, 31, 3, 0, 0, 5, 7200)));
    shown[0] = date_time(2024, 3, 31, 2, 30, 0, 5, 0);
    CHECK(muxandu_date_times_at_zone(shown, 1, zone, rows, count, MUXANDU_CHOICE_EARLIER, shown + 1, 1).count == 1);
    CHECK(is_date_time(shown[1], date_time(2024, 3, 31, 1, 30, 0, 5, 3600)));
}

/* The offsets of a file, as Python's zoneinfo has them, and its transitions. */
static void zones_of_files(void) {
    static const int64_t seconds[] = {0, 1711846799, 1711846800, 1729990799, 1729990800};
    static const int32_t offsets[] = {3600, 3600, 7200, 7200, 3600};
    MuxanduZone zone, other;
    MuxanduTransition rows[2], row;
    MuxanduDateTime shown = JUNK;
    MuxanduZoneInstants found;
    size_t place, size = sizeof BERLIN - 1;
    int32_t offset = 7;
    memset(&zone, 0, sizeof zone);
    CHECK(is_outcome(muxandu_zone_from_tzif(BERLIN, size, &zone, rows, 0), 1, MUXANDU_REFUSED_BUFFER, 0));
    CHECK(is_outcome(muxandu_zone_from_tzif(BERLIN, 60, &zone, rows, 2), 60, MUXANDU_REFUSED_SYNTAX,
                     MUXANDU_REASON_FILE_LENGTH));
    CHECK(is_outcome(muxandu_zone_from_tzif(BERLIN, size, &zone, rows, 2), 1, MUXANDU_OK, 0));
    for (place = 0; place < sizeof seconds / sizeof *seconds; place++)
        CHECK(muxandu_zone_offset_at(zone, rows, 1, stamp(seconds[place], 0), &offset) == MUXANDU_OK &&
              offset == offsets[place]);
    CHECK(muxandu_timestamp_to_zone(stamp(1711846800, 5), zone, rows, 1, &shown) == MUXANDU_OK);
    CHECK(is_date_time(shown, date_time(2024, 3, 31, 3, 0, 0, 5, 7200)));
    CHECK(muxandu_zone_next_transition(zone, rows, 1, stamp(1711846800, 0), &row) == MUXANDU_OK &&
          row.second == 1729990800);
    CHECK(muxandu_zone_previous_transition(zone, rows, 1, stamp(1711846800, 1), &row) == MUXANDU_OK &&
          row.second == 1711846800);
    CHECK(muxandu_zone_previous_transition(zone, rows, 1, stamp(1711846800, 0), &row) == MUXANDU_REFUSED_RESULT);
    CHECK(muxandu_zone_instants_of(zone, rows, 1, date_time(2024, 3, 31, 2, 30, 0, 5, 0), &found) == MUXANDU_OK &&
          found.count == 0 && found.gap_second == rows[0].second && found.later_seconds == 1711848600);
    CHECK(muxandu_date_time_at_zone(date_time(2024, 3, 31, 2, 30, 0, 5, 0), zone, rows, 1, MUXANDU_CHOICE_EARLIER,
                                    &shown) == MUXANDU_OK);
    CHECK(is_date_time(shown, date_time(2024, 3, 31, 1, 30, 0, 5, 3600)));
    columns_of_files(zone, rows, 1);
    other = zone;
    other.first_week = 6;
    CHECK(muxandu_zone_offset_at(other, rows, 1, stamp(0, 0), &offset) == MUXANDU_REFUSED_ZONE);
    rows[0].after_is_daylight = 0;
    CHECK(muxandu_zone_offset_at(zone, rows, 1, stamp(0, 0), &offset) == MUXANDU_REFUSED_ZONE && offset == 3600);
}

int main(void) {
    ends_at_offsets();
    structs_of_the_c_library();
    batches_in_groups();
    zones_of_files();
    descriptions_are_kept();
    descriptions_write();
    descriptions_read();
    failed_items_keep_their_bytes();
    return counted();
}
