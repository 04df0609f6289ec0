/* The deepest stack of each group of calls, found by the paint that is left on the stack of a thread. muxandu.h says how deep.
 *
 * The last line is 'N passed, M failed'. */
#define _XOPEN_SOURCE 700
#include <pthread.h>
#include <stdlib.h>

#include "checks.h"
#include "zone_file.h"

#define STACK ((size_t)1 << 20)
#define PAINT 0xaa
#define GROUPS 32

/* What each call by a description takes at most, but for muxandu_description_text, which has a room for a text beside. */
#define MOST_BY_DESCRIPTION 16384

static char description[4096], text[MUXANDU_TEXT_ROOM], room[16384];
static MuxanduItem items[128];
static MuxanduDateTime at = {2024, 2, 29, 1, 2, 3, 4, 3600};
static size_t size;

static void nothing(void) {
}

static void numbers(void) {
    MuxanduTimestamp instant;
    MuxanduDuration duration = {86399, 999999999};
    MuxanduDateTime shown;
    int32_t order;
    (void)muxandu_timestamp_from_date_time(at, &instant);
    (void)muxandu_date_time_from_timestamp(instant, -3600, &shown);
    (void)muxandu_date_time_add(at, duration, &shown);
    (void)muxandu_date_time_difference(shown, at, &duration);
    (void)muxandu_date_time_compare(shown, at, &order);
    (void)muxandu_date_time_truncate(at, MUXANDU_UNIT_DAY, &shown);
}

static void texts(void) {
    MuxanduTimestamp instant;
    MuxanduDateTime shown;
    (void)muxandu_date_time_to_rfc3339(at, text, sizeof text, &size);
    (void)muxandu_date_time_from_rfc3339(text, size, &shown);
    (void)muxandu_date_time_from_rfc3339_front(text, size, &shown, &size);
    (void)muxandu_timestamp_from_rfc3339(text, size, &instant);
    (void)muxandu_date_time_text(at, room, sizeof room, &size);
}

static void batches(void) {
    static int64_t seconds[100];
    static MuxanduDateTime shown[100];
    (void)muxandu_date_times_from_seconds(seconds, 100, 3600, shown, 100);
    (void)muxandu_seconds_from_date_times(shown, 100, seconds, 100);
}

static void zones(void) {
    static MuxanduTransition rows[2];
    MuxanduZone zone;
    MuxanduTimestamp instant = {1711846800, 0};
    MuxanduDateTime shown;
    MuxanduDateTime later;
    MuxanduZoneInstants found;
    MuxanduTimeType kind;
    int32_t offset;
    char name[8];
    CHECK(muxandu_zone_from_tzif(BERLIN, sizeof BERLIN - 1, &zone, rows, 2).status == MUXANDU_OK);
    (void)muxandu_zone_offset_at(zone, rows, 1, instant, &offset);
    (void)muxandu_timestamp_to_zone(instant, zone, rows, 1, &shown);
    (void)muxandu_zone_next_transition(zone, rows, 1, instant, rows + 1);
    (void)muxandu_zone_previous_transition(zone, rows, 1, instant, rows + 1);
    (void)muxandu_zone_instants_of(zone, rows, 1, shown, &found);
    (void)muxandu_date_time_at_zone(shown, zone, rows, 1, MUXANDU_CHOICE_LATER, &shown);
    (void)muxandu_zone_offsets_at(zone, rows, 1, &instant.seconds, 1, &offset, 1);
    (void)muxandu_timestamps_to_zone(&instant, 1, zone, rows, 1, &shown, 1);
    (void)muxandu_date_times_at_zone(&shown, 1, zone, rows, 1, MUXANDU_CHOICE_LATER, &later, 1);
    (void)muxandu_zone_type_at(zone, rows, 1, instant, &kind);
    (void)muxandu_zone_abbreviation_from_tzif(BERLIN, sizeof BERLIN - 1, 4, name, sizeof name);
    (void)muxandu_zone_name_check("Europe/Berlin", 13);
    (void)muxandu_zone_abbreviation_from_text("CET-1CEST,M3.5.0,M10.5.0/3", 26, 257, name, sizeof name);
    (void)muxandu_zone_from_text("CET-1CEST,M3.5.0,M10.5.0/3", 26, &zone);
}

/* A description of as many groups as there can be, each in the one before, and the text that it writes. */
static void groups_in_groups(const char *inner) {
    *description = 0;
    for (int n = 0; n < GROUPS; n++) strcat(description, "[optional [");
    strcat(description, inner);
    for (int n = 0; n < GROUPS; n++) strcat(description, "]]");
}

/* The items of the description. */
static size_t item_count(void) {
    MuxanduOutcome made = muxandu_description_parse(2, description, strlen(description), items, 128);
    CHECK(made.status == MUXANDU_OK);
    return made.size;
}

/* Writes a text by the description, and reads one by it, which it may be or not. */
static void write_and_read(const char *read) {
    static MuxanduDateTime shown[1];
    static MuxanduSpan span[1];
    static MuxanduStatus status[1];
    size_t count = item_count();
    span[0].start = 0;
    span[0].length = strlen(read);
    (void)muxandu_format(MUXANDU_KIND_OFFSET_DATE_TIME, description, strlen(description), at, room, sizeof room, &size);
    (void)muxandu_format_items(MUXANDU_KIND_OFFSET_DATE_TIME, items, count, at, room, sizeof room, &size);
    (void)muxandu_format_all(MUXANDU_KIND_OFFSET_DATE_TIME, items, count, &at, 1, room, sizeof room, span, 1);
    for (uint32_t kind = MUXANDU_KIND_OFFSET_DATE_TIME; kind <= MUXANDU_KIND_UTC_OFFSET; kind++) {
        (void)muxandu_parse(kind, description, strlen(description), read, strlen(read), shown);
        (void)muxandu_parse_items(kind, items, count, read, strlen(read), shown);
        (void)muxandu_parse_front(kind, description, strlen(description), read, strlen(read), shown);
        (void)muxandu_parse_items_front(kind, items, count, read, strlen(read), shown);
        (void)muxandu_parse_all(kind, items, count, read, strlen(read), span, 1, shown, 1);
        (void)muxandu_parse_each(kind, items, count, read, strlen(read), span, 1, shown, 1, status, 1);
    }
}

static void descriptions(void) {
    static const char *const inner[][2] = {
        {"[year]-[month]-[day]T[hour]:[minute]:[second].[subsecond]", "2024-02-29T01:02:03.5"},
        {"[unix_timestamp precision:nanosecond]", "1709164923000000004"},
        {"[week_number][weekday repr:long][month repr:long][ordinal][period]", "09ThursdayFebruary060AM"},
        {"[offset_hour sign:mandatory][offset_minute][offset_second][year repr:century]", "+01000020"},
        {"[hour repr:12][ignore count:3]x", "12345x"},
        {"[year]", "a"},
    };
    for (size_t n = 0; n < sizeof inner / sizeof *inner; n++) {
        groups_in_groups(inner[n][0]);
        write_and_read(inner[n][1]);
    }
}

/* The place of a part out of its range is sought in each item, from the last one on. */
static void places_of_faults(void) {
    MuxanduDateTime shown;
    MuxanduOutcome found;
    char read[sizeof description];
    strcpy(description, "[year][month][day]");
    strcpy(read, "20241301");
    for (int n = 3; n < 128; n++) strcat(description, "x"), strcat(read, "x");
    CHECK(item_count() == 128);
    found = muxandu_parse(MUXANDU_KIND_DATE, description, strlen(description), read, strlen(read), &shown);
    CHECK(found.status == MUXANDU_REFUSED_RESULT && found.size == 4);
    write_and_read(read);
}

static void texts_of_descriptions(void) {
    static const char *const inner[] = {"[year]", "[weekday repr:short case_sensitive:false]", "[ignore count:1000]"};
    for (size_t n = 0; n < sizeof inner / sizeof *inner; n++) {
        groups_in_groups(inner[n]);
        CHECK(muxandu_description_text(2, items, item_count(), room, sizeof room).status == MUXANDU_OK);
    }
}

static void *run(void *group) {
    (*(void (**)(void))group)();
    return NULL;
}

/* How many bytes of a stack have lost their paint after a thread has run these calls. */
static size_t depth_of(void (*group)(void)) {
    pthread_attr_t attributes;
    pthread_t thread;
    size_t untouched = 0;
    unsigned char *stack = NULL;
    CHECK(posix_memalign((void **)&stack, 65536, STACK) == 0);
    memset(stack, PAINT, STACK);
    CHECK(pthread_attr_init(&attributes) == 0 && pthread_attr_setstack(&attributes, stack, STACK) == 0);
    CHECK(pthread_create(&thread, &attributes, run, &group) == 0 && pthread_join(thread, NULL) == 0);
    while (untouched < STACK && stack[untouched] == PAINT) untouched++;
    free(stack);
    return STACK - untouched;
}

int main(void) {
    static const struct {
        const char *name;
        void (*calls)(void);
        size_t most;
    } groups[] = {
        {"numbers", numbers, MUXANDU_STACK_WITHOUT_DESCRIPTION},
        {"texts", texts, MUXANDU_STACK_WITHOUT_DESCRIPTION},
        {"batches", batches, MUXANDU_STACK_WITHOUT_DESCRIPTION},
        {"descriptions", descriptions, MOST_BY_DESCRIPTION},
        {"places of faults", places_of_faults, MOST_BY_DESCRIPTION},
        {"texts of descriptions", texts_of_descriptions, MUXANDU_STACK},
        {"zones", zones, MUXANDU_STACK},
    };
    size_t own;
    depth_of(nothing);
    own = depth_of(nothing);
    for (size_t n = 0; n < sizeof groups / sizeof *groups; n++) {
        size_t deep = depth_of(groups[n].calls) - own;
        printf("%s: %zu bytes of stack, at most %zu\n", groups[n].name, deep, groups[n].most);
        CHECK(deep <= groups[n].most);
    }
    return counted();
}
