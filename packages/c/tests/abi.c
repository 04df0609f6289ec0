/* What a program relies on besides answers: the version, names and texts of statuses, and limits. */
#include "checks.h"

static void versions_agree(void) {
    char text[16];
    CHECK(muxandu_version() == MUXANDU_VERSION);
    sprintf(text, "%d.%d.%d", MUXANDU_VERSION / 10000, MUXANDU_VERSION / 100 % 100, MUXANDU_VERSION % 100);
    CHECK(strcmp(text, MUXANDU_VERSION_TEXT) == 0);
}

typedef MuxanduStatus Tell(uint32_t, char *, size_t, size_t *);

static int is_told(Tell *tell, uint32_t status, const char *wanted) {
    char text[MUXANDU_STATUS_ROOM];
    size_t size = 0;
    return tell(status, text, sizeof text, &size) == MUXANDU_OK && is_text(text, size, wanted);
}

/* The numbers that stay, as they were when programs were first built with them. */
static void numbers_stay(void) {
    static const char names[] = "OK YEAR MONTH DAY DAY_OF_MONTH ORDINAL ORDINAL_OF_YEAR WEEK WEEK_OF_YEAR WEEKDAY HOUR "
                                "MINUTE SECOND NANOSECOND OFFSET_SECONDS TIMESTAMP DAY_NUMBER DURATION UNIT RESULT "
                                "BUFFER SPAN SYNTAX OFFSET_HOUR OFFSET_MINUTE NO_TEXT ";
    static const int units[] = {MUXANDU_UNIT_DAY,       MUXANDU_UNIT_HOUR,        MUXANDU_UNIT_MINUTE,
                                MUXANDU_UNIT_SECOND,    MUXANDU_UNIT_MILLISECOND, MUXANDU_UNIT_MICROSECOND,
                                MUXANDU_UNIT_NANOSECOND};
    static const int parts[] = {MUXANDU_PART_YEAR, MUXANDU_PART_MONTH,  MUXANDU_PART_DAY,    MUXANDU_PART_ORDINAL,
                                MUXANDU_PART_HOUR, MUXANDU_PART_MINUTE, MUXANDU_PART_SECOND, MUXANDU_PART_NANOSECOND};
    const char *name;
    char text[16];
    size_t number = 0;
    for (name = names; *name; name = strchr(name, ' ') + 1) {
        CHECK(sscanf(name, "%15s", text) == 1 && is_told(muxandu_status_name, (uint32_t)number++, text));
    }
    for (number = 0; number < sizeof units / sizeof *units; number++) CHECK(units[number] == (int)number + 1);
    for (number = 0; number < sizeof parts / sizeof *parts; number++) CHECK(parts[number] == (int)number + 1);
}

/* How many statuses the library has. */
static uint32_t statuses(void) {
    uint32_t status = 0;
    while (!is_told(muxandu_status_name, status, "UNKNOWN")) status++;
    return status;
}

/* No two names and no two texts are one, and each is ASCII that prints, also where the buffer is
 * just long enough. */
static void texts_of_statuses_differ(Tell *tell) {
    char texts[64][MUXANDU_STATUS_ROOM];
    size_t sizes[64];
    uint32_t status, other;
    size_t place;
    for (status = 0; status <= statuses(); status++) {
        char short_of_one[MUXANDU_STATUS_ROOM];
        size_t size = 0;
        CHECK(tell(status, texts[status], sizeof texts[status], &sizes[status]) == MUXANDU_OK);
        memset(short_of_one, '!', sizeof short_of_one);
        CHECK(tell(status, short_of_one, sizes[status] - 1, &size) == MUXANDU_REFUSED_BUFFER);
        CHECK(size == sizes[status] && short_of_one[0] == '!' && short_of_one[size - 1] == '!');
        CHECK(tell(status, short_of_one, size, &size) == MUXANDU_OK && short_of_one[size] == '!');
        for (place = 0; place < sizes[status]; place++) {
            CHECK(texts[status][place] >= ' ' && texts[status][place] <= '~');
        }
        for (other = 0; other < status; other++) {
            CHECK(sizes[other] != sizes[status] || memcmp(texts[other], texts[status], sizes[other]) != 0);
        }
    }
}

/* What muxandu_status_text writes, with a byte 0 behind it, also of numbers that are no status. */
static void statuses_have_strings(void) {
    uint32_t status;
    for (status = 0; status <= statuses() + 1; status++) {
        uint32_t number = status == statuses() + 1 ? UINT32_MAX : status;
        char text[MUXANDU_STATUS_ROOM + 1];
        CHECK(is_told(muxandu_status_text, number, muxandu_status_string(number)));
        CHECK(muxandu_status_text_z(number, text, sizeof text) == MUXANDU_OK);
        CHECK(strcmp(text, muxandu_status_string(number)) == 0);
    }
}

/* A text with a byte 0 behind it, where there is room for both; else the buffer is as it was. */
#define WRITE_TERMINATED(wanted, call, ...)                                                                            \
    do {                                                                                                               \
        char text[64];                                                                                                 \
        size_t size = strlen(wanted);                                                                                  \
        memset(text, '!', sizeof text);                                                                                \
        CHECK(call(__VA_ARGS__, NULL, 0) == MUXANDU_REFUSED_BUFFER);                                                   \
        CHECK(call(__VA_ARGS__, text, 0) == MUXANDU_REFUSED_BUFFER && text[0] == '!');                                 \
        CHECK(call(__VA_ARGS__, text, size) == MUXANDU_REFUSED_BUFFER && text[0] == '!' && text[size - 1] == '!');     \
        CHECK(call(__VA_ARGS__, text, size + 1) == MUXANDU_OK && strcmp(text, wanted) == 0 && text[size + 1] == '!');  \
    } while (0)

static void texts_are_terminated(void) {
    const MuxanduDateTime at = date_time(2024, 2, 29, 1, 2, 3, 40000000, -3600),
                          in_utc = date_time(2024, 2, 29, 1, 2, 3, 40000000, 0);
    char text[MUXANDU_TEXT_ROOM + 1] = "!";
    WRITE_TERMINATED("DAY_OF_MONTH", muxandu_status_name_z, MUXANDU_REFUSED_DAY_OF_MONTH);
    WRITE_TERMINATED("2024-02-29", muxandu_date_to_rfc3339_z, date(2024, 2, 29));
    WRITE_TERMINATED("2024-02-29T01:02:03.04-01:00", muxandu_date_time_to_rfc3339_z, at);
    WRITE_TERMINATED("2024-02-29T01:02:03.040000000Z", muxandu_date_time_to_rfc3339_digits_z, in_utc, 257);
    WRITE_TERMINATED("1969-12-31T23:59:59.5Z", muxandu_timestamp_to_rfc3339_z, stamp(-1, 500000000));
    WRITE_TERMINATED("1969-12-31T23:59:59.500000000Z", muxandu_timestamp_to_rfc3339_nanos_z, stamp(-1, 500000000));
    WRITE_TERMINATED("-0001-01-02 0:00:00.05 -00:00:01", muxandu_date_time_text_z,
                     date_time(-1, 1, 2, 0, 0, 0, 50000000, -1));
    WRITE_TERMINATED("-0.5", muxandu_timestamp_text_z, stamp(-1, 500000000));
    CHECK(muxandu_timestamp_text_z(stamp(LAST + 1, 0), text, sizeof text) == MUXANDU_REFUSED_TIMESTAMP);
    CHECK(text[0] == '!');
}

/* One fault has one status, in parts and in texts. */
static void one_fault_has_one_status(void) {
    MuxanduDateTime out;
    CHECK(muxandu_date_time_check(date_time(2023, 2, 29, 0, 0, 0, 0, 0)) == MUXANDU_REFUSED_DAY_OF_MONTH);
    CHECK(muxandu_date_time_from_rfc3339("2023-02-29T00:00:00Z", 20, &out) == MUXANDU_REFUSED_DAY_OF_MONTH);
    CHECK(muxandu_date_time_from_rfc3339("2023-02-31T00:00:00Z", 20, &out) == MUXANDU_REFUSED_DAY_OF_MONTH);
    CHECK(muxandu_date_time_check(date_time(2023, 2, 32, 0, 0, 0, 0, 0)) == MUXANDU_REFUSED_DAY);
    CHECK(muxandu_date_time_from_rfc3339("2023-02-32T00:00:00Z", 20, &out) == MUXANDU_REFUSED_DAY);
    CHECK(muxandu_date_time_from_rfc3339("2023-02-00T00:00:00Z", 20, &out) == MUXANDU_REFUSED_DAY);
}

static void limits_are_the_ends(void) {
    MuxanduDate day;
    MuxanduTimestamp at;
    int32_t number;
    CHECK(muxandu_date_from_day(MUXANDU_DAY_MIN, &day) == MUXANDU_OK && is_date(day, MUXANDU_YEAR_MIN, 1, 1));
    CHECK(muxandu_date_from_day(MUXANDU_DAY_MAX, &day) == MUXANDU_OK && is_date(day, MUXANDU_YEAR_MAX, 12, 31));
    CHECK(muxandu_date_from_day(MUXANDU_DAY_MIN - 1, &day) == MUXANDU_REFUSED_DAY_NUMBER);
    CHECK(muxandu_date_from_day(MUXANDU_DAY_MAX + 1, &day) == MUXANDU_REFUSED_DAY_NUMBER);
    CHECK(muxandu_day_from_date(date(MUXANDU_YEAR_MIN - 1, 1, 1), &number) == MUXANDU_REFUSED_YEAR);
    CHECK(muxandu_day_from_date(date(MUXANDU_YEAR_MAX + 1, 1, 1), &number) == MUXANDU_REFUSED_YEAR);
    CHECK(muxandu_timestamp_check(stamp(MUXANDU_SECONDS_MIN, 0)) == MUXANDU_OK);
    CHECK(muxandu_timestamp_check(stamp(MUXANDU_SECONDS_MAX, MUXANDU_NANOSECOND_MAX)) == MUXANDU_OK);
    CHECK(muxandu_timestamp_check(stamp(MUXANDU_SECONDS_MIN - 1, 0)) == MUXANDU_REFUSED_TIMESTAMP);
    CHECK(muxandu_timestamp_check(stamp(MUXANDU_SECONDS_MAX + 1, 0)) == MUXANDU_REFUSED_TIMESTAMP);
    CHECK(muxandu_timestamp_check(stamp(0, MUXANDU_NANOSECOND_MAX + 1)) == MUXANDU_REFUSED_NANOSECOND);
    CHECK(muxandu_timestamp_from_milliseconds(MUXANDU_MILLISECONDS_MIN, &at) == MUXANDU_OK &&
          is_stamp(at, MUXANDU_SECONDS_MIN, 0));
    CHECK(muxandu_timestamp_from_milliseconds(MUXANDU_MILLISECONDS_MAX, &at) == MUXANDU_OK &&
          is_stamp(at, MUXANDU_SECONDS_MAX, 999000000));
    CHECK(muxandu_timestamp_from_milliseconds(MUXANDU_MILLISECONDS_MIN - 1, &at) == MUXANDU_REFUSED_TIMESTAMP);
    CHECK(muxandu_timestamp_from_milliseconds(MUXANDU_MILLISECONDS_MAX + 1, &at) == MUXANDU_REFUSED_TIMESTAMP);
    CHECK(muxandu_date_time_check(date_time(2000, 1, 1, 0, 0, 0, 0, MUXANDU_OFFSET_MIN)) == MUXANDU_OK);
    CHECK(muxandu_date_time_check(date_time(2000, 1, 1, 0, 0, 0, 0, MUXANDU_OFFSET_MAX)) == MUXANDU_OK);
    CHECK(muxandu_date_time_check(date_time(2000, 1, 1, 0, 0, 0, 0, MUXANDU_OFFSET_MIN - 1)) ==
          MUXANDU_REFUSED_OFFSET_SECONDS);
    CHECK(muxandu_date_time_check(date_time(2000, 1, 1, 0, 0, 0, 0, MUXANDU_OFFSET_MAX + 1)) ==
          MUXANDU_REFUSED_OFFSET_SECONDS);
}

int main(void) {
    versions_agree();
    numbers_stay();
    texts_of_statuses_differ(muxandu_status_name);
    texts_of_statuses_differ(muxandu_status_text);
    statuses_have_strings();
    texts_are_terminated();
    one_fault_has_one_status();
    limits_are_the_ends();
    return counted();
}
