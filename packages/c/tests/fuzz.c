/* A target of libFuzzer: each reading of a text by two libraries, and what is read is written and read
 * back.
 *
 * The names of the other library begin with other_. A difference ends the program. */
#include <stdlib.h>

#include "checks.h"

MuxanduStatus other_muxandu_timestamp_from_rfc3339(const char *, size_t, MuxanduTimestamp *);
MuxanduStatus other_muxandu_date_time_from_rfc3339(const char *, size_t, MuxanduDateTime *);
MuxanduStatus other_muxandu_date_time_from_rfc3339_front(const char *, size_t, MuxanduDateTime *, size_t *);
MuxanduStatus other_muxandu_date_time_from_rfc3339_leap(const char *, size_t, MuxanduDateTime *, uint8_t *);
MuxanduStatus other_muxandu_date_from_rfc3339(const char *, size_t, MuxanduDate *);
size_t other_muxandu_rfc3339_fault(const char *, size_t);
MuxanduStatus other_muxandu_date_time_to_rfc3339(MuxanduDateTime, char *, size_t, size_t *);

static void must(int holds, const char *what) {
    if (holds) return;
    fprintf(stderr, "not so: %s\n", what);
    abort();
}

/* What a text says is written, and the new text says the same. */
static void read_back(MuxanduDateTime at) {
    char text[MUXANDU_TEXT_ROOM], other[MUXANDU_TEXT_ROOM];
    size_t size = 0, other_size = 0;
    MuxanduDateTime again;
    must(muxandu_date_time_to_rfc3339(at, text, sizeof text, &size) == MUXANDU_OK, "what is read has a text");
    must(other_muxandu_date_time_to_rfc3339(at, other, sizeof other, &other_size) == MUXANDU_OK, "there too");
    must(size == other_size && memcmp(text, other, size) == 0, "the texts are the same");
    must(muxandu_date_time_from_rfc3339(text, size, &again) == MUXANDU_OK && is_date_time(at, again),
         "it is read back");
}

int LLVMFuzzerTestOneInput(const uint8_t *data, size_t size) {
    const char *text = (const char *)data;
    MuxanduTimestamp stamp = {7, 7}, other_stamp = {7, 7};
    MuxanduDateTime at, other;
    MuxanduDate date = {7, 7, 7}, other_date = {7, 7, 7};
    size_t used = 7, other_used = 7;
    uint8_t leap = 7, other_leap = 7;
    MuxanduStatus status;
    memset(&at, 7, sizeof at);
    memset(&other, 7, sizeof other);
    status = muxandu_timestamp_from_rfc3339(text, size, &stamp);
    must(other_muxandu_timestamp_from_rfc3339(text, size, &other_stamp) == status, "timestamp: status");
    must(stamp.seconds == other_stamp.seconds && stamp.nanoseconds == other_stamp.nanoseconds, "timestamp: value");
    status = muxandu_date_time_from_rfc3339_front(text, size, &at, &used);
    must(other_muxandu_date_time_from_rfc3339_front(text, size, &other, &other_used) == status, "front: status");
    must(is_date_time(at, other) && used == other_used, "front: value");
    status = muxandu_date_time_from_rfc3339_leap(text, size, &at, &leap);
    must(other_muxandu_date_time_from_rfc3339_leap(text, size, &other, &other_leap) == status, "leap: status");
    must(is_date_time(at, other) && leap == other_leap, "leap: value");
    status = muxandu_date_from_rfc3339(text, size, &date);
    must(other_muxandu_date_from_rfc3339(text, size, &other_date) == status, "date: status");
    must(date.year == other_date.year && date.month == other_date.month && date.day == other_date.day, "date: value");
    must(muxandu_rfc3339_fault(text, size) == other_muxandu_rfc3339_fault(text, size), "fault: place");
    status = muxandu_date_time_from_rfc3339(text, size, &at);
    must(other_muxandu_date_time_from_rfc3339(text, size, &other) == status, "date-time: status");
    must(is_date_time(at, other), "date-time: value");
    if (status == MUXANDU_OK) read_back(at);
    return 0;
}
