/* Texts at the front of a long one: a call takes as long as what it reads, and not as what follows.
 *
 * The last line is 'N passed, M failed'. */
#include <stdlib.h>
#include <time.h>

#include "checks.h"

#define LINE 32
#define LINES 32768
#define BYTES ((size_t)LINE * LINES)

/* The seconds of the processor that all lines may take: to copy what is left of the text for each takes ten times as long. */
#define MOST_SECONDS 2

static const char line[] = "2024-02-28T23:30:00Z GET / HTTP\n";

int main(void) {
    char *log = malloc(BYTES);
    MuxanduDateTime wanted, shown;
    MuxanduDate date;
    MuxanduTimestamp instant;
    size_t used, read = 0, size;
    clock_t begun;
    for (size_t n = 0; n < LINES; n++) memcpy(log + n * LINE, line, LINE);
    CHECK(muxandu_date_time_from_rfc3339(line, 20, &wanted) == MUXANDU_OK);
    begun = clock();
    for (size_t n = 0; n < LINES; n++) {
        MuxanduStatus status = muxandu_date_time_from_rfc3339_front(log + n * LINE, BYTES - n * LINE, &shown, &used);
        read += status == MUXANDU_OK && used == 20 && is_date_time(shown, wanted);
    }
    CHECK(read == LINES);
    CHECK((clock() - begun) / CLOCKS_PER_SEC < MOST_SECONDS);
    /* the whole is no text, as its first line is none */
    CHECK(muxandu_date_time_from_rfc3339(log, BYTES, &shown) == muxandu_date_time_from_rfc3339(line, LINE, &shown));
    CHECK(muxandu_timestamp_from_rfc3339(log, BYTES, &instant) == muxandu_timestamp_from_rfc3339(line, LINE, &instant));
    CHECK(muxandu_date_from_rfc3339(log, BYTES, &date) == muxandu_date_from_rfc3339(line, LINE, &date));
    CHECK(muxandu_rfc3339_fault(log, BYTES) == muxandu_rfc3339_fault(line, LINE));
    /* a text goes to the front of a long room, and the rest of it stays */
    memset(log, 'x', BYTES);
    CHECK(muxandu_date_time_to_rfc3339(wanted, log, BYTES, &size) == MUXANDU_OK && size == 20);
    CHECK(memcmp(log, line, 20) == 0);
    for (read = 20; read < BYTES && log[read] == 'x'; read++) continue;
    CHECK(read == BYTES);
    free(log);
    return counted();
}
