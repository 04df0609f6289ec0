/* Many threads at once: each compares its results with those of one thread. Then a call of many items.
 *
 * The last line is 'N passed, M failed'. */
#include <pthread.h>
#include <stdlib.h>

#include "checks.h"

#define THREADS 100
#define ITEMS 2000
#define ROUNDS 40
#define MANY 50000

static int64_t seconds[ITEMS];
static MuxanduDateTime wanted[ITEMS];

static void *convert(void *differs) {
    static const size_t counts[] = {1, 7, 64, ITEMS};
    MuxanduDateTime *shown = calloc(ITEMS, sizeof *shown);
    for (int round = 0; round < ROUNDS; round++) {
        size_t count = counts[round % 4];
        MuxanduBatch batch = muxandu_date_times_from_seconds(seconds, count, 3600, shown, ITEMS);
        if (batch.status != MUXANDU_OK || batch.count != count) *(int *)differs = 1;
        for (size_t n = 0; n < count; n++)
            if (!is_date_time(shown[n], wanted[n])) *(int *)differs = 1;
    }
    free(shown);
    return NULL;
}

/* A megabyte of items. */
static void many_items(void) {
    int64_t *given = calloc(MANY, sizeof *given);
    MuxanduDateTime *shown = calloc(MANY, sizeof *shown);
    for (size_t n = 0; n < MANY; n++) given[n] = (int64_t)n * 86413;
    MuxanduBatch batch = muxandu_date_times_from_seconds(given, MANY, 3600, shown, MANY);
    CHECK(batch.status == MUXANDU_OK && batch.count == MANY);
    for (size_t n = 0; n < MANY; n++) {
        MuxanduDateTime single;
        CHECK(muxandu_date_time_from_timestamp(stamp(given[n], 0), 3600, &single) == MUXANDU_OK);
        CHECK(is_date_time(shown[n], single));
    }
    free(given);
    free(shown);
}

int main(void) {
    static pthread_t threads[THREADS];
    static int differ[THREADS];
    for (size_t n = 0; n < ITEMS; n++) seconds[n] = (int64_t)n * 86413 - 4000000;
    MuxanduBatch batch = muxandu_date_times_from_seconds(seconds, ITEMS, 3600, wanted, ITEMS);
    CHECK(batch.status == MUXANDU_OK && batch.count == ITEMS);
    for (size_t n = 0; n < THREADS; n++) CHECK(pthread_create(&threads[n], NULL, convert, &differ[n]) == 0);
    for (size_t n = 0; n < THREADS; n++) CHECK(pthread_join(threads[n], NULL) == 0 && differ[n] == 0);
    many_items();
    return counted();
}
