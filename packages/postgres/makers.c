/* Values of offset_timestamp that are made of numbers, and of the clock. */
#include "durations.h"
#include "units.h"

#include <time.h>

/* A part of a date-time. What its type cannot hold is out of range as the greatest number is. */
static uint8 part(int128 number) {
    return number < 0 || number > PG_UINT8_MAX ? PG_UINT8_MAX : (uint8)number;
}

static Datum make(FunctionCallInfo fcinfo, int32 offset_seconds) {
    int128 nanoseconds = nanoseconds_of_numeric(PG_GETARG_DATUM(5), TIMESTAMP_NAME);
    bool is_negative = nanoseconds < 0;
    MuxanduDateTime shown = {0};
    shown.year = PG_GETARG_INT32(0);
    shown.month = part(PG_GETARG_INT32(1));
    shown.day = part(PG_GETARG_INT32(2));
    shown.hour = part(PG_GETARG_INT32(3));
    shown.minute = part(PG_GETARG_INT32(4));
    shown.second = part(is_negative ? -1 : nanoseconds / NANOSECONDS);
    shown.nanosecond = is_negative ? 0 : (uint32)(nanoseconds % NANOSECONDS);
    shown.offset_seconds = offset_seconds;
    PG_RETURN_POINTER(from_date_time(shown));
}

FUNCTION(offset_timestamp_make) {
    return make(fcinfo, PG_GETARG_INT32(6));
}

FUNCTION(offset_timestamp_make_text) {
    return make(fcinfo, offset_in(PG_GETARG_TEXT_PP(6), OFFSET_HINT));
}

/* The time of the clock as it is now, also within a statement, at the offset 0. */
FUNCTION(offset_timestamp_clock) {
    struct timespec now;
    MuxanduTimestamp instant;
    if (clock_gettime(CLOCK_REALTIME, &now) != 0) elog(ERROR, "the clock cannot be read: %m");
    instant.seconds = now.tv_sec;
    instant.nanoseconds = (uint32)now.tv_nsec;
    PG_RETURN_POINTER(at_offset(instant, 0));
}
