/* offset_timestamp and timestamptz: casts both ways, and the order of the two. */
#include "values.h"

#include "common/hashfn.h"
#include "utils/timestamp.h"

static const char TIMESTAMPTZ_NAME[] = "timestamp with time zone";

/* An infinity is out of range. */
static MuxanduTimestamp instant_of_timestamptz(TimestampTz at) {
    if (TIMESTAMP_NOT_FINITE(at)) refuse(MUXANDU_REFUSED_TIMESTAMP, TIMESTAMP_NAME);
    return muxandu_timestamp_from_microseconds_2000(at);
}

FUNCTION(offset_timestamp_from_timestamptz) {
    int32 offset_seconds = PG_NARGS() > 1 ? PG_GETARG_INT32(1) : 0;
    PG_RETURN_POINTER(at_offset(instant_of_timestamptz(PG_GETARG_TIMESTAMPTZ(0)), offset_seconds));
}

/* A timestamptz has the years from 4713 BC to 294276. An instant outside them is an error. */
static TimestampTz round_down(const OffsetTimestamp *at) {
    int64 microseconds;
    MuxanduStatus status = muxandu_timestamp_to_microseconds_2000(instant_of(at), &microseconds);
    if (status != MUXANDU_OK || !IS_VALID_TIMESTAMP(microseconds)) refuse(MUXANDU_REFUSED_RESULT, TIMESTAMPTZ_NAME);
    return microseconds;
}

/* A timestamptz has no nanoseconds, so a value between two microseconds is an error. */
FUNCTION(offset_timestamp_to_timestamptz) {
    const OffsetTimestamp *at = GET_TIMESTAMP(0);
    TimestampTz rounded = round_down(at);
    if (muxandu_timestamp_compare(muxandu_timestamp_from_microseconds_2000(rounded), instant_of(at)) != 0)
        refuse(MUXANDU_REFUSED_RESULT, TIMESTAMPTZ_NAME);
    PG_RETURN_TIMESTAMPTZ(rounded);
}

FUNCTION(offset_timestamp_rounded_down) {
    PG_RETURN_TIMESTAMPTZ(round_down(GET_TIMESTAMP(0)));
}

/* The instant of a timestamptz as a value has it at its front, so that equal instants have one
 * hash. No value has that of an infinity. */
static OffsetTimestamp at_front(TimestampTz at) {
    OffsetTimestamp value = {at, UINT32_MAX, 0};
    if (!TIMESTAMP_NOT_FINITE(at)) {
        MuxanduTimestamp instant = muxandu_timestamp_from_microseconds_2000(at);
        value.seconds = instant.seconds;
        value.nanoseconds = instant.nanoseconds;
    }
    return value;
}

FUNCTION(offset_timestamp_hash_timestamptz) {
    OffsetTimestamp value = at_front(PG_GETARG_TIMESTAMPTZ(0));
    return hash_any((const unsigned char *)&value, INSTANT_BYTES);
}

FUNCTION(offset_timestamp_hash_timestamptz_extended) {
    OffsetTimestamp value = at_front(PG_GETARG_TIMESTAMPTZ(0));
    return hash_any_extended((const unsigned char *)&value, INSTANT_BYTES, (uint64)PG_GETARG_INT64(1));
}

/* -infinity comes before each value, and infinity after each. */
static int compare_with(const OffsetTimestamp *at, TimestampTz other) {
    if (TIMESTAMP_IS_NOBEGIN(other)) return 1;
    if (TIMESTAMP_IS_NOEND(other)) return -1;
    return muxandu_timestamp_compare(instant_of(at), muxandu_timestamp_from_microseconds_2000(other));
}

#define COMPARISONS(name, relation)                                                                                    \
    FUNCTION(offset_timestamp_##name##_timestamptz) {                                                                  \
        PG_RETURN_BOOL(compare_with(GET_TIMESTAMP(0), PG_GETARG_TIMESTAMPTZ(1)) relation 0);                           \
    }                                                                                                                  \
    FUNCTION(offset_timestamp_timestamptz_##name) {                                                                    \
        PG_RETURN_BOOL(-compare_with(GET_TIMESTAMP(1), PG_GETARG_TIMESTAMPTZ(0)) relation 0);                          \
    }

COMPARISONS(eq, ==)
COMPARISONS(ne, !=)
COMPARISONS(lt, <)
COMPARISONS(le, <=)
COMPARISONS(gt, >)
COMPARISONS(ge, >=)

FUNCTION(offset_timestamp_cmp_timestamptz) {
    PG_RETURN_INT32(compare_with(GET_TIMESTAMP(0), PG_GETARG_TIMESTAMPTZ(1)));
}

FUNCTION(offset_timestamp_timestamptz_cmp) {
    PG_RETURN_INT32(-compare_with(GET_TIMESTAMP(1), PG_GETARG_TIMESTAMPTZ(0)));
}
