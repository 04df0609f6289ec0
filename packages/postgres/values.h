/* The values of both types as tables hold them, and how the calls of the library read them. */
#ifndef MUXANDU_POSTGRES_VALUES_H
#define MUXANDU_POSTGRES_VALUES_H

#include "postgres.h"

#include "fmgr.h"
#if PG_VERSION_NUM >= 160000
#include "varatt.h"
#endif

#include <muxandu.h>

#include "refusals.h"

/* Defines a function of SQL. module.map exports it by the front of its name. */
#define FUNCTION(name)                                                                                                 \
    PG_FUNCTION_INFO_V1(name);                                                                                         \
    Datum name(PG_FUNCTION_ARGS)

/* An instant, and the offset of the clocks that showed it. These 16 bytes are the form on disk. */
typedef struct OffsetTimestamp {
    int64 seconds;
    uint32 nanoseconds;
    int32 offset_seconds;
} OffsetTimestamp;

StaticAssertDecl(sizeof(OffsetTimestamp) == 16, "a value of offset_timestamp has 16 bytes");

/* The bytes of the instant, at the front of a value, with nothing between. */
enum { INSTANT_BYTES = offsetof(OffsetTimestamp, offset_seconds) };

/* A duration, whose parts have one sign. The first 12 bytes are the form on disk: read the
 * parts, and never the whole. */
typedef struct ExactDuration {
    int64 seconds;
    int32 nanoseconds;
} ExactDuration;

StaticAssertDecl(offsetof(ExactDuration, nanoseconds) == 8, "a value of exact_duration has 12 bytes");

#define GET_TIMESTAMP(n) ((const OffsetTimestamp *)PG_GETARG_POINTER(n))
#define GET_DURATION(n) ((const ExactDuration *)PG_GETARG_POINTER(n))

static inline MuxanduTimestamp instant_of(const OffsetTimestamp *at) {
    MuxanduTimestamp instant = {at->seconds, at->nanoseconds};
    return instant;
}

static inline MuxanduDuration duration_of(const ExactDuration *duration) {
    MuxanduDuration parts = {duration->seconds, duration->nanoseconds};
    return parts;
}

static inline int compare_instants(const OffsetTimestamp *first, const OffsetTimestamp *second) {
    return muxandu_timestamp_compare(instant_of(first), instant_of(second));
}

/* The date and the time that the clocks of a value show. */
static inline MuxanduDateTime shown_by(const OffsetTimestamp *at) {
    MuxanduDateTime shown = {0};
    require(muxandu_date_time_from_timestamp(instant_of(at), at->offset_seconds, &shown), TIMESTAMP_NAME);
    return shown;
}

/* The values of an instant at an offset, and of a date-time. Where either is out of range, it is
 * an error. */
OffsetTimestamp *at_offset(MuxanduTimestamp instant, int32 offset_seconds);
OffsetTimestamp *from_date_time(MuxanduDateTime shown);

/* The seconds of an offset, such as +02:00. The hint says how to write one. */
int32 offset_in(const text *word, const char *hint);

#define OFFSET_HINT "Write an offset such as +02:00 or Z, or a number of seconds without quotes."

/* The value of an instant and an offset whose clocks show a date-time of the range. */
OffsetTimestamp *from_parts(MuxanduTimestamp instant, int32 offset_seconds);

ExactDuration *from_duration(MuxanduDuration duration);

#endif
