#include "values.h"

OffsetTimestamp *from_parts(MuxanduTimestamp instant, int32 offset_seconds) {
    OffsetTimestamp *at = palloc(sizeof *at);
    at->seconds = instant.seconds;
    at->nanoseconds = instant.nanoseconds;
    at->offset_seconds = offset_seconds;
    return at;
}

OffsetTimestamp *at_offset(MuxanduTimestamp instant, int32 offset_seconds) {
    MuxanduDateTime shown;
    require(muxandu_date_time_from_timestamp(instant, offset_seconds, &shown), TIMESTAMP_NAME);
    return from_parts(instant, offset_seconds);
}

OffsetTimestamp *from_date_time(MuxanduDateTime shown) {
    MuxanduTimestamp instant;
    require(muxandu_timestamp_from_date_time(shown, &instant), TIMESTAMP_NAME);
    return from_parts(instant, shown.offset_seconds);
}

ExactDuration *from_duration(MuxanduDuration duration) {
    ExactDuration *stored = palloc(sizeof *stored);
    stored->seconds = duration.seconds;
    stored->nanoseconds = duration.nanoseconds;
    return stored;
}
