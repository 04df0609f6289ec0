/* The conversions in bare C, with the tests of the library and its structs: days by eras, in 64
 * bits. */
#ifndef BARE_H
#define BARE_H

#include "muxandu.h"

uint32_t bare_date_time_from_timestamp(MuxanduTimestamp at, int32_t offset_seconds, MuxanduDateTime *out);
uint32_t bare_timestamp_from_date_time(MuxanduDateTime date_time, MuxanduTimestamp *out);
uint32_t bare_date_time_to_offset(MuxanduDateTime date_time, int32_t offset_seconds, MuxanduDateTime *out);
uint32_t bare_date_time_check(MuxanduDateTime date_time);
uint32_t bare_timestamp_add(MuxanduTimestamp at, MuxanduDuration duration, MuxanduTimestamp *out);
MuxanduBatch bare_date_times_from_seconds(const int64_t *seconds, size_t count, int32_t offset_seconds,
                                          MuxanduDateTime *out, size_t room);
MuxanduBatch bare_seconds_from_date_times(const MuxanduDateTime *date_times, size_t count, int64_t *out, size_t room);
MuxanduBatch bare_dates_from_days(const int32_t *days, size_t count, MuxanduDate *out, size_t room);

#endif
