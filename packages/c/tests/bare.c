#include "bare.h"

#include "reference.h"

static inline uint32_t wall_parts(int64_t second, uint32_t nanosecond, int32_t offset_seconds, MuxanduDateTime *out) {
    int64_t day;
    uint32_t clock;
    MuxanduDate date;
    if (second < REFERENCE_FIRST_SECOND || second > REFERENCE_LAST_SECOND) return MUXANDU_REFUSED_RESULT;
    day = floor_divide(second, 86400);
    clock = (uint32_t)(second - day * 86400);
    date = era_date(day);
    out->year = date.year;
    out->month = date.month;
    out->day = date.day;
    out->hour = (uint8_t)(clock / 3600);
    out->minute = (uint8_t)(clock / 60 % 60);
    out->second = (uint8_t)(clock % 60);
    out->nanosecond = nanosecond;
    out->offset_seconds = offset_seconds;
    return MUXANDU_OK;
}

static inline uint32_t second_of(const MuxanduDateTime *date_time, int64_t *out) {
    REFUSE(reference_date_time_check(*date_time));
    *out = era_day(date_time->year, date_time->month, date_time->day) * 86400 + date_time->hour * 3600 +
           date_time->minute * 60 + date_time->second - date_time->offset_seconds;
    return MUXANDU_OK;
}

static inline uint32_t date_time_at(MuxanduTimestamp at, int32_t offset_seconds, MuxanduDateTime *out) {
    REFUSE(reference_timestamp_check(at));
    REFUSE(reference_offset_check(offset_seconds));
    return wall_parts(at.seconds + offset_seconds, at.nanoseconds, offset_seconds, out);
}

static inline uint32_t stamp_at(const MuxanduDateTime *date_time, int64_t *out) {
    int64_t second;
    REFUSE(second_of(date_time, &second));
    if (second < REFERENCE_FIRST_SECOND || second > REFERENCE_LAST_SECOND) return MUXANDU_REFUSED_RESULT;
    *out = second;
    return MUXANDU_OK;
}

uint32_t bare_date_time_from_timestamp(MuxanduTimestamp at, int32_t offset_seconds, MuxanduDateTime *out) {
    return date_time_at(at, offset_seconds, out);
}

uint32_t bare_timestamp_from_date_time(MuxanduDateTime date_time, MuxanduTimestamp *out) {
    int64_t second;
    REFUSE(stamp_at(&date_time, &second));
    out->seconds = second;
    out->nanoseconds = date_time.nanosecond;
    return MUXANDU_OK;
}

uint32_t bare_date_time_to_offset(MuxanduDateTime date_time, int32_t offset_seconds, MuxanduDateTime *out) {
    int64_t second;
    REFUSE(second_of(&date_time, &second));
    REFUSE(reference_offset_check(offset_seconds));
    return wall_parts(second + offset_seconds, date_time.nanosecond, offset_seconds, out);
}

uint32_t bare_date_time_check(MuxanduDateTime date_time) {
    return reference_date_time_check(date_time);
}

uint32_t bare_timestamp_add(MuxanduTimestamp at, MuxanduDuration duration, MuxanduTimestamp *out) {
    int64_t second, carried = floor_divide(duration.nanoseconds, 1000000000), nanosecond;
    REFUSE(reference_timestamp_check(at));
    nanosecond = at.nanoseconds + (duration.nanoseconds - carried * 1000000000);
    if (nanosecond > 999999999) {
        nanosecond -= 1000000000;
        carried++;
    }
    if (__builtin_add_overflow(duration.seconds, carried, &second)) return MUXANDU_REFUSED_DURATION;
    if (__builtin_add_overflow(at.seconds, second, &second)) return MUXANDU_REFUSED_RESULT;
    if (second < REFERENCE_FIRST_SECOND || second > REFERENCE_LAST_SECOND) return MUXANDU_REFUSED_RESULT;
    out->seconds = second;
    out->nanoseconds = (uint32_t)nanosecond;
    return MUXANDU_OK;
}

/* Goes through the items up to the first that is refused. */
#define EACH(total, room, one)                                                                                         \
    MuxanduBatch done = {0, MUXANDU_OK};                                                                               \
    if ((room) < (total)) {                                                                                            \
        done.status = MUXANDU_REFUSED_BUFFER;                                                                          \
        return done;                                                                                                   \
    }                                                                                                                  \
    for (; done.count < (total); done.count++) {                                                                       \
        done.status = one;                                                                                             \
        if (done.status != MUXANDU_OK) return done;                                                                    \
    }                                                                                                                  \
    return done

MuxanduBatch bare_date_times_from_seconds(const int64_t *seconds, size_t items, int32_t offset_seconds,
                                          MuxanduDateTime *out, size_t room) {
    MuxanduTimestamp at = {0, 0};
    EACH(items, room, (at.seconds = seconds[done.count], date_time_at(at, offset_seconds, out + done.count)));
}

MuxanduBatch bare_seconds_from_date_times(const MuxanduDateTime *date_times, size_t items, int64_t *out, size_t room) {
    EACH(items, room, stamp_at(date_times + done.count, out + done.count));
}

MuxanduBatch bare_dates_from_days(const int32_t *days, size_t items, MuxanduDate *out, size_t room) {
    EACH(items, room, reference_date_from_day(days[done.count], out + done.count));
}
