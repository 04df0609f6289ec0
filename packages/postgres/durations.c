/* exact_duration: its forms, its order, its sums, and casts from and to interval. */
#include "durations.h"

#include "common/hashfn.h"
#include "libpq/pqformat.h"
#include "units.h"
#include "utils/builtins.h"
#include "utils/timestamp.h"

/* The bytes of a value. */
enum { DURATION_BYTES = 12 };

static const char TEXT_HINT[] = "Write seconds such as 1.5, or numbers with units such as 1 day -0.5 seconds.";
static const char UNIT_HINT[] = "Name day, hour, minute, second, millisecond, microsecond or nanosecond.";

bool is_duration(int128 nanoseconds) {
    int128 seconds = nanoseconds / NANOSECONDS;
    return PG_INT64_MIN <= seconds && seconds <= PG_INT64_MAX;
}

ExactDuration *from_nanoseconds(int128 nanoseconds) {
    MuxanduDuration parts;
    if (!is_duration(nanoseconds)) refuse(MUXANDU_REFUSED_DURATION, DURATION_NAME);
    parts.seconds = (int64)(nanoseconds / NANOSECONDS);
    parts.nanoseconds = (int32)(nanoseconds % NANOSECONDS);
    return from_duration(parts);
}

MuxanduStatus read_duration(const char *text, ExactDuration *duration) {
    MuxanduDuration parts = {0, 0};
    MuxanduStatus status = muxandu_duration_from_text(text, strlen(text), &parts);
    duration->seconds = parts.seconds;
    duration->nanoseconds = parts.nanoseconds;
    return status;
}

bool has_months(const char *text) {
    size_t fault = muxandu_duration_fault(text, strlen(text));
    return strcspn(text, "0123456789") < fault && is_month_word(text + fault);
}

void write_duration(const ExactDuration *duration, char *text) {
    size_t size;
    require(muxandu_duration_text(duration_of(duration), text, DURATION_ROOM - 1, &size), DURATION_NAME);
    text[size] = '\0';
}

FUNCTION(exact_duration_in) {
    const char *text = PG_GETARG_CSTRING(0);
    ExactDuration *duration = palloc(sizeof *duration);
    MuxanduStatus status = read_duration(text, duration);
    if (status != MUXANDU_OK) {
        const char *hint = has_months(text) ? MONTH_HINT : TEXT_HINT;
        Input input = {"type " DURATION_NAME, text, hint, (Node *)fcinfo->context};
        refuse_text(&input, status, muxandu_duration_fault(text, strlen(text)));
        PG_RETURN_NULL();
    }
    PG_RETURN_POINTER(duration);
}

FUNCTION(exact_duration_out) {
    char *text = palloc(DURATION_ROOM);
    write_duration(GET_DURATION(0), text);
    PG_RETURN_CSTRING(text);
}

/* 12 bytes, the highest first: 8 of the seconds, 4 of the nanoseconds, which have their sign. */
FUNCTION(exact_duration_recv) {
    StringInfo message = (StringInfo)PG_GETARG_POINTER(0);
    ExactDuration *duration = palloc(sizeof *duration);
    int64 nanoseconds;
    duration->seconds = pq_getmsgint64(message);
    duration->nanoseconds = (int32)pq_getmsgint(message, 4);
    nanoseconds = duration->nanoseconds;
    if (nanoseconds <= -NANOSECONDS || nanoseconds >= NANOSECONDS || (duration->seconds > 0 && nanoseconds < 0) ||
        (duration->seconds < 0 && nanoseconds > 0))
        refuse(MUXANDU_REFUSED_DURATION, DURATION_NAME);
    PG_RETURN_POINTER(duration);
}

FUNCTION(exact_duration_send) {
    const ExactDuration *duration = GET_DURATION(0);
    StringInfoData message;
    pq_begintypsend(&message);
    pq_sendint64(&message, (uint64)duration->seconds);
    pq_sendint32(&message, (uint32)duration->nanoseconds);
    PG_RETURN_BYTEA_P(pq_endtypsend(&message));
}

static int compare_durations(const ExactDuration *first, const ExactDuration *second) {
    int128 one = nanoseconds_of(first), other = nanoseconds_of(second);
    return (one > other) - (one < other);
}

#define COMPARISON(name, relation)                                                                                     \
    FUNCTION(exact_duration_##name) {                                                                                  \
        PG_RETURN_BOOL(compare_durations(GET_DURATION(0), GET_DURATION(1)) relation 0);                                \
    }

COMPARISON(eq, ==)
COMPARISON(ne, !=)
COMPARISON(lt, <)
COMPARISON(le, <=)
COMPARISON(gt, >)
COMPARISON(ge, >=)

FUNCTION(exact_duration_cmp) {
    PG_RETURN_INT32(compare_durations(GET_DURATION(0), GET_DURATION(1)));
}

FUNCTION(exact_duration_larger) {
    PG_RETURN_DATUM(PG_GETARG_DATUM(compare_durations(GET_DURATION(0), GET_DURATION(1)) >= 0 ? 0 : 1));
}

FUNCTION(exact_duration_smaller) {
    PG_RETURN_DATUM(PG_GETARG_DATUM(compare_durations(GET_DURATION(0), GET_DURATION(1)) <= 0 ? 0 : 1));
}

FUNCTION(exact_duration_hash) {
    return hash_any((const unsigned char *)GET_DURATION(0), DURATION_BYTES);
}

FUNCTION(exact_duration_hash_extended) {
    return hash_any_extended((const unsigned char *)GET_DURATION(0), DURATION_BYTES, (uint64)PG_GETARG_INT64(1));
}

FUNCTION(exact_duration_plus) {
    PG_RETURN_POINTER(from_nanoseconds(nanoseconds_of(GET_DURATION(0)) + nanoseconds_of(GET_DURATION(1))));
}

FUNCTION(exact_duration_minus) {
    PG_RETURN_POINTER(from_nanoseconds(nanoseconds_of(GET_DURATION(0)) - nanoseconds_of(GET_DURATION(1))));
}

FUNCTION(exact_duration_negative) {
    PG_RETURN_POINTER(from_nanoseconds(-nanoseconds_of(GET_DURATION(0))));
}

/* The duration without its sign. */
FUNCTION(exact_duration_magnitude) {
    int128 nanoseconds = nanoseconds_of(GET_DURATION(0));
    PG_RETURN_POINTER(from_nanoseconds(nanoseconds < 0 ? -nanoseconds : nanoseconds));
}

/* The whole units of a duration: the rest, of either sign, is dropped. */
FUNCTION(exact_duration_count) {
    const text *word = PG_GETARG_TEXT_PP(1);
    int size = (int)VARSIZE_ANY_EXHDR(word);
    const Unit *unit = unit_named(VARDATA_ANY(word), (size_t)size);
    int128 count;
    if (unit == NULL) refuse_unit(DURATION_NAME, VARDATA_ANY(word), size, UNIT_HINT);
    count = nanoseconds_of(GET_DURATION(0)) / unit->nanoseconds;
    if (count < PG_INT64_MIN || count > PG_INT64_MAX) refuse(MUXANDU_REFUSED_RESULT, "bigint");
    PG_RETURN_INT64((int64)count);
}

/* A day has 86,400 seconds. Months have no fixed length, so they are an error. So is an infinity,
 * which intervals have from version 17 on. */
FUNCTION(exact_duration_from_interval) {
    const Interval *span = PG_GETARG_INTERVAL_P(0);
    int128 seconds_of_days = (int128)span->day * SECS_PER_DAY;
#if PG_VERSION_NUM >= 170000
    if (INTERVAL_NOT_FINITE(span)) refuse(MUXANDU_REFUSED_DURATION, DURATION_NAME);
#endif
    if (span->month != 0)
        ereport(ERROR, (errcode(ERRCODE_DATETIME_FIELD_OVERFLOW), errmsg("%s out of range", DURATION_NAME),
                        errdetail("An interval of months or years has no fixed length."), errhint("%s", MONTH_HINT)));
    PG_RETURN_POINTER(from_nanoseconds(seconds_of_days * NANOSECONDS + (int128)span->time * 1000));
}

/* An interval has no nanoseconds, so a duration between two microseconds is an error. */
FUNCTION(exact_duration_to_interval) {
    int128 nanoseconds = nanoseconds_of(GET_DURATION(0)), microseconds = nanoseconds / 1000;
    Interval *span = palloc0(sizeof *span);
    if (nanoseconds % 1000 != 0 || microseconds < PG_INT64_MIN || microseconds > PG_INT64_MAX)
        refuse(MUXANDU_REFUSED_RESULT, "interval");
    span->time = (TimeOffset)microseconds;
    PG_RETURN_INTERVAL_P(span);
}
