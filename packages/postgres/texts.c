/* The texts of offset_timestamp, its binary form, and the digits of its columns. */
#include "durations.h"

#include "catalog/pg_type.h"
#include "libpq/pqformat.h"
#include "nodes/nodeFuncs.h"
#include "nodes/supportnodes.h"
#include "utils/array.h"
#include "utils/builtins.h"

enum { NO_DIGITS = -1, MOST_DIGITS = 9 };

static const char TEXT_HINT[] = "Write RFC 3339 with an offset, such as 2024-02-29T12:00:00+01:00.";
static const char DURATION_HINT[] = "Give a duration its type, such as '1 day'::exact_duration.";

/* Keeps the digits of a column of that type modifier, and all where it has none. */
static void keep_digits(OffsetTimestamp *at, int32 digits) {
    MuxanduTimestamp instant;
    if (digits < 0) return;
    require(muxandu_timestamp_truncate_digits(instant_of(at), (uint32)digits, &instant), TIMESTAMP_NAME);
    at->nanoseconds = instant.nanoseconds;
}

/* How to write what a text seems to be. */
static const char *hint_of(const char *text) {
    ExactDuration duration;
    if (has_months(text)) return MONTH_HINT;
    return read_duration(text, &duration) == MUXANDU_OK ? DURATION_HINT : TEXT_HINT;
}

/* The parts of a text, and its instant, which can be out of range where no part is. */
static MuxanduStatus read_text(const char *text, size_t size, MuxanduDateTime *shown, MuxanduTimestamp *instant) {
    MuxanduStatus status = muxandu_date_time_from_iso(text, size, shown);
    return status == MUXANDU_OK ? muxandu_timestamp_from_date_time(*shown, instant) : status;
}

FUNCTION(offset_timestamp_in) {
    const char *text = PG_GETARG_CSTRING(0);
    size_t size = strlen(text);
    MuxanduDateTime shown;
    MuxanduTimestamp instant;
    OffsetTimestamp *at;
    MuxanduStatus status = read_text(text, size, &shown, &instant);
    if (status != MUXANDU_OK) {
        Input input = {"type " TIMESTAMP_NAME, text, hint_of(text), (Node *)fcinfo->context};
        refuse_text(&input, status, status == MUXANDU_REFUSED_SYNTAX ? muxandu_iso_fault(text, size) : 0);
        PG_RETURN_NULL();
    }
    at = from_parts(instant, shown.offset_seconds);
    keep_digits(at, PG_GETARG_INT32(2));
    PG_RETURN_POINTER(at);
}

FUNCTION(offset_timestamp_out) {
    char *text = palloc(MUXANDU_TEXT_ROOM + 1);
    require(muxandu_date_time_to_iso_z(shown_by(GET_TIMESTAMP(0)), text, MUXANDU_TEXT_ROOM + 1), TIMESTAMP_NAME);
    PG_RETURN_CSTRING(text);
}

/* 16 bytes, the highest first: 8 of the second, 4 of the nanosecond, 4 of the offset in seconds. */
FUNCTION(offset_timestamp_recv) {
    StringInfo message = (StringInfo)PG_GETARG_POINTER(0);
    MuxanduTimestamp instant;
    OffsetTimestamp *at;
    instant.seconds = pq_getmsgint64(message);
    instant.nanoseconds = pq_getmsgint(message, 4);
    at = at_offset(instant, (int32)pq_getmsgint(message, 4));
    keep_digits(at, PG_GETARG_INT32(2));
    PG_RETURN_POINTER(at);
}

FUNCTION(offset_timestamp_send) {
    const OffsetTimestamp *at = GET_TIMESTAMP(0);
    StringInfoData message;
    pq_begintypsend(&message);
    pq_sendint64(&message, (uint64)at->seconds);
    pq_sendint32(&message, at->nanoseconds);
    pq_sendint32(&message, (uint32)at->offset_seconds);
    PG_RETURN_BYTEA_P(pq_endtypsend(&message));
}

FUNCTION(offset_timestamp_typmod_in) {
    int count;
    const int32 *modifiers = ArrayGetIntegerTypmods(PG_GETARG_ARRAYTYPE_P(0), &count);
    if (count != 1 || modifiers[0] < 0 || modifiers[0] > MOST_DIGITS)
        ereport(ERROR, (errcode(ERRCODE_INVALID_PARAMETER_VALUE),
                        errmsg("%s takes one number of digits, 0 to %d", TIMESTAMP_NAME, MOST_DIGITS)));
    PG_RETURN_INT32(modifiers[0]);
}

FUNCTION(offset_timestamp_typmod_out) {
    int32 digits = PG_GETARG_INT32(0);
    PG_RETURN_CSTRING(digits < 0 ? pstrdup("") : psprintf("(%d)", (int)digits));
}

/* The cast to the digits of a column. */
FUNCTION(offset_timestamp_digits) {
    const OffsetTimestamp *at = GET_TIMESTAMP(0);
    OffsetTimestamp *kept = from_parts(instant_of(at), at->offset_seconds);
    keep_digits(kept, PG_GETARG_INT32(1));
    PG_RETURN_POINTER(kept);
}

/* Leaves out the cast to a column that keeps at least the digits that a value has, so that no
 * table is written for one. */
FUNCTION(offset_timestamp_digits_support) {
    SupportRequestSimplify *request = (SupportRequestSimplify *)PG_GETARG_POINTER(0);
    Node *value, *digits;
    int32 before, after;
    if (!IsA(request, SupportRequestSimplify)) PG_RETURN_POINTER(NULL);
    value = linitial(request->fcall->args);
    digits = lsecond(request->fcall->args);
    if (!IsA(digits, Const) || ((Const *)digits)->constisnull) PG_RETURN_POINTER(NULL);
    before = exprTypmod(value);
    after = DatumGetInt32(((Const *)digits)->constvalue);
    if (after < 0 || after == MOST_DIGITS || (before >= 0 && before <= after))
        PG_RETURN_POINTER(relabel_to_typmod(value, after));
    PG_RETURN_POINTER(NULL);
}

/* The name of the part that makes a text an error, or NULL where there is none. */
FUNCTION(offset_timestamp_refused) {
    const text *word = PG_GETARG_TEXT_PP(0);
    char name[MUXANDU_STATUS_ROOM];
    MuxanduDateTime shown;
    MuxanduTimestamp instant;
    MuxanduStatus status = read_text(VARDATA_ANY(word), (size_t)VARSIZE_ANY_EXHDR(word), &shown, &instant);
    if (status == MUXANDU_OK) PG_RETURN_NULL();
    require(muxandu_status_name_z(status, name, sizeof name), TIMESTAMP_NAME);
    PG_RETURN_TEXT_P(cstring_to_text(name));
}

/* The value of a text, or NULL where the text is an error. */
FUNCTION(offset_timestamp_or_null) {
    const text *word = PG_GETARG_TEXT_PP(0);
    MuxanduDateTime shown;
    MuxanduTimestamp instant;
    if (read_text(VARDATA_ANY(word), (size_t)VARSIZE_ANY_EXHDR(word), &shown, &instant) != MUXANDU_OK) PG_RETURN_NULL();
    PG_RETURN_POINTER(from_parts(instant, shown.offset_seconds));
}
