#include "calls.h"

#include "values.h"
#include "zones.h"

SQLITE_EXTENSION_INIT3

enum { NANOSECONDS = 1000000000 };

/* The bytes of the longest text by a description. */
enum { FORMAT_ROOM = 64 };

typedef struct Call {
    const char *name;
    int least_arguments, most_arguments;
    Answer *answer;
    /* Whether what is refused is answered with NULL. */
    int is_or_null;
} Call;

uint32_t answer_date_time(sqlite3_context *context, MuxanduDateTime at) {
    char text[MUXANDU_TEXT_ROOM];
    size_t size;
    uint32_t status = muxandu_date_time_to_rfc3339(at, text, sizeof text, &size);
    if (status == MUXANDU_OK) sqlite3_result_text(context, text, (int)size, SQLITE_TRANSIENT);
    return status;
}

/* The whole units from 1970 on, rounded down: the counts that other programs store. */
static uint32_t unix_count(MuxanduTimestamp at, const Unit *unit, int64_t *out) {
    switch (unit->number) {
    case MUXANDU_UNIT_SECOND: *out = at.seconds; return MUXANDU_OK;
    case MUXANDU_UNIT_MILLISECOND: return muxandu_timestamp_to_milliseconds(at, out);
    case MUXANDU_UNIT_MICROSECOND: return muxandu_timestamp_to_microseconds(at, out);
    case MUXANDU_UNIT_NANOSECOND: return muxandu_timestamp_to_nanoseconds(at, out);
    default: return REFUSED_UNIT_NAME;
    }
}

/* The date-time of a Unix second, an offset and a nanosecond. */
static uint32_t read_unix(int count, sqlite3_value **values, MuxanduDateTime *out) {
    MuxanduTimestamp at = {0, 0};
    int32_t offset = 0;
    uint32_t status = read_whole_number(values[0], &at.seconds);
    if (status == MUXANDU_OK && count > 1) status = read_offset(values[1], &offset);
    if (status == MUXANDU_OK && count > 2) status = read_nanosecond(values[2], &at.nanoseconds);
    return status == MUXANDU_OK ? muxandu_date_time_from_timestamp(at, offset, out) : status;
}

static uint32_t answer_text(sqlite3_context *context, int count, sqlite3_value **values) {
    MuxanduDateTime shown;
    uint32_t status = read_unix(count, values, &shown);
    return status == MUXANDU_OK ? answer_date_time(context, shown) : status;
}

static uint32_t answer_to_iso(sqlite3_context *context, int count, sqlite3_value **values) {
    MuxanduDateTime shown;
    char text[MUXANDU_TEXT_ROOM];
    size_t size;
    uint32_t status = read_unix(count, values, &shown);
    if (status == MUXANDU_OK) status = muxandu_date_time_to_iso(shown, text, sizeof text, &size);
    if (status == MUXANDU_OK) sqlite3_result_text(context, text, (int)size, SQLITE_TRANSIENT);
    return status;
}

static uint32_t answer_to_offset(sqlite3_context *context, int count, sqlite3_value **values) {
    MuxanduDateTime at;
    int32_t offset;
    uint32_t status = read_date_time(values[0], &at);
    (void)count;
    if (status == MUXANDU_OK) status = read_offset(values[1], &offset);
    if (status == MUXANDU_OK) status = muxandu_date_time_to_offset(at, offset, &at);
    return status == MUXANDU_OK ? answer_date_time(context, at) : status;
}

static uint32_t answer_sortable(sqlite3_context *context, int count, sqlite3_value **values) {
    MuxanduTimestamp at;
    char text[MUXANDU_TEXT_ROOM];
    size_t size;
    uint32_t status = read_instant(values[0], &at);
    (void)count;
    if (status == MUXANDU_OK) status = muxandu_timestamp_to_rfc3339_nanos(at, text, sizeof text, &size);
    if (status == MUXANDU_OK) sqlite3_result_text(context, text, (int)size, SQLITE_TRANSIENT);
    return status;
}

/* A number of a unit as a duration. */
static uint32_t duration_of(int64_t number, const Unit *unit, MuxanduDuration *out) {
    int64_t seconds_each = unit->nanoseconds / NANOSECONDS, each_second;
    if (seconds_each > 0) {
        *out = (MuxanduDuration){0, 0};
        return __builtin_mul_overflow(number, seconds_each, &out->seconds) ? MUXANDU_REFUSED_DURATION : MUXANDU_OK;
    }
    each_second = NANOSECONDS / unit->nanoseconds;
    *out = (MuxanduDuration){number / each_second, (int32_t)(number % each_second * unit->nanoseconds)};
    return MUXANDU_OK;
}

/* The whole units of a duration that a call has given: the rest, of either sign, is dropped. */
static uint32_t units_of(MuxanduDuration duration, const Unit *unit, int64_t *out) {
    int64_t seconds_each = unit->nanoseconds / NANOSECONDS, past;
    if (seconds_each > 0) {
        *out = duration.seconds / seconds_each;
        return MUXANDU_OK;
    }
    past = duration.nanoseconds / unit->nanoseconds;
    if (__builtin_mul_overflow(duration.seconds, NANOSECONDS / unit->nanoseconds, out)) return MUXANDU_REFUSED_RESULT;
    return __builtin_add_overflow(*out, past, out) ? MUXANDU_REFUSED_RESULT : MUXANDU_OK;
}

static const Unit SECOND = {"second", MUXANDU_UNIT_SECOND, NANOSECONDS};

/* A duration: a text of one, such as '1h30m', or a number of units, which are seconds without
 * their name. */
static uint32_t read_duration(sqlite3_value *value, sqlite3_value *name, MuxanduDuration *out) {
    const Unit *unit = &SECOND;
    const char *text;
    size_t size;
    int64_t number;
    int is_text = name == NULL && sqlite3_value_type(value) == SQLITE_TEXT;
    uint32_t status = is_text ? read_text(value, &text, &size) : read_whole_number(value, &number);
    if (is_text) return status == MUXANDU_OK ? muxandu_duration_from_text(text, size, out) : status;
    if (status == MUXANDU_OK && name != NULL) status = read_unit(name, &unit);
    return status == MUXANDU_OK ? duration_of(number, unit, out) : status;
}

static uint32_t answer_add(sqlite3_context *context, int count, sqlite3_value **values) {
    MuxanduDateTime at;
    MuxanduDuration duration;
    uint32_t status = read_date_time(values[0], &at);
    if (status == MUXANDU_OK) status = read_duration(values[1], count > 2 ? values[2] : NULL, &duration);
    if (status == MUXANDU_OK) status = muxandu_date_time_add(at, duration, &at);
    return status == MUXANDU_OK ? answer_date_time(context, at) : status;
}

static uint32_t answer_difference(sqlite3_context *context, int count, sqlite3_value **values) {
    MuxanduTimestamp later, earlier;
    MuxanduDuration duration;
    const Unit *unit = &SECOND;
    int64_t number;
    uint32_t status = read_instant(values[0], &later);
    if (status == MUXANDU_OK) status = read_instant(values[1], &earlier);
    if (status == MUXANDU_OK && count > 2) status = read_unit(values[2], &unit);
    if (status == MUXANDU_OK) status = muxandu_timestamp_difference(later, earlier, &duration);
    if (status == MUXANDU_OK) status = units_of(duration, unit, &number);
    if (status == MUXANDU_OK) sqlite3_result_int64(context, number);
    return status;
}

/* The count of an instant, in the unit of a call's second argument. */
static uint32_t answer_count(sqlite3_context *context, int count, sqlite3_value **values, MuxanduTimestamp at) {
    const Unit *unit = &SECOND;
    int64_t number;
    uint32_t status = count > 1 ? read_unit(values[1], &unit) : MUXANDU_OK;
    if (status == MUXANDU_OK) status = unix_count(at, unit, &number);
    if (status == MUXANDU_OK) sqlite3_result_int64(context, number);
    return status;
}

static uint32_t answer_unix(sqlite3_context *context, int count, sqlite3_value **values) {
    MuxanduTimestamp at;
    uint32_t status = read_instant(values[0], &at);
    return status == MUXANDU_OK ? answer_count(context, count, values, at) : status;
}

static uint32_t answer_from_iso(sqlite3_context *context, int count, sqlite3_value **values) {
    MuxanduTimestamp at;
    uint32_t status = read_iso_instant(values[0], &at);
    return status == MUXANDU_OK ? answer_count(context, count, values, at) : status;
}

/* The Monday of the week, which may lie in another month or year. */
static uint32_t go_to_monday(MuxanduDateTime *at) {
    MuxanduDate date = {at->year, at->month, at->day};
    MuxanduDateReads reads;
    uint32_t status = muxandu_date_reads(date, &reads);
    if (status == MUXANDU_OK) status = muxandu_date_add_days(date, -(int32_t)reads.weekday, &date);
    if (status != MUXANDU_OK) return status;
    at->year = date.year;
    at->month = date.month;
    at->day = date.day;
    return MUXANDU_OK;
}

/* Goes to the first day of a week, month, quarter or year. */
static uint32_t go_to_first_day(MuxanduDateTime *at, const char *name, size_t size) {
    int is_year = is_named(name, size, "year"), is_quarter = is_named(name, size, "quarter");
    if (is_named(name, size, "week")) return go_to_monday(at);
    if (!is_year && !is_quarter && !is_named(name, size, "month")) return REFUSED_UNIT_NAME;
    at->day = 1;
    if (is_year) at->month = 1;
    if (is_quarter) at->month = (uint8_t)((at->month - 1) / 3 * 3 + 1);
    return MUXANDU_OK;
}

/* The date-time rounded down to a unit of that name, or to its week, month, quarter or year, as
 * its clocks show it. */
static uint32_t truncate_to(MuxanduDateTime *at, sqlite3_value *name) {
    const Unit *unit;
    const char *text;
    size_t size;
    uint32_t status = read_unit(name, &unit);
    if (status == MUXANDU_OK) return muxandu_date_time_truncate(*at, unit->number, at);
    if (status != REFUSED_UNIT_NAME) return status;
    status = read_text(name, &text, &size);
    if (status == MUXANDU_OK) status = go_to_first_day(at, text, size);
    return status == MUXANDU_OK ? muxandu_date_time_truncate(*at, MUXANDU_UNIT_DAY, at) : status;
}

static uint32_t answer_truncate(sqlite3_context *context, int count, sqlite3_value **values) {
    MuxanduDateTime at;
    uint32_t status = read_date_time(values[0], &at);
    (void)count;
    if (status == MUXANDU_OK) status = truncate_to(&at, values[1]);
    return status == MUXANDU_OK ? answer_date_time(context, at) : status;
}

/* The same day of the month and time of day a number of months later, or the last day of a month
 * that is shorter. */
static uint32_t answer_add_months(sqlite3_context *context, int count, sqlite3_value **values) {
    MuxanduDateTime at;
    MuxanduDate date;
    int64_t months;
    uint32_t status = read_date_time(values[0], &at);
    (void)count;
    if (status == MUXANDU_OK) status = read_whole_number(values[1], &months);
    if (status != MUXANDU_OK) return status;
    if (months < INT32_MIN || months > INT32_MAX) return MUXANDU_REFUSED_RESULT;
    date = (MuxanduDate){at.year, at.month, at.day};
    status = muxandu_date_add_months(date, (int32_t)months, &date);
    if (status != MUXANDU_OK) return status;
    at.year = date.year;
    at.month = date.month;
    at.day = date.day;
    return answer_date_time(context, at);
}

/* The day that the clocks of a date-time show. */
static uint32_t answer_local_date(sqlite3_context *context, int count, sqlite3_value **values) {
    MuxanduDateTime at;
    char text[MUXANDU_TEXT_ROOM];
    size_t size;
    uint32_t status = read_date_time(values[0], &at);
    (void)count;
    if (status == MUXANDU_OK) {
        MuxanduDate date = {at.year, at.month, at.day};
        status = muxandu_date_to_rfc3339(date, text, sizeof text, &size);
    }
    if (status == MUXANDU_OK) sqlite3_result_text(context, text, (int)size, SQLITE_TRANSIENT);
    return status;
}

/* Whether a duration is shorter than another. Neither is below 0, here and in the next three. */
static int is_shorter(MuxanduDuration first, MuxanduDuration second) {
    if (first.seconds != second.seconds) return first.seconds < second.seconds;
    return first.nanoseconds < second.nanoseconds;
}

static MuxanduDuration without(MuxanduDuration whole, MuxanduDuration part) {
    int borrows = whole.nanoseconds < part.nanoseconds;
    return (MuxanduDuration){whole.seconds - part.seconds - borrows,
                             whole.nanoseconds - part.nanoseconds + borrows * NANOSECONDS};
}

static MuxanduDuration twice(MuxanduDuration one) {
    int carries = one.nanoseconds >= NANOSECONDS / 2;
    return (MuxanduDuration){2 * one.seconds + carries, 2 * one.nanoseconds - carries * NANOSECONDS};
}

/* The rest of a duration after its whole steps. A step is above 0. */
static MuxanduDuration rest_of(MuxanduDuration whole, MuxanduDuration step) {
    MuxanduDuration rest;
    if (is_shorter(whole, step)) return whole;
    rest = rest_of(whole, twice(step));
    return is_shorter(rest, step) ? rest : without(rest, step);
}

/* How long ago the step began in which a duration of either sign ends, where one begins at 0. */
static MuxanduDuration past_step(MuxanduDuration duration, MuxanduDuration step) {
    MuxanduDuration rest;
    if (duration.seconds >= 0 && duration.nanoseconds >= 0) return rest_of(duration, step);
    rest = rest_of((MuxanduDuration){-duration.seconds, -duration.nanoseconds}, step);
    return rest.seconds == 0 && rest.nanoseconds == 0 ? rest : without(step, rest);
}

static uint32_t answer_bin(sqlite3_context *context, int count, sqlite3_value **values) {
    MuxanduDateTime at;
    MuxanduTimestamp instant, origin;
    MuxanduDuration step, apart;
    uint32_t status = read_date_time(values[0], &at);
    if (status == MUXANDU_OK) status = read_duration(values[1], count > 3 ? values[2] : NULL, &step);
    if (status == MUXANDU_OK && step.seconds <= 0 && step.nanoseconds <= 0) status = REFUSED_STEP;
    if (status == MUXANDU_OK) status = read_instant(values[count - 1], &origin);
    if (status == MUXANDU_OK) status = muxandu_timestamp_from_date_time(at, &instant);
    if (status == MUXANDU_OK) status = muxandu_timestamp_difference(instant, origin, &apart);
    if (status == MUXANDU_OK) status = muxandu_date_time_subtract(at, past_step(apart, step), &at);
    return status == MUXANDU_OK ? answer_date_time(context, at) : status;
}

static uint32_t answer_format(sqlite3_context *context, int count, sqlite3_value **values) {
    MuxanduDateTime at;
    const char *form;
    char text[FORMAT_ROOM];
    size_t form_size, size;
    uint32_t status = read_date_time(values[0], &at);
    (void)count;
    if (status == MUXANDU_OK) status = read_text(values[1], &form, &form_size);
    if (status == MUXANDU_OK)
        status = muxandu_format(MUXANDU_KIND_OFFSET_DATE_TIME, form, form_size, at, text, sizeof text, &size);
    if (status == MUXANDU_OK) sqlite3_result_text(context, text, (int)size, SQLITE_TRANSIENT);
    return status;
}

/* The date-time of a text by a description. Where the text has no offset, it has that of the
 * call. */
static uint32_t answer_parse(sqlite3_context *context, int count, sqlite3_value **values) {
    MuxanduDateTime at;
    MuxanduOutcome outcome;
    const char *text, *form;
    size_t size, form_size;
    int32_t offset = 0;
    uint32_t status = read_text(values[0], &text, &size);
    if (status == MUXANDU_OK) status = read_text(values[1], &form, &form_size);
    if (status == MUXANDU_OK && count > 2) status = read_offset(values[2], &offset);
    if (status != MUXANDU_OK) return status;
    outcome = muxandu_parse(MUXANDU_KIND_OFFSET_DATE_TIME, form, form_size, text, size, &at);
    if (count > 2 && outcome.status == MUXANDU_REFUSED_SYNTAX && outcome.reason == MUXANDU_REASON_OFFSET_HOUR) {
        outcome = muxandu_parse(MUXANDU_KIND_PLAIN_DATE_TIME, form, form_size, text, size, &at);
        at.offset_seconds = offset;
    }
    return outcome.status == MUXANDU_OK ? answer_date_time(context, at) : outcome.status;
}

static uint32_t answer_compare(sqlite3_context *context, int count, sqlite3_value **values) {
    MuxanduTimestamp first, second;
    uint32_t status = read_instant(values[0], &first);
    (void)count;
    if (status == MUXANDU_OK) status = read_instant(values[1], &second);
    if (status == MUXANDU_OK) sqlite3_result_int(context, muxandu_timestamp_compare(first, second));
    return status;
}

/* The name of what is refused is the answer, and nothing is refused. */
static uint32_t answer_refused(sqlite3_context *context, int count, sqlite3_value **values) {
    MuxanduTimestamp at;
    uint32_t status = read_instant(values[0], &at);
    (void)count;
    if (status == MUXANDU_OK || status == OUT_OF_MEMORY) return status;
    sqlite3_result_text(context, refusal_name(status), -1, SQLITE_STATIC);
    return MUXANDU_OK;
}

static void refuse(sqlite3_context *context, const char *name, uint32_t status) {
    char *message = refusal_message(name, status);
    if (message == NULL) {
        sqlite3_result_error_nomem(context);
        return;
    }
    sqlite3_result_error(context, message, -1);
    sqlite3_free(message);
}

/* Answers a call. Where an argument is NULL, so is the answer. */
static void run(sqlite3_context *context, int count, sqlite3_value **values) {
    const Call *call = sqlite3_user_data(context);
    uint32_t status;
    for (int at = 0; at < count; at++) {
        if (sqlite3_value_type(values[at]) == SQLITE_NULL) return;
    }
    status = call->answer(context, count, values);
    if (status == OUT_OF_MEMORY)
        sqlite3_result_error_nomem(context);
    else if (status != MUXANDU_OK && !call->is_or_null)
        refuse(context, call->name, status);
}

#define BOTH(name, least, most, answer)                                                                                \
    {name, least, most, answer, 0}, {                                                                                  \
        name "_or_null", least, most, answer, 1                                                                        \
    }

static const Call CALLS[] = {
    BOTH("muxandu_unix", 1, 2, answer_unix),
    BOTH("muxandu_text", 1, 3, answer_text),
    BOTH("muxandu_from_iso", 1, 2, answer_from_iso),
    BOTH("muxandu_to_iso", 1, 3, answer_to_iso),
    BOTH("muxandu_to_offset", 2, 2, answer_to_offset),
    BOTH("muxandu_sortable", 1, 1, answer_sortable),
    BOTH("muxandu_add", 2, 3, answer_add),
    BOTH("muxandu_add_months", 2, 2, answer_add_months),
    BOTH("muxandu_truncate", 2, 2, answer_truncate),
    BOTH("muxandu_bin", 3, 4, answer_bin),
    BOTH("muxandu_local_date", 1, 1, answer_local_date),
    BOTH("muxandu_format", 2, 2, answer_format),
    BOTH("muxandu_parse", 2, 3, answer_parse),
    BOTH("muxandu_difference", 2, 3, answer_difference),
    BOTH("muxandu_compare", 2, 2, answer_compare),
    {"muxandu_refused", 1, 1, answer_refused, 0},
};

/* The files of time zones may change, so these are not deterministic. And since they read files,
 * a schema that is not trusted does not call them. */
static const Call ZONE_CALLS[] = {
    BOTH("muxandu_at_zone", 2, 2, answer_at_zone),
    BOTH("muxandu_from_local", 2, 3, answer_from_local),
};

static int define(sqlite3 *db, const Call *call, int flags) {
    int status = SQLITE_OK;
    for (int count = call->least_arguments; count <= call->most_arguments && status == SQLITE_OK; count++)
        status = sqlite3_create_function_v2(db, call->name, count, flags, (void *)call, run, NULL, NULL, NULL);
    return status;
}

int define_calls(sqlite3 *db) {
    const int flags = SQLITE_UTF8 | SQLITE_DETERMINISTIC | SQLITE_INNOCUOUS;
    int status = SQLITE_OK;
    for (size_t at = 0; at < COUNT(CALLS) && status == SQLITE_OK; at++) status = define(db, &CALLS[at], flags);
    for (size_t at = 0; at < COUNT(ZONE_CALLS) && status == SQLITE_OK; at++)
        status = define(db, &ZONE_CALLS[at], SQLITE_UTF8);
    return status;
}
