/* The parts of an offset_timestamp as its clocks show them, its other offsets, and the beginning
 * of a unit. */
#include "units.h"
#include "values.h"

#include "utils/builtins.h"
#include "utils/date.h"
#include "utils/timestamp.h"

/* A name of a part, and how a date-time has it. */
typedef struct Part {
    const char *name;
    int64 (*read)(const OffsetTimestamp *at, MuxanduDateTime shown, MuxanduDateReads date);
} Part;

#define PART(name, value)                                                                                              \
    static int64 read_##name(const OffsetTimestamp *at, MuxanduDateTime shown, MuxanduDateReads date) {                \
        (void)at;                                                                                                      \
        (void)shown;                                                                                                   \
        (void)date;                                                                                                    \
        return value;                                                                                                  \
    }

PART(year, shown.year)
PART(quarter, (shown.month + 2) / 3)
PART(month, shown.month)
PART(day, shown.day)
PART(hour, shown.hour)
PART(minute, shown.minute)
PART(second, shown.second)
PART(nanosecond, shown.nanosecond)
PART(timezone, shown.offset_seconds)
PART(epoch, at->seconds)
PART(doy, date.ordinal)
PART(dow, (date.weekday + 1) % 7)
PART(isodow, date.weekday + 1)
PART(isoyear, date.iso_year)
PART(week, date.iso_week)
PART(julian, date.julian_day)

#define NAMED(name)                                                                                                    \
    { #name, read_##name }

static const Part PARTS[] = {
    NAMED(year),   NAMED(quarter), NAMED(month),      NAMED(day),      NAMED(hour), NAMED(minute),
    NAMED(second), NAMED(epoch),   NAMED(nanosecond), NAMED(timezone), NAMED(doy),  NAMED(dow),
    NAMED(isodow), NAMED(isoyear), NAMED(week),       NAMED(julian),
};

static const char PART_HINT[] = "Name year, quarter, month, week, day, hour, minute, second, nanosecond, epoch, "
                                "timezone, doy, dow, isodow, isoyear or julian.";

static const char UNIT_HINT[] =
    "Name year, quarter, month, week, day, hour, minute, second, millisecond, microsecond or "
    "nanosecond.";

static const Part *part_named(const text *word) {
    const char *name = VARDATA_ANY(word);
    int size = (int)VARSIZE_ANY_EXHDR(word);
    for (size_t at = 0; at < lengthof(PARTS); at++) {
        if (is_named(name, (size_t)size, PARTS[at].name)) return &PARTS[at];
    }
    refuse_unit(TIMESTAMP_NAME, name, size, PART_HINT);
}

FUNCTION(offset_timestamp_part) {
    const Part *part = part_named(PG_GETARG_TEXT_PP(0));
    const OffsetTimestamp *at = GET_TIMESTAMP(1);
    MuxanduDateTime shown = shown_by(at);
    MuxanduDate date = {shown.year, shown.month, shown.day};
    MuxanduDateReads reads;
    require(muxandu_date_reads(date, &reads), TIMESTAMP_NAME);
    PG_RETURN_INT64(part->read(at, shown, reads));
}

FUNCTION(offset_timestamp_at_offset) {
    PG_RETURN_POINTER(at_offset(instant_of(GET_TIMESTAMP(0)), PG_GETARG_INT32(1)));
}

/* Reads an offset as the texts of the type have it: that of RFC 3339, or one with seconds. */
static MuxanduStatus read_offset(const char *text, int32 *seconds) {
    MuxanduDateTime shown = {0};
    MuxanduStatus status = muxandu_offset_from_rfc3339(text, strlen(text), seconds);
    if (status == MUXANDU_OK || (text[0] != '+' && text[0] != '-')) return status;
    text = psprintf("1970-01-01T00:00:00%s", text);
    status = muxandu_date_time_from_iso(text, strlen(text), &shown);
    *seconds = shown.offset_seconds;
    return status;
}

int32 offset_in(const text *word, const char *hint) {
    char *text = text_to_cstring(word);
    int32 seconds = 0;
    MuxanduStatus status = read_offset(text, &seconds);
    if (status != MUXANDU_OK) {
        Input input = {"an offset", text, hint, NULL};
        refuse_text(&input, status, NO_FAULT);
    }
    pfree(text);
    return seconds;
}

FUNCTION(offset_timestamp_at_offset_text) {
    PG_RETURN_POINTER(at_offset(instant_of(GET_TIMESTAMP(0)), offset_in(PG_GETARG_TEXT_PP(1), OFFSET_HINT)));
}

/* The day that the clocks of a value show. A date has no days before 4713 BC. */
FUNCTION(offset_timestamp_local_date) {
    int32 day;
    require(muxandu_date_time_day(shown_by(GET_TIMESTAMP(0)), &day), TIMESTAMP_NAME);
    day -= POSTGRES_EPOCH_JDATE - UNIX_EPOCH_JDATE;
    if (!IS_VALID_DATE(day)) refuse(MUXANDU_REFUSED_RESULT, "date");
    PG_RETURN_DATEADT(day);
}

/* The Monday of the week, which may lie in another month or year. */
static void go_to_monday(MuxanduDateTime *shown) {
    MuxanduDate date = {shown->year, shown->month, shown->day};
    MuxanduDateReads reads;
    require(muxandu_date_reads(date, &reads), TIMESTAMP_NAME);
    require(muxandu_date_add_days(date, -(int32)reads.weekday, &date), TIMESTAMP_NAME);
    shown->year = date.year;
    shown->month = date.month;
    shown->day = date.day;
}

/* Goes to the first day of a year, quarter, month or week. Returns whether the name is one of
 * these. */
static bool go_to_first_day(MuxanduDateTime *shown, const char *name, size_t size) {
    bool is_year = is_named(name, size, "year"), is_quarter = is_named(name, size, "quarter");
    if (is_named(name, size, "week")) {
        go_to_monday(shown);
        return true;
    }
    if (!is_year && !is_quarter && !is_named(name, size, "month")) return false;
    shown->day = 1;
    if (is_year) shown->month = 1;
    if (is_quarter) shown->month = (uint8)((shown->month - 1) / 3 * 3 + 1);
    return true;
}

FUNCTION(offset_timestamp_truncate) {
    const text *word = PG_GETARG_TEXT_PP(0);
    const char *name = VARDATA_ANY(word);
    int size = (int)VARSIZE_ANY_EXHDR(word);
    MuxanduDateTime shown = shown_by(GET_TIMESTAMP(1));
    const Unit *unit = unit_named(name, (size_t)size);
    MuxanduUnit number = MUXANDU_UNIT_DAY;
    if (unit != NULL)
        number = unit->number;
    else if (!go_to_first_day(&shown, name, (size_t)size))
        refuse_unit(TIMESTAMP_NAME, name, size, UNIT_HINT);
    require(muxandu_date_time_truncate(shown, number, &shown), TIMESTAMP_NAME);
    PG_RETURN_POINTER(from_date_time(shown));
}
