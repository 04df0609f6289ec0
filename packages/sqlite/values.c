#include "values.h"

#include <string.h>

SQLITE_EXTENSION_INIT3

#include "refusals.h"

/* Doubles hold each whole number up to this one. */
static const double MOST_EXACT = 9007199254740992.0;

static const Unit UNITS[] = {
    {"nanosecond", MUXANDU_UNIT_NANOSECOND, 1},         {"microsecond", MUXANDU_UNIT_MICROSECOND, 1000},
    {"millisecond", MUXANDU_UNIT_MILLISECOND, 1000000}, {"second", MUXANDU_UNIT_SECOND, 1000000000},
    {"minute", MUXANDU_UNIT_MINUTE, 60000000000},       {"hour", MUXANDU_UNIT_HOUR, 3600000000000},
    {"day", MUXANDU_UNIT_DAY, 86400000000000},
};

uint32_t read_text(sqlite3_value *value, const char **text, size_t *size) {
    if (sqlite3_value_type(value) != SQLITE_TEXT) return REFUSED_TYPE;
    /* The text comes before its size: the first call may change how it is encoded. */
    *text = (const char *)sqlite3_value_text(value);
    *size = (size_t)sqlite3_value_bytes(value);
    return *text == NULL ? OUT_OF_MEMORY : MUXANDU_OK;
}

uint32_t read_date_time(sqlite3_value *value, MuxanduDateTime *out) {
    const char *text;
    size_t size;
    uint32_t status = read_text(value, &text, &size);
    return status == MUXANDU_OK ? muxandu_date_time_from_rfc3339(text, size, out) : status;
}

uint32_t read_instant(sqlite3_value *value, MuxanduTimestamp *out) {
    const char *text;
    size_t size;
    uint32_t status = read_text(value, &text, &size);
    return status == MUXANDU_OK ? muxandu_timestamp_from_rfc3339(text, size, out) : status;
}

uint32_t read_iso_instant(sqlite3_value *value, MuxanduTimestamp *out) {
    const char *text;
    size_t size;
    MuxanduDateTime at;
    uint32_t status = read_text(value, &text, &size);
    if (status == MUXANDU_OK) status = muxandu_date_time_from_iso(text, size, &at);
    return status == MUXANDU_OK ? muxandu_timestamp_from_date_time(at, out) : status;
}

/* Languages that have doubles alone bind whole numbers as such: they are taken where a double
 * holds them exactly. */
uint32_t read_whole_number(sqlite3_value *value, int64_t *out) {
    double real;
    switch (sqlite3_value_type(value)) {
    case SQLITE_INTEGER: *out = sqlite3_value_int64(value); return MUXANDU_OK;
    case SQLITE_FLOAT:
        real = sqlite3_value_double(value);
        if (!(real >= -MOST_EXACT && real <= MOST_EXACT)) return REFUSED_TYPE;
        *out = (int64_t)real;
        return (double)*out == real ? MUXANDU_OK : REFUSED_TYPE;
    default: return REFUSED_TYPE;
    }
}

/* An offset is a text such as +02:00, or a number of seconds. A number of more than 32 bits
 * becomes one that the calls of the library reject. */
uint32_t read_offset(sqlite3_value *value, int32_t *out) {
    const char *text;
    size_t size;
    int64_t number = 0;
    int is_text = sqlite3_value_type(value) == SQLITE_TEXT;
    uint32_t status = is_text ? read_text(value, &text, &size) : read_whole_number(value, &number);
    if (is_text) return status == MUXANDU_OK ? muxandu_offset_from_rfc3339(text, size, out) : status;
    *out = number < INT32_MIN || number > INT32_MAX ? INT32_MAX : (int32_t)number;
    return status;
}

uint32_t read_nanosecond(sqlite3_value *value, uint32_t *out) {
    int64_t number = 0;
    uint32_t status = read_whole_number(value, &number);
    *out = number < 0 || number > UINT32_MAX ? UINT32_MAX : (uint32_t)number;
    return status;
}

int is_named(const char *text, size_t size, const char *name) {
    size_t length = strlen(name);
    int is_plural = size == length + 1 && (text[length] == 's' || text[length] == 'S');
    return (size == length || is_plural) && sqlite3_strnicmp(text, name, (int)length) == 0;
}

uint32_t read_unit(sqlite3_value *value, const Unit **out) {
    const char *text;
    size_t size;
    uint32_t status = read_text(value, &text, &size);
    if (status != MUXANDU_OK) return status;
    for (size_t at = 0; at < COUNT(UNITS); at++) {
        if (is_named(text, size, UNITS[at].name)) {
            *out = &UNITS[at];
            return MUXANDU_OK;
        }
    }
    return REFUSED_UNIT_NAME;
}

static const Refusal *refusal_of(uint32_t status) {
    static const Refusal TYPE = {"TYPE",
                                 "An argument of the wrong type: pass a text, or an integer, as the call takes it."};
    static const Refusal UNIT = {"UNIT", "An unknown unit: pass 'nanosecond', 'microsecond', 'millisecond', 'second', "
                                         "'minute', 'hour' or 'day', or 'week', 'month', 'quarter' or 'year' in "
                                         "muxandu_truncate; muxandu_unix has none above a second."};
    static const Refusal STEP = {"STEP", "A step that is not above 0."};
    static const Refusal ZONE = {"ZONE",
                                 "An unknown time zone: pass the name of a file below /usr/share/zoneinfo, such "
                                 "as 'Europe/Berlin'."};
    static const Refusal ZONE_FILE = {"ZONE_FILE",
                                      "A file that is no time zone of RFC 9636, or of one that counts leap seconds."};
    static const Refusal CHOICE = {"CHOICE", "An unknown choice: pass 'compatible', 'earlier', 'later' or 'reject'."};
    static const Refusal UNKNOWN = {"UNKNOWN", "An error of a later library: build the extension with it."};
    if (status == REFUSED_TYPE) return &TYPE;
    if (status == REFUSED_UNIT_NAME) return &UNIT;
    if (status == REFUSED_STEP) return &STEP;
    if (status == REFUSED_ZONE_NAME) return &ZONE;
    if (status == REFUSED_ZONE_FILE) return &ZONE_FILE;
    if (status == REFUSED_CHOICE) return &CHOICE;
    return status < COUNT(REFUSALS) && REFUSALS[status].name != NULL ? &REFUSALS[status] : &UNKNOWN;
}

const char *refusal_name(uint32_t status) {
    return refusal_of(status)->name;
}

char *refusal_message(const char *call, uint32_t status) {
    const Refusal *refusal = refusal_of(status);
    return sqlite3_mprintf("%s: %s: %s", call, refusal->name, refusal->meaning);
}
