/* How the calls read the values of SQL, and how they name what they refuse. */
#ifndef MUXANDU_SQLITE_VALUES_H
#define MUXANDU_SQLITE_VALUES_H

#include <muxandu.h>
#include <sqlite3ext.h>

#define COUNT(items) (sizeof(items) / sizeof *(items))

/* Faults of SQL's values, in addition to the errors of muxandu.h. */
enum {
    REFUSED_TYPE = 1000,
    REFUSED_UNIT_NAME,
    REFUSED_STEP,
    REFUSED_ZONE_NAME,
    REFUSED_ZONE_FILE,
    REFUSED_CHOICE,
    OUT_OF_MEMORY,
};

/* A unit of time: its number in the library, and its nanoseconds. */
typedef struct Unit {
    const char *name;
    MuxanduUnit number;
    int64_t nanoseconds;
} Unit;

/* Each of these returns MUXANDU_OK, or why the value is refused. */
uint32_t read_text(sqlite3_value *value, const char **text, size_t *size);
uint32_t read_date_time(sqlite3_value *value, MuxanduDateTime *out);
uint32_t read_instant(sqlite3_value *value, MuxanduTimestamp *out);
uint32_t read_iso_instant(sqlite3_value *value, MuxanduTimestamp *out);
uint32_t read_whole_number(sqlite3_value *value, int64_t *out);
uint32_t read_offset(sqlite3_value *value, int32_t *out);
uint32_t read_nanosecond(sqlite3_value *value, uint32_t *out);
uint32_t read_unit(sqlite3_value *value, const Unit **out);

/* Whether a text is that name, in the singular or the plural, in letters of any case. */
int is_named(const char *text, size_t size, const char *name);

const char *refusal_name(uint32_t status);

/* The message of an error: the call, the name of the error and its text. The caller frees it. It
 * is NULL if memory runs out. */
char *refusal_message(const char *call, uint32_t status);

#endif
