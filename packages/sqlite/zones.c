#include "zones.h"

#include <stdio.h>
#include <stdlib.h>
#include <string.h>

#include "values.h"

SQLITE_EXTENSION_INIT3

/* The most bytes of a file. Those of all zones are shorter than 5,000. */
enum { FILE_ROOM = 65536 };

/* Where the files are, unless the variable TZDIR names a folder. */
static const char FOLDER[] = "/usr/share/zoneinfo";

typedef struct Zone {
    MuxanduZone rules;
    size_t count;
    MuxanduTransition transitions[MUXANDU_ZONE_ROOM];
} Zone;

/* The bytes of the file of a zone. */
static uint32_t read_file(const char *name, char *bytes, size_t *size) {
    const char *folder = getenv("TZDIR");
    char *path = sqlite3_mprintf("%s/%s", folder == NULL ? FOLDER : folder, name);
    FILE *file;
    int is_read;
    if (path == NULL) return OUT_OF_MEMORY;
    file = fopen(path, "rb");
    sqlite3_free(path);
    if (file == NULL) return REFUSED_ZONE_NAME;
    *size = fread(bytes, 1, FILE_ROOM, file);
    is_read = !ferror(file);
    fclose(file);
    return is_read ? MUXANDU_OK : REFUSED_ZONE_NAME;
}

static uint32_t read_zone(const char *name, Zone *zone) {
    char *bytes = sqlite3_malloc(FILE_ROOM);
    size_t size;
    uint32_t status = bytes == NULL ? OUT_OF_MEMORY : read_file(name, bytes, &size);
    if (status == MUXANDU_OK) {
        MuxanduOutcome outcome =
            muxandu_zone_from_tzif(bytes, size, &zone->rules, zone->transitions, MUXANDU_ZONE_ROOM);
        zone->count = outcome.size;
        status = outcome.status == MUXANDU_OK ? MUXANDU_OK : REFUSED_ZONE_FILE;
    }
    sqlite3_free(bytes);
    return status;
}

/* The zone that the second argument names. SQLite keeps that of a constant for the statement. */
static uint32_t zone_named(sqlite3_context *context, sqlite3_value *value, const Zone **out) {
    const char *name;
    size_t size;
    Zone *zone = sqlite3_get_auxdata(context, 1);
    uint32_t status = read_text(value, &name, &size);
    *out = zone;
    if (status != MUXANDU_OK || zone != NULL) return status;
    if (muxandu_zone_name_check(name, size) != MUXANDU_OK) return REFUSED_ZONE_NAME;
    zone = sqlite3_malloc(sizeof *zone);
    status = zone == NULL ? OUT_OF_MEMORY : read_zone(name, zone);
    if (status != MUXANDU_OK) {
        sqlite3_free(zone);
        return status;
    }
    sqlite3_set_auxdata(context, 1, zone, sqlite3_free);
    *out = sqlite3_get_auxdata(context, 1);
    return *out == NULL ? OUT_OF_MEMORY : MUXANDU_OK;
}

uint32_t answer_at_zone(sqlite3_context *context, int count, sqlite3_value **values) {
    MuxanduTimestamp at;
    MuxanduDateTime shown;
    const Zone *zone;
    uint32_t status = read_instant(values[0], &at);
    (void)count;
    if (status == MUXANDU_OK) status = zone_named(context, values[1], &zone);
    if (status == MUXANDU_OK)
        status = muxandu_timestamp_to_zone(at, zone->rules, zone->transitions, zone->count, &shown);
    return status == MUXANDU_OK ? answer_date_time(context, shown) : status;
}

/* The choice of a call where the clocks of a zone skip a time, or show it twice. */
static const struct {
    const char *name;
    MuxanduChoice number;
} CHOICES[] = {
    {"compatible", MUXANDU_CHOICE_COMPATIBLE},
    {"earlier", MUXANDU_CHOICE_EARLIER},
    {"later", MUXANDU_CHOICE_LATER},
    {"reject", MUXANDU_CHOICE_REJECT},
};

static uint32_t read_choice(sqlite3_value *value, MuxanduChoice *out) {
    const char *text;
    size_t size;
    uint32_t status = read_text(value, &text, &size);
    for (size_t at = 0; at < COUNT(CHOICES) && status == MUXANDU_OK; at++) {
        *out = CHOICES[at].number;
        if (size == strlen(CHOICES[at].name) && sqlite3_strnicmp(text, CHOICES[at].name, (int)size) == 0)
            return MUXANDU_OK;
    }
    return status == MUXANDU_OK ? REFUSED_CHOICE : status;
}

/* The text of the clocks of a zone that show a time. */
uint32_t answer_from_local(sqlite3_context *context, int count, sqlite3_value **values) {
    const char *text;
    size_t size;
    MuxanduDateTime shown;
    MuxanduChoice choice = MUXANDU_CHOICE_REJECT;
    const Zone *zone;
    uint32_t status = read_text(values[0], &text, &size);
    if (status == MUXANDU_OK) status = muxandu_date_time_from_plain(text, size, &shown);
    if (status == MUXANDU_OK) status = zone_named(context, values[1], &zone);
    if (status == MUXANDU_OK && count > 2) status = read_choice(values[2], &choice);
    if (status == MUXANDU_OK)
        status = muxandu_date_time_at_zone(shown, zone->rules, zone->transitions, zone->count, choice, &shown);
    return status == MUXANDU_OK ? answer_date_time(context, shown) : status;
}
