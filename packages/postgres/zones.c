/* offset_timestamp and the time zones of the server. */
#include "values.h"

#include <unistd.h>

#include "pgtime.h"
#include "utils/builtins.h"
#include "utils/hsearch.h"
#include "utils/memutils.h"
#include "utils/timestamp.h"

/* How the server itself opens the file of a zone: in its own folder, by letters of any case. Its
 * header is not installed. */
extern int pg_open_tzfile(const char *name, char *canonname);

/* The most bytes of a file. Those of all zones are shorter than 5,000. */
enum { FILE_ROOM = 65536 };

static const char ZONE_HINT[] = "Write a name of pg_timezone_names, such as 'Europe/Berlin'.";

static const char CHOICE_HINT[] = "Write 'compatible', 'earlier', 'later' or 'reject'.";

/* The choice of a call where the clocks of a zone skip a time, or show it twice. */
static const struct {
    const char *name;
    MuxanduChoice number;
} CHOICES[] = {
    {"compatible", MUXANDU_CHOICE_COMPATIBLE},
    {"earlier", MUXANDU_CHOICE_EARLIER},
    {"later", MUXANDU_CHOICE_LATER},
    {"reject", MUXANDU_CHOICE_REJECT},
};

/* A zone as the calls of the library take it, by the server's own of the same name. */
typedef struct Zone {
    pg_tz *own;
    MuxanduZone rules;
    size_t count;
    MuxanduTransition *transitions;
} Zone;

static void refuse_name(const char *name) pg_attribute_noreturn();

static void refuse_name(const char *name) {
    ereport(ERROR, (errcode(ERRCODE_INVALID_PARAMETER_VALUE), errmsg("time zone \"%s\" not recognized", name),
                    errhint("%s", ZONE_HINT)));
}

static void refuse_file(const char *name, MuxanduOutcome outcome) {
    ereport(ERROR, (errcode(ERRCODE_INVALID_PARAMETER_VALUE), errmsg("cannot read the file of time zone \"%s\"", name),
                    errdetail("%s", outcome.reason == 0 ? muxandu_status_string(outcome.status)
                                                        : muxandu_reason_string(outcome.reason)),
                    errhint("%s", ZONE_HINT)));
}

/* The bytes of the file of a zone. */
static size_t read_file(const char *name, char *bytes) {
    char found[TZ_STRLEN_MAX + 1];
    int file = pg_open_tzfile(name, found);
    ssize_t size = file < 0 ? -1 : read(file, bytes, FILE_ROOM);
    if (file >= 0) close(file);
    if (size < 0) refuse_name(name);
    return (size_t)size;
}

/* Reads a zone from its file, and keeps its transitions as long as the session lasts. */
static void read_zone(const char *name, Zone *zone) {
    char *bytes = palloc(FILE_ROOM);
    MuxanduTransition *transitions = palloc(MUXANDU_ZONE_ROOM * sizeof *transitions);
    MuxanduOutcome outcome =
        muxandu_zone_from_tzif(bytes, read_file(name, bytes), &zone->rules, transitions, MUXANDU_ZONE_ROOM);
    if (outcome.status != MUXANDU_OK) refuse_file(name, outcome);
    zone->count = outcome.size;
    zone->transitions = MemoryContextAlloc(TopMemoryContext, (outcome.size + 1) * sizeof *transitions);
    memcpy(zone->transitions, transitions, outcome.size * sizeof *transitions);
    pfree(transitions);
    pfree(bytes);
}

/* The zones that this session has read. */
static HTAB *zones_read(void) {
    static HTAB *zones = NULL;
    if (zones == NULL) {
        HASHCTL form = {.keysize = sizeof(pg_tz *), .entrysize = sizeof(Zone)};
        zones = hash_create("zones of " TIMESTAMP_NAME, 16, &form, HASH_ELEM | HASH_BLOBS);
    }
    return zones;
}

/* The zone of a name that the server knows. It is read once a session. */
static const Zone *zone_named(const text *word) {
    char *name = text_to_cstring(word);
    Zone read = {.own = pg_tzset(name)};
    Zone *kept;
    /* A zone with leap seconds counts other seconds than Unix does. */
    if (read.own == NULL || !pg_tz_acceptable(read.own)) refuse_name(name);
    kept = hash_search(zones_read(), &read.own, HASH_FIND, NULL);
    if (kept == NULL) {
        read_zone(name, &read);
        kept = hash_search(zones_read(), &read.own, HASH_ENTER, NULL);
        *kept = read;
    }
    pfree(name);
    return kept;
}

/* The same instant, at the offset that the clocks of a zone have then. */
FUNCTION(offset_timestamp_at_zone) {
    MuxanduTimestamp instant = instant_of(GET_TIMESTAMP(0));
    const Zone *zone = zone_named(PG_GETARG_TEXT_PP(1));
    MuxanduDateTime shown;
    require(muxandu_timestamp_to_zone(instant, zone->rules, zone->transitions, zone->count, &shown), TIMESTAMP_NAME);
    PG_RETURN_POINTER(from_parts(instant, shown.offset_seconds));
}

static MuxanduChoice choice_named(const text *word) {
    const char *name = VARDATA_ANY(word);
    int size = (int)VARSIZE_ANY_EXHDR(word);
    for (size_t at = 0; at < lengthof(CHOICES); at++) {
        if ((size_t)size == strlen(CHOICES[at].name) && pg_strncasecmp(name, CHOICES[at].name, (size_t)size) == 0)
            return CHOICES[at].number;
    }
    ereport(ERROR, (errcode(ERRCODE_INVALID_PARAMETER_VALUE), errmsg("choice \"%.*s\" not recognized", size, name),
                    errhint("%s", CHOICE_HINT)));
}

static void refuse_local(Timestamp local, const text *zone, MuxanduStatus status) {
    char name[MUXANDU_STATUS_ROOM];
    if (status != MUXANDU_REFUSED_GAP && status != MUXANDU_REFUSED_FOLD) refuse(status, TIMESTAMP_NAME);
    if (muxandu_status_name_z(status, name, sizeof name) != MUXANDU_OK) strcpy(name, "UNKNOWN");
    ereport(ERROR, (errcode(ERRCODE_DATETIME_FIELD_OVERFLOW),
                    errmsg("no single instant is \"%s\" in time zone \"%s\"",
                           DatumGetCString(DirectFunctionCall1(timestamp_out, TimestampGetDatum(local))),
                           text_to_cstring(zone)),
                    errdetail("%s: %s", name, muxandu_status_string(status)),
                    errhint("Pass 'compatible', 'earlier' or 'later' as the third argument.")));
}

/* The value whose clocks in a zone show a timestamp. */
FUNCTION(offset_timestamp_from_local) {
    Timestamp local = PG_GETARG_TIMESTAMP(0);
    const text *name = PG_GETARG_TEXT_PP(1);
    const Zone *zone = zone_named(name);
    MuxanduChoice choice = PG_NARGS() > 2 ? choice_named(PG_GETARG_TEXT_PP(2)) : MUXANDU_CHOICE_REJECT;
    MuxanduDateTime shown;
    MuxanduStatus status;
    if (TIMESTAMP_NOT_FINITE(local)) refuse(MUXANDU_REFUSED_TIMESTAMP, TIMESTAMP_NAME);
    require(muxandu_date_time_from_timestamp(muxandu_timestamp_from_microseconds_2000(local), 0, &shown),
            TIMESTAMP_NAME);
    status = muxandu_date_time_at_zone(shown, zone->rules, zone->transitions, zone->count, choice, &shown);
    if (status != MUXANDU_OK) refuse_local(local, name, status);
    PG_RETURN_POINTER(from_date_time(shown));
}
