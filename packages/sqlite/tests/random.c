/* Random arguments of every type and length to each call of the extension, in databases of UTF-8 and
 * of UTF-16: there must be an answer or an error that begins with the call's name and a refusal's, and
 * what the form `_or_null` says must go with it. In some calls memory runs out: then the error is
 * SQLite's own, or the answer is as without.
 *
 * random EXTENSION [COUNT [SEED]]
 *
 * The last line is 'N passed, M failed', a call each. */
#include <math.h>
#include <sqlite3.h>
#include <stdint.h>
#include <stdio.h>
#include <stdlib.h>
#include <string.h>

enum { MOST_ARGUMENTS = 4, LONGEST = 200000, MOST_WRITTEN = 64, MOST_TOLD = 20, CONNECTIONS = 2 };

static uint64_t state;
static int passed, failed;

static uint64_t next(void) {
    state ^= state << 13;
    state ^= state >> 7;
    state ^= state << 17;
    return state;
}

/* One of so many, 0 first. */
static uint32_t one_of(uint32_t count) {
    return (uint32_t)((next() >> 32) % count);
}

/* Memory that runs out after so many allocations, or does not where that is negative. */
static int allocations_left = -1;
static sqlite3_mem_methods memory;

static int is_out(void) {
    return allocations_left >= 0 && allocations_left-- == 0;
}

static void *allocate(int size) {
    return is_out() ? NULL : memory.xMalloc(size);
}

static void *reallocate(void *block, int size) {
    return is_out() ? NULL : memory.xRealloc(block, size);
}

static void end(const char *what) {
    printf("%s\n", what);
    exit(2);
}

static void take_over_memory(void) {
    sqlite3_mem_methods own;
    if (sqlite3_config(SQLITE_CONFIG_GETMALLOC, &memory) != SQLITE_OK) end("the allocator is not told");
    own = memory;
    own.xMalloc = allocate;
    own.xRealloc = reallocate;
    if (sqlite3_config(SQLITE_CONFIG_MALLOC, &own) != SQLITE_OK) end("the allocator is not taken");
}

/* A call with so many arguments, and its form that answers with NULL. */
typedef struct Call {
    const char *name, *shown;
    int arguments;
    sqlite3_stmt *plain[CONNECTIONS], *or_null[CONNECTIONS];
} Call;

static Call calls[] = {
    {.name = "muxandu_unix", .shown = "select muxandu_unix%s(?1)", .arguments = 1},
    {.name = "muxandu_text", .shown = "select muxandu_text%s(?1)", .arguments = 1},
    {.name = "muxandu_text", .shown = "select muxandu_text%s(?1, ?2)", .arguments = 2},
    {.name = "muxandu_text", .shown = "select muxandu_text%s(?1, ?2, ?3)", .arguments = 3},
    {.name = "muxandu_to_iso", .shown = "select muxandu_to_iso%s(?1, ?2, ?3)", .arguments = 3},
    {.name = "muxandu_from_iso", .shown = "select muxandu_from_iso%s(?1, ?2)", .arguments = 2},
    {.name = "muxandu_at_zone", .shown = "select muxandu_at_zone%s(?1, ?2)", .arguments = 2},
    {.name = "muxandu_to_offset", .shown = "select muxandu_to_offset%s(?1, ?2)", .arguments = 2},
    {.name = "muxandu_sortable", .shown = "select muxandu_sortable%s(?1)", .arguments = 1},
    {.name = "muxandu_add", .shown = "select muxandu_add%s(?1, ?2)", .arguments = 2},
    {.name = "muxandu_add", .shown = "select muxandu_add%s(?1, ?2, ?3)", .arguments = 3},
    {.name = "muxandu_difference", .shown = "select muxandu_difference%s(?1, ?2)", .arguments = 2},
    {.name = "muxandu_difference", .shown = "select muxandu_difference%s(?1, ?2, ?3)", .arguments = 3},
    {.name = "muxandu_bin", .shown = "select muxandu_bin%s(?1, ?2, ?3)", .arguments = 3},
    {.name = "muxandu_bin", .shown = "select muxandu_bin%s(?1, ?2, ?3, ?4)", .arguments = 4},
    {.name = "muxandu_truncate", .shown = "select muxandu_truncate%s(?1, ?2)", .arguments = 2},
    {.name = "muxandu_add_months", .shown = "select muxandu_add_months%s(?1, ?2)", .arguments = 2},
    {.name = "muxandu_local_date", .shown = "select muxandu_local_date%s(?1)", .arguments = 1},
    {.name = "muxandu_format", .shown = "select muxandu_format%s(?1, ?2)", .arguments = 2},
    {.name = "muxandu_parse", .shown = "select muxandu_parse%s(?1, ?2)", .arguments = 2},
    {.name = "muxandu_parse", .shown = "select muxandu_parse%s(?1, ?2, ?3)", .arguments = 3},
    {.name = "muxandu_compare", .shown = "select muxandu_compare%s(?1, ?2)", .arguments = 2},
    {.name = "muxandu_parts", .shown = "select * from muxandu_parts%s(?1)", .arguments = 1},
    {.name = "muxandu_parts", .shown = "select * from muxandu_parts%s(?1, ?2)", .arguments = 2},
};

enum { CALLS = sizeof calls / sizeof *calls };

/* A call that answers with the name of what it refuses. */
static sqlite3_stmt *refused[CONNECTIONS];

static sqlite3_stmt *prepared(sqlite3 *db, const char *form, const char *suffix) {
    char text[200];
    sqlite3_stmt *statement;
    snprintf(text, sizeof text, form, suffix);
    if (sqlite3_prepare_v2(db, text, -1, &statement, NULL) != SQLITE_OK) end(sqlite3_errmsg(db));
    return statement;
}

static void connect_to(int connection, const char *encoding, const char *extension) {
    sqlite3 *db;
    char *error = NULL;
    if (sqlite3_open(":memory:", &db) != SQLITE_OK) end("no database");
    if (sqlite3_exec(db, encoding, NULL, NULL, NULL) != SQLITE_OK) end("no such encoding");
    sqlite3_db_config(db, SQLITE_DBCONFIG_LOOKASIDE, NULL, 0, 0);
    sqlite3_db_config(db, SQLITE_DBCONFIG_ENABLE_LOAD_EXTENSION, 1, NULL);
    if (sqlite3_load_extension(db, extension, NULL, &error) != SQLITE_OK) end(error);
    for (int at = 0; at < CALLS; at++) {
        calls[at].plain[connection] = prepared(db, calls[at].shown, "");
        calls[at].or_null[connection] = prepared(db, calls[at].shown, "_or_null");
    }
    refused[connection] = prepared(db, "select muxandu_refused%s(?1)", "");
}

/* What an argument is bound to. */
typedef struct Argument {
    int type;
    sqlite3_int64 number;
    double real;
    char *bytes;
    int size;
} Argument;

static int some_size(void) {
    switch (one_of(64)) {
    case 0: return (int)one_of(LONGEST);
    case 1:
    case 2: return (int)one_of(2000);
    case 3: return 0;
    default: return (int)one_of(50);
    }
}

/* A number below a bound, or seldom the bound itself. */
static unsigned below(uint32_t bound) {
    return one_of(40) ? one_of(bound) : bound;
}

/* A date-time whose parts are in their ranges, but seldom one that is just outside. */
static int write_date_time(char *bytes) {
    char fraction[16] = "", offset[16] = "Z";
    if (one_of(2)) snprintf(fraction, sizeof fraction, ".%0*u", (int)one_of(9) + 1, (unsigned)one_of(1000));
    if (one_of(3)) snprintf(offset, sizeof offset, "%c%02u:%02u", "+-"[one_of(2)], below(24), below(60));
    return snprintf(bytes, MOST_WRITTEN, "%04u-%02u-%02u%c%02u:%02u:%02u%s%s",
                    one_of(4) ? 1900 + one_of(200) : below(10000), 1 + below(12), 1 + below(31), "TTTt "[one_of(5)],
                    below(24), below(60), below(60), fraction, offset);
}

/* Changes, drops or doubles a byte or two. */
static int spoil(char *bytes, int size) {
    for (int times = (int)one_of(3); times > 0 && size > 1; times--) {
        int at = (int)one_of((uint32_t)size);
        switch (one_of(3)) {
        case 0: bytes[at] = (char)next(); break;
        case 1: memmove(bytes + at, bytes + at + 1, (size_t)(--size - at)); break;
        default: memmove(bytes + at + 1, bytes + at, (size_t)(size++ - at)); break;
        }
    }
    return size;
}

static void make_bytes(Argument *argument) {
    static const char *const words[] = {"second",        "Seconds",
                                        "MINUTES",       "hour",
                                        "day",           "days",
                                        "nanosecond",    "microseconds",
                                        "millisecond",   "week",
                                        "+05:30",        "Quarter",
                                        "[year]",        "[day].[month].[year] [hour]:[minute]",
                                        "Europe/Berlin", "Asia/Tokyo",
                                        "../UTC",        "zone.tab"};
    argument->size = some_size();
    argument->bytes = malloc((size_t)argument->size + 2 * MOST_WRITTEN);
    if (argument->bytes == NULL) end("no memory");
    switch (one_of(8)) {
    case 0:
        for (int at = 0; at < argument->size; at++) argument->bytes[at] = (char)next();
        break;
    case 1:
        for (int at = 0; at < argument->size; at++) argument->bytes[at] = "0123456789-:TZ+. "[one_of(17)];
        break;
    case 2:
        argument->size = snprintf(argument->bytes, MOST_WRITTEN, "%s", words[one_of(sizeof words / sizeof *words)]);
        break;
    case 3: argument->size = spoil(argument->bytes, write_date_time(argument->bytes)); break;
    default: argument->size = write_date_time(argument->bytes);
    }
}

static sqlite3_int64 some_number(void) {
    static const sqlite3_int64 ends[] = {INT64_MIN,      INT64_MAX, INT32_MIN, INT32_MAX, UINT32_MAX, -31619087596800,
                                         31494784780799, 93599,     -93599,    999999999, 0};
    switch (one_of(4)) {
    case 0: return (sqlite3_int64)next();
    case 1: return (sqlite3_int64)((uint64_t)ends[one_of(sizeof ends / sizeof *ends)] + one_of(5) - 2);
    case 2: return ((sqlite3_int64)one_of(2880) - 1440) * 60;
    default: return (sqlite3_int64)one_of(UINT32_MAX);
    }
}

static double some_real(void) {
    uint64_t bits = next();
    double real;
    switch (one_of(4)) {
    case 0: memcpy(&real, &bits, sizeof real); return real;
    case 1: return INFINITY;
    case 2: return (double)some_number() / 2;
    default: return (double)some_number();
    }
}

static Argument some_argument(void) {
    static const int types[] = {SQLITE_NULL, SQLITE_BLOB, SQLITE_FLOAT, SQLITE_INTEGER, SQLITE_INTEGER,
                                SQLITE_TEXT, SQLITE_TEXT, SQLITE_TEXT,  SQLITE_TEXT,    SQLITE_TEXT};
    Argument argument = {
        .type = types[one_of(sizeof types / sizeof *types)], .number = some_number(), .real = some_real()};
    if (argument.type == SQLITE_NULL && one_of(4)) argument.type = SQLITE_TEXT;
    if (argument.type == SQLITE_TEXT || argument.type == SQLITE_BLOB) make_bytes(&argument);
    return argument;
}

static void bind(sqlite3_stmt *statement, int place, const Argument *argument) {
    int status;
    switch (argument->type) {
    case SQLITE_INTEGER: status = sqlite3_bind_int64(statement, place, argument->number); break;
    case SQLITE_FLOAT: status = sqlite3_bind_double(statement, place, argument->real); break;
    case SQLITE_TEXT:
        status = sqlite3_bind_text(statement, place, argument->bytes, argument->size, SQLITE_TRANSIENT);
        break;
    case SQLITE_BLOB:
        status = sqlite3_bind_blob(statement, place, argument->bytes, argument->size, SQLITE_TRANSIENT);
        break;
    default: status = sqlite3_bind_null(statement, place);
    }
    if (status != SQLITE_OK) end("an argument is not bound");
}

/* What a statement said: its row as one text, whether that holds a NULL alone, or its error. */
typedef struct Said {
    int status, is_null;
    char text[600];
} Said;

static void write_row(sqlite3_stmt *statement, Said *said) {
    size_t at = 0;
    said->is_null = 1;
    for (int column = 0; column < sqlite3_column_count(statement); column++) {
        const char *text = (const char *)sqlite3_column_text(statement, column);
        if (text != NULL) said->is_null = 0;
        at += (size_t)snprintf(said->text + at, sizeof said->text - at, "%d:%s|",
                               sqlite3_column_type(statement, column), text ? text : "");
        if (at >= sizeof said->text) end("a row that is too long");
    }
}

static void ask(sqlite3_stmt *statement, const Argument *arguments, int count, int memory_after, Said *said) {
    for (int at = 0; at < count; at++) bind(statement, at + 1, &arguments[at]);
    allocations_left = memory_after;
    said->status = sqlite3_step(statement);
    allocations_left = -1;
    said->text[0] = 0;
    said->is_null = 0;
    if (said->status == SQLITE_ROW) {
        write_row(statement, said);
        if (sqlite3_step(statement) != SQLITE_DONE) end("a second row");
    } else {
        snprintf(said->text, sizeof said->text, "%s", sqlite3_errmsg(sqlite3_db_handle(statement)));
    }
    sqlite3_reset(statement);
    sqlite3_clear_bindings(statement);
}

/* Whether an error is 'CALL: NAME: ' and more. */
static int is_named(const char *error, const char *call) {
    size_t length = strlen(call), name;
    if (strncmp(error, call, length) != 0 || strncmp(error + length, ": ", 2) != 0) return 0;
    name = strspn(error + length + 2, "ABCDEFGHIJKLMNOPQRSTUVWXYZ_");
    return name > 1 && strncmp(error + length + 2 + name, ": ", 2) == 0 && strstr(error, "UNKNOWN") == NULL;
}

static const char *problem_of(const Call *call, const Said *plain, const Said *or_null, int has_null) {
    if (or_null->status != SQLITE_ROW) return "the form that answers with NULL fails";
    if (plain->status == SQLITE_ERROR) {
        if (!is_named(plain->text, call->name)) return "an error with no name";
        if (has_null) return "an error where an argument is NULL";
        return or_null->is_null ? NULL : "an answer to what is refused";
    }
    if (plain->status != SQLITE_ROW) return "neither an answer nor an error";
    if (has_null && !plain->is_null) return "an answer where an argument is NULL";
    if (!has_null && plain->is_null) return "no answer and no error";
    return strcmp(plain->text, or_null->text) == 0 ? NULL : "the two forms differ";
}

static void count(const char *problem, const char *call, const char *said) {
    if (problem == NULL) {
        passed++;
        return;
    }
    if (failed++ < MOST_TOLD) printf("%s: %s: %s\n", call, problem, said);
}

static void make_call(int connection) {
    Call *call = &calls[one_of(CALLS)];
    Argument arguments[MOST_ARGUMENTS];
    Said plain, or_null, scarce;
    int has_null = 0;
    for (int at = 0; at < call->arguments; at++) {
        arguments[at] = some_argument();
        has_null |=
            arguments[at].type == SQLITE_NULL || (arguments[at].type == SQLITE_FLOAT && isnan(arguments[at].real));
    }
    ask(call->plain[connection], arguments, call->arguments, -1, &plain);
    ask(call->or_null[connection], arguments, call->arguments, -1, &or_null);
    count(problem_of(call, &plain, &or_null, has_null), call->shown, plain.text);
    if (one_of(8) == 0) {
        ask(call->plain[connection], arguments, call->arguments, (int)one_of(6), &scarce);
        int is_same = scarce.status == plain.status && strcmp(scarce.text, plain.text) == 0;
        count(is_same || scarce.status == SQLITE_NOMEM ? NULL : "another answer without memory", call->shown,
              scarce.text);
    }
    if (strcmp(call->name, "muxandu_unix") == 0) {
        ask(refused[connection], arguments, 1, -1, &or_null);
        int is_so = or_null.status == SQLITE_ROW && or_null.is_null == (plain.status == SQLITE_ROW);
        count(is_so ? NULL : "not the same is refused", "muxandu_refused", or_null.text);
    }
    for (int at = 0; at < call->arguments; at++) free(arguments[at].bytes);
}

int main(int words, char **word) {
    long long calls_left = words > 2 ? atoll(word[2]) : 1000000;
    if (words < 2) end("usage: random EXTENSION [COUNT [SEED]]");
    state = 0x9e3779b97f4a7c15 ^ (words > 3 ? strtoull(word[3], NULL, 10) : 1);
    take_over_memory();
    connect_to(0, "pragma encoding = 'UTF-8'; create table t(x)", word[1]);
    connect_to(1, "pragma encoding = 'UTF-16'; create table t(x)", word[1]);
    while (calls_left-- > 0) make_call((int)one_of(CONNECTIONS));
    printf("%d passed, %d failed\n", passed, failed);
    return failed != 0 || passed == 0;
}
