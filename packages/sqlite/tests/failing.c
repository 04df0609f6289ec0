/* The extension where SQLite fails it: a version that is too old, a text that is not given, and memory
 * that runs out at each allocation in turn. And how much memory a query of many rows holds.
 *
 * failing EXTENSION
 *
 * Each line is a case, and what is wrong with it. The last line is 'N passed, M failed'. */
/* This is a program, which calls SQLite itself. */
#define SQLITE_CORE

#include <dlfcn.h>
#include <sqlite3ext.h>
#include <stdio.h>
#include <stdlib.h>
#include <string.h>

enum { LONGEST = 600, MOST_ALLOCATIONS = 10000 };

typedef int Entry(sqlite3 *db, char **error, const sqlite3_api_routines *api);

static int passed, failed;

static void count(const char *name, const char *problem) {
    if (problem == NULL) {
        passed++;
        printf("%s\n", name);
    } else {
        failed++;
        printf("%s: FAILED: %s\n", name, problem);
    }
}

static void end(const char *what) {
    printf("%s\n", what);
    exit(2);
}

/* Memory runs out after this many allocations, and never where the number is negative. */
static int allocations_left = -1;
static sqlite3_mem_methods memory;

static int is_out(void) {
    return allocations_left >= 0 && allocations_left-- == 0;
}

static void *allocate(int size) {
    return is_out() ? NULL : memory.xMalloc(size);
}

static void *reallocate(void *block, int size) {
    return is_out() ? NULL : memory.xRealloc(block, size);
}

static void take_over_memory(void) {
    sqlite3_mem_methods own;
    if (sqlite3_config(SQLITE_CONFIG_GETMALLOC, &memory) != SQLITE_OK) end("the allocator is not given");
    own = memory;
    own.xMalloc = allocate;
    own.xRealloc = reallocate;
    if (sqlite3_config(SQLITE_CONFIG_MALLOC, &own) != SQLITE_OK) end("the allocator is not taken");
}

/* What a statement says: the status, and its row or its error. */
typedef struct Said {
    int status;
    char text[LONGEST];
} Said;

static void say(Said *said, const char *text) {
    size_t size = strlen(said->text);
    snprintf(said->text + size, sizeof said->text - size, "%s", text);
}

/* Prepares a statement and takes its first step, with that many allocations. Sets `was_enough`
 * to whether they were enough. */
static Said ask(sqlite3 *db, const char *text, int allocations, int *was_enough) {
    Said said = {0, ""};
    sqlite3_stmt *statement = NULL;
    allocations_left = allocations;
    said.status = sqlite3_prepare_v2(db, text, -1, &statement, NULL);
    if (said.status == SQLITE_OK) said.status = sqlite3_step(statement);
    *was_enough = allocations_left >= 0;
    allocations_left = -1;
    if (said.status != SQLITE_ROW) say(&said, sqlite3_errmsg(db));
    for (int column = 0; said.status == SQLITE_ROW && column < sqlite3_column_count(statement); column++) {
        const char *value = (const char *)sqlite3_column_text(statement, column);
        say(&said, value == NULL ? "NULL" : value);
        say(&said, "|");
    }
    sqlite3_finalize(statement);
    return said;
}

static sqlite3 *connected(const char *encoding) {
    sqlite3 *db;
    if (sqlite3_open(":memory:", &db) != SQLITE_OK) end("no database");
    sqlite3_db_config(db, SQLITE_DBCONFIG_LOOKASIDE, NULL, 0, 0);
    sqlite3_db_config(db, SQLITE_DBCONFIG_ENABLE_LOAD_EXTENSION, 1, NULL);
    if (sqlite3_exec(db, encoding, NULL, NULL, NULL) != SQLITE_OK) end("no such encoding");
    return db;
}

static void load(sqlite3 *db, const char *extension) {
    char *error = NULL;
    if (sqlite3_load_extension(db, extension, NULL, &error) != SQLITE_OK) end(error);
}

static const char *const ENCODINGS[] = {"PRAGMA encoding = 'UTF-8'; CREATE TABLE t(x)",
                                        "PRAGMA encoding = 'UTF-16'; CREATE TABLE t(x)"};

/* Has memory run out at one allocation of a statement. Returns what is wrong, or NULL. Sets
 * `wanted` where memory does not run out. */
static const char *run_out_at(sqlite3 *db, const char *text, int allocations, Said *wanted, int *was_enough) {
    static char problem[LONGEST + 30];
    Said said = ask(db, text, allocations, was_enough);
    if (allocations < 0) *wanted = said;
    if (said.status == SQLITE_NOMEM && !*was_enough) return NULL;
    /* SQLite keeps the status of an error where it has no memory for the message. */
    if (said.status == SQLITE_ERROR && !*was_enough && strcmp(said.text, "SQL logic error") == 0) said.text[0] = 0;
    int is_same = said.text[0] == 0 || strcmp(said.text, wanted->text) == 0;
    if (said.status == wanted->status && is_same) return NULL;
    snprintf(problem, sizeof problem, "at allocation %d: %s", allocations, said.text);
    return problem;
}

/* Has memory run out at each allocation of a statement in turn: the error must be SQLite's, or
 * the answer as with memory. */
static void run_out(const char *extension, const char *text) {
    char name[LONGEST];
    const char *problem = NULL;
    for (size_t at = 0; at < sizeof ENCODINGS / sizeof *ENCODINGS; at++) {
        Said wanted = {0, ""};
        int was_enough = 0;
        for (int allocations = -1; allocations < MOST_ALLOCATIONS && !was_enough && problem == NULL; allocations++) {
            sqlite3 *db = connected(ENCODINGS[at]);
            load(db, extension);
            problem = run_out_at(db, text, allocations, &wanted, &was_enough);
            if (sqlite3_close(db) != SQLITE_OK) problem = "the database is not closed";
        }
    }
    snprintf(name, sizeof name, "memory runs out: %s", text);
    count(name, problem);
}

/* Loads the extension where memory runs out at each allocation in turn. */
static void run_out_at_load(const char *extension) {
    const char *problem = NULL;
    int was_enough = 0;
    for (int allocations = 0; allocations < MOST_ALLOCATIONS && !was_enough; allocations++) {
        sqlite3 *db = connected(ENCODINGS[0]);
        char *error = NULL;
        allocations_left = allocations;
        int status = sqlite3_load_extension(db, extension, NULL, &error);
        was_enough = allocations_left >= 0;
        allocations_left = -1;
        if (was_enough && status != SQLITE_OK) problem = "it is not loaded where there is memory";
        sqlite3_free(error);
        if (sqlite3_close(db) != SQLITE_OK) problem = "the database is not closed";
    }
    count("memory runs out: the extension is loaded", problem);
}

static sqlite3_api_routines routines;

static int keep_routines(sqlite3 *db, char **error, const sqlite3_api_routines *api) {
    (void)db, (void)error;
    routines = *api;
    return SQLITE_OK;
}

/* Keeps the calls of SQLite that it passes to extensions. */
static void find_routines(void) {
    sqlite3 *db;
    if (sqlite3_auto_extension((void (*)(void))keep_routines) != SQLITE_OK) end("no calls of SQLite");
    if (sqlite3_open(":memory:", &db) != SQLITE_OK) end("no database");
    sqlite3_reset_auto_extension();
    sqlite3_close(db);
}

static Entry *entry_of(const char *extension) {
    void *file = dlopen(extension, RTLD_NOW);
    Entry *entry;
    if (file == NULL) end(dlerror());
    *(void **)&entry = dlsym(file, "sqlite3_muxandu_init");
    if (entry == NULL) end("no entry point");
    return entry;
}

static int version;

static int own_version(void) {
    return version;
}

/* Loads the extension into an SQLite of that version. */
static void load_into(Entry *entry, int number, int is_refused) {
    sqlite3_api_routines own = routines;
    sqlite3 *db = connected(ENCODINGS[0]);
    char name[LONGEST], *error = NULL;
    const char *problem = NULL;
    int status;
    version = number;
    own.libversion_number = own_version;
    status = entry(db, &error, &own);
    if (is_refused && status == SQLITE_OK) problem = "it is loaded";
    if (is_refused && (error == NULL || strcmp(error, "muxandu needs SQLite 3.31 or later") != 0))
        problem = "another error";
    if (!is_refused && status != SQLITE_OK) problem = "it is refused";
    sqlite3_free(error);
    sqlite3_close(db);
    snprintf(name, sizeof name, "an SQLite of version %d is %s", number, is_refused ? "refused" : "taken");
    count(name, problem);
}

static const unsigned char *no_text(sqlite3_value *value) {
    (void)value;
    return NULL;
}

/* Has SQLite return no text, as where it has no memory to convert one. Then an answer is wrong,
 * and so is a refusal. */
static void return_no_text(Entry *entry, const char *text) {
    sqlite3_api_routines own = routines;
    sqlite3 *db = connected(ENCODINGS[1]);
    char name[LONGEST], *error = NULL;
    int was_enough;
    Said said;
    own.value_text = no_text;
    if (entry(db, &error, &own) != SQLITE_OK) end(error);
    said = ask(db, text, -1, &was_enough);
    snprintf(name, sizeof name, "SQLite returns no text: %s", text);
    count(name, said.status == SQLITE_NOMEM ? NULL : said.text);
    sqlite3_close(db);
}

/* Statements that read a text. */
static const char *const OF_TEXTS[] = {
    "SELECT muxandu_unix('2024-02-29T12:00:00Z')",
    "SELECT muxandu_unix('2023-02-29T12:00:00Z')",
    "SELECT muxandu_unix_or_null('2024-02-29T12:00:00Z')",
    "SELECT muxandu_unix_or_null('2023-02-29T12:00:00Z')",
    "SELECT muxandu_to_offset('2024-02-29T12:00:00Z', 3600)",
    "SELECT muxandu_to_offset_or_null('2024-02-29T12:00:00Z', 3600)",
    "SELECT muxandu_sortable('2024-02-29T12:00:00Z')",
    "SELECT muxandu_sortable_or_null('2024-02-29T12:00:00Z')",
    "SELECT muxandu_add('2024-02-29T12:00:00Z', 1, 'day')",
    "SELECT muxandu_add_or_null('2024-02-29T12:00:00Z', 1, 'day')",
    "SELECT muxandu_truncate('2024-02-29T12:00:00Z', 'week')",
    "SELECT muxandu_bin('2024-02-29T12:00:00Z', 15, 'minutes', '2024-02-28T12:00:00Z')",
    "SELECT muxandu_local_date('2024-02-29T12:00:00Z')",
    "SELECT muxandu_format('2024-02-29T12:00:00Z', '[day].[month].[year]')",
    "SELECT muxandu_parse('29.02.2024 12:00', '[day].[month].[year] [hour]:[minute]', '+01:00')",
    "SELECT muxandu_parse_or_null('29.02.2024 12:00', '[day].[month].[year] [hour]:[minute]')",
    "SELECT muxandu_at_zone('2024-02-29T12:00:00Z', 'Europe/Berlin')",
    "SELECT muxandu_at_zone('2024-02-29T12:00:00Z', 'Europe/Berlinn')",
    "SELECT muxandu_at_zone_or_null('2024-02-29T12:00:00Z', 'Europe/Berlin')",
    "SELECT muxandu_from_iso('-004713-11-24T00:00:00Z')",
    "SELECT muxandu_difference('2024-02-29T12:00:00Z', '2024-02-28T12:00:00Z', 'hours')",
    "SELECT muxandu_difference_or_null('2024-02-29T12:00:00Z', '2024-02-28T12:00:00Z', 'hours')",
    "SELECT muxandu_compare('2024-02-29T12:00:00Z', '2024-02-28T12:00:00Z')",
    "SELECT muxandu_compare_or_null('2024-02-29T12:00:00Z', '2024-02-28T12:00:00Z')",
    "SELECT muxandu_refused('2023-02-29T12:00:00Z')",
    "SELECT * FROM muxandu_parts('2024-02-29T12:00:00Z')",
    "SELECT * FROM muxandu_parts('2023-02-29T12:00:00Z')",
    "SELECT *, of_text, at_offset FROM muxandu_parts('2024-02-29T12:00:00Z', 3600)",
    "SELECT * FROM muxandu_parts_or_null('2024-02-29T12:00:00Z')",
    "SELECT * FROM muxandu_parts_or_null('2023-02-29T12:00:00Z')",
};

/* Statements that read none. */
static const char *const OTHERS[] = {
    "SELECT muxandu_text(0, 3600, 5)",         "SELECT muxandu_text(0, 30)",
    "SELECT muxandu_text_or_null(0, 3600, 5)", "SELECT at_offset FROM muxandu_parts(NULL)",
    "SELECT year FROM muxandu_parts",          "SELECT muxandu_to_iso(-210866803200, 4772)",
};

/* Rows of four kinds of texts, of which one is NULL and one is refused. */
static const char LOG[] =
    "WITH RECURSIVE rounds(n) AS (VALUES (1) UNION ALL SELECT n + 1 FROM rounds WHERE n < 1000)"
    "INSERT INTO t SELECT column1 FROM rounds, (VALUES ('2024-02-29T12:00:00Z'), (NULL), ('2023-02-29T12:00:00Z'),"
    "('2024-02-29T12:00:00.123456789+05:30'))";

enum { SOME_ROWS = 1000, ALL_ROWS = 3000 };

/* Statements that read as many rows of it. */
static const char *const OF_ROWS[] = {
    "SELECT * FROM t, muxandu_parts(x) WHERE muxandu_refused(x) IS NULL LIMIT ?1",
    "SELECT *, of_text, at_offset FROM t, muxandu_parts(x, 3600) WHERE muxandu_refused(x) IS NULL LIMIT ?1",
    "SELECT *, of_text, at_offset FROM t, muxandu_parts_or_null(x, 3600) LIMIT ?1",
    "SELECT muxandu_to_offset_or_null(x, 3600), muxandu_sortable_or_null(x), muxandu_add_or_null(x, 1) FROM t LIMIT ?1",
    "SELECT muxandu_at_zone_or_null(x, 'Europe/Berlin'), muxandu_at_zone_or_null(x, 'nowhere') FROM t LIMIT ?1",
};

/* The most bytes that SQLite holds while a statement reads so many rows. */
static sqlite3_int64 most_held(sqlite3_stmt *statement, int rows) {
    sqlite3_memory_highwater(1);
    sqlite3_bind_int(statement, 1, rows);
    while (sqlite3_step(statement) == SQLITE_ROW) rows--;
    if (sqlite3_reset(statement) != SQLITE_OK || rows != 0) end("the rows are not read");
    return sqlite3_memory_highwater(0);
}

/* Has a statement read many rows: it must hold nothing of a row once it reads the next. */
static void hold(const char *extension, const char *text) {
    sqlite3 *db = connected(ENCODINGS[0]);
    sqlite3_stmt *statement;
    char name[LONGEST], problem[LONGEST];
    sqlite3_int64 more;
    load(db, extension);
    if (sqlite3_exec(db, LOG, NULL, NULL, NULL) != SQLITE_OK) end("no rows");
    if (sqlite3_prepare_v2(db, text, -1, &statement, NULL) != SQLITE_OK) end(sqlite3_errmsg(db));
    more = -most_held(statement, SOME_ROWS);
    more += most_held(statement, ALL_ROWS);
    sqlite3_finalize(statement);
    sqlite3_close(db);
    snprintf(name, sizeof name, "a row that is read holds no memory: %s", text);
    snprintf(problem, sizeof problem, "%lld bytes for %d rows", (long long)more, ALL_ROWS - SOME_ROWS);
    count(name, more < ALL_ROWS - SOME_ROWS ? NULL : problem);
}

#define COUNT(items) (sizeof(items) / sizeof *(items))

int main(int words, char **word) {
    Entry *entry;
    if (words != 2) end("usage: failing EXTENSION");
    take_over_memory();
    for (size_t at = 0; at < COUNT(OF_TEXTS); at++) run_out(word[1], OF_TEXTS[at]);
    for (size_t at = 0; at < COUNT(OTHERS); at++) run_out(word[1], OTHERS[at]);
    run_out_at_load(word[1]);
    for (size_t at = 0; at < COUNT(OF_ROWS); at++) hold(word[1], OF_ROWS[at]);
    find_routines();
    entry = entry_of(word[1]);
    load_into(entry, 3030001, 1);
    load_into(entry, 3031000, 0);
    for (size_t at = 0; at < COUNT(OF_TEXTS); at++) return_no_text(entry, OF_TEXTS[at]);
    printf("%d passed, %d failed\n", passed, failed);
    return failed != 0 || passed == 0;
}
