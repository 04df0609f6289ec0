#include "parts.h"

#include <string.h>

#include "values.h"

SQLITE_EXTENSION_INIT3

/* The columns, and after them the arguments, which SQLite has as hidden columns. */
enum {
    YEAR,
    MONTH,
    DAY,
    HOUR,
    MINUTE,
    SECOND,
    NANOSECOND,
    OFFSET_SECONDS,
    UNIX,
    DAY_OF_YEAR,
    ISO_YEAR,
    ISO_WEEK,
    ISO_WEEKDAY,
    PARTS,
    TEXT = PARTS,
    AT_OFFSET,
    COLUMNS
};

enum { ARGUMENTS = COLUMNS - PARTS };

static const char SCHEMA[] =
    "CREATE TABLE parts(year INTEGER, month INTEGER, day INTEGER, hour INTEGER, minute INTEGER, second INTEGER, "
    "nanosecond INTEGER, offset_seconds INTEGER, unix INTEGER, day_of_year INTEGER, iso_year INTEGER, iso_week "
    "INTEGER, "
    "iso_weekday INTEGER, of_text HIDDEN, at_offset HIDDEN)";

typedef struct Form {
    const char *name;
    /* Whether what is refused has a row of NULLs. */
    int is_or_null;
} Form;

typedef struct Table {
    sqlite3_vtab base;
    const Form *form;
} Table;

typedef struct Cursor {
    sqlite3_vtab_cursor base;
    /* The arguments of the row, and how many of them the plan passes. */
    sqlite3_value *arguments[ARGUMENTS];
    int argument_count;
    int64_t parts[PARTS];
    /* Whether the row has parts, and not NULLs. */
    int has_parts;
    int is_past_the_row;
} Cursor;

static int connect_table(sqlite3 *db, void *form, int count, const char *const *words, sqlite3_vtab **out,
                         char **error) {
    Table *table;
    int status = sqlite3_declare_vtab(db, SCHEMA);
    (void)count, (void)words, (void)error;
    if (status == SQLITE_OK) status = sqlite3_vtab_config(db, SQLITE_VTAB_INNOCUOUS);
    if (status != SQLITE_OK) return status;
    table = sqlite3_malloc(sizeof *table);
    if (table == NULL) return SQLITE_NOMEM;
    memset(table, 0, sizeof *table);
    table->form = form;
    *out = &table->base;
    return SQLITE_OK;
}

static int disconnect_table(sqlite3_vtab *table) {
    sqlite3_free(table);
    return SQLITE_OK;
}

static int open_cursor(sqlite3_vtab *table, sqlite3_vtab_cursor **out) {
    Cursor *cursor = sqlite3_malloc(sizeof *cursor);
    (void)table;
    if (cursor == NULL) return SQLITE_NOMEM;
    memset(cursor, 0, sizeof *cursor);
    *out = &cursor->base;
    return SQLITE_OK;
}

static void free_arguments(Cursor *cursor) {
    for (int at = 0; at < ARGUMENTS; at++) {
        sqlite3_value_free(cursor->arguments[at]);
        cursor->arguments[at] = NULL;
    }
}

static int close_cursor(sqlite3_vtab_cursor *base) {
    free_arguments((Cursor *)base);
    sqlite3_free(base);
    return SQLITE_OK;
}

/* The messages of a plan to 'filter'. */
enum { TEXT_IS_PASSED, TEXT_IS_MISSING };

/* Has the text, and the offset where one is given, passed to 'filter'. A plan in which one of
 * them is not known yet is none; one with no text at all is the last that SQLite takes: it
 * weighs such plans for parts of a condition too. */
static int plan(sqlite3_vtab *table, sqlite3_index_info *info) {
    int places[ARGUMENTS] = {-1, -1}, are_unknown[ARGUMENTS] = {0, 0}, passed = 0;
    (void)table;
    for (int at = 0; at < info->nConstraint; at++) {
        int argument = info->aConstraint[at].iColumn - PARTS, relation = info->aConstraint[at].op;
        if (argument < 0) continue;
        if (relation != SQLITE_INDEX_CONSTRAINT_EQ && relation != SQLITE_INDEX_CONSTRAINT_IS) continue;
        if (info->aConstraint[at].usable)
            places[argument] = at;
        else
            are_unknown[argument] = 1;
    }
    for (int argument = 0; argument < ARGUMENTS; argument++) {
        if (places[argument] < 0 && are_unknown[argument]) return SQLITE_CONSTRAINT;
    }
    if (places[0] < 0) {
        info->idxNum = TEXT_IS_MISSING;
        info->estimatedCost = 1e99;
        return SQLITE_OK;
    }
    info->idxNum = TEXT_IS_PASSED;
    for (int argument = 0; argument < ARGUMENTS; argument++) {
        if (places[argument] < 0) continue;
        info->aConstraintUsage[places[argument]].argvIndex = ++passed;
        info->aConstraintUsage[places[argument]].omit = 1;
    }
    /* A call takes as long as a scan of ten rows, so a plan makes it for few. */
    info->estimatedCost = 10;
    info->estimatedRows = 1;
    info->idxFlags = SQLITE_INDEX_SCAN_UNIQUE;
    return SQLITE_OK;
}

/* The parts of what clocks show. */
static uint32_t split(MuxanduDateTime shown, int64_t *parts) {
    MuxanduTimestamp at;
    MuxanduOrdinalDate ordinal;
    MuxanduWeekDate week;
    int32_t day;
    uint32_t status = muxandu_timestamp_from_date_time(shown, &at);
    if (status == MUXANDU_OK) status = muxandu_date_time_day(shown, &day);
    if (status == MUXANDU_OK) status = muxandu_ordinal_date_from_day(day, &ordinal);
    if (status == MUXANDU_OK) status = muxandu_week_date_from_day(day, &week);
    if (status != MUXANDU_OK) return status;
    parts[YEAR] = shown.year;
    parts[MONTH] = shown.month;
    parts[DAY] = shown.day;
    parts[HOUR] = shown.hour;
    parts[MINUTE] = shown.minute;
    parts[SECOND] = shown.second;
    parts[NANOSECOND] = shown.nanosecond;
    parts[OFFSET_SECONDS] = shown.offset_seconds;
    parts[UNIX] = at.seconds;
    parts[DAY_OF_YEAR] = ordinal.ordinal;
    parts[ISO_YEAR] = week.year;
    parts[ISO_WEEK] = week.week;
    parts[ISO_WEEKDAY] = week.weekday + 1;
    return MUXANDU_OK;
}

static uint32_t read_parts(Cursor *cursor, int count, sqlite3_value **values) {
    MuxanduDateTime shown;
    int32_t offset;
    uint32_t status = read_date_time(values[0], &shown);
    if (status == MUXANDU_OK && count > 1) status = read_offset(values[1], &offset);
    if (status == MUXANDU_OK && count > 1) status = muxandu_date_time_to_offset(shown, offset, &shown);
    return status == MUXANDU_OK ? split(shown, cursor->parts) : status;
}

/* Has SQLite report a message, which it frees. The message is NULL where there is no memory. */
static int fail(sqlite3_vtab *base, char *message) {
    sqlite3_free(base->zErrMsg);
    base->zErrMsg = message;
    return message == NULL ? SQLITE_NOMEM : SQLITE_ERROR;
}

/* The message of an argument that is missing. In a CROSS JOIN SQLite passes none of a table that
 * comes later. */
static char *missing_message(const Form *form, const char *argument) {
    return sqlite3_mprintf("%s: the %s is missing: pass it, and in a CROSS JOIN name its table before %s", form->name,
                           argument, form->name);
}

/* Makes the row. It has NULLs where an argument is NULL. */
static int filter(sqlite3_vtab_cursor *base, int number, const char *text, int count, sqlite3_value **values) {
    Cursor *cursor = (Cursor *)base;
    const Form *form = ((Table *)base->pVtab)->form;
    uint32_t status;
    (void)text;
    free_arguments(cursor);
    cursor->is_past_the_row = 0;
    cursor->has_parts = 0;
    cursor->argument_count = count;
    if (number == TEXT_IS_MISSING) return fail(base->pVtab, missing_message(form, "text"));
    for (int at = 0; at < count; at++) {
        if (sqlite3_value_type(values[at]) == SQLITE_NULL) return SQLITE_OK;
    }
    for (int at = 0; at < count; at++) {
        cursor->arguments[at] = sqlite3_value_dup(values[at]);
        if (cursor->arguments[at] == NULL) return SQLITE_NOMEM;
    }
    status = read_parts(cursor, count, values);
    if (status == OUT_OF_MEMORY) return SQLITE_NOMEM;
    if (status != MUXANDU_OK && !form->is_or_null) return fail(base->pVtab, refusal_message(form->name, status));
    cursor->has_parts = status == MUXANDU_OK;
    return SQLITE_OK;
}

static int next(sqlite3_vtab_cursor *cursor) {
    ((Cursor *)cursor)->is_past_the_row = 1;
    return SQLITE_OK;
}

static int is_at_the_end(sqlite3_vtab_cursor *cursor) {
    return ((Cursor *)cursor)->is_past_the_row;
}

/* A column of an argument that is not passed has no answer: SQLite would compare it with the
 * argument that it did not pass. */
static int answer_argument(Cursor *cursor, sqlite3_context *context, int argument) {
    sqlite3_vtab *table = cursor->base.pVtab;
    if (argument >= cursor->argument_count) return fail(table, missing_message(((Table *)table)->form, "offset"));
    if (cursor->arguments[argument] != NULL) sqlite3_result_value(context, cursor->arguments[argument]);
    return SQLITE_OK;
}

static int answer_column(sqlite3_vtab_cursor *base, sqlite3_context *context, int column) {
    Cursor *cursor = (Cursor *)base;
    if (column >= PARTS) return answer_argument(cursor, context, column - PARTS);
    if (cursor->has_parts) sqlite3_result_int64(context, cursor->parts[column]);
    return SQLITE_OK;
}

static int answer_row_number(sqlite3_vtab_cursor *cursor, sqlite3_int64 *out) {
    (void)cursor;
    *out = 1;
    return SQLITE_OK;
}

/* With no 'xCreate' these are tables without a CREATE statement, which a query calls like
 * functions. */
static sqlite3_module MODULE = {
    .xConnect = connect_table,
    .xDisconnect = disconnect_table,
    .xBestIndex = plan,
    .xOpen = open_cursor,
    .xClose = close_cursor,
    .xFilter = filter,
    .xNext = next,
    .xEof = is_at_the_end,
    .xColumn = answer_column,
    .xRowid = answer_row_number,
};

static const Form FORMS[] = {{"muxandu_parts", 0}, {"muxandu_parts_or_null", 1}};

int define_parts(sqlite3 *db) {
    for (size_t at = 0; at < sizeof FORMS / sizeof *FORMS; at++) {
        int status = sqlite3_create_module_v2(db, FORMS[at].name, &MODULE, (void *)&FORMS[at], NULL);
        if (status != SQLITE_OK) return status;
    }
    return SQLITE_OK;
}
