/* The scalar calls. */
#ifndef MUXANDU_SQLITE_CALLS_H
#define MUXANDU_SQLITE_CALLS_H

#include <muxandu.h>
#include <sqlite3ext.h>

/* A call reads its arguments, none of which is NULL, and sets its result or returns why it
 * refuses. */
typedef uint32_t Answer(sqlite3_context *context, int count, sqlite3_value **values);

/* Answers with the text of a date-time. */
uint32_t answer_date_time(sqlite3_context *context, MuxanduDateTime at);

/* Defines each call, in both its forms. The status of SQLite comes back. */
int define_calls(sqlite3 *db);

#endif
