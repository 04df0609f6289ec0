/* The tables muxandu_parts and muxandu_parts_or_null: the parts of a date-time, in one row. */
#ifndef MUXANDU_SQLITE_PARTS_H
#define MUXANDU_SQLITE_PARTS_H

#include <sqlite3ext.h>

/* Defines both tables. The status of SQLite comes back. */
int define_parts(sqlite3 *db);

#endif
