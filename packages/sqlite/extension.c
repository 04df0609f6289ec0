/* The entry point of the extension. */
#include <sqlite3ext.h>

#include "calls.h"
#include "parts.h"

SQLITE_EXTENSION_INIT1

/* The first version that knows which calls are innocuous. */
enum { OLDEST_VERSION = 3031000 };

#ifndef SQLITE_CORE
__attribute__((visibility("default")))
#endif
int sqlite3_muxandu_init(sqlite3 *db, char **error, const sqlite3_api_routines *api);

/* Its name follows that of the file, muxandu.so. */
int sqlite3_muxandu_init(sqlite3 *db, char **error, const sqlite3_api_routines *api) {
    int status;
    SQLITE_EXTENSION_INIT2(api);
    (void)api;
    if (sqlite3_libversion_number() < OLDEST_VERSION) {
        *error = sqlite3_mprintf("muxandu needs SQLite 3.31 or later");
        return SQLITE_ERROR;
    }
    status = define_calls(db);
    return status == SQLITE_OK ? define_parts(db) : status;
}
