/* The extension inside a program, compiled with SQLITE_CORE and with no file to load: it prints
 * what one call answers. */
#include <sqlite3.h>
#include <stdio.h>

int sqlite3_muxandu_init(sqlite3 *db, char **error, const void *api);

int main(void) {
    sqlite3 *db;
    sqlite3_stmt *statement;
    const char *text =
        "SELECT muxandu_unix('1996-12-19T16:39:57-08:00') || ' ' || year FROM muxandu_parts('1996-12-20T00:39:57Z')";
    if (sqlite3_auto_extension((void (*)(void))sqlite3_muxandu_init) != SQLITE_OK) return 1;
    if (sqlite3_open(":memory:", &db) != SQLITE_OK) return 2;
    if (sqlite3_prepare_v2(db, text, -1, &statement, NULL) != SQLITE_OK) return 3;
    if (sqlite3_step(statement) != SQLITE_ROW) return 4;
    printf("%s\n", (const char *)sqlite3_column_text(statement, 0));
    sqlite3_finalize(statement);
    return sqlite3_close(db) == SQLITE_OK ? 0 : 5;
}
