/* The module: PostgreSQL loads it where the first function is called. */
#include "postgres.h"

#include "fmgr.h"

#include <muxandu.h>

PG_MODULE_MAGIC;

void _PG_init(void);

void _PG_init(void) {
    if (muxandu_version() < MUXANDU_VERSION)
        ereport(ERROR, (errcode(ERRCODE_EXTERNAL_ROUTINE_EXCEPTION),
                        errmsg("the library of muxandu is older than its header: build the extension again")));
}
