/* The units of time, by name. */
#ifndef MUXANDU_POSTGRES_UNITS_H
#define MUXANDU_POSTGRES_UNITS_H

#include "postgres.h"

#include <muxandu.h>

#define NANOSECONDS INT64CONST(1000000000)

typedef struct Unit {
    const char *name;
    MuxanduUnit number;
    int64 nanoseconds;
} Unit;

/* Whether a text is that name, in the singular or the plural, in letters of any case. */
bool is_named(const char *text, size_t size, const char *name);

/* Whether a text begins with the name of a unit whose length is not fixed, such as months. */
bool is_month_word(const char *text);

/* The unit of that name, or NULL. */
const Unit *unit_named(const char *text, size_t size);

#endif
