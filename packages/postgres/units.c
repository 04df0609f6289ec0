#include "units.h"

/* Those that queries name most come first. */
static const Unit UNITS[] = {
    {"day", MUXANDU_UNIT_DAY, 86400 * NANOSECONDS},     {"hour", MUXANDU_UNIT_HOUR, 3600 * NANOSECONDS},
    {"minute", MUXANDU_UNIT_MINUTE, 60 * NANOSECONDS},  {"second", MUXANDU_UNIT_SECOND, NANOSECONDS},
    {"millisecond", MUXANDU_UNIT_MILLISECOND, 1000000}, {"microsecond", MUXANDU_UNIT_MICROSECOND, 1000},
    {"nanosecond", MUXANDU_UNIT_NANOSECOND, 1},
};

bool is_named(const char *text, size_t size, const char *name) {
    size_t length = strlen(name);
    bool is_plural = size == length + 1 && (text[length] == 's' || text[length] == 'S');
    return (size == length || is_plural) && pg_strncasecmp(text, name, length) == 0;
}

bool is_month_word(const char *text) {
    static const char *const NAMES[] = {"month", "mon", "quarter", "year"};
    size_t size = strspn(text, "abcdefghijklmnopqrstuvwxyzABCDEFGHIJKLMNOPQRSTUVWXYZ");
    for (size_t at = 0; at < lengthof(NAMES); at++) {
        if (is_named(text, size, NAMES[at])) return true;
    }
    return false;
}

const Unit *unit_named(const char *text, size_t size) {
    for (size_t at = 0; at < lengthof(UNITS); at++) {
        if (is_named(text, size, UNITS[at].name)) return &UNITS[at];
    }
    return NULL;
}
