/* Durations as a number of nanoseconds, and as texts. */
#ifndef MUXANDU_POSTGRES_DURATIONS_H
#define MUXANDU_POSTGRES_DURATIONS_H

#include "values.h"

/* Room for the longest text, and for a byte 0. */
enum { DURATION_ROOM = 32 };

#define MONTH_HINT "Months and years have no fixed length: use add_months or date_trunc."

/* Reads a duration. The status is MUXANDU_OK, DURATION or SYNTAX. */
MuxanduStatus read_duration(const char *text, ExactDuration *duration);

/* Whether a text is no duration because of a unit whose length is not fixed. */
bool has_months(const char *text);

/* Writes the seconds as a decimal, with no zeros at the end of the fraction. */
void write_duration(const ExactDuration *duration, char *text);

static inline int128 nanoseconds_of(const ExactDuration *duration) {
    return (int128)duration->seconds * 1000000000 + duration->nanoseconds;
}

/* Whether the seconds of a number of nanoseconds fit in 64 bits. */
bool is_duration(int128 nanoseconds);

/* The nanoseconds of a number of seconds. Where they are not whole, or no duration, it is an error
 * of that type. */
int128 nanoseconds_of_numeric(Datum seconds, const char *type);

/* The duration of a number of nanoseconds. Where there is none, it is an error. */
ExactDuration *from_nanoseconds(int128 nanoseconds);

#endif
