/* How a status of the library becomes an error of PostgreSQL. */
#ifndef MUXANDU_POSTGRES_REFUSALS_H
#define MUXANDU_POSTGRES_REFUSALS_H

#include "postgres.h"

#include "nodes/nodes.h"

#include <muxandu.h>

#define TIMESTAMP_NAME "offset_timestamp"
#define DURATION_NAME "exact_duration"

/* A text and the name of its form, a hint with the form of such texts, and the place for an
 * error that is not to end the statement, which PostgreSQL has from version 16 on. */
typedef struct Input {
    const char *name;
    const char *text;
    const char *hint;
    Node *context;
} Input;

/* Ends the statement: a value of that type is out of range, with the name of the status and its
 * meaning. */
void refuse(MuxanduStatus status, const char *type) pg_attribute_noreturn();

/* The fault of a text of which no call says where it is. */
#define NO_FAULT SIZE_MAX

/* Ends the statement, or returns where the input has a place for errors. `fault` is the index of
 * the first byte that has not the form, and counts where the status is SYNTAX. */
void refuse_text(const Input *input, MuxanduStatus status, size_t fault);

/* Ends the statement: there is no unit or part of that name. The hint lists the names. */
void refuse_unit(const char *type, const char *name, int size, const char *hint) pg_attribute_noreturn();

static inline void require(MuxanduStatus status, const char *type) {
    if (unlikely(status != MUXANDU_OK)) refuse(status, type);
}

#endif
