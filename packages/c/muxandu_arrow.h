/* SPDX-License-Identifier: MIT OR Apache-2.0
 *
 * Columns of moments by the C data interface of Arrow, which DuckDB, Polars, ClickHouse and others
 * read and write: https://arrow.apache.org/docs/format/CDataInterface.html. Your compiler compiles
 * these two calls, and no proof covers them; proved calls test and count each instant. */
#ifndef MUXANDU_ARROW_H
#define MUXANDU_ARROW_H

#include <stdlib.h>
#include <string.h>

#include "muxandu.h"

#ifdef __cplusplus
extern "C" {
#endif

/* The structs of the interface, which other headers may have too. */
#ifndef ARROW_C_DATA_INTERFACE
#define ARROW_C_DATA_INTERFACE

#define ARROW_FLAG_DICTIONARY_ORDERED 1
#define ARROW_FLAG_NULLABLE 2
#define ARROW_FLAG_MAP_KEYS_SORTED 4

struct ArrowSchema {
    const char *format;
    const char *name;
    const char *metadata;
    int64_t flags;
    int64_t n_children;
    struct ArrowSchema **children;
    struct ArrowSchema *dictionary;
    void (*release)(struct ArrowSchema *);
    void *private_data;
};

struct ArrowArray {
    int64_t length;
    int64_t null_count;
    int64_t offset;
    int64_t n_buffers;
    int64_t n_children;
    const void **buffers;
    struct ArrowArray **children;
    struct ArrowArray *dictionary;
    void (*release)(struct ArrowArray *);
    void *private_data;
};

#endif

/* The memory of a schema and of an array of two columns. */
typedef struct MuxanduArrowFields {
    struct ArrowSchema columns[2];
    struct ArrowSchema *places[2];
} MuxanduArrowFields;

typedef struct MuxanduArrowColumns {
    struct ArrowArray columns[2];
    struct ArrowArray *places[2];
    const void *buffers[1];
} MuxanduArrowColumns;

/* The memory of the array of a column. The numbers follow, and then a bit for each. */
typedef struct MuxanduArrowNumbers {
    const void *buffers[2];
} MuxanduArrowNumbers;

/* Releases what a schema points to. A column that another has taken over is left to that one. */
MUXANDU_INLINE void muxandu_arrow_release_schema(struct ArrowSchema *schema) MUXANDU_NOEXCEPT {
    int64_t at;
    for (at = 0; at < schema->n_children; at++) {
        if (schema->children[at]->release != NULL) schema->children[at]->release(schema->children[at]);
    }
    free(schema->private_data);
    schema->release = NULL;
}

/* Releases what an array points to, likewise. */
MUXANDU_INLINE void muxandu_arrow_release_array(struct ArrowArray *array) MUXANDU_NOEXCEPT {
    int64_t at;
    for (at = 0; at < array->n_children; at++) {
        if (array->children[at]->release != NULL) array->children[at]->release(array->children[at]);
    }
    free(array->private_data);
    array->release = NULL;
}

/* The format of an instant in UTC as a number of units, or NULL of another unit. */
MUXANDU_INLINE const char *muxandu_arrow_format(MuxanduUnit unit) MUXANDU_NOEXCEPT {
    switch (unit) {
    case MUXANDU_UNIT_SECOND: return "tss:UTC";
    case MUXANDU_UNIT_MILLISECOND: return "tsm:UTC";
    case MUXANDU_UNIT_MICROSECOND: return "tsu:UTC";
    case MUXANDU_UNIT_NANOSECOND: return "tsn:UTC";
    default: return NULL;
    }
}

/* The units from 1970-01-01 0:00 UTC to a moment, rounded down. */
MUXANDU_NODISCARD
MUXANDU_INLINE MuxanduStatus muxandu_arrow_count(MuxanduMoment moment, MuxanduUnit unit,
                                                 int64_t *out) MUXANDU_NOEXCEPT {
    MuxanduTimestamp at;
    MuxanduDateTime shown;
    MuxanduStatus status;
    at.seconds = moment.seconds;
    at.nanoseconds = moment.nanoseconds;
    status = muxandu_date_time_from_timestamp(at, moment.offset_seconds, &shown);
    if (status != MUXANDU_OK) return status;
    if (unit == MUXANDU_UNIT_NANOSECOND) return muxandu_timestamp_to_nanoseconds(at, out);
    if (unit == MUXANDU_UNIT_MICROSECOND) return muxandu_timestamp_to_microseconds(at, out);
    if (unit == MUXANDU_UNIT_MILLISECOND) return muxandu_timestamp_to_milliseconds(at, out);
    *out = at.seconds;
    return MUXANDU_OK;
}

/* Writes a field. */
MUXANDU_INLINE void muxandu_arrow_field(struct ArrowSchema *field, const char *format, const char *name,
                                        int64_t flags) MUXANDU_NOEXCEPT {
    memset(field, 0, sizeof *field);
    field->format = format;
    field->name = name;
    field->flags = flags;
    field->release = muxandu_arrow_release_schema;
}

/* Writes the schema of the two columns. Returns whether there is memory. */
MUXANDU_INLINE int muxandu_arrow_schema(struct ArrowSchema *schema, const char *format) MUXANDU_NOEXCEPT {
    MuxanduArrowFields *fields = MUXANDU_CAST(MuxanduArrowFields *, malloc(sizeof *fields));
    if (fields == NULL) return 0;
    muxandu_arrow_field(&fields->columns[0], format, "at", ARROW_FLAG_NULLABLE);
    muxandu_arrow_field(&fields->columns[1], "i", "offset_seconds", ARROW_FLAG_NULLABLE);
    fields->places[0] = &fields->columns[0];
    fields->places[1] = &fields->columns[1];
    muxandu_arrow_field(schema, "+s", "", 0);
    schema->n_children = 2;
    schema->children = fields->places;
    schema->private_data = fields;
    return 1;
}

/* Writes the array of a column of numbers of that many bytes, all of which are gaps. Returns
 * whether there is memory. */
MUXANDU_INLINE int muxandu_arrow_gaps(struct ArrowArray *column, size_t count, size_t bytes) MUXANDU_NOEXCEPT {
    const size_t most = MUXANDU_CAST(size_t, -1) / 16;
    size_t size = sizeof(MuxanduArrowNumbers) + count * bytes + count / 8 + 1;
    MuxanduArrowNumbers *numbers = MUXANDU_CAST(MuxanduArrowNumbers *, count > most ? NULL : calloc(1, size));
    if (numbers == NULL) return 0;
    memset(column, 0, sizeof *column);
    column->length = column->null_count = MUXANDU_CAST(int64_t, count);
    column->n_buffers = 2;
    column->buffers = numbers->buffers;
    column->release = muxandu_arrow_release_array;
    column->private_data = numbers;
    numbers->buffers[0] = MUXANDU_CAST(char *, MUXANDU_CAST(void *, numbers + 1)) + count * bytes;
    numbers->buffers[1] = numbers + 1;
    return 1;
}

/* Writes a number of a column in place of its gap. */
MUXANDU_INLINE void muxandu_arrow_enter(struct ArrowArray *column, size_t at, const void *number,
                                        size_t bytes) MUXANDU_NOEXCEPT {
    MuxanduArrowNumbers *numbers = MUXANDU_CAST(MuxanduArrowNumbers *, column->private_data);
    unsigned char *first = MUXANDU_CAST(unsigned char *, MUXANDU_CAST(void *, numbers + 1));
    unsigned char *byte = first + MUXANDU_CAST(size_t, column->length) * bytes + at / 8;
    memcpy(first + at * bytes, number, bytes);
    *byte = MUXANDU_CAST(unsigned char, *byte | 1u << at % 8);
    column->null_count--;
}

/* Writes the array of the two columns, all of gaps. Returns whether there is memory. */
MUXANDU_INLINE int muxandu_arrow_array(struct ArrowArray *array, size_t count) MUXANDU_NOEXCEPT {
    MuxanduArrowColumns *made = MUXANDU_CAST(MuxanduArrowColumns *, calloc(1, sizeof *made));
    if (made == NULL) return 0;
    made->places[0] = &made->columns[0];
    made->places[1] = &made->columns[1];
    memset(array, 0, sizeof *array);
    array->length = MUXANDU_CAST(int64_t, count);
    array->n_buffers = 1;
    array->n_children = 2;
    array->buffers = made->buffers;
    array->children = made->places;
    array->release = muxandu_arrow_release_array;
    array->private_data = made;
    if (muxandu_arrow_gaps(made->places[0], count, sizeof(int64_t)) &&
        muxandu_arrow_gaps(made->places[1], count, sizeof(int32_t)))
        return 1;
    array->release(array);
    return 0;
}

/* Makes a record batch of moments, of two columns: 'at' has the instants in UTC, as numbers of a
 * unit that are rounded down, and 'offset_seconds' the offsets. The unit is a second, a
 * millisecond, a microsecond or a nanosecond. 'statuses' has the status of each item, as a call
 * with `each` in its name writes it, or is NULL. An item with an error is a gap in both columns,
 * and so is one with -9223372036854775808 seconds.
 * The batch copies the moments. Who reads it calls the 'release' of both structs, or an engine
 * does. Errors: UNIT for another unit. BUFFER if there is no memory. Else those of the first item
 * that is no moment, or RESULT if 64 bits do not hold its number: 'count' is the number of items
 * before it. After an error both structs are unchanged. */
MUXANDU_NODISCARD
MUXANDU_INLINE MuxanduBatch muxandu_arrow_from_moments(const MuxanduMoment *moments, size_t moments_count,
                                                       const MuxanduStatus *statuses, MuxanduUnit unit,
                                                       struct ArrowSchema *schema,
                                                       struct ArrowArray *array) MUXANDU_NOEXCEPT {
    const char *format = muxandu_arrow_format(unit);
    struct ArrowArray made;
    MuxanduBatch batch;
    batch.count = 0;
    batch.status = format == NULL ? MUXANDU_REFUSED_UNIT : MUXANDU_OK;
    if (batch.status == MUXANDU_OK && !muxandu_arrow_array(&made, moments_count)) batch.status = MUXANDU_REFUSED_BUFFER;
    if (batch.status != MUXANDU_OK) return batch;
    for (; batch.count < moments_count; batch.count++) {
        int64_t number;
        if (moments[batch.count].seconds == INT64_MIN) continue;
        if (statuses != NULL && statuses[batch.count] != MUXANDU_OK) continue;
        batch.status = muxandu_arrow_count(moments[batch.count], unit, &number);
        if (batch.status != MUXANDU_OK) break;
        muxandu_arrow_enter(made.children[0], batch.count, &number, sizeof number);
        muxandu_arrow_enter(made.children[1], batch.count, &moments[batch.count].offset_seconds, sizeof(int32_t));
    }
    if (batch.status == MUXANDU_OK && !muxandu_arrow_schema(schema, format)) batch.status = MUXANDU_REFUSED_BUFFER;
    if (batch.status == MUXANDU_OK)
        *array = made;
    else
        made.release(&made);
    return batch;
}

/* Whether a column has a name, and no columns or words of its own. */
MUXANDU_INLINE int muxandu_arrow_is(const struct ArrowSchema *field, const char *name) MUXANDU_NOEXCEPT {
    return field->name != NULL && strcmp(field->name, name) == 0 && field->n_children == 0 && field->dictionary == NULL;
}

/* Reads the unit of a schema, and which of its two columns is 'at'. Returns whether the schema is
 * of moments: a timestamp without a zone is the time of some clock, and no instant. */
MUXANDU_INLINE int muxandu_arrow_read(const struct ArrowSchema *schema, MuxanduUnit *unit,
                                      int *place) MUXANDU_NOEXCEPT {
    const struct ArrowSchema *at, *offsets;
    if (strcmp(schema->format, "+s") != 0 || schema->n_children != 2 || schema->dictionary != NULL) return 0;
    *place = !muxandu_arrow_is(schema->children[0], "at");
    at = schema->children[*place];
    offsets = schema->children[!*place];
    if (!muxandu_arrow_is(at, "at") || !muxandu_arrow_is(offsets, "offset_seconds")) return 0;
    if (strcmp(offsets->format, "i") != 0 || strncmp(at->format, "ts", 2) != 0) return 0;
    switch (at->format[2]) {
    case 's': *unit = MUXANDU_UNIT_SECOND; break;
    case 'm': *unit = MUXANDU_UNIT_MILLISECOND; break;
    case 'u': *unit = MUXANDU_UNIT_MICROSECOND; break;
    case 'n': *unit = MUXANDU_UNIT_NANOSECOND; break;
    default: return 0;
    }
    return at->format[3] == ':' && at->format[4] != '\0';
}

/* Whether an array has that number of buffers and of columns, and of items after its offset. */
MUXANDU_INLINE int muxandu_arrow_holds(const struct ArrowArray *array, int64_t buffers, int64_t columns,
                                       int64_t length) MUXANDU_NOEXCEPT {
    return array->n_buffers == buffers && array->n_children == columns && array->dictionary == NULL &&
           array->offset >= 0 && array->length >= length && (buffers < 2 || length == 0 || array->buffers[1] != NULL);
}

/* Whether an array is as the schema of moments says. */
MUXANDU_INLINE int muxandu_arrow_is_batch(const struct ArrowArray *array) MUXANDU_NOEXCEPT {
    if (!muxandu_arrow_holds(array, 1, 2, 0) || array->length < 0 || array->offset > INT64_MAX - array->length)
        return 0;
    return muxandu_arrow_holds(array->children[0], 2, 0, array->offset + array->length) &&
           muxandu_arrow_holds(array->children[1], 2, 0, array->offset + array->length);
}

/* Whether an array has an item at a place after its offset. */
MUXANDU_INLINE int muxandu_arrow_has(const struct ArrowArray *array, int64_t place) MUXANDU_NOEXCEPT {
    const unsigned char *bits = MUXANDU_CAST(const unsigned char *, array->buffers[0]);
    place += array->offset;
    return bits == NULL || (bits[place / 8] >> place % 8 & 1);
}

/* Reads a moment of a number of units and an offset. */
MUXANDU_NODISCARD
MUXANDU_INLINE MuxanduStatus muxandu_arrow_moment(int64_t number, MuxanduUnit unit, int32_t offset_seconds,
                                                  MuxanduMoment *out) MUXANDU_NOEXCEPT {
    MuxanduTimestamp at;
    MuxanduDateTime shown;
    MuxanduStatus status = MUXANDU_OK;
    at.seconds = number;
    at.nanoseconds = 0;
    if (unit == MUXANDU_UNIT_NANOSECOND) at = muxandu_timestamp_from_nanoseconds(number);
    if (unit == MUXANDU_UNIT_MICROSECOND) at = muxandu_timestamp_from_microseconds(number);
    if (unit == MUXANDU_UNIT_MILLISECOND) status = muxandu_timestamp_from_milliseconds(number, &at);
    if (status == MUXANDU_OK) status = muxandu_date_time_from_timestamp(at, offset_seconds, &shown);
    if (status != MUXANDU_OK) return status;
    out->seconds = at.seconds;
    out->nanoseconds = at.nanoseconds;
    out->offset_seconds = offset_seconds;
    return MUXANDU_OK;
}

/* Reads the moments of a record batch, one of muxandu_arrow_from_moments or of an engine: its
 * columns are 'at', timestamps of any unit in a zone, and 'offset_seconds', numbers of 32 bits, in
 * either order. Both may be slices, from an offset on. An item that is null in the batch or in a
 * column becomes a gap: a row with -9223372036854775808 seconds. 'gaps' is the number of gaps among
 * the 'count' items. The call keeps nothing of the batch, and releases nothing. Errors: UNIT for
 * another schema. BUFFER if 'out' has fewer items than the batch, or a column has fewer than the
 * batch says. Then the call writes no item. Else that of the first item that is no moment. */
MUXANDU_NODISCARD
MUXANDU_INLINE MuxanduBatch muxandu_arrow_to_moments(const struct ArrowSchema *schema, const struct ArrowArray *array,
                                                     MuxanduMoment *out, size_t out_count,
                                                     size_t *gaps) MUXANDU_NOEXCEPT {
    const MuxanduMoment gap = {INT64_MIN, 0, 0};
    const struct ArrowArray *at, *offsets;
    MuxanduUnit unit;
    MuxanduBatch batch;
    int place;
    batch.count = *gaps = 0;
    batch.status = MUXANDU_REFUSED_UNIT;
    if (!muxandu_arrow_read(schema, &unit, &place)) return batch;
    batch.status = MUXANDU_REFUSED_BUFFER;
    if (!muxandu_arrow_is_batch(array) || MUXANDU_CAST(uint64_t, array->length) > out_count) return batch;
    batch.status = MUXANDU_OK;
    at = array->children[place];
    offsets = array->children[!place];
    for (; batch.count < MUXANDU_CAST(size_t, array->length); batch.count++) {
        const int64_t row = MUXANDU_CAST(int64_t, batch.count), item = array->offset + row;
        if (!muxandu_arrow_has(array, row) || !muxandu_arrow_has(at, item) || !muxandu_arrow_has(offsets, item)) {
            out[batch.count] = gap;
            ++*gaps;
            continue;
        }
        batch.status = muxandu_arrow_moment(MUXANDU_CAST(const int64_t *, at->buffers[1])[at->offset + item], unit,
                                            MUXANDU_CAST(const int32_t *, offsets->buffers[1])[offsets->offset + item],
                                            &out[batch.count]);
        if (batch.status != MUXANDU_OK) break;
    }
    return batch;
}

#ifdef __cplusplus
}
#endif

#endif
