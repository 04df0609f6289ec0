/* Columns of moments by the C data interface of Arrow, read as an engine reads them: the schema, the
 * numbers, the bits of gaps, columns that are taken over, and memory that runs out. And batches that
 * come back, or are an engine's: slices, columns in another order, and other schemas. */
#include <stdlib.h>

/* Memory runs out after this many allocations, and never where the number is negative. */
static int allocations_left = -1, blocks;

static void *allocate(size_t count, size_t size) {
    void *block = allocations_left >= 0 && allocations_left-- == 0 ? NULL : calloc(count, size);
    blocks += block != NULL;
    return block;
}

static void give_back(void *block) {
    blocks -= block != NULL;
    free(block);
}

#define malloc(size) allocate(1, size)
#define calloc(count, size) allocate(count, size)
#define free(block) give_back(block)
#include "muxandu_arrow.h"
#undef malloc
#undef calloc
#undef free

#include "checks.h"

static const char TEXTS[] = "2024-02-29T00:30:00.000000001+02:00\n1969-12-31T23:59:59.999999999Z\nyesterday\n"
                            "2016-12-31T23:59:60Z\n9999-12-31T23:59:59-23:59\n";

enum { LINES = 5, MOST = 1000 };

typedef struct Batch {
    struct ArrowSchema schema;
    struct ArrowArray array;
} Batch;

static MuxanduMoment moments[MOST];
static MuxanduStatus statuses[MOST];

static void read_texts(void) {
    MuxanduSpan spans[LINES];
    size_t size = sizeof TEXTS - 1;
    CHECK(muxandu_field_spans(TEXTS, size, 0, '\n', '\n', spans, LINES).count == LINES);
    CHECK(muxandu_moments_from_each_rfc3339(TEXTS, size, spans, LINES, moments, MOST, statuses, MOST).count == 3);
}

static MuxanduBatch make(Batch *batch, size_t count, const MuxanduStatus *told, MuxanduUnit unit) {
    return muxandu_arrow_from_moments(moments, count, told, unit, &batch->schema, &batch->array);
}

static void release(Batch *batch) {
    batch->schema.release(&batch->schema);
    batch->array.release(&batch->array);
    CHECK(batch->schema.release == NULL && batch->array.release == NULL);
    CHECK(blocks == 0);
}

static int has_item(const struct ArrowArray *column, size_t at) {
    return ((const uint8_t *)column->buffers[0])[at / 8] >> at % 8 & 1;
}

static int64_t number(const struct ArrowArray *column, size_t at) {
    return ((const int64_t *)column->buffers[1])[at];
}

static int32_t offset(const struct ArrowArray *column, size_t at) {
    return ((const int32_t *)column->buffers[1])[at];
}

static int is_field(const struct ArrowSchema *field, const char *format, const char *name, int64_t flags) {
    return strcmp(field->format, format) == 0 && strcmp(field->name, name) == 0 && field->flags == flags &&
           field->metadata == NULL && field->dictionary == NULL && field->release != NULL;
}

static void see_schema(void) {
    static const MuxanduUnit units[] = {MUXANDU_UNIT_SECOND, MUXANDU_UNIT_MILLISECOND, MUXANDU_UNIT_MICROSECOND,
                                        MUXANDU_UNIT_NANOSECOND};
    static const char *const formats[] = {"tss:UTC", "tsm:UTC", "tsu:UTC", "tsn:UTC"};
    for (size_t at = 0; at < sizeof units / sizeof *units; at++) {
        Batch batch;
        CHECK(make(&batch, 2, NULL, units[at]).status == MUXANDU_OK);
        CHECK(is_field(&batch.schema, "+s", "", 0) && batch.schema.n_children == 2);
        CHECK(is_field(batch.schema.children[0], formats[at], "at", ARROW_FLAG_NULLABLE));
        CHECK(is_field(batch.schema.children[1], "i", "offset_seconds", ARROW_FLAG_NULLABLE));
        CHECK(batch.schema.children[0]->n_children == 0 && batch.schema.children[1]->n_children == 0);
        release(&batch);
    }
}

static int is_array(const struct ArrowArray *array, int64_t length, int64_t gaps, int64_t buffers, int64_t children) {
    return array->length == length && array->null_count == gaps && array->offset == 0 && array->n_buffers == buffers &&
           array->n_children == children && array->dictionary == NULL && array->release != NULL;
}

static void see_gaps(void) {
    Batch batch;
    const struct ArrowArray *at, *offsets;
    CHECK(make(&batch, LINES, statuses, MUXANDU_UNIT_MICROSECOND).status == MUXANDU_OK);
    CHECK(is_array(&batch.array, LINES, 0, 1, 2) && batch.array.buffers[0] == NULL);
    at = batch.array.children[0];
    offsets = batch.array.children[1];
    CHECK(is_array(at, LINES, 2, 2, 0) && is_array(offsets, LINES, 2, 2, 0));
    for (size_t line = 0; line < LINES; line++) {
        CHECK(has_item(at, line) == (statuses[line] == MUXANDU_OK) && has_item(offsets, line) == has_item(at, line));
    }
    CHECK(number(at, 0) == 1709159400000000 && offset(offsets, 0) == 7200);
    CHECK(number(at, 1) == -1 && offset(offsets, 1) == 0);
    CHECK(number(at, 4) == 253402387139000000 && offset(offsets, 4) == -86340);
    release(&batch);
}

static void see_units(void) {
    Batch batch;
    CHECK(make(&batch, 2, NULL, MUXANDU_UNIT_NANOSECOND).count == 2);
    CHECK(number(batch.array.children[0], 0) == 1709159400000000001 && number(batch.array.children[0], 1) == -1);
    release(&batch);
    CHECK(make(&batch, 2, NULL, MUXANDU_UNIT_SECOND).count == 2);
    CHECK(number(batch.array.children[0], 0) == 1709159400 && number(batch.array.children[0], 1) == -1);
    release(&batch);
    CHECK(make(&batch, 2, NULL, MUXANDU_UNIT_MILLISECOND).count == 2);
    CHECK(number(batch.array.children[0], 0) == 1709159400000 && number(batch.array.children[0], 1) == -1);
    release(&batch);
    CHECK(make(&batch, 0, NULL, MUXANDU_UNIT_SECOND).status == MUXANDU_OK);
    CHECK(is_array(batch.array.children[0], 0, 0, 2, 0));
    release(&batch);
}

/* A batch that is refused leaves what is there, and keeps no memory. */
static int is_refused(size_t count, const MuxanduStatus *told, MuxanduUnit unit, size_t before, MuxanduStatus wanted) {
    Batch batch;
    MuxanduBatch made;
    memset(&batch, 7, sizeof batch);
    made = make(&batch, count, told, unit);
    for (size_t at = 0; at < sizeof batch; at++) {
        if (((const uint8_t *)&batch)[at] != 7) return 0;
    }
    return made.status == wanted && made.count == before && blocks == 0;
}

static void see_refusals(void) {
    CHECK(is_refused(LINES, NULL, MUXANDU_UNIT_MINUTE, 0, MUXANDU_REFUSED_UNIT));
    CHECK(is_refused(LINES, statuses, MUXANDU_UNIT_NANOSECOND, 4, MUXANDU_REFUSED_RESULT));
    CHECK(is_refused((size_t)-1 / 8, NULL, MUXANDU_UNIT_SECOND, 0, MUXANDU_REFUSED_BUFFER));
    moments[1].nanoseconds = 1000000000;
    CHECK(is_refused(2, NULL, MUXANDU_UNIT_SECOND, 1, MUXANDU_REFUSED_NANOSECOND));
    moments[1].nanoseconds = 0;
    moments[1].offset_seconds = 93600;
    CHECK(is_refused(2, NULL, MUXANDU_UNIT_SECOND, 1, MUXANDU_REFUSED_OFFSET_SECONDS));
    read_texts();
    for (allocations_left = 0; allocations_left < 4; allocations_left++) {
        int before = allocations_left;
        CHECK(is_refused(LINES, statuses, MUXANDU_UNIT_SECOND, before < 3 ? 0 : LINES, MUXANDU_REFUSED_BUFFER));
        allocations_left = before;
    }
    allocations_left = -1;
}

/* An engine may take a column over, and release the rest before it. */
static void take_over(void) {
    Batch batch;
    struct ArrowArray at;
    struct ArrowSchema field;
    CHECK(make(&batch, LINES, statuses, MUXANDU_UNIT_SECOND).status == MUXANDU_OK);
    at = *batch.array.children[0];
    field = *batch.schema.children[1];
    batch.array.children[0]->release = NULL;
    batch.schema.children[1]->release = NULL;
    batch.array.release(&batch.array);
    batch.schema.release(&batch.schema);
    CHECK(blocks == 1 && number(&at, 0) == 1709159400 && has_item(&at, 4) && !has_item(&at, 3));
    CHECK(is_field(&field, "i", "offset_seconds", ARROW_FLAG_NULLABLE));
    at.release(&at);
    field.release(&field);
    CHECK(blocks == 0);
}

/* Each number of items, so that the bits end at each place of a byte. */
static void see_lengths(void) {
    for (size_t at = 0; at < MOST; at++) {
        moments[at].seconds = (int64_t)at * 7919 - 1000000;
        moments[at].nanoseconds = 999999999;
        moments[at].offset_seconds = (int32_t)(at % 86) * 60;
        statuses[at] = at % 3 == 1 ? MUXANDU_REFUSED_SYNTAX : MUXANDU_OK;
    }
    for (size_t count = 0; count < MOST; count += 1 + count / 16) {
        Batch batch;
        size_t right = 0;
        CHECK(make(&batch, count, statuses, MUXANDU_UNIT_SECOND).count == count);
        for (size_t at = 0; at < count; at++) {
            int has = has_item(batch.array.children[0], at);
            int is_own = number(batch.array.children[0], at) == moments[at].seconds &&
                         offset(batch.array.children[1], at) == moments[at].offset_seconds;
            right += has == (at % 3 != 1) && has == has_item(batch.array.children[1], at) && (!has || is_own);
        }
        CHECK(right == count && batch.array.children[1]->null_count == (int64_t)((count + 1) / 3));
        release(&batch);
    }
}

/* What comes back of a batch. The rows past it stay as they are. */
static MuxanduMoment back[MOST + 1];

static MuxanduBatch read_back(const Batch *batch, size_t count, size_t *gaps) {
    memset(back, 7, sizeof back);
    return muxandu_arrow_to_moments(&batch->schema, &batch->array, back, count, gaps);
}

static int is_same(MuxanduMoment first, MuxanduMoment second) {
    return first.seconds == second.seconds && first.nanoseconds == second.nanoseconds &&
           first.offset_seconds == second.offset_seconds;
}

static int is_gap(MuxanduMoment moment) {
    return moment.seconds == INT64_MIN && moment.nanoseconds == 0 && moment.offset_seconds == 0;
}

/* Whether the rows that came back make a batch with that number of gaps, though no status tells of
 * them. */
static int has_gaps(size_t count, MuxanduUnit unit, size_t gaps) {
    Batch batch;
    int is_so;
    if (muxandu_arrow_from_moments(back, count, NULL, unit, &batch.schema, &batch.array).status != MUXANDU_OK) return 0;
    is_so = batch.array.children[0]->null_count == (int64_t)gaps;
    release(&batch);
    return is_so;
}

/* Each unit and each length comes back, with its gaps, which a second batch has too. */
static void come_back(void) {
    static const MuxanduUnit units[] = {MUXANDU_UNIT_SECOND, MUXANDU_UNIT_MILLISECOND, MUXANDU_UNIT_MICROSECOND,
                                        MUXANDU_UNIT_NANOSECOND};
    static const uint32_t steps[] = {1000000000, 1000000, 1000, 1};
    for (size_t count = 0; count < MOST; count += 1 + count / 4) {
        for (size_t unit = 0; unit < 4; unit++) {
            Batch batch;
            size_t gaps, right = 0;
            CHECK(make(&batch, count, statuses, units[unit]).count == count);
            CHECK(read_back(&batch, count, &gaps).count == count && gaps == (count + 1) / 3);
            for (size_t at = 0; at < count; at++) {
                MuxanduMoment wanted = moments[at];
                wanted.nanoseconds -= wanted.nanoseconds % steps[unit];
                right += at % 3 == 1 ? is_gap(back[at]) : is_same(back[at], wanted);
            }
            CHECK(right == count && back[count].seconds == 0x0707070707070707);
            release(&batch);
            CHECK(has_gaps(count, units[unit], gaps));
        }
    }
}

/* An engine hands on a part of a batch by an offset of the batch, of a column, or of both. */
static void read_slices(void) {
    for (int64_t whole = 0; whole < 20; whole++) {
        for (int64_t part = 0; part < 20; part++) {
            Batch batch;
            size_t gaps, right = 0;
            const int64_t length = 100 - whole - part;
            CHECK(make(&batch, 100, statuses, MUXANDU_UNIT_NANOSECOND).count == 100);
            batch.array.offset = whole;
            batch.array.length = length;
            batch.array.children[0]->offset = part;
            batch.array.children[0]->length -= part;
            CHECK(read_back(&batch, MOST, &gaps).count == (size_t)length);
            for (int64_t at = 0; at < length; at++) {
                const int64_t own = whole + at, other = own + part;
                MuxanduMoment wanted = moments[other];
                wanted.offset_seconds = moments[own].offset_seconds;
                right += own % 3 == 1 || other % 3 == 1 ? is_gap(back[at]) : is_same(back[at], wanted);
            }
            CHECK(right == (size_t)length);
            batch.array.length++;
            CHECK(read_back(&batch, MOST, &gaps).status == MUXANDU_REFUSED_BUFFER &&
                  back[0].seconds == 0x0707070707070707);
            release(&batch);
        }
    }
}

/* The batch of an engine: the columns in the other order, no bits where no item is null, bits of
 * the whole batch, a zone by its name, and memory of another. */
static int released;

static void release_own_schema(struct ArrowSchema *schema) {
    schema->release = NULL;
    released++;
}

static void release_own_array(struct ArrowArray *array) {
    array->release = NULL;
    released++;
}

static void read_own(void) {
    static const int64_t numbers[] = {0, -1, 1709159400000000};
    static const int32_t offsets[] = {0, -60, 7200};
    static const uint8_t bits[] = {5};
    const void *of_numbers[] = {NULL, numbers}, *of_offsets[] = {NULL, offsets}, *of_batch[] = {bits},
               *nothing[] = {NULL, NULL};
    struct ArrowSchema at = {.format = "tsu:Europe/Berlin", .name = "at", .release = release_own_schema};
    struct ArrowSchema offset_field = {.format = "i", .name = "offset_seconds", .release = release_own_schema};
    struct ArrowSchema *fields[] = {&offset_field, &at};
    struct ArrowArray at_column = {.length = 3, .n_buffers = 2, .buffers = of_numbers, .release = release_own_array};
    struct ArrowArray offset_column = {
        .length = 3, .n_buffers = 2, .buffers = of_offsets, .release = release_own_array};
    struct ArrowArray *columns[] = {&offset_column, &at_column};
    Batch batch = {{.format = "+s", .name = "", .n_children = 2, .children = fields, .release = release_own_schema},
                   {.length = 3,
                    .null_count = -1,
                    .n_buffers = 1,
                    .n_children = 2,
                    .buffers = of_batch,
                    .children = columns,
                    .release = release_own_array}};
    size_t gaps;
    CHECK(read_back(&batch, 3, &gaps).count == 3 && gaps == 1);
    CHECK(back[0].seconds == 0 && is_gap(back[1]) && back[2].seconds == 1709159400 && back[2].offset_seconds == 7200);
    of_batch[0] = NULL;
    CHECK(read_back(&batch, 3, &gaps).count == 3 && gaps == 0);
    CHECK(back[1].seconds == -1 && back[1].nanoseconds == 999999000 && back[1].offset_seconds == -60);
    CHECK(read_back(&batch, 2, &gaps).status == MUXANDU_REFUSED_BUFFER);
    batch.array.length = 0;
    at_column.buffers = offset_column.buffers = nothing;
    CHECK(read_back(&batch, 0, &gaps).status == MUXANDU_OK && gaps == 0);
    batch.array.length = 3;
    CHECK(read_back(&batch, 3, &gaps).status == MUXANDU_REFUSED_BUFFER);
    at_column.buffers = of_numbers;
    offset_column.buffers = of_offsets;
    CHECK(released == 0);
    batch.schema.release(&batch.schema);
    CHECK(released == 1 && batch.schema.release == NULL);
}

/* A schema of anything else, and numbers of no moment. */
static void refuse_schemas(void) {
    static const char *const formats[] = {"tsu:", "tsu", "ttu", "tsx:UTC", "l", "ts"};
    Batch batch;
    size_t gaps;
    CHECK(make(&batch, 5, statuses, MUXANDU_UNIT_MICROSECOND).count == 5);
    for (size_t at = 0; at < sizeof formats / sizeof *formats; at++) {
        batch.schema.children[0]->format = formats[at];
        CHECK(read_back(&batch, 5, &gaps).status == MUXANDU_REFUSED_UNIT);
    }
    batch.schema.children[0]->format = "tsu:UTC";
    batch.schema.children[0]->name = "time";
    CHECK(read_back(&batch, 5, &gaps).status == MUXANDU_REFUSED_UNIT);
    batch.schema.children[0]->name = NULL;
    CHECK(read_back(&batch, 5, &gaps).status == MUXANDU_REFUSED_UNIT);
    batch.schema.children[0]->name = "at";
    batch.schema.children[1]->format = "l";
    CHECK(read_back(&batch, 5, &gaps).status == MUXANDU_REFUSED_UNIT);
    batch.schema.children[1]->format = "i";
    batch.array.offset = -1;
    CHECK(read_back(&batch, 5, &gaps).status == MUXANDU_REFUSED_BUFFER);
    batch.array.offset = INT64_MAX;
    CHECK(read_back(&batch, 5, &gaps).status == MUXANDU_REFUSED_BUFFER);
    batch.array.offset = 0;
    ((int32_t *)(uintptr_t)batch.array.children[1]->buffers[1])[3] = 93600;
    CHECK(read_back(&batch, 5, &gaps).status == MUXANDU_REFUSED_OFFSET_SECONDS &&
          back[3].seconds == 0x0707070707070707);
    CHECK(read_back(&batch, 5, &gaps).count == 3 && gaps == 1);
    batch.schema.children[0]->format = "tss:UTC";
    ((int64_t *)(uintptr_t)batch.array.children[0]->buffers[1])[0] = 31494784780800;
    CHECK(read_back(&batch, 5, &gaps).status == MUXANDU_REFUSED_TIMESTAMP);
    batch.schema.children[0]->format = "tsm:UTC";
    ((int64_t *)(uintptr_t)batch.array.children[0]->buffers[1])[0] = INT64_MAX;
    CHECK(read_back(&batch, 5, &gaps).status == MUXANDU_REFUSED_TIMESTAMP);
    batch.schema.n_children = 1;
    CHECK(read_back(&batch, 5, &gaps).status == MUXANDU_REFUSED_UNIT);
    batch.schema.n_children = 2;
    release(&batch);
}

int main(void) {
    read_texts();
    see_schema();
    see_gaps();
    see_units();
    see_refusals();
    take_over();
    see_lengths();
    come_back();
    read_slices();
    read_own();
    refuse_schemas();
    return counted();
}
