/* A producer of streams of Arrow by the published structures: arrays of moments with gaps, offsets, and faults on request. */
#include "arrow_abi.h"

#include <stdlib.h>
#include <string.h>

/* Rows in chunks. Each array begins `offset` items into its buffers, and the buffers of its children `child_offset` more. */
struct Plan {
    int64_t rows, chunk, offset, child_offset;
    int64_t gap_every;       /* each row whose number this divides is null */
    int64_t child_gap_every; /* the nanoseconds of such a row are null */
    int64_t fail_after;      /* the stream fails after so many arrays, or never if it is below 0 */
    int64_t fault;           /* one of the faults */
};

enum Fault {
    NONE,
    REVERSED,
    OTHER_FORMAT,
    OTHER_NAME,
    SHORT_CHILD,
    NO_BUFFER,
    MORE_BUFFERS,
    FEWER_CHILDREN,
    BELOW_ZERO,
    NO_SCHEMA
};

static const char *const NAMES[] = {"seconds", "nanoseconds", "offset_seconds"};
static const char *const FORMATS[] = {"l", "I", "i"};
static const size_t SIZES[] = {8, 4, 4};

/* The structures that are made and not released. */
int64_t live_structures;

static void release_schema(struct ArrowSchema *schema) {
    int64_t child;
    for (child = 0; child < schema->n_children; child++) {
        if (schema->children[child]->release) schema->children[child]->release(schema->children[child]);
        free(schema->children[child]);
    }
    free(schema->children);
    schema->release = 0;
    live_structures--;
}

static void release_array(struct ArrowArray *array) {
    int64_t child, buffer;
    for (child = 0; child < array->n_children; child++) {
        if (array->children[child]->release) array->children[child]->release(array->children[child]);
        free(array->children[child]);
    }
    for (buffer = 0; buffer < array->n_buffers; buffer++) free((void *)array->buffers[buffer]);
    free(array->buffers);
    free(array->children);
    array->release = 0;
    live_structures--;
}

static void make_schema(struct ArrowSchema *out, const char *format, const char *name, int64_t children) {
    memset(out, 0, sizeof *out);
    out->format = format;
    out->name = name;
    out->flags = 2;
    out->n_children = children;
    out->children = children ? calloc(children, sizeof *out->children) : 0;
    out->release = release_schema;
    live_structures++;
}

static void make_array(struct ArrowArray *out, int64_t length, int64_t offset, int64_t buffers, int64_t children) {
    memset(out, 0, sizeof *out);
    out->length = length;
    out->null_count = -1;
    out->offset = offset;
    out->n_buffers = buffers;
    out->buffers = calloc(buffers ? buffers : 1, sizeof *out->buffers);
    out->n_children = children;
    out->children = children ? calloc(children, sizeof *out->children) : 0;
    out->release = release_array;
    live_structures++;
}

/* Bits for the rows of a chunk, with ones and zeros before them. */
static void *bits_of(int64_t first, int64_t length, int64_t before, int64_t gap_every) {
    uint8_t *bits = calloc((before + length) / 8 + 1, 1);
    int64_t place;
    for (place = 0; place < before + length; place++)
        if (place < before ? place % 2 : (first + place - before) % gap_every != 0) bits[place / 8] |= 1 << place % 8;
    return bits;
}

static int64_t value_of(int field, int64_t row) {
    return field == 0 ? 7 * row - 3 : field == 1 ? row % 1000 : 3600 * (row % 3) - 3600;
}

static void *numbers_of(int field, int64_t first, int64_t length, int64_t before) {
    char *numbers = malloc((before + length + 1) * SIZES[field]);
    int64_t place;
    memset(numbers, 0x5A, (before + length + 1) * SIZES[field]);
    for (place = 0; place < length; place++) {
        int64_t value = value_of(field, first + place);
        memcpy(numbers + (before + place) * SIZES[field], &value, SIZES[field]);
    }
    return numbers;
}

struct State {
    struct Plan plan;
    int64_t done, arrays;
};

static int field_at(const struct Plan *plan, int place) {
    return plan->fault == REVERSED ? 2 - place : place;
}

static int get_schema(struct ArrowArrayStream *stream, struct ArrowSchema *out) {
    const struct Plan *plan = &((struct State *)stream->private_data)->plan;
    int place;
    if (plan->fault == NO_SCHEMA) return 22;
    make_schema(out, "+s", "at", 3);
    for (place = 0; place < 3; place++) {
        int field = field_at(plan, place);
        const char *format = plan->fault == OTHER_FORMAT && place == 1 ? "i" : FORMATS[field];
        out->children[place] = malloc(sizeof **out->children);
        make_schema(out->children[place], format, plan->fault == OTHER_NAME && place == 2 ? "offset" : NAMES[field], 0);
    }
    return 0;
}

static void make_child(struct ArrowArray *out, const struct Plan *plan, int field, int64_t first, int64_t length) {
    int64_t before = plan->offset + plan->child_offset, held = plan->offset + length;
    make_array(out, plan->fault == SHORT_CHILD && field == 2 ? held - 1 : held, plan->child_offset, 2, 0);
    if (field == 1 && plan->child_gap_every) out->buffers[0] = bits_of(first, length, before, plan->child_gap_every);
    out->buffers[1] = plan->fault == NO_BUFFER && field == 0 ? 0 : numbers_of(field, first, length, before);
}

static int get_next(struct ArrowArrayStream *stream, struct ArrowArray *out) {
    struct State *state = stream->private_data;
    const struct Plan *plan = &state->plan;
    int64_t left = plan->rows - state->done, length = left < plan->chunk ? left : plan->chunk;
    int place, children = plan->fault == FEWER_CHILDREN ? 2 : 3;
    if (plan->fail_after >= 0 && state->arrays >= plan->fail_after) return 5;
    memset(out, 0, sizeof *out);
    if (left == 0) return 0;
    make_array(out, length, plan->fault == BELOW_ZERO ? -1 : plan->offset, plan->fault == MORE_BUFFERS ? 2 : 1,
               children);
    if (plan->gap_every) out->buffers[0] = bits_of(state->done, length, plan->offset, plan->gap_every);
    for (place = 0; place < children; place++) {
        out->children[place] = malloc(sizeof **out->children);
        make_child(out->children[place], plan, field_at(plan, place), state->done, length);
    }
    state->done += length;
    state->arrays++;
    return 0;
}

static const char *get_last_error(struct ArrowArrayStream *stream) {
    const struct State *state = stream->private_data;
    return state->plan.fault == NO_SCHEMA ? 0 : "the disk is full";
}

static void release_stream(struct ArrowArrayStream *stream) {
    free(stream->private_data);
    stream->release = 0;
    live_structures--;
}

void make_stream(struct ArrowArrayStream *out, const struct Plan *plan) {
    struct State *state = calloc(1, sizeof *state);
    state->plan = *plan;
    out->get_schema = get_schema;
    out->get_next = get_next;
    out->get_last_error = get_last_error;
    out->release = release_stream;
    out->private_data = state;
    live_structures++;
}

/* The schema and the first array of such a stream. */
int make_moments(struct ArrowSchema *schema, struct ArrowArray *array, const struct Plan *plan) {
    struct ArrowArrayStream stream;
    int status;
    make_stream(&stream, plan);
    status = stream.get_schema(&stream, schema) || stream.get_next(&stream, array);
    stream.release(&stream);
    return status;
}
