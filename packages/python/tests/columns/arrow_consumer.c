/* A consumer of the C interfaces of Arrow: the sums of the fields of a column of moments. */
#include "arrow_abi.h"

static int is_field(const struct ArrowSchema *schema, char format) {
    return schema->format[0] == format && schema->format[1] == 0 && schema->n_children == 0 && schema->release != 0;
}

static int is_schema(const struct ArrowSchema *schema) {
    return schema->format[0] == '+' && schema->format[1] == 's' && schema->n_children == 3 &&
           is_field(schema->children[0], 'l') && is_field(schema->children[1], 'I') &&
           is_field(schema->children[2], 'i');
}

/* Adds the fields of the rows that are no gaps to the sums. Returns the number of these rows, or -1 for a wrong array. */
static int64_t add_rows(const struct ArrowArray *array, int64_t sums[3]) {
    const uint8_t *bits = array->buffers[0];
    int64_t count = 0, row;
    if (array->n_children != 3 || array->n_buffers != 1) return -1;
    for (row = 0; row < array->length; row++) {
        if (bits && !(bits[row / 8] >> (row % 8) & 1)) continue;
        sums[0] += ((const int64_t *)array->children[0]->buffers[1])[row];
        sums[1] += ((const uint32_t *)array->children[1]->buffers[1])[row];
        sums[2] += ((const int32_t *)array->children[2]->buffers[1])[row];
        count++;
    }
    return count == array->length - array->null_count ? count : -1;
}

/* The number of rows of an array that are no gaps, and their sums; -1 if a structure is wrong. It takes both structures over,
   as a consumer does, and releases its copies. */
int64_t take_moments(struct ArrowSchema *schema, struct ArrowArray *array, int64_t sums[3]) {
    struct ArrowSchema own_schema = *schema;
    struct ArrowArray own = *array;
    int64_t count;
    schema->release = 0;
    array->release = 0;
    count = is_schema(&own_schema) ? add_rows(&own, sums) : -1;
    own_schema.release(&own_schema);
    own.release(&own);
    return own_schema.release || own.release ? -1 : count;
}

/* The same of a stream, and the number of its arrays. It takes the stream over, and asks for the end twice. */
int64_t take_stream(struct ArrowArrayStream *stream, int64_t sums[3], int64_t *arrays) {
    struct ArrowArrayStream own = *stream;
    struct ArrowSchema schema;
    struct ArrowArray array;
    int64_t count = 0, more;
    stream->release = 0;
    if (own.get_schema(&own, &schema) != 0 || !is_schema(&schema)) return -1;
    schema.release(&schema);
    for (*arrays = 0;; ++*arrays) {
        if (own.get_next(&own, &array) != 0) return -1;
        if (!array.release) break;
        more = add_rows(&array, sums);
        array.release(&array);
        if (more < 0 || array.release) return -1;
        count += more;
    }
    if (own.get_next(&own, &array) != 0 || array.release || own.get_last_error(&own)) return -1;
    own.release(&own);
    return own.release ? -1 : count;
}

/* The next array of a stream, which the caller has kept: its length, -1 at the end, or -2 and a text if the stream failed. */
int64_t take_next(struct ArrowArrayStream *stream, const char **text) {
    struct ArrowArray array;
    int64_t length;
    *text = 0;
    if (stream->get_next(stream, &array) != 0) {
        *text = stream->get_last_error(stream);
        return -2;
    }
    if (!array.release) return -1;
    length = array.length;
    array.release(&array);
    return length;
}
