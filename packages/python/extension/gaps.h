/* Columns of moments with gaps: as numbers of 64 bits, those of datetime64 and of timedelta64, and
 * where the gaps are. */

/* The seconds of the first length whose nanoseconds may not fit in 64 bits. */
#define FIRST_LONG_SECOND INT64_C(9223372036)

/* Writes the nanoseconds of a length, and returns whether they surely fit in 64 bits. */
static inline int put_length(int64_t seconds, int64_t nanoseconds, int64_t *to) {
    if (seconds <= -FIRST_LONG_SECOND || seconds >= FIRST_LONG_SECOND) return 0;
    *to = seconds * 1000000000 + nanoseconds;
    return 1;
}

/* The nanoseconds of a row, or those of NaT for a gap. */
static inline int put_moment(MuxanduMoment from, int64_t *to) {
    if (put_length(from.seconds, from.nanoseconds, to)) return 1;
    *to = INT64_MIN;
    return from.seconds == INT64_MIN;
}

static inline int put_duration(MuxanduDuration from, int64_t *to) {
    if (put_length(from.seconds, from.nanoseconds, to)) return 1;
    *to = INT64_MIN;
    return from.seconds == INT64_MAX && from.nanoseconds == INT32_MAX;
}

/* A call that writes the nanoseconds of each row, up to the first that do not fit in 64 bits, and
 * returns how many it wrote. */
#define NANOSECONDS_OF(name, type, put)                                                                                \
    static PyObject *name(PyObject *self, PyObject *const *words, Py_ssize_t count) {                                  \
        Items rows = {0}, out = {0};                                                                                   \
        size_t place = 0;                                                                                              \
        (void)self;                                                                                                    \
        if (!are(#name, count, 4)) return NULL;                                                                        \
        if (take_items(words, &rows, 0) && take_items(words + 2, &out, 1)) {                                           \
            const type *from = rows.at;                                                                                \
            int64_t *to = out.at;                                                                                      \
            size_t end = rows.count < out.count ? rows.count : out.count;                                              \
            Py_BEGIN_ALLOW_THREADS while (place < end && put(from[place], to + place)) place++;                        \
            Py_END_ALLOW_THREADS                                                                                       \
        }                                                                                                              \
        drop_items(&rows);                                                                                             \
        drop_items(&out);                                                                                              \
        return PyErr_Occurred() ? NULL : PyLong_FromSize_t(place);                                                     \
    }

NANOSECONDS_OF(nanoseconds_from_moments, MuxanduMoment, put_moment)
NANOSECONDS_OF(nanoseconds_from_lengths, MuxanduDuration, put_duration)

/* Writes the places of the gaps among rows, and returns how many they are. */
static PyObject *places_of_gaps(PyObject *self, PyObject *const *words, Py_ssize_t count) {
    Items rows = {0}, out = {0};
    size_t place, found = 0;
    (void)self;
    if (!are("places_of_gaps", count, 4)) return NULL;
    if (take_items(words, &rows, 0) && take_items(words + 2, &out, 1)) {
        const MuxanduMoment *from = rows.at;
        int64_t *to = out.at;
        size_t end = rows.count < out.count ? rows.count : out.count;
        Py_BEGIN_ALLOW_THREADS for (place = 0; place < end; place++) {
            to[found] = (int64_t)place;
            found += from[place].seconds == INT64_MIN;
        }
        Py_END_ALLOW_THREADS
    }
    drop_items(&rows);
    drop_items(&out);
    return PyErr_Occurred() ? NULL : PyLong_FromSize_t(found);
}

/* Writes each moment for which a byte says so, and else that at its place among others, or their
 * only one. A pointer is chosen, and not a branch: no processor foresees bytes of chance. */
static PyObject *choose_moments(PyObject *self, PyObject *const *words, Py_ssize_t count) {
    Items rows = {0}, others = {0}, mask = {0}, out = {0};
    int is_whole = 0;
    (void)self;
    if (!are("choose_moments", count, 8)) return NULL;
    if (take_items(words, &rows, 0) && take_items(words + 2, &others, 0) && take_items(words + 4, &mask, 0) &&
        take_items(words + 6, &out, 1)) {
        const MuxanduMoment *first = rows.at, *second = others.at;
        const uint8_t *is_first = mask.at;
        MuxanduMoment *to = out.at;
        size_t place, step = others.count != 1;
        is_whole = mask.count >= rows.count && out.count >= rows.count && (!step || others.count >= rows.count);
        for (place = 0; is_whole && place < rows.count; place++) {
            const MuxanduMoment *other = second + step * place;
            to[place] = *(is_first[place] ? first + place : other);
        }
    }
    drop_items(&rows);
    drop_items(&others);
    drop_items(&mask);
    drop_items(&out);
    return PyErr_Occurred() ? NULL : PyBool_FromLong(is_whole);
}

/* How many rows are compared by one call of the library, so that the nearest cache has them until
 * their orders are read. */
enum { ROWS_AT_ONCE = 512 };

/* The order of a pair in which a row is a gap. */
enum { NO_ORDER = 2 };

/* Writes for each order a byte that says whether a comparison of Python holds. A loop of a length
 * that the compiler knows takes many orders at once. */
static void put_truths(const int32_t *orders, int how, uint8_t *to) {
    size_t place;
#define PUT_TRUTHS(test)                                                                                               \
    for (place = 0; place < ROWS_AT_ONCE; place++) to[place] = orders[place] test;                                     \
    break
    switch (how) {
    case Py_LT: PUT_TRUTHS(< 0);
    case Py_LE: PUT_TRUTHS(<= 0);
    case Py_EQ: PUT_TRUTHS(== 0);
    case Py_NE: PUT_TRUTHS(!= 0);
    case Py_GT: PUT_TRUTHS(> 0);
    default: PUT_TRUTHS(>= 0);
    }
#undef PUT_TRUTHS
}

/* Marks the orders of pairs with a gap, a byte each. */
static void put_marks(const int32_t *orders, uint8_t *to) {
    size_t place;
    for (place = 0; place < ROWS_AT_ONCE; place++) to[place] = orders[place] == NO_ORDER;
}

/* Compares rows with those of another column, or with its only one, up to the first pair that the
 * library rejects. Writes for each whether it is as the comparison asks, and marks those with a
 * gap. */
static MuxanduBatch compare_rows(Items rows, Items others, int how, uint8_t *out, uint8_t *gaps) {
    MuxanduMoment one[ROWS_AT_ONCE];
    const MuxanduMoment *first = rows.at, *second = others.at;
    MuxanduBatch batch = {0, 0};
    int32_t orders[ROWS_AT_ONCE] = {0};
    uint8_t bytes[ROWS_AT_ONCE];
    size_t place, start, is_one = others.count == 1;
    for (place = 0; is_one && place < ROWS_AT_ONCE; place++) one[place] = *second;
    for (start = 0; !batch.status && start < rows.count; start += ROWS_AT_ONCE) {
        size_t found = 0, size = rows.count - start < ROWS_AT_ONCE ? rows.count - start : ROWS_AT_ONCE;
        batch = muxandu_moments_compare_past_gaps(first + start, size, is_one ? one : second + start, size, orders,
                                                  size, &found);
        put_truths(orders, how, bytes);
        memcpy(out + start, bytes, size);
        if (found) {
            put_marks(orders, bytes);
            memcpy(gaps + start, bytes, size);
        }
        batch.count += start;
    }
    return batch;
}

/* Writes which rows are as a comparison asks of them and those of another column, or of them and
 * its only one, and marks the pairs with a gap. Returns how many pairs there are, and the status of
 * the next. */
static PyObject *compare_moments(PyObject *self, PyObject *const *words, Py_ssize_t count) {
    Items rows = {0}, others = {0}, out = {0}, gaps = {0};
    MuxanduBatch batch = {0, MUXANDU_REFUSED_BUFFER};
    int32_t how;
    (void)self;
    if (!are("compare_moments", count, 9) || !take_int32_t(words[4], &how)) return NULL;
    if (take_items(words, &rows, 0) && take_items(words + 2, &others, 0) && take_items(words + 5, &out, 1) &&
        take_items(words + 7, &gaps, 1) && (others.count == 1 || others.count >= rows.count) &&
        out.count >= rows.count && gaps.count >= rows.count) {
        Py_BEGIN_ALLOW_THREADS batch = compare_rows(rows, others, how, out.at, gaps.at);
        Py_END_ALLOW_THREADS
    }
    drop_items(&rows);
    drop_items(&others);
    drop_items(&out);
    drop_items(&gaps);
    return PyErr_Occurred() ? NULL : Py_BuildValue("(KI)", (unsigned long long)batch.count, batch.status);
}
