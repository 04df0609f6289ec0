/* Python's words as numbers, durations, texts and buffers of C. */
#include "module.h"

static int are(const char *name, Py_ssize_t given, Py_ssize_t wanted) {
    if (given == wanted) return 1;
    PyErr_Format(PyExc_TypeError, "%s() takes %zd argument%s, and %zd %s given", name, wanted, wanted == 1 ? "" : "s",
                 given, given == 1 ? "was" : "were");
    return 0;
}

/* A whole number, and where the type does not hold it, an end of the type that the library
 * refuses: the upper one of a type with no sign, whose lower end is 0. */
static int take_between(PyObject *word, int64_t low, int64_t high, int64_t *number) {
    int beyond;
    int64_t found = PyLong_AsLongLongAndOverflow(word, &beyond);
    if (found == -1 && !beyond && PyErr_Occurred()) return 0;
    if (beyond < 0 || (!beyond && found < low)) {
        found = low < 0 ? low : high;
    } else if (beyond > 0 || found > high) {
        found = high;
    }
    *number = found;
    return 1;
}

#define TAKE(type, low, high)                                                                                          \
    static inline int take_##type(PyObject *word, type *out) {                                                         \
        int64_t number;                                                                                                \
        if (!take_between(word, low, high, &number)) return 0;                                                         \
        *out = (type)number;                                                                                           \
        return 1;                                                                                                      \
    }

TAKE(int8_t, INT8_MIN, INT8_MAX)
TAKE(uint8_t, 0, UINT8_MAX)
TAKE(uint16_t, 0, UINT16_MAX)
TAKE(uint32_t, 0, UINT32_MAX)
TAKE(int32_t, INT32_MIN, INT32_MAX)
TAKE(int64_t, INT64_MIN, INT64_MAX)
TAKE(size_t, 0, INT64_MAX)

/* The seconds of an offset, which are a whole number or a UtcOffset. */
static inline int take_offset(Module *module, PyObject *word, int32_t *out) {
    if (Py_TYPE(word) == module->types[kind_UtcOffset]) {
        *out = VALUE(UtcOffset, word);
        return 1;
    }
    if (!PyIndex_Check(word)) {
        PyErr_Format(PyExc_TypeError, "the offset must be an integer of seconds or a UtcOffset, not %R", Py_TYPE(word));
        return 0;
    }
    return take_int32_t(word, out);
}

/* The number of a Unit. Its name alone is none. */
static inline int take_unit(Module *module, PyObject *word, uint32_t *out) {
    (void)module;
    if (PyUnicode_Check(word)) {
        PyErr_Format(PyExc_TypeError, "the unit must be a Unit, as Unit.DAY, not %R", word);
        return 0;
    }
    return take_uint32_t(word, out);
}

static inline PyObject *give_uint8_t(uint8_t number) {
    return PyLong_FromLong(number);
}
static inline PyObject *give_int32_t(int32_t number) {
    return PyLong_FromLong(number);
}
static inline PyObject *give_uint32_t(uint32_t number) {
    return PyLong_FromUnsignedLong(number);
}
static inline PyObject *give_int64_t(int64_t number) {
    return PyLong_FromLongLong(number);
}
static inline PyObject *give_size_t(size_t number) {
    return PyLong_FromSize_t(number);
}

#define TAKE_VALUE(kind, type)                                                                                         \
    static inline int take_##type(Module *module, PyObject *word, type *out) {                                         \
        if (!IS_A(module, kind, word)) {                                                                               \
            PyErr_Format(PyExc_TypeError, "the argument must be of type " #kind ", not %R", Py_TYPE(word));            \
            return 0;                                                                                                  \
        }                                                                                                              \
        *out = VALUE(kind, word);                                                                                      \
        return 1;                                                                                                      \
    }

TAKE_VALUE(Timestamp, MuxanduTimestamp)
TAKE_VALUE(OffsetDateTime, MuxanduDateTime)

/* The words of constructors and of `replace`. */

/* Says of a word of a constructor that it is not given. A text alone is meant for another call. */
static int lacks(const char *kind, const char *name, PyObject *given) {
    PyObject *first = PyTuple_Size(given) ? PyTuple_GetItem(given, 0) : NULL;
    if (first && PyUnicode_Check(first)) {
        const char *reader = strcmp(kind, "PlainDateTime") ? "from_rfc3339" : "from_text";
        PyErr_Format(PyExc_TypeError, "%s() takes numbers; %s.%s() reads a text", kind, kind, reader);
    } else {
        PyErr_Format(PyExc_TypeError, "%s() needs the argument '%s'", kind, name);
    }
    return 0;
}

/* Says which argument is no whole number. */
static int is_no_number(int place, PyObject *word) {
    if (!PyIndex_Check(word)) {
        PyErr_Format(PyExc_TypeError, "the argument '%s' must be an integer, not %R", WORDS[place], Py_TYPE(word));
    }
    return 0;
}

/* The number of a word that may be left out. */
#define TAKE_WORD(words, place, take, out)                                                                             \
    (!(words)[place] || take((words)[place], out) || is_no_number(place, (words)[place]))

/* The place of the name of a word among some, or their end where it is none of them. */
static int place_of(Module *module, PyObject *name, int first, int end) {
    int place;
    for (place = first; place < end; place++) {
        if (name == module->words[place]) return place;
    }
    for (place = first; place < end && PyUnicode_CompareWithASCIIString(name, WORDS[place]); place++) {}
    return place;
}

/* Says which name a constructor does not take, or has by its place already. */
static int is_not_taken(Module *module, const char *kind, PyObject *named, Py_ssize_t count, int first, int end) {
    PyObject *name, *value;
    Py_ssize_t at = 0;
    PyErr_Format(PyExc_TypeError, "%s() needs the names of arguments as str", kind);
    while (PyDict_Next(named, &at, &name, &value)) {
        int place = place_of(module, name, first, end);
        if (place - first >= count && place < end) continue;
        PyErr_Format(PyExc_TypeError, place < end ? "%s() has the argument %R twice" : "%s() takes no argument %R",
                     kind, name);
        break;
    }
    return 0;
}

/* The words of a constructor in their places, by place and by name. Those that are not given are
 * left NULL. */
static int take_words(Module *module, const char *kind, PyObject *given, PyObject *named, int first, int least, int end,
                      PyObject **words) {
    Py_ssize_t count = PyTuple_Size(given), left = named ? PyDict_Size(named) : 0;
    int place;
    if (count > end - first) return are(kind, count, end - first);
    for (place = first; place < end; place++) {
        words[place] = place - first < count ? PyTuple_GetItem(given, place - first) : NULL;
        if (left && !words[place]) {
            words[place] = PyDict_GetItemWithError(named, module->words[place]);
            if (!words[place] && PyErr_Occurred()) return 0;
            left -= words[place] != NULL;
        }
        if (!words[place] && place - first < least) return lacks(kind, WORDS[place], given);
    }
    return left ? is_not_taken(module, kind, named, count, first, end) : 1;
}

/* The words of `replace`, which are given by name alone. */
static int take_replaced(Module *module, PyObject *const *given, Py_ssize_t count, PyObject *names, int first, int end,
                         PyObject **words) {
    Py_ssize_t at, named = names ? PyTuple_Size(names) : 0;
    if (count) {
        PyErr_SetString(PyExc_TypeError, "replace() takes the parts by name, as replace(day=1)");
        return 0;
    }
    for (at = 0; at < named; at++) {
        PyObject *name = PyTuple_GetItem(names, at);
        int place = place_of(module, name, first, end);
        if (place == end) {
            PyErr_Format(PyExc_TypeError, "replace() takes no argument %R", name);
            return 0;
        }
        words[place] = given[at];
    }
    return 1;
}

/* Durations. */

static const __int128 SECOND_NANOSECONDS = 1000000000;

static int put_nanoseconds(Module *module, __int128 whole, MuxanduDuration *out) {
    __int128 seconds = whole / SECOND_NANOSECONDS;
    if (seconds < INT64_MIN || seconds > INT64_MAX) {
        refuse(module, MUXANDU_REFUSED_DURATION);
        return 0;
    }
    out->seconds = (int64_t)seconds;
    out->nanoseconds = (int32_t)(whole % SECOND_NANOSECONDS);
    return 1;
}

static inline __int128 nanoseconds_of(MuxanduDuration duration) {
    return duration.seconds * SECOND_NANOSECONDS + duration.nanoseconds;
}

/* A whole number as Python's own, also where a class derived from it has operators of its own. */
static PyObject *exact(Module *module, PyObject *word) {
    PyObject *index = PyNumber_Index(word);
    PyObject *number = index ? PyObject_CallFunctionObjArgs(module->index_of_int, index, NULL) : NULL;
    Py_XDECREF(index);
    return number;
}

/* Numbers that 64 bits do not hold: all the nanoseconds, in two halves. */
static int take_long_duration(Module *module, PyObject *seconds, PyObject *nanoseconds, MuxanduDuration *out) {
    int is_taken = 0, beyond;
    PyObject *first = exact(module, seconds), *second = first ? exact(module, nanoseconds) : NULL;
    PyObject *product = second ? PyNumber_Multiply(first, module->second_nanoseconds) : NULL;
    PyObject *whole = product ? PyNumber_Add(product, second) : NULL;
    PyObject *upper = whole ? PyNumber_Rshift(whole, module->half_of_whole) : NULL;
    if (upper) {
        int64_t high = PyLong_AsLongLongAndOverflow(upper, &beyond);
        uint64_t low = PyLong_AsUnsignedLongLongMask(whole);
        if (beyond) {
            refuse(module, MUXANDU_REFUSED_DURATION);
        } else {
            is_taken = put_nanoseconds(module, (__int128)((unsigned __int128)high << 64 | low), out);
        }
    }
    Py_XDECREF(first);
    Py_XDECREF(second);
    Py_XDECREF(product);
    Py_XDECREF(whole);
    Py_XDECREF(upper);
    return is_taken;
}

static int take_both(Module *module, PyObject *seconds, PyObject *nanoseconds, MuxanduDuration *out) {
    int beyond, beyond_nanoseconds = 0;
    int64_t first = PyLong_AsLongLongAndOverflow(seconds, &beyond), second = 0;
    if (first == -1 && !beyond && PyErr_Occurred()) return 0;
    if (nanoseconds) second = PyLong_AsLongLongAndOverflow(nanoseconds, &beyond_nanoseconds);
    if (second == -1 && !beyond_nanoseconds && PyErr_Occurred()) return 0;
    if (!beyond && !beyond_nanoseconds) return put_nanoseconds(module, first * SECOND_NANOSECONDS + second, out);
    if (nanoseconds) return take_long_duration(module, seconds, nanoseconds, out);
    refuse(module, MUXANDU_REFUSED_DURATION);
    return 0;
}

static int take_attribute(Module *module, PyObject *object, PyObject *name, int64_t *number) {
    int beyond = 0;
    PyObject *found = PyObject_GetAttr(object, name);
    *number = found ? PyLong_AsLongLongAndOverflow(found, &beyond) : -1;
    Py_XDECREF(found);
    if (beyond) refuse(module, MUXANDU_REFUSED_DURATION);
    return *number != -1 || !PyErr_Occurred();
}

/* The same of an attribute that may be lacking, as 0. */
static int take_attribute_or_0(Module *module, PyObject *object, PyObject *name, int64_t *number) {
    if (take_attribute(module, object, name, number)) return 1;
    if (!PyErr_ExceptionMatches(PyExc_AttributeError)) return 0;
    PyErr_Clear();
    *number = 0;
    return 1;
}

/* Whether it is one by its type, whatever its `__class__` is. */
static inline int is_timedelta(Module *module, PyObject *word) {
    PyTypeObject *timedelta = (PyTypeObject *)module->timedelta;
    return Py_TYPE(word) == timedelta || PyType_IsSubtype(Py_TYPE(word), timedelta);
}

static inline int is_length(Module *module, PyObject *word) {
    return (PyObject *)Py_TYPE(word) == module->timedelta || IS_A(module, Duration, word) || is_timedelta(module, word);
}

/* A datetime.timedelta, a datetime.datetime and a datetime.timezone as CPython has them, which
 * the limited interface leaves out. `fill` tests by some whose parts are known whether this
 * Python has them so; else their attributes are asked, which takes longer. */
typedef struct {
    PyObject_HEAD Py_hash_t hash;
    int days, seconds, microseconds;
} Timedelta;

typedef struct {
    PyObject_HEAD Py_hash_t hash;
    char has_zone;
    unsigned char parts[10], fold;
    PyObject *zone;
} Datetime;

typedef struct {
    PyObject_HEAD PyObject *offset;
} Timezone;

/* A timedelta by its attributes, and the nanoseconds of one of pandas. */
static int take_attributes(Module *module, PyObject *word, MuxanduDuration *out) {
    int64_t days, seconds, microseconds, nanoseconds;
    if (!take_attribute(module, word, module->words[DAYS], &days) ||
        !take_attribute(module, word, module->words[SECONDS], &seconds) ||
        !take_attribute(module, word, module->words[MICROSECONDS], &microseconds) ||
        !take_attribute_or_0(module, word, module->words[NANOSECONDS], &nanoseconds))
        return 0;
    return put_nanoseconds(
        module, (days * (__int128)86400 + seconds) * SECOND_NANOSECONDS + microseconds * (__int128)1000 + nanoseconds,
        out);
}

/* A Duration or a datetime.timedelta. */
static int take_MuxanduDuration(Module *module, PyObject *word, MuxanduDuration *out) {
    if ((PyObject *)Py_TYPE(word) == module->timedelta && module->timedelta_is_so) {
        Timedelta *found = (Timedelta *)word;
        out->seconds = (int64_t)found->days * 86400 + found->seconds;
        out->nanoseconds = found->microseconds * 1000;
        return 1;
    }
    if (IS_A(module, Duration, word)) {
        *out = VALUE(Duration, word);
        return 1;
    }
    if (!is_timedelta(module, word)) {
        PyErr_Format(PyExc_TypeError, "the duration must be a Duration or a datetime.timedelta, not %R", Py_TYPE(word));
        return 0;
    }
    return take_attributes(module, word, out);
}

/* Texts. */

typedef struct {
    const char *bytes;
    Py_ssize_t size;
    /* The object that the call releases at its end. */
    PyObject *held;
} Text;

static int take_text(Module *module, PyObject *word, Text *text) {
    char *bytes;
    text->held = NULL;
    if (PyUnicode_Check(word)) {
        text->bytes = PyUnicode_AsUTF8AndSize(word, &text->size);
        if (text->bytes || !PyErr_ExceptionMatches(PyExc_UnicodeEncodeError)) return text->bytes != NULL;
        /* Half a character, which no text of RFC 3339 has: the text may come before it. */
        PyErr_Clear();
    }
    if (!PyBytes_Check(word)) {
        word = text->held = PyObject_CallFunctionObjArgs(module->as_bytes, word, NULL);
        if (!word) return 0;
    }
    if (PyBytes_AsStringAndSize(word, &bytes, &text->size) < 0) return 0;
    text->bytes = bytes;
    return 1;
}

static inline void drop_text(Text *text) {
    Py_XDECREF(text->held);
}

/* Raises a refusal of a text, with the place of its fault, which is at most the end of the form
 * that the call reads. */
static PyObject *refuse_text(Module *module, uint32_t status, const Text *text, PyObject *word, size_t end) {
    Py_ssize_t place = -1;
    if (status == MUXANDU_REFUSED_SYNTAX) {
        size_t fault = muxandu_rfc3339_fault(text->bytes, (size_t)text->size);
        place = (Py_ssize_t)(fault < end ? fault : end);
    }
    return refuse_value(module, status, word, place);
}

/* Buffers, whose items the package has tested. */

typedef struct {
    void *at;
    size_t count;
    Py_buffer view;
} Items;

static int take_items(PyObject *const *words, Items *items, int is_written) {
    static int64_t nothing[2];
    Py_ssize_t count = PyLong_AsSsize_t(words[1]);
    if (count == -1 && PyErr_Occurred()) return 0;
    if (PyObject_GetBuffer(words[0], &items->view, is_written ? PyBUF_WRITABLE : PyBUF_SIMPLE) < 0) return 0;
    items->count = (size_t)count;
    items->at = count ? items->view.buf : nothing;
    return 1;
}

static inline void drop_items(Items *items) {
    if (items->view.obj) PyBuffer_Release(&items->view);
}
