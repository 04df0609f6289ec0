/* The state of a module: the types that it made, and what it asks Python for. Each import of the
 * package has its own.
 *
 * The limited interface gives an operator no module, so the modules of the process are in a list.
 * The type of an operand has the place of its own. There is one, unless another interpreter or
 * another import needs a second. */
#ifndef MUXANDU_MODULE_H
#define MUXANDU_MODULE_H

#define PY_SSIZE_T_CLEAN
#define Py_LIMITED_API 0x030b0000
#include <Python.h>
#include <muxandu.h>
#include <stddef.h>
#include <string.h>
#include <structmember.h>

/* The types. The first four are clocks: their values are date-times. */
enum {
    kind_OffsetDateTime,
    kind_UtcDateTime,
    kind_PlainDateTime,
    kind_Time,
    kind_Timestamp,
    kind_Duration,
    kind_Date,
    kind_UtcOffset,
    kind_Zone,
    KINDS
};

/* The arguments of constructors, the first in the order of the parts of a date-time, and names
 * of Python's datetime. */
// clang-format off
static const char *const WORDS[] = {
    "year", "month", "day", "hour", "minute", "second", "nanosecond", "offset_seconds", "seconds", "nanoseconds",
    "whole_seconds", "days", "microseconds", "microsecond", "utcoffset"};
enum {
    YEAR, MONTH, DAY, HOUR, MINUTE, SECOND, NANOSECOND, OFFSET_SECONDS, SECONDS, NANOSECONDS,
    WHOLE_SECONDS, DAYS, MICROSECONDS, MICROSECOND, UTCOFFSET, ALL_WORDS, PARTS = SECONDS};
// clang-format on

/* How many ISO weeks and how many zones a module keeps. */
enum { WEEKS = 1024, ZONES = 64 };

typedef struct Module {
    struct Module *next;
    PyTypeObject *types[KINDS];
    PyObject *words[ALL_WORDS];
    /* The classes of refusals by their statuses, and the function that gives the bytes of a text
     * of another type. */
    PyObject *refusals, *as_bytes;
    /* The class of ISO weeks, a tuple of three, and the function that finds a zone by its name. */
    PyObject *week_date, *find_zone;
    PyObject *timedelta, *datetime, *timezone, *utc;
    PyObject *second_nanoseconds, *half_of_whole;
    /* Each datetime.timezone that was made last of those at one place, and their offsets. */
    PyObject *zones[ZONES];
    int32_t offsets_of_zones[ZONES];
    /* ISO weeks that were made, each at the remainder of its day, and these days. */
    PyObject *weeks[WEEKS];
    int32_t days_of_weeks[WEEKS];
    /* int.__index__, which gives a whole number as Python's own. */
    PyObject *index_of_int;
    /* Whether this Python has the parts of these types where Timedelta and Datetime have them. */
    int timedelta_is_so, datetime_is_so, timezone_is_so;
} Module;

/* The other objects of a module, each by its address. */
#define HELD(module)                                                                                                   \
    {                                                                                                                  \
        &(module)->refusals, &(module)->as_bytes, &(module)->timedelta, &(module)->datetime, &(module)->timezone,      \
            &(module)->utc, &(module)->half_of_whole, &(module)->index_of_int, &(module)->second_nanoseconds,          \
            &(module)->week_date, &(module)->find_zone                                                                 \
    }

/* The first import of the process, and those after it. */
static Module *modules;

/* The module of a type of one of these kinds, or of a class that is derived from it, or NULL. */
static inline Module *owner(PyTypeObject *type, int first, int last) {
    Module *module;
    int kind;
    for (module = modules; module; module = module->next) {
        for (kind = first; kind <= last; kind++) {
            if (type == module->types[kind]) return module;
        }
    }
    for (module = modules; module; module = module->next) {
        for (kind = first; kind <= last; kind++) {
            if (PyType_IsSubtype(type, module->types[kind])) return module;
        }
    }
    return NULL;
}

#define OWNER(kind, object) owner(Py_TYPE(object), kind_##kind, kind_##kind)
#define OWNER_OF_Timestamp(type) owner(type, kind_Timestamp, kind_Timestamp)
#define OWNER_OF_Duration(type) owner(type, kind_Duration, kind_Duration)
#define OWNER_OF_OffsetDateTime(type) owner(type, kind_OffsetDateTime, kind_Time)
#define OWNER_OF_PlainDateTime(type) OWNER_OF_OffsetDateTime(type)
#define OWNER_OF_FUNCTION(self) ((Module *)PyModule_GetState(self))

/* Whether an object is of a type of a module, or of a class that is derived from it. */
#define IS_A(module, kind, object)                                                                                     \
    (Py_TYPE(object) == (module)->types[kind_##kind] || PyType_IsSubtype(Py_TYPE(object), (module)->types[kind_##kind]))

#define FUNCTION(name) (PyCFunction)(void (*)(void)) name

/* Objects. */

typedef struct {
    PyObject_HEAD MuxanduTimestamp value;
} TimestampObject;

typedef struct {
    PyObject_HEAD MuxanduDateTime value;
    /* The Unix second of its instant, which `has_instant` reads. */
    int64_t second;
} ClockObject;
typedef ClockObject OffsetDateTimeObject;

/* Seconds of no timestamp: the second was not asked for yet, or the instant is outside the
 * range. */
static const int64_t NOT_ASKED = INT64_MAX, BEYOND = INT64_MIN;

typedef struct {
    PyObject_HEAD MuxanduDuration value;
    /* -1 before it is asked for. */
    Py_hash_t hash;
} DurationObject;

typedef struct {
    PyObject_HEAD MuxanduDate value;
    int32_t number;
} DateObject;

typedef struct {
    PyObject_HEAD int32_t value;
} UtcOffsetObject;

/* The seconds from one transition of a zone up to the next, and the offset between them. */
typedef struct {
    int64_t begin, end;
    int32_t offset;
} Interval;

/* How many places for intervals a zone has, and a call over a column: each place is for two. */
enum { PLACES = 256, PLACES_OF_COLUMN = 4096 };

/* A zone and its transitions, as the library wrote them, what the package knows of it, and the
 * intervals of instants that were asked for, each of which ends after it begins. */
typedef struct {
    PyObject_HEAD MuxanduZone value;
    MuxanduTransition *transitions;
    size_t count;
    PyObject *name, *source, *version, *made_of;
    Interval kept[PLACES][2];
} ZoneObject;

#define VALUE(kind, object) (((kind##Object *)(object))->value)

/* A new object of a class: of the package, or of one derived from it, which may have more than
 * its value. */
#define NEW(module, kind, class)                                                                                       \
    ((class) == (module)->types[kind_##kind] ? (PyObject *)PyObject_New(kind##Object, class)                           \
                                             : PyType_GenericAlloc(class, 0))

#define MAKE(kind, type)                                                                                               \
    static inline PyObject *make_##kind(Module *module, PyTypeObject *class, type value) {                             \
        PyObject *made = NEW(module, kind, class);                                                                     \
        if (made) VALUE(kind, made) = value;                                                                           \
        return made;                                                                                                   \
    }

MAKE(Timestamp, MuxanduTimestamp)
MAKE(UtcOffset, int32_t)

static inline PyObject *make_Duration(Module *module, PyTypeObject *class, MuxanduDuration value) {
    PyObject *made = NEW(module, Duration, class);
    if (made) {
        VALUE(Duration, made) = value;
        ((DurationObject *)made)->hash = -1;
    }
    return made;
}

/* A clock, with the second of its instant. */
static inline PyObject *make_clock(Module *module, PyTypeObject *class, MuxanduDateTime value, int64_t second) {
    PyTypeObject **types = module->types;
    int is_own = class == types[kind_OffsetDateTime] || class == types[kind_UtcDateTime] ||
                 class == types[kind_PlainDateTime] || class == types[kind_Time];
    PyObject *made = is_own ? (PyObject *)PyObject_New(ClockObject, class) : PyType_GenericAlloc(class, 0);
    if (made) {
        VALUE(Clock, made) = value;
        ((ClockObject *)made)->second = second;
    }
    return made;
}

static inline PyObject *make_OffsetDateTime(Module *module, PyTypeObject *class, MuxanduDateTime value) {
    return make_clock(module, class, value, NOT_ASKED);
}

static PyObject *make_Date(Module *module, PyTypeObject *class, MuxanduDate value, int32_t number) {
    PyObject *made = NEW(module, Date, class);
    if (made) {
        VALUE(Date, made) = value;
        ((DateObject *)made)->number = number;
    }
    return made;
}

static void let_go(PyObject *self) {
    PyTypeObject *type = Py_TYPE(self);
    ((freefunc)PyType_GetSlot(type, Py_tp_free))(self);
    Py_DECREF(type);
}

/* A hash of 60 bits, which are two digits of a whole number of Python. */
static inline Py_hash_t mix(int64_t seconds, int64_t nanoseconds) {
    uint64_t bits = (uint64_t)seconds * 0x9E3779B97F4A7C15u + (uint64_t)nanoseconds * 0xC2B2AE3D27D4EB4Fu;
    return (Py_hash_t)((bits ^ bits >> 32) & (UINT64_MAX >> 4));
}

/* Refusals. */

static PyObject *class_of(Module *module, uint32_t status) {
    PyObject *number = PyLong_FromUnsignedLong(status);
    PyObject *refusal = number ? PyDict_GetItemWithError(module->refusals, number) : NULL;
    Py_XDECREF(number);
    if (!refusal && !PyErr_Occurred()) {
        PyErr_Format(PyExc_SystemError, "the library returns the status %u, which has no class", status);
    }
    return refusal;
}

static PyObject *refuse(Module *module, uint32_t status) {
    PyObject *refusal = class_of(module, status);
    if (refusal) PyErr_SetNone(refusal);
    return NULL;
}

/* Raises a refusal of a value, with the byte of a text at which its fault is where that is not
 * negative. */
static PyObject *refuse_value(Module *module, uint32_t status, PyObject *value, Py_ssize_t place) {
    PyObject *refusal = class_of(module, status), *made = NULL;
    if (!refusal) return NULL;
    made = place < 0 ? PyObject_CallFunction(refusal, "OO", Py_None, value)
                     : PyObject_CallFunction(refusal, "OOn", Py_None, value, place);
    if (made) PyErr_SetObject(refusal, made);
    Py_XDECREF(made);
    return NULL;
}

/* Raises a refusal of the word that it is of: `places` has pairs of a status and the place of
 * its word, and 0 at the end. */
static PyObject *refuse_word(Module *module, uint32_t status, PyObject *const *words, const uint8_t *places) {
    for (; *places; places += 2) {
        if (*places == status && words[places[1]]) return refuse_value(module, status, words[places[1]], -1);
    }
    return refuse(module, status);
}

#endif
