/* The values of the package as types over the archive, in the limited interface of Python 3.11 and
 * later.
 *
 * calls.h has the calls as methods and functions. By hand are the parts that no declaration says:
 * how words of Python become numbers of C, how objects are made, and their operators. The package
 * gives these types the rest of their methods. */
#include "words.h"

#include "calls.h"

#include "clocks.h"

#include "durations.h"

#include "to_python.h"

#include "gaps.h"

#include "zones.h"

/* Functions. */

/* Where the items of a buffer begin. */
static PyObject *address(PyObject *self, PyObject *buffer) {
    Py_buffer view;
    PyObject *found;
    (void)self;
    if (PyObject_GetBuffer(buffer, &view, PyBUF_SIMPLE) < 0) return NULL;
    found = PyLong_FromVoidPtr(view.buf);
    PyBuffer_Release(&view);
    return found;
}

/* Takes the classes of refusals, the function that gives the bytes of a text, and the class of ISO
 * weeks. */
static PyObject *bind(PyObject *self, PyObject *const *words, Py_ssize_t count) {
    Module *module = OWNER_OF_FUNCTION(self);
    PyObject **places[] = {&module->refusals, &module->as_bytes, &module->week_date};
    size_t place;
    if (!are("bind", count, sizeof places / sizeof *places)) return NULL;
    for (place = 0; place < sizeof places / sizeof *places; place++) {
        Py_INCREF(words[place]);
        Py_XDECREF(*places[place]);
        *places[place] = words[place];
    }
    Py_RETURN_NONE;
}

/* Takes the function that finds a zone of a class by its name. */
static PyObject *bind_zones(PyObject *self, PyObject *find) {
    Module *module = OWNER_OF_FUNCTION(self);
    PyObject *before = module->find_zone;
    Py_INCREF(find);
    module->find_zone = find;
    Py_XDECREF(before);
    Py_RETURN_NONE;
}

/* Makes bytes of what else a list has as texts, and counts the bytes of all. -1 for an error. */
static Py_ssize_t size_of_texts(Module *module, PyObject *texts, Py_ssize_t count) {
    Py_ssize_t place, total = 0;
    for (place = 0; place < count; place++) {
        PyObject *word = PyList_GetItem(texts, place);
        Text text;
        if (!word || !take_text(module, word, &text)) return -1;
        total += text.size;
        if (text.held && PyList_SetItem(texts, place, text.held) < 0) return -1;
    }
    return total;
}

/* One block of the bytes of the texts of a list, and the index and the length of each in it, as
 * spans. */
static PyObject *pack_texts(PyObject *self, PyObject *texts) {
    Module *module = OWNER_OF_FUNCTION(self);
    Py_ssize_t place, at = 0, count = PyList_Size(texts);
    Py_ssize_t total = count < 0 ? -1 : size_of_texts(module, texts, count);
    PyObject *block = total < 0 ? NULL : PyBytes_FromStringAndSize(NULL, total);
    PyObject *spans = block ? PyBytes_FromStringAndSize(NULL, count * (Py_ssize_t)sizeof(MuxanduSpan)) : NULL;
    for (place = 0; spans && place < count; place++) {
        MuxanduSpan span;
        Text text;
        if (!take_text(module, PyList_GetItem(texts, place), &text)) {
            Py_CLEAR(spans);
            break;
        }
        span.start = (size_t)at, span.length = (size_t)text.size;
        memcpy(PyBytes_AsString(block) + at, text.bytes, (size_t)text.size);
        memcpy(PyBytes_AsString(spans) + place * (Py_ssize_t)sizeof span, &span, sizeof span);
        at += text.size;
    }
    if (spans) return Py_BuildValue("(NN)", block, spans);
    Py_XDECREF(block);
    return NULL;
}

/* A list of the texts of the timestamps of a buffer, up to the first that is refused, and why
 * that is. */
static PyObject *texts_from_timestamps(PyObject *self, PyObject *const *words, Py_ssize_t count) {
    Items items = {0};
    PyObject *texts;
    uint32_t status = 0;
    size_t done;
    (void)self;
    if (!are("texts_from_timestamps", count, 2) || !take_items(words, &items, 0)) return NULL;
    texts = PyList_New(0);
    for (done = 0; texts && done < items.count; done++) {
        char text[MUXANDU_TEXT_ROOM];
        size_t size;
        PyObject *made = NULL;
        status = muxandu_timestamp_to_rfc3339(((const MuxanduTimestamp *)items.at)[done], text, sizeof text, &size);
        if (status) break;
        made = PyUnicode_DecodeASCII(text, (Py_ssize_t)size, NULL);
        if (!made || PyList_Append(texts, made) < 0) Py_CLEAR(texts);
        Py_XDECREF(made);
    }
    drop_items(&items);
    return texts ? Py_BuildValue("(NI)", texts, status) : NULL;
}

/* A list of the texts at the spans of a block of ASCII, with None for each that has a status in a
 * third buffer. */
static PyObject *texts_at_spans(PyObject *self, PyObject *const *words, Py_ssize_t count) {
    Items block = {0}, spans = {0}, statuses = {0};
    PyObject *texts = NULL;
    size_t place;
    (void)self;
    if (!are("texts_at_spans", count, 6)) return NULL;
    if (take_items(words, &block, 0) && take_items(words + 2, &spans, 0) && take_items(words + 4, &statuses, 0))
        texts = PyList_New((Py_ssize_t)spans.count);
    for (place = 0; texts && place < spans.count; place++) {
        MuxanduSpan span = ((const MuxanduSpan *)spans.at)[place];
        PyObject *text = Py_None;
        if (place < statuses.count && ((const uint32_t *)statuses.at)[place]) {
            Py_INCREF(text);
        } else if (span.start > block.count || span.length > block.count - span.start) {
            text = NULL, PyErr_SetString(PyExc_ValueError, "a span must lie in its block");
        } else {
            text = PyUnicode_DecodeASCII((const char *)block.at + span.start, (Py_ssize_t)span.length, NULL);
        }
        if (!text || PyList_SetItem(texts, (Py_ssize_t)place, text) < 0) Py_CLEAR(texts);
    }
    drop_items(&block);
    drop_items(&spans);
    drop_items(&statuses);
    return texts;
}

/* How many moments become objects by one call of the library. */
enum { MOMENTS_AT_ONCE = 128 };

/* A list of the OffsetDateTime of each moment of a buffer, with the third word for each gap. With
 * it the status of the first row that fails, which ends the list, or 0. */
static PyObject *items_from_moments(PyObject *self, PyObject *const *words, Py_ssize_t count) {
    Module *module = OWNER_OF_FUNCTION(self);
    PyTypeObject *class = module->types[kind_OffsetDateTime];
    Items items = {0};
    PyObject *list;
    uint32_t status = 0;
    size_t start, done = 0;
    if (!are("items_from_moments", count, 3) || !take_items(words, &items, 0)) return NULL;
    list = PyList_New((Py_ssize_t)items.count);
    for (start = 0; list && !status && start < items.count; start += MOMENTS_AT_ONCE) {
        MuxanduDateTime shown[MOMENTS_AT_ONCE];
        uint32_t statuses[MOMENTS_AT_ONCE];
        const MuxanduMoment *rows = (const MuxanduMoment *)items.at + start;
        size_t size = items.count - start < MOMENTS_AT_ONCE ? items.count - start : MOMENTS_AT_ONCE, place;
        (void)muxandu_date_times_from_each_moment(rows, size, shown, size, statuses, size);
        for (place = 0; list && place < size; place++) {
            int is_gap = rows[place].seconds == INT64_MIN;
            PyObject *item = words[2];
            if (statuses[place] && !is_gap) {
                status = statuses[place];
                break;
            }
            if (is_gap) {
                Py_INCREF(item);
            } else {
                item = make_clock(module, class, shown[place], rows[place].seconds);
            }
            if (!item || PyList_SetItem(list, (Py_ssize_t)done++, item) < 0) Py_CLEAR(list);
        }
    }
    drop_items(&items);
    if (list && status && PyList_SetSlice(list, (Py_ssize_t)done, PyList_Size(list), NULL) < 0) Py_CLEAR(list);
    return list ? Py_BuildValue("(NI)", list, status) : NULL;
}

/* The moment of a text of RFC 3339. 0 for a text of another form, and for one that is not ASCII. */
static int moment_of_text(PyObject *text, MuxanduMoment *out) {
    Py_ssize_t size;
    const char *bytes = PyUnicode_AsUTF8AndSize(text, &size);
    MuxanduSpan span = {0, 0};
    if (!bytes) return PyErr_Clear(), 0;
    span.length = (size_t)size;
    return muxandu_moments_from_rfc3339(bytes, (size_t)size, &span, 1, out, 1).count == 1;
}

/* The moment of an item: of a date-time, of an instant, or of a text of RFC 3339, and a gap for
 * None, for NaN and for a word. 0 for another item, and for an instant outside the range. */
static int moment_of_item(Module *module, PyObject *item, PyObject *gap, MuxanduMoment *out) {
    PyTypeObject *type = Py_TYPE(item), **types = module->types;
    MuxanduTimestamp at = {INT64_MIN, 0};
    int32_t offset = 0;
    if (PyUnicode_Check(item)) return moment_of_text(item, out);
    if (type == types[kind_OffsetDateTime] || type == types[kind_UtcDateTime]) {
        if (!has_instant(item, &at)) return 0;
        offset = VALUE(Clock, item).offset_seconds;
    } else if (type == types[kind_Timestamp]) {
        at = VALUE(Timestamp, item);
    } else if (item != Py_None && item != gap && !(PyFloat_Check(item) && isnan(PyFloat_AsDouble(item)))) {
        return 0;
    }
    out->seconds = at.seconds, out->nanoseconds = at.nanoseconds, out->offset_seconds = offset;
    return 1;
}

/* Writes the moment of each item of a list, up to one that has none, and returns how many these
 * are. */
static PyObject *moments_from_items(PyObject *self, PyObject *const *words, Py_ssize_t count) {
    Module *module = OWNER_OF_FUNCTION(self);
    Py_buffer view;
    Py_ssize_t done = 0, size = count == 3 ? PyList_Size(words[0]) : -1;
    if (!are("moments_from_items", count, 3) || size < 0) return NULL;
    if (PyObject_GetBuffer(words[1], &view, PyBUF_WRITABLE) < 0) return NULL;
    if (view.len / (Py_ssize_t)sizeof(MuxanduMoment) < size) size = view.len / (Py_ssize_t)sizeof(MuxanduMoment);
    while (done < size &&
           moment_of_item(module, PyList_GetItem(words[0], done), words[2], (MuxanduMoment *)view.buf + done))
        done++;
    PyBuffer_Release(&view);
    return PyLong_FromSsize_t(done);
}

/* The text of a clock or a day by the items of a description: of a kind, the items and their
 * number, and the value. None for one of another type, and for what has no text. */
static PyObject *text_of_clock(PyObject *self, PyObject *const *words, Py_ssize_t count) {
    PyTypeObject **types = OWNER_OF_FUNCTION(self)->types, *type;
    Items items = {0};
    char text[64];
    MuxanduSpan span = {0, 0};
    MuxanduBatch batch;
    MuxanduDateTime at = {1970, 1, 1, 0, 0, 0, 0, 0};
    uint32_t kind;
    if (!are("text_of_clock", count, 4) || !take_uint32_t(words[0], &kind)) return NULL;
    type = Py_TYPE(words[3]);
    if (type == types[kind_Date]) {
        at.year = VALUE(Date, words[3]).year, at.month = VALUE(Date, words[3]).month;
        at.day = VALUE(Date, words[3]).day;
    } else if (type == types[kind_OffsetDateTime] || type == types[kind_UtcDateTime] ||
               type == types[kind_PlainDateTime] || type == types[kind_Time]) {
        at = VALUE(Clock, words[3]);
    } else {
        Py_RETURN_NONE;
    }
    if (!take_items(words + 1, &items, 0)) return NULL;
    batch = muxandu_format_all(kind, items.at, items.count, &at, 1, text, sizeof text, &span, 1);
    drop_items(&items);
    if (batch.status) Py_RETURN_NONE;
    return PyUnicode_DecodeASCII(text, (Py_ssize_t)span.length, NULL);
}

static PyMethodDef functions[] = {CALLS_OF_FUNCTIONS{"pack_texts", pack_texts, METH_O, NULL},
                                  {"texts_from_timestamps", FUNCTION(texts_from_timestamps), METH_FASTCALL, NULL},
                                  {"texts_at_spans", FUNCTION(texts_at_spans), METH_FASTCALL, NULL},
                                  {"nanoseconds_from_moments", FUNCTION(nanoseconds_from_moments), METH_FASTCALL, NULL},
                                  {"nanoseconds_from_lengths", FUNCTION(nanoseconds_from_lengths), METH_FASTCALL, NULL},
                                  {"places_of_gaps", FUNCTION(places_of_gaps), METH_FASTCALL, NULL},
                                  {"choose_moments", FUNCTION(choose_moments), METH_FASTCALL, NULL},
                                  {"compare_moments", FUNCTION(compare_moments), METH_FASTCALL, NULL},
                                  {"text_of_clock", FUNCTION(text_of_clock), METH_FASTCALL, NULL},
                                  {"moments_from_items", FUNCTION(moments_from_items), METH_FASTCALL, NULL},
                                  {"items_from_moments", FUNCTION(items_from_moments), METH_FASTCALL, NULL},
                                  {"address", address, METH_O, NULL},
                                  {"bind", FUNCTION(bind), METH_FASTCALL, NULL},
                                  {"bind_zones", bind_zones, METH_O, NULL},
                                  {"moments_to_zone", FUNCTION(moments_to_zone), METH_FASTCALL, NULL},
                                  {"is_zone_name", is_zone_name, METH_O, NULL},
                                  {0}};

/* Types. */

#define NO_WORDS METH_NOARGS
#define OF_CLASS METH_O | METH_CLASS
#define BY_NAME METH_FASTCALL | METH_KEYWORDS

/* A method that is written here: the text of help begins with its words, as Python reads them. */
#define METHOD(name, made, kind, words, help)                                                                          \
    { name, FUNCTION(made), kind, name "(" words ")\n--\n\n" help }

/* The classes and the numbers of values, as pickles take them. */
#define REDUCE(kind)                                                                                                   \
    METHOD("__reduce__", kind##_reduce, NO_WORDS, "$self, /", "The class, and the arguments that make the value.")
#define TO_DATETIME(made, which)                                                                                       \
    METHOD("to_datetime", made, NO_WORDS, "$self, /",                                                                  \
           "The datetime.datetime " which " that shows the same, to the microsecond, which is rounded down.")
#define OF_NANOSECONDS                                                                                                 \
    METHOD("_of_nanoseconds", clock_of_nanoseconds, METH_FASTCALL | METH_CLASS,                                        \
           "$type, nanoseconds, offset_seconds, /", "The date-time of a count of nanoseconds from 1970 on.")
#define REPLACE(made, words)                                                                                           \
    METHOD("replace", made, BY_NAME, "$self, /, *, " words, "The same with other parts, by name: replace(day=1).")
#define TO_ZONE(made)                                                                                                  \
    METHOD("to_zone", made, METH_O, "$self, zone, /",                                                                  \
           "The date-time that the clocks of a zone show at the instant: of a Zone, or of the name of one. "           \
           "RefusedResult if the year there is out of range.")
#define DATE_WORDS "year=..., month=..., day=..."
#define WALL_WORDS DATE_WORDS ", hour=..., minute=..., second=..., nanosecond=..."
#define METHODS_OF_A_WALL                                                                                              \
    METHOD("date", clock_date, NO_WORDS, "$self, /", "The date."),                                                     \
        METHOD("time", clock_time, NO_WORDS, "$self, /", "The time of day.")

static PyMethodDef Timestamp_methods[] = {
    CALLS_OF_Timestamp METHOD("to_utc", timestamp_to_utc, NO_WORDS, "$self, /", "The date-time in UTC."),
    METHOD("from_datetime", timestamp_from_datetime, OF_CLASS, "$type, at, /",
           "The instant of a datetime.datetime that has an offset."),
    METHOD("_to_utc_datetime", timestamp_to_utc_datetime, NO_WORDS, "$self, /", "The datetime.datetime in UTC."),
    TO_ZONE(timestamp_to_zone),
    REDUCE(Timestamp),
    {0}};

static PyMethodDef OffsetDateTime_methods[] = {
    CALLS_OF_OffsetDateTime METHODS_OF_A_WALL,
    METHOD("date_time", clock_date_time, NO_WORDS, "$self, /", "The wall clock, without the offset."),
    METHOD("offset", clock_offset, NO_WORDS, "$self, /", "The offset."),
    METHOD("to_utc", shown_to_utc, NO_WORDS, "$self, /", "The date-time in UTC of the same instant."),
    METHOD("from_datetime", shown_from_datetime, OF_CLASS, "$type, at, /",
           "The date-time of a datetime.datetime, which must have an offset of whole seconds."),
    TO_ZONE(shown_to_zone),
    TO_DATETIME(clock_to_datetime, "at the offset"),
    OF_NANOSECONDS,
    REDUCE(OffsetDateTime),
    REPLACE(shown_replaced, WALL_WORDS ", offset_seconds=..."),
    {0}};

static PyMethodDef UtcDateTime_methods[] = {
    CALLS_OF_UtcDateTime METHODS_OF_A_WALL,
    METHOD("date_time", clock_date_time, NO_WORDS, "$self, /", "The wall clock, without the offset."),
    METHOD("offset", clock_offset, NO_WORDS, "$self, /", "The offset 0."),
    METHOD("to_offset", utc_to_offset, METH_O, "$self, offset_seconds, /",
           "The date-time at an offset of the same instant."),
    METHOD("from_rfc3339", utc_from_rfc3339, OF_CLASS, "$type, text, /", "The date-time in UTC of a text of RFC 3339."),
    METHOD("from_datetime", utc_from_datetime, OF_CLASS, "$type, at, /",
           "The date-time in UTC of a datetime.datetime with an offset."),
    TO_ZONE(shown_to_zone),
    TO_DATETIME(clock_to_datetime, "in UTC"),
    OF_NANOSECONDS,
    REDUCE(UtcDateTime),
    REPLACE(wall_replaced, WALL_WORDS),
    {0}};

static PyMethodDef PlainDateTime_methods[] = {
    CALLS_OF_PlainDateTime METHODS_OF_A_WALL,
    METHOD("assume_utc", clock_assume_utc, NO_WORDS, "$self, /", "The same, as clocks in UTC show it."),
    METHOD("assume_offset", plain_assume_offset, METH_O, "$self, offset_seconds, /",
           "The same, as clocks at an offset show it."),
    METHOD("from_datetime", plain_from_datetime, OF_CLASS, "$type, at, /",
           "The wall clock of a datetime.datetime without an offset."),
    METHOD("_at_zone", plain_at_zone, METH_FASTCALL, "$self, zone, choice, /",
           "The date-time of a zone with this wall clock, by the number of a choice."),
    TO_DATETIME(plain_to_datetime, "without an offset"),
    REDUCE(PlainDateTime),
    REPLACE(wall_replaced, WALL_WORDS),
    {0}};

static PyMethodDef Date_methods[] = {
    METHOD("from_day_number", date_from_day_number, OF_CLASS, "$type, number, /",
           "The day that is 'number' days from 1970-01-01."),
    METHOD("day_number", date_number, NO_WORDS, "$self, /", "The days from 1970-01-01."),
    METHOD("weekday", date_weekday, NO_WORDS, "$self, /", "The day of the week, 0 for Monday."),
    METHOD("from_rfc3339", date_read, OF_CLASS, "$type, text, /", "The day of a text of RFC 3339, as 1985-04-12."),
    METHOD("to_iso_week_date", date_to_iso_week_date, NO_WORDS, "$self, /",
           "The ISO year, the ISO week and the day of the week, 0 for Monday."),
    REDUCE(Date),
    REPLACE(Date_replaced, DATE_WORDS),
    {0}};

static PyMethodDef UtcOffset_methods[] = {METHOD("whole_seconds", offset_whole_seconds, NO_WORDS, "$self, /",
                                                 "The seconds by which clocks are ahead of UTC."),
                                          REDUCE(UtcOffset),
                                          {0}};

static PyMethodDef Zone_methods[] = {
    METHOD("_of_bytes", zone_of_bytes, METH_FASTCALL | METH_CLASS, "$type, data, name, source, version, made_of, /",
           "The zone of the bytes of a file; or the status, the byte and the reason where they are none."),
    METHOD("_of_rule", zone_of_rule, OF_CLASS, "$type, text, /",
           "The zone of the text of a rule; or the status, the byte and the reason where it is none."),
    METHOD("_instants_of", zone_instants, METH_O, "$self, wall, /",
           "The date-times with a wall clock, and the second and the ends of a gap."),
    METHOD("offset_at", zone_offset_at, METH_O, "$self, at, /",
           "The offset of the zone at an instant: that after the last transition at or before it."),
    METHOD("abbreviation_at", zone_abbreviation_at, METH_O, "$self, at, /",
           "The abbreviation that the zone has at an instant, such as CEST."),
    METHOD("_type_at", zone_type_at, METH_O, "$self, at, /",
           "The offset at an instant, and whether it is daylight saving time."),
    METHOD("_next", zone_next, METH_O, "$self, at, /", "The numbers of the first transition after an instant."),
    METHOD("_previous", zone_previous, METH_O, "$self, at, /", "The numbers of the last transition before one."),
    {0}};

static PyMethodDef Time_methods[] = {REDUCE(Time), {0}};
static PyMethodDef Duration_methods[] = {CALLS_OF_Duration REDUCE(Duration), {0}};
static PyMemberDef UtcOffset_members[] = {{"_seconds", T_INT, offsetof(UtcOffsetObject, value), READONLY, NULL}, {0}};

/* The slots of each type: the words of its constructor, as Python reads them from the head of a
 * text of help. */
#define SLOTS(kind, words, hash)                                                                                       \
    {Py_tp_doc, #kind "(" words ")\n--\n\n"}, {Py_tp_new, kind##_new}, {Py_tp_dealloc, let_go},                        \
        {Py_tp_members, kind##_members}, {Py_tp_methods, kind##_methods}, {Py_tp_richcompare, kind##_compared}, {      \
        Py_tp_hash, hash                                                                                               \
    }
#define SUMS(kind)                                                                                                     \
    {Py_nb_add, kind##_add}, {                                                                                         \
        Py_nb_subtract, kind##_subtract                                                                                \
    }
#define WALL_CLOCK "year, month, day, hour=0, minute=0, second=0, nanosecond=0"

static PyType_Slot OffsetDateTime_slots[] = {SLOTS(OffsetDateTime, WALL_CLOCK ", offset_seconds=0", clock_hash),
                                             SUMS(OffsetDateTime),
                                             {Py_tp_str, OffsetDateTime_text},
                                             {0, NULL}};
static PyType_Slot UtcDateTime_slots[] = {
    SLOTS(UtcDateTime, WALL_CLOCK, clock_hash), SUMS(UtcDateTime), {Py_tp_str, UtcDateTime_text}, {0, NULL}};
static PyType_Slot PlainDateTime_slots[] = {
    SLOTS(PlainDateTime, WALL_CLOCK, clock_hash), SUMS(PlainDateTime), {Py_tp_str, PlainDateTime_text}, {0, NULL}};
static PyType_Slot Time_slots[] = {SLOTS(Time, "hour, minute=0, second=0, nanosecond=0", clock_hash),
                                   {Py_nb_subtract, Time_subtract},
                                   {Py_tp_str, Time_text},
                                   {0, NULL}};
static PyType_Slot Timestamp_slots[] = {SLOTS(Timestamp, "seconds, nanoseconds=0", Timestamp_hash),
                                        SUMS(Timestamp),
                                        {Py_tp_str, Timestamp_text},
                                        {0, NULL}};
static PyType_Slot Duration_slots[] = {SLOTS(Duration,
                                             "seconds=0, nanoseconds=0, *, weeks=0, days=0, hours=0, minutes=0, "
                                             "milliseconds=0, microseconds=0",
                                             Duration_hash),
                                       SUMS(Duration),
                                       {Py_nb_negative, Duration_negative},
                                       {Py_nb_absolute, Duration_absolute},
                                       {Py_nb_bool, Duration_is_some},
                                       {0, NULL}};
static PyType_Slot Date_slots[] = {SLOTS(Date, "year, month, day", Date_hash), SUMS(Date), {0, NULL}};
static PyType_Slot UtcOffset_slots[] = {
    SLOTS(UtcOffset, "whole_seconds", UtcOffset_hash), {Py_nb_index, UtcOffset_index}, {0, NULL}};

static PyType_Slot Zone_slots[] = {{Py_tp_doc, "Zone(name)\n--\n\n"}, {Py_tp_new, Zone_new},
                                   {Py_tp_dealloc, Zone_let_go},      {Py_tp_members, Zone_members},
                                   {Py_tp_methods, Zone_methods},     {0, NULL}};

#define SPEC(kind, object)                                                                                             \
    [kind_##kind] = {"muxandu." #kind, sizeof(object), 0, Py_TPFLAGS_DEFAULT | Py_TPFLAGS_BASETYPE, kind##_slots}

static PyType_Spec specs[KINDS] = {SPEC(OffsetDateTime, ClockObject),
                                   SPEC(UtcDateTime, ClockObject),
                                   SPEC(PlainDateTime, ClockObject),
                                   SPEC(Time, ClockObject),
                                   SPEC(Timestamp, TimestampObject),
                                   SPEC(Duration, DurationObject),
                                   SPEC(Date, DateObject),
                                   SPEC(UtcOffset, UtcOffsetObject),
                                   SPEC(Zone, ZoneObject)};

/* The module. */

/* Whether timedeltas have their parts where Timedelta has them, and that hash, by some whose
 * parts are known. -1 for an error. */
static int are_timedeltas_so(Module *module, int64_t size) {
    static const int known[][3] = {{0, 0, 0}, {-999999999, 1, 2}, {999999999, 86399, 999999}, {-1, 45296, 123456}};
    size_t place;
    int is_so = size >= (int64_t)(offsetof(Timedelta, microseconds) + sizeof(int));
    for (place = 0; is_so && place < sizeof known / sizeof *known; place++) {
        const int *parts = known[place];
        Timedelta *made = (Timedelta *)PyObject_CallFunction(module->timedelta, "iii", parts[0], parts[1], parts[2]);
        if (!made) return -1;
        is_so = made->days == parts[0] && made->seconds == parts[1] && made->microseconds == parts[2] &&
                PyObject_Hash((PyObject *)made) == hash_of_three(parts[0], parts[1], parts[2]);
        Py_DECREF(made);
    }
    return is_so;
}

/* Whether datetimes, with a zone and without, have their parts where Datetime has them. -1 for
 * an error. */
static int are_datetimes_so(Module *module, int64_t size) {
    static const unsigned char known[] = {9877 >> 8,    9877 & 255,        11,          29, 22, 57, 58,
                                          987654 >> 16, 987654 >> 8 & 255, 987654 & 255};
    int is_so = size >= (int64_t)sizeof(Datetime), has_zone;
    for (has_zone = 0; is_so && has_zone < 2; has_zone++) {
        PyObject *zone = has_zone ? module->utc : Py_None;
        Datetime *made =
            (Datetime *)PyObject_CallFunction(module->datetime, "iiiiiiiO", 9877, 11, 29, 22, 57, 58, 987654, zone);
        if (!made) return -1;
        is_so = !memcmp(made->parts, known, sizeof known) && made->has_zone == has_zone &&
                (!has_zone || made->zone == zone);
        Py_DECREF(made);
    }
    return is_so;
}

/* Whether timezones have their offset where Timezone has it. -1 for an error. */
static int are_timezones_so(Module *module, int64_t size) {
    PyObject *offset = PyObject_CallFunction(module->timedelta, "ii", -1, 12345);
    PyObject *made = offset ? PyObject_CallFunctionObjArgs(module->timezone, offset, NULL) : NULL;
    int is_so = made && size >= (int64_t)sizeof(Timezone) && ((Timezone *)made)->offset == offset;
    Py_XDECREF(offset);
    Py_XDECREF(made);
    return made ? is_so : -1;
}

/* The words that the module needs of Python's datetime. */
static int ask_datetime(Module *module) {
    PyObject *found = PyImport_ImportModule("datetime"), *size = PyUnicode_FromString("__basicsize__");
    int64_t of_timedelta = 0, of_datetime = 0, of_timezone = 0;
    int is_taken = found && size;
    if (is_taken) {
        module->timedelta = PyObject_GetAttrString(found, "timedelta");
        module->datetime = PyObject_GetAttrString(found, "datetime");
        module->timezone = PyObject_GetAttrString(found, "timezone");
        module->utc = module->timezone ? PyObject_GetAttrString(module->timezone, "utc") : NULL;
        is_taken = module->timedelta && module->datetime && module->utc &&
                   take_attribute(module, module->timedelta, size, &of_timedelta) &&
                   take_attribute(module, module->datetime, size, &of_datetime) &&
                   take_attribute(module, module->timezone, size, &of_timezone);
    }
    Py_XDECREF(size);
    Py_XDECREF(found);
    if (!is_taken) return 0;
    module->timedelta_is_so = are_timedeltas_so(module, of_timedelta);
    module->datetime_is_so = are_datetimes_so(module, of_datetime);
    module->timezone_is_so = are_timezones_so(module, of_timezone);
    return module->timedelta_is_so >= 0 && module->datetime_is_so >= 0 && module->timezone_is_so >= 0;
}

static int fill(PyObject *made) {
    Module *module = PyModule_GetState(made), **end = &modules;
    int kind, word;
    for (word = 0; word < ALL_WORDS; word++) {
        module->words[word] = PyUnicode_InternFromString(WORDS[word]);
        if (!module->words[word]) return -1;
    }
    module->second_nanoseconds = PyLong_FromLong(1000000000);
    module->half_of_whole = PyLong_FromLong(64);
    module->index_of_int = PyObject_GetAttrString((PyObject *)&PyLong_Type, "__index__");
    if (!module->second_nanoseconds || !module->half_of_whole || !module->index_of_int || !ask_datetime(module))
        return -1;
    for (kind = 0; kind < KINDS; kind++) {
        module->types[kind] = (PyTypeObject *)PyType_FromModuleAndSpec(made, &specs[kind], NULL);
        if (!module->types[kind] || PyModule_AddType(made, module->types[kind]) < 0) return -1;
    }
    while (*end) end = &(*end)->next;
    *end = module;
    return 0;
}

static int traverse(PyObject *self, visitproc visit, void *arg) {
    Module *module = PyModule_GetState(self);
    PyObject **held[] = HELD(module);
    size_t place;
    for (place = 0; place < sizeof held / sizeof *held; place++) Py_VISIT(*held[place]);
    for (place = 0; place < KINDS; place++) Py_VISIT(module->types[place]);
    for (place = 0; place < ALL_WORDS; place++) Py_VISIT(module->words[place]);
    for (place = 0; place < WEEKS; place++) Py_VISIT(module->weeks[place]);
    for (place = 0; place < ZONES; place++) Py_VISIT(module->zones[place]);
    return 0;
}

static int clear(PyObject *self) {
    Module *module = PyModule_GetState(self);
    PyObject **held[] = HELD(module);
    size_t place;
    for (place = 0; place < sizeof held / sizeof *held; place++) Py_CLEAR(*held[place]);
    for (place = 0; place < KINDS; place++) Py_CLEAR(module->types[place]);
    for (place = 0; place < ALL_WORDS; place++) Py_CLEAR(module->words[place]);
    for (place = 0; place < WEEKS; place++) Py_CLEAR(module->weeks[place]);
    for (place = 0; place < ZONES; place++) Py_CLEAR(module->zones[place]);
    return 0;
}

static void release(void *self) {
    Module *module = PyModule_GetState(self), **place;
    if (module) clear(self);
    for (place = &modules; *place; place = &(*place)->next) {
        if (*place == module) {
            *place = module->next;
            break;
        }
    }
}

static PyModuleDef_Slot module_slots[] = {{Py_mod_exec, (void *)fill}, {0, NULL}};

static struct PyModuleDef definition = {.m_base = PyModuleDef_HEAD_INIT,
                                        .m_name = "_extension",
                                        .m_doc = "The values of the package over the archive.",
                                        .m_size = sizeof(Module),
                                        .m_methods = functions,
                                        .m_slots = module_slots,
                                        .m_traverse = traverse,
                                        .m_clear = clear,
                                        .m_free = release};

PyMODINIT_FUNC PyInit__extension(void) {
    return PyModuleDef_Init(&definition);
}
