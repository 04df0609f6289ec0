/* Instants and clocks as objects: Timestamp, and the four types whose value is a date-time. */

/* Timestamps. */

static PyObject *Timestamp_new(PyTypeObject *type, PyObject *given, PyObject *named) {
    static const uint8_t places[] = {MUXANDU_REFUSED_TIMESTAMP, SECONDS, MUXANDU_REFUSED_NANOSECOND, NANOSECONDS, 0};
    Module *module = OWNER_OF_Timestamp(type);
    PyObject *words[ALL_WORDS];
    MuxanduTimestamp value = {0, 0};
    uint32_t status;
    if (PyTuple_Size(given) == 1 && PyUnicode_Check(PyTuple_GetItem(given, 0)))
        return lacks("Timestamp", WORDS[NANOSECONDS], given), NULL;
    if (!take_words(module, "Timestamp", given, named, SECONDS, 1, NANOSECONDS + 1, words) ||
        !TAKE_WORD(words, SECONDS, take_int64_t, &value.seconds) ||
        !TAKE_WORD(words, NANOSECONDS, take_uint32_t, &value.nanoseconds))
        return NULL;
    status = muxandu_timestamp_check(value);
    return status ? refuse_word(module, status, words, places) : make_Timestamp(module, type, value);
}

static PyObject *Timestamp_add(PyObject *first, PyObject *second) {
    Module *module = OWNER(Timestamp, first);
    if (module && is_length(module, second)) return timestamp_add(first, &second, 1);
    module = OWNER(Timestamp, second);
    if (module && is_length(module, first)) return timestamp_add(second, &first, 1);
    Py_RETURN_NOTIMPLEMENTED;
}

/* Whether it is a date-time at an offset or in UTC, which is of an instant. */
static inline int is_shown(Module *module, PyObject *word) {
    PyTypeObject *type = Py_TYPE(word), **types = module->types;
    return type == types[kind_OffsetDateTime] || type == types[kind_UtcDateTime] ||
           PyType_IsSubtype(type, types[kind_OffsetDateTime]) || PyType_IsSubtype(type, types[kind_UtcDateTime]);
}

/* The date-time of an instant or a date-time: what clocks in UTC show, of an instant. 0 where it
 * is neither, or refused. */
static int take_shown(Module *module, PyObject *word, MuxanduDateTime *out) {
    uint32_t status;
    if (is_shown(module, word)) {
        *out = VALUE(Clock, word);
        return 1;
    }
    if (!IS_A(module, Timestamp, word)) return 0;
    status = muxandu_date_time_from_timestamp(VALUE(Timestamp, word), 0, out);
    return status ? (refuse(module, status), 0) : 1;
}

/* Python asks both types: this one answers for an instant and a date-time, on either side. */
static PyObject *Timestamp_subtract(PyObject *first, PyObject *second) {
    Module *module = OWNER(Timestamp, first);
    MuxanduDateTime later, earlier;
    MuxanduDuration length;
    uint32_t status;
    if (module && IS_A(module, Timestamp, second)) return timestamp_difference(first, &second, 1);
    if (module && is_length(module, second)) return timestamp_subtract(first, &second, 1);
    if (!module) module = OWNER(Timestamp, second);
    if (!module || !take_shown(module, first, &later) || !take_shown(module, second, &earlier)) {
        if (PyErr_Occurred()) return NULL;
        Py_RETURN_NOTIMPLEMENTED;
    }
    status = muxandu_date_time_difference(later, earlier, &length);
    return status ? refuse(module, status) : make_Duration(module, module->types[kind_Duration], length);
}

static PyObject *Timestamp_compared(PyObject *first, PyObject *second, int how) {
    Module *module = OWNER(Timestamp, first);
    MuxanduDateTime shown;
    int32_t found;
    uint32_t status;
    if (IS_A(module, Timestamp, second)) {
        int order = muxandu_timestamp_compare(VALUE(Timestamp, first), VALUE(Timestamp, second));
        Py_RETURN_RICHCOMPARE(order, 0, how);
    }
    if (!is_shown(module, second)) Py_RETURN_NOTIMPLEMENTED;
    if (!take_shown(module, first, &shown)) return NULL;
    status = muxandu_date_time_compare(shown, VALUE(Clock, second), &found);
    if (status) return refuse(module, status);
    Py_RETURN_RICHCOMPARE(found, 0, how);
}

static Py_hash_t Timestamp_hash(PyObject *self) {
    return mix(VALUE(Timestamp, self).seconds, VALUE(Timestamp, self).nanoseconds);
}

static PyObject *Timestamp_text(PyObject *self) {
    return timestamp_text(self, NULL, 0);
}

/* Clocks. */

#define CLOCK_OWNER(object) OWNER_OF_OffsetDateTime(Py_TYPE(object))

static PyObject *clock_checked(Module *module, PyTypeObject *type, PyObject *const *words, MuxanduDateTime value) {
    static const uint8_t places[] = {MUXANDU_REFUSED_YEAR,
                                     YEAR,
                                     MUXANDU_REFUSED_MONTH,
                                     MONTH,
                                     MUXANDU_REFUSED_DAY,
                                     DAY,
                                     MUXANDU_REFUSED_DAY_OF_MONTH,
                                     DAY,
                                     MUXANDU_REFUSED_HOUR,
                                     HOUR,
                                     MUXANDU_REFUSED_MINUTE,
                                     MINUTE,
                                     MUXANDU_REFUSED_SECOND,
                                     SECOND,
                                     MUXANDU_REFUSED_NANOSECOND,
                                     NANOSECOND,
                                     MUXANDU_REFUSED_OFFSET_SECONDS,
                                     OFFSET_SECONDS,
                                     0};
    uint32_t status = muxandu_date_time_check(value);
    return status ? refuse_word(module, status, words, places) : make_clock(module, type, value, NOT_ASKED);
}

static int take_date(PyObject *const *words, int32_t *year, uint8_t *month, uint8_t *day) {
    return TAKE_WORD(words, YEAR, take_int32_t, year) && TAKE_WORD(words, MONTH, take_uint8_t, month) &&
           TAKE_WORD(words, DAY, take_uint8_t, day);
}

/* The parts of these words, and the others as they are. */
static int take_parts(Module *module, PyObject *const *words, MuxanduDateTime *value) {
    return take_date(words, &value->year, &value->month, &value->day) &&
           TAKE_WORD(words, HOUR, take_uint8_t, &value->hour) &&
           TAKE_WORD(words, MINUTE, take_uint8_t, &value->minute) &&
           TAKE_WORD(words, SECOND, take_uint8_t, &value->second) &&
           TAKE_WORD(words, NANOSECOND, take_uint32_t, &value->nanosecond) &&
           (!words[OFFSET_SECONDS] || take_offset(module, words[OFFSET_SECONDS], &value->offset_seconds));
}

/* The constructor of a clock with these parts, of which the first are needed. */
#define CLOCK_NEW(kind, first, least, end)                                                                             \
    static PyObject *kind##_new(PyTypeObject *type, PyObject *given, PyObject *named) {                                \
        Module *module = owner(type, kind_##kind, kind_##kind);                                                        \
        PyObject *words[PARTS] = {NULL};                                                                               \
        MuxanduDateTime value = {1970, 1, 1, 0, 0, 0, 0, 0};                                                           \
        if (!take_words(module, #kind, given, named, first, least, end, words) || !take_parts(module, words, &value))  \
            return NULL;                                                                                               \
        return clock_checked(module, type, words, value);                                                              \
    }

CLOCK_NEW(OffsetDateTime, YEAR, 3, PARTS)
CLOCK_NEW(UtcDateTime, YEAR, 3, OFFSET_SECONDS)
CLOCK_NEW(PlainDateTime, YEAR, 3, OFFSET_SECONDS)
CLOCK_NEW(Time, HOUR, 1, OFFSET_SECONDS)

/* The clock with other parts, of those before an end. */
static PyObject *clock_replaced(PyObject *self, PyObject *const *given, Py_ssize_t count, PyObject *names, int end) {
    Module *module = CLOCK_OWNER(self);
    PyObject *words[PARTS] = {NULL};
    MuxanduDateTime value = VALUE(Clock, self);
    if (!take_replaced(module, given, count, names, YEAR, end, words) || !take_parts(module, words, &value))
        return NULL;
    return clock_checked(module, Py_TYPE(self), words, value);
}

static PyObject *shown_replaced(PyObject *self, PyObject *const *given, Py_ssize_t count, PyObject *names) {
    return clock_replaced(self, given, count, names, PARTS);
}
static PyObject *wall_replaced(PyObject *self, PyObject *const *given, Py_ssize_t count, PyObject *names) {
    return clock_replaced(self, given, count, names, OFFSET_SECONDS);
}

/* The instant of a clock, and whether it is one of the range: clocks at an end of it may show
 * one that is not. */
static inline int has_instant(PyObject *self, MuxanduTimestamp *out) {
    ClockObject *at = (ClockObject *)self;
    if (at->second == NOT_ASKED) at->second = muxandu_timestamp_from_date_time(at->value, out) ? BEYOND : out->seconds;
    out->seconds = at->second;
    out->nanoseconds = at->value.nanosecond;
    return at->second != BEYOND;
}

/* The clock later or earlier by a duration: by the instants, which takes less, as long as they
 * are in the range. */
static PyObject *shift(Module *module, PyObject *self, PyObject *length, int is_later) {
    MuxanduDuration duration;
    MuxanduTimestamp at, then;
    MuxanduDateTime shown;
    if (!take_MuxanduDuration(module, length, &duration)) return NULL;
    if (has_instant(self, &at) &&
        !(is_later ? muxandu_timestamp_add : muxandu_timestamp_subtract)(at, duration, &then) &&
        !muxandu_date_time_from_timestamp(then, VALUE(Clock, self).offset_seconds, &shown)) {
        return make_clock(module, Py_TYPE(self), shown, then.seconds);
    }
    return (is_later ? date_time_add : date_time_subtract)(self, &length, 1);
}

static PyObject *clocks_apart(Module *module, PyObject *first, PyObject *second) {
    MuxanduTimestamp later, earlier;
    MuxanduDuration length;
    uint32_t status = 0;
    if (!has_instant(first, &later) || !has_instant(second, &earlier) ||
        muxandu_timestamp_difference(later, earlier, &length))
        status = muxandu_date_time_difference(VALUE(Clock, first), VALUE(Clock, second), &length);
    return status ? refuse(module, status) : make_Duration(module, module->types[kind_Duration], length);
}

/* The parts to the minute in one number, in their order, and the rest in another. */
static inline int64_t to_the_minute(const MuxanduDateTime *at) {
    uint32_t rest = (uint32_t)at->month << 24 | (uint32_t)at->day << 16 | (uint32_t)at->hour << 8 | at->minute;
    return (int64_t)at->year * ((int64_t)1 << 32) + rest;
}

static inline int64_t in_the_minute(const MuxanduDateTime *at) {
    return (int64_t)at->second << 32 | at->nanosecond;
}

/* Clocks at one offset show parts in the order of the instants, so that only clocks at two need
 * the library. */
static PyObject *clocks_compared(Module *module, PyObject *first, PyObject *second, int how) {
    const MuxanduDateTime *left = &VALUE(Clock, first), *right = &VALUE(Clock, second);
    MuxanduTimestamp at, then;
    int64_t one, other = 0;
    if (left->offset_seconds == right->offset_seconds) {
        one = to_the_minute(left), other = to_the_minute(right);
        if (one == other) one = in_the_minute(left), other = in_the_minute(right);
    } else if (has_instant(first, &at) && has_instant(second, &then)) {
        one = muxandu_timestamp_compare(at, then);
    } else {
        int32_t order;
        uint32_t status = muxandu_date_time_compare(*left, *right, &order);
        if (status) return refuse(module, status);
        one = order;
    }
    Py_RETURN_RICHCOMPARE(one, other, how);
}

/* By the instant, as comparisons go. */
static Py_hash_t clock_hash(PyObject *self) {
    static const MuxanduDateTime epoch = {1970, 1, 1, 0, 0, 0, 0, 0};
    MuxanduTimestamp at;
    MuxanduDuration since;
    uint32_t status;
    if (has_instant(self, &at)) return mix(at.seconds, at.nanoseconds);
    status = muxandu_date_time_difference(VALUE(Clock, self), epoch, &since);
    return status ? (refuse(CLOCK_OWNER(self), status), -1) : mix(since.seconds, since.nanoseconds);
}

/* The operators of a clock over those of its like: date-times at an offset and in UTC are alike,
 * by their instants. */
#define CLOCK_OPERATORS(kind, is_like)                                                                                 \
    static PyObject *kind##_subtract(PyObject *first, PyObject *second) {                                              \
        Module *module = OWNER(kind, first);                                                                           \
        if (module && is_like(module, second)) return clocks_apart(module, first, second);                             \
        if (module && kind_##kind != kind_Time && is_length(module, second)) return shift(module, first, second, 0);   \
        Py_RETURN_NOTIMPLEMENTED;                                                                                      \
    }                                                                                                                  \
    static PyObject *kind##_compared(PyObject *first, PyObject *second, int how) {                                     \
        Module *module = OWNER(kind, first);                                                                           \
        if (module && is_like(module, second)) return clocks_compared(module, first, second, how);                     \
        Py_RETURN_NOTIMPLEMENTED;                                                                                      \
    }

#define CLOCK_ADD(kind)                                                                                                \
    static PyObject *kind##_add(PyObject *first, PyObject *second) {                                                   \
        Module *module = OWNER(kind, first);                                                                           \
        if (module && is_length(module, second)) return shift(module, first, second, 1);                               \
        module = OWNER(kind, second);                                                                                  \
        if (module && is_length(module, first)) return shift(module, second, first, 1);                                \
        Py_RETURN_NOTIMPLEMENTED;                                                                                      \
    }

#define IS_PLAIN(module, word) IS_A(module, PlainDateTime, word)
#define IS_TIME(module, word) IS_A(module, Time, word)

CLOCK_OPERATORS(OffsetDateTime, is_shown)
CLOCK_OPERATORS(UtcDateTime, is_shown)
CLOCK_OPERATORS(PlainDateTime, IS_PLAIN)
CLOCK_OPERATORS(Time, IS_TIME)
CLOCK_ADD(OffsetDateTime)
CLOCK_ADD(UtcDateTime)
CLOCK_ADD(PlainDateTime)

/* The text of a clock: that of a date-time without what the clock does not have. */
static PyObject *clock_text(PyObject *self, int has_date, const char *end) {
    char text[MUXANDU_TEXT_ROOM];
    size_t size, first = 0;
    uint32_t status = muxandu_date_time_text(VALUE(Clock, self), text, sizeof text, &size);
    if (status) return refuse(CLOCK_OWNER(self), status);
    while (text[size - 1] != ' ') size--;
    while (!has_date && text[first++] != ' ') {}
    text[size - 1] = 0;
    return PyUnicode_FromFormat("%s%s", text + first, end);
}

static PyObject *OffsetDateTime_text(PyObject *self) {
    return date_time_text(self, NULL, 0);
}
static PyObject *UtcDateTime_text(PyObject *self) {
    return clock_text(self, 1, " +00");
}
static PyObject *PlainDateTime_text(PyObject *self) {
    return clock_text(self, 1, "");
}
static PyObject *Time_text(PyObject *self) {
    return clock_text(self, 0, "");
}

/* A clock of a type that shows the same, as far as it has the parts. */
static PyObject *clock_like(Module *module, PyTypeObject *type, int kind, MuxanduDateTime value) {
    if (kind != kind_OffsetDateTime) value.offset_seconds = 0;
    if (kind == kind_Time) value.year = 1970, value.month = value.day = 1;
    return make_clock(module, type, value, NOT_ASKED);
}

#define CLOCK_LIKE(name, kind)                                                                                         \
    static PyObject *name(PyObject *self, PyObject *unused) {                                                          \
        Module *module = CLOCK_OWNER(self);                                                                            \
        (void)unused;                                                                                                  \
        return clock_like(module, module->types[kind], kind, VALUE(Clock, self));                                      \
    }

CLOCK_LIKE(clock_time, kind_Time)
CLOCK_LIKE(clock_date_time, kind_PlainDateTime)
CLOCK_LIKE(clock_assume_utc, kind_UtcDateTime)

static PyObject *clock_date(PyObject *self, PyObject *unused) {
    Module *module = CLOCK_OWNER(self);
    const MuxanduDateTime *at = &VALUE(Clock, self);
    MuxanduDate date = {at->year, at->month, at->day};
    int32_t number;
    uint32_t status = muxandu_day_from_date(date, &number);
    (void)unused;
    return status ? refuse(module, status) : make_Date(module, module->types[kind_Date], date, number);
}

static PyObject *clock_offset(PyObject *self, PyObject *unused) {
    Module *module = CLOCK_OWNER(self);
    (void)unused;
    return make_UtcOffset(module, module->types[kind_UtcOffset], VALUE(Clock, self).offset_seconds);
}

/* The date-time of a type of the same instant at an offset. */
static PyObject *at_offset(Module *module, PyTypeObject *type, MuxanduDateTime value, int32_t offset, PyObject *word) {
    MuxanduDateTime shown = value;
    uint32_t status = offset == value.offset_seconds ? 0 : muxandu_date_time_to_offset(value, offset, &shown);
    if (status == MUXANDU_REFUSED_OFFSET_SECONDS && word) return refuse_value(module, status, word, -1);
    return status ? refuse(module, status) : make_clock(module, type, shown, NOT_ASKED);
}

static PyObject *shown_to_utc(PyObject *self, PyObject *unused) {
    Module *module = CLOCK_OWNER(self);
    (void)unused;
    return at_offset(module, module->types[kind_UtcDateTime], VALUE(Clock, self), 0, NULL);
}

static PyObject *utc_to_offset(PyObject *self, PyObject *word) {
    Module *module = CLOCK_OWNER(self);
    int32_t offset;
    if (!take_offset(module, word, &offset)) return NULL;
    return at_offset(module, module->types[kind_OffsetDateTime], VALUE(Clock, self), offset, word);
}

static PyObject *plain_assume_offset(PyObject *self, PyObject *word) {
    Module *module = CLOCK_OWNER(self);
    PyObject *words[PARTS] = {NULL};
    MuxanduDateTime value = VALUE(Clock, self);
    words[OFFSET_SECONDS] = word;
    if (!take_parts(module, words, &value)) return NULL;
    return clock_checked(module, module->types[kind_OffsetDateTime], words, value);
}

static PyObject *timestamp_to_utc(PyObject *self, PyObject *unused) {
    Module *module = OWNER(Timestamp, self);
    MuxanduDateTime shown;
    uint32_t status = muxandu_date_time_from_timestamp(VALUE(Timestamp, self), 0, &shown);
    (void)unused;
    return status ? refuse(module, status)
                  : make_clock(module, module->types[kind_UtcDateTime], shown, VALUE(Timestamp, self).seconds);
}

static PyObject *utc_from_rfc3339(PyObject *class, PyObject *word) {
    Module *module = OWNER_OF_OffsetDateTime((PyTypeObject *)class);
    Text text;
    MuxanduDateTime value;
    uint32_t status;
    PyObject *made;
    if (!take_text(module, word, &text)) return NULL;
    status = muxandu_date_time_from_rfc3339(text.bytes, (size_t)text.size, &value);
    made = status ? refuse_text(module, status, &text, word, SIZE_MAX)
                  : at_offset(module, (PyTypeObject *)class, value, 0, NULL);
    drop_text(&text);
    return made;
}

/* Clocks of a datetime.datetime. */

/* The seconds of the offset of a datetime, of a zone that is known or NULL, and whether it has
 * one. -1 for an error. */
static int take_datetime_offset(Module *module, PyObject *at, PyObject *zone, int32_t *offset) {
    MuxanduDuration length;
    int is_taken;
    PyObject *found;
    if (zone && (PyObject *)Py_TYPE(zone) == module->timezone && module->timezone_is_so) {
        found = ((Timezone *)zone)->offset;
        Py_INCREF(found);
    } else {
        found = PyObject_CallMethodObjArgs(at, module->words[UTCOFFSET], NULL);
    }
    if (!found) return -1;
    if (found == Py_None) {
        Py_DECREF(found);
        return 0;
    }
    is_taken = take_MuxanduDuration(module, found, &length);
    Py_DECREF(found);
    if (!is_taken) return -1;
    if (length.nanoseconds) {
        PyErr_SetString(PyExc_ValueError, "the datetime must have an offset of whole seconds");
        return -1;
    }
    *offset = length.seconds < INT32_MIN || length.seconds > INT32_MAX ? INT32_MAX : (int32_t)length.seconds;
    return 1;
}

/* The parts of a datetime of another class, by its attributes: one of pandas has nanoseconds. */
static int take_datetime_attributes(Module *module, PyObject *at, MuxanduDateTime *value) {
    PyObject *words[PARTS] = {NULL};
    int64_t microsecond, nanosecond;
    int place, is_taken = 1;
    for (place = YEAR; is_taken && place < NANOSECOND; place++) {
        words[place] = PyObject_GetAttr(at, module->words[place]);
        is_taken = words[place] != NULL;
    }
    is_taken = is_taken && take_parts(module, words, value) &&
               take_attribute(module, at, module->words[MICROSECOND], &microsecond) &&
               take_attribute_or_0(module, at, module->words[NANOSECOND], &nanosecond);
    for (place = YEAR; place < NANOSECOND; place++) Py_XDECREF(words[place]);
    if (is_taken && (microsecond < 0 || microsecond > 999999 || nanosecond < 0 || nanosecond > 999)) {
        refuse(module, MUXANDU_REFUSED_NANOSECOND);
        is_taken = 0;
    }
    if (is_taken) value->nanosecond = (uint32_t)(microsecond * 1000 + nanosecond);
    return is_taken;
}

/* Says of an object without the attributes of a datetime that it is none. */
static void is_no_datetime(Module *module, PyObject *at) {
    PyTypeObject *type = Py_TYPE(at);
    if (PyType_IsSubtype(type, (PyTypeObject *)module->datetime) || !PyErr_ExceptionMatches(PyExc_AttributeError))
        return;
    PyErr_Format(PyExc_TypeError, "the argument must be a datetime.datetime, not %R", type);
}

/* The parts of a datetime, and whether it has an offset. -1 for an error. */
static int take_datetime(Module *module, PyObject *at, MuxanduDateTime *value) {
    const Datetime *found = (const Datetime *)at;
    const unsigned char *parts = found->parts;
    value->offset_seconds = 0;
    if ((PyObject *)Py_TYPE(at) != module->datetime || !module->datetime_is_so) {
        int has_offset = take_datetime_offset(module, at, NULL, &value->offset_seconds);
        if (has_offset >= 0 && take_datetime_attributes(module, at, value)) return has_offset;
        is_no_datetime(module, at);
        return -1;
    }
    value->year = parts[0] << 8 | parts[1];
    value->month = parts[2], value->day = parts[3];
    value->hour = parts[4], value->minute = parts[5], value->second = parts[6];
    value->nanosecond = (uint32_t)(parts[7] << 16 | parts[8] << 8 | parts[9]) * 1000;
    if (!found->has_zone) return 0;
    return found->zone == module->utc ? 1 : take_datetime_offset(module, at, found->zone, &value->offset_seconds);
}

/* The parts of a datetime with an offset. */
static int take_aware(Module *module, PyObject *at, MuxanduDateTime *value) {
    int has_offset = take_datetime(module, at, value);
    if (!has_offset)
        PyErr_SetString(PyExc_ValueError,
                        "the datetime has no offset: give it a tzinfo, or use PlainDateTime.from_datetime");
    return has_offset > 0;
}

static PyObject *shown_from_datetime(PyObject *class, PyObject *at) {
    static PyObject *const words[PARTS];
    Module *module = OWNER_OF_OffsetDateTime((PyTypeObject *)class);
    MuxanduDateTime value;
    return take_aware(module, at, &value) ? clock_checked(module, (PyTypeObject *)class, words, value) : NULL;
}

static PyObject *utc_from_datetime(PyObject *class, PyObject *at) {
    static PyObject *const words[PARTS];
    Module *module = OWNER_OF_OffsetDateTime((PyTypeObject *)class);
    MuxanduDateTime value;
    if (!take_aware(module, at, &value)) return NULL;
    return value.offset_seconds ? at_offset(module, (PyTypeObject *)class, value, 0, NULL)
                                : clock_checked(module, (PyTypeObject *)class, words, value);
}

static PyObject *plain_from_datetime(PyObject *class, PyObject *at) {
    static PyObject *const words[PARTS];
    Module *module = OWNER_OF_OffsetDateTime((PyTypeObject *)class);
    MuxanduDateTime value;
    int has_offset = take_datetime(module, at, &value);
    if (has_offset > 0) {
        PyErr_SetString(PyExc_ValueError, "the datetime must have no offset: use OffsetDateTime.from_datetime");
    }
    return has_offset ? NULL : clock_checked(module, (PyTypeObject *)class, words, value);
}

static PyObject *timestamp_from_datetime(PyObject *class, PyObject *at) {
    Module *module = OWNER_OF_Timestamp((PyTypeObject *)class);
    MuxanduDateTime value;
    MuxanduTimestamp instant;
    uint32_t status;
    if (!take_aware(module, at, &value)) return NULL;
    status = muxandu_timestamp_from_date_time(value, &instant);
    return status ? refuse(module, status) : make_Timestamp(module, (PyTypeObject *)class, instant);
}

#define PART(name, type)                                                                                               \
    { #name, type, offsetof(ClockObject, value) + offsetof(MuxanduDateTime, name), READONLY, NULL }
#define PARTS_OF_TIME                                                                                                  \
    PART(hour, T_UBYTE), PART(minute, T_UBYTE), PART(second, T_UBYTE), PART(nanosecond, T_UINT), {                     \
        0                                                                                                              \
    }

static PyMemberDef Time_members[] = {PARTS_OF_TIME};
static PyMemberDef UtcDateTime_members[] = {PART(year, T_INT), PART(month, T_UBYTE), PART(day, T_UBYTE), PARTS_OF_TIME};
#define PlainDateTime_members UtcDateTime_members
