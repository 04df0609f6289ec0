/* Values as Python has its own: a clock now, the parts for a pickle, datetimes, and ISO weeks. */

/* Pickles. */

/* The class of a value, with the numbers that its constructor takes. */
static PyObject *reduce_value(PyObject *self, const int64_t *numbers, Py_ssize_t count) {
    Py_ssize_t place;
    PyObject *parts = PyTuple_New(count), *made;
    for (place = 0; parts && place < count; place++) {
        PyObject *number = PyLong_FromLongLong(numbers[place]);
        if (!number || PyTuple_SetItem(parts, place, number) < 0) Py_CLEAR(parts);
    }
    made = parts ? PyTuple_Pack(2, (PyObject *)Py_TYPE(self), parts) : NULL;
    Py_XDECREF(parts);
    return made;
}

#define REDUCED(kind, ...)                                                                                             \
    static PyObject *kind##_reduce(PyObject *self, PyObject *unused) {                                                 \
        const int64_t numbers[] = {__VA_ARGS__};                                                                       \
        (void)unused;                                                                                                  \
        return reduce_value(self, numbers, sizeof numbers / sizeof *numbers);                                          \
    }
#define OF_CLOCK(part) VALUE(Clock, self).part
#define OF_DAY OF_CLOCK(year), OF_CLOCK(month), OF_CLOCK(day)
#define OF_TIME OF_CLOCK(hour), OF_CLOCK(minute), OF_CLOCK(second), OF_CLOCK(nanosecond)

REDUCED(OffsetDateTime, OF_DAY, OF_TIME, OF_CLOCK(offset_seconds))
REDUCED(UtcDateTime, OF_DAY, OF_TIME)
#define PlainDateTime_reduce UtcDateTime_reduce
REDUCED(Time, OF_TIME)
REDUCED(Timestamp, VALUE(Timestamp, self).seconds, VALUE(Timestamp, self).nanoseconds)
REDUCED(Duration, VALUE(Duration, self).seconds, VALUE(Duration, self).nanoseconds)
REDUCED(Date, VALUE(Date, self).year, VALUE(Date, self).month, VALUE(Date, self).day)
REDUCED(UtcOffset, VALUE(UtcOffset, self))

/* The clock now. */

/* The date-time of a class of a count of nanoseconds from 1970 on, at an offset. */
static PyObject *clock_of_nanoseconds(PyObject *class, PyObject *const *words, Py_ssize_t count) {
    Module *module = OWNER_OF_OffsetDateTime((PyTypeObject *)class);
    int64_t nanoseconds;
    int32_t offset;
    MuxanduTimestamp at;
    MuxanduDateTime shown;
    uint32_t status;
    if (!are("_of_nanoseconds", count, 2) || !take_int64_t(words[0], &nanoseconds) ||
        !take_offset(module, words[1], &offset))
        return NULL;
    at = muxandu_timestamp_from_nanoseconds(nanoseconds);
    status = muxandu_date_time_from_timestamp(at, offset, &shown);
    if (status == MUXANDU_REFUSED_OFFSET_SECONDS) return refuse_value(module, status, words[1], -1);
    return status ? refuse(module, status) : make_clock(module, (PyTypeObject *)class, shown, at.seconds);
}

/* Datetimes. */

/* The datetime.timezone of an offset. The last one at each place is kept. */
static PyObject *timezone_of(Module *module, int32_t offset) {
    uint32_t place = (uint32_t)(offset / 60) % ZONES;
    PyObject *length, *made = offset ? module->zones[place] : module->utc;
    if (!offset || (made && module->offsets_of_zones[place] == offset)) {
        Py_INCREF(made);
        return made;
    }
    length = PyObject_CallFunction(module->timedelta, "ii", 0, (int)offset);
    made = length ? PyObject_CallFunctionObjArgs(module->timezone, length, NULL) : NULL;
    Py_XDECREF(length);
    if (made) {
        PyObject *last = module->zones[place];
        Py_INCREF(made);
        module->zones[place] = made, module->offsets_of_zones[place] = offset;
        Py_XDECREF(last);
    }
    return made;
}

/* The datetime.datetime that shows the same, to the microsecond, in a zone: of the bytes that a
 * pickle of it has, where this Python has them so, which takes less than numbers do. */
static PyObject *datetime_of(Module *module, const MuxanduDateTime *at, PyObject *zone) {
    const unsigned microsecond = at->nanosecond / 1000;
    if (!zone) return NULL;
    if (module->datetime_is_so && at->year > 0 && at->year < 10000) {
        const unsigned char bytes[] = {(unsigned char)(at->year >> 8),
                                       (unsigned char)at->year,
                                       at->month,
                                       at->day,
                                       at->hour,
                                       at->minute,
                                       at->second,
                                       (unsigned char)(microsecond >> 16),
                                       (unsigned char)(microsecond >> 8),
                                       (unsigned char)microsecond};
        PyObject *parts = PyBytes_FromStringAndSize((const char *)bytes, sizeof bytes);
        PyObject *words = !parts ? NULL : zone == Py_None ? PyTuple_Pack(1, parts) : PyTuple_Pack(2, parts, zone);
        PyObject *made = words ? PyObject_CallObject(module->datetime, words) : NULL;
        Py_XDECREF(words);
        Py_XDECREF(parts);
        return made;
    }
    return PyObject_CallFunction(module->datetime, "iiiiiiiO", (int)at->year, at->month, at->day, at->hour, at->minute,
                                 at->second, (int)microsecond, zone);
}

static PyObject *clock_to_datetime(PyObject *self, PyObject *unused) {
    Module *module = CLOCK_OWNER(self);
    const MuxanduDateTime *at = &VALUE(Clock, self);
    /* This call keeps it: another thread may ask for the zone of another offset meanwhile. */
    PyObject *zone = timezone_of(module, at->offset_seconds), *made = datetime_of(module, at, zone);
    (void)unused;
    Py_XDECREF(zone);
    return made;
}

static PyObject *plain_to_datetime(PyObject *self, PyObject *unused) {
    (void)unused;
    return datetime_of(CLOCK_OWNER(self), &VALUE(Clock, self), Py_None);
}

/* The datetime.datetime of an instant in UTC. */
static PyObject *timestamp_to_utc_datetime(PyObject *self, PyObject *unused) {
    Module *module = OWNER(Timestamp, self);
    MuxanduDateTime shown;
    uint32_t status = muxandu_date_time_from_timestamp(VALUE(Timestamp, self), 0, &shown);
    (void)unused;
    return status ? refuse(module, status) : datetime_of(module, &shown, module->utc);
}

/* Weeks. */

/* The ISO week of a day. */
static PyObject *make_week(Module *module, int32_t day) {
    MuxanduWeekDate found;
    uint32_t status = muxandu_week_date_from_day(day, &found);
    const long numbers[] = {found.year, found.week, found.weekday};
    PyObject *made = status ? refuse(module, status) : PyType_GenericAlloc((PyTypeObject *)module->week_date, 3);
    Py_ssize_t place;
    for (place = 0; made && place < 3; place++) {
        PyObject *number = PyLong_FromLong(numbers[place]);
        if (!number || PyTuple_SetItem(made, place, number) < 0) Py_CLEAR(made);
    }
    return made;
}

/* A week is kept for the next date of its day, as the lines of a log have them. */
static PyObject *date_to_iso_week_date(PyObject *self, PyObject *unused) {
    Module *module = OWNER(Date, self);
    int32_t day = ((DateObject *)self)->number;
    uint32_t place = (uint32_t)day % WEEKS;
    PyObject *made = module->weeks[place], *before = made;
    (void)unused;
    if (!made || module->days_of_weeks[place] != day) {
        made = make_week(module, day);
        if (!made) return NULL;
        module->weeks[place] = made;
        module->days_of_weeks[place] = day;
        Py_XDECREF(before);
    }
    Py_INCREF(made);
    return made;
}
