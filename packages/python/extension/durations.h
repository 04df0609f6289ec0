/* Durations, days and offsets as objects. */

/* The nanoseconds of the units that a constructor takes by name. */
static const struct {
    const char *name;
    int64_t nanoseconds;
} UNITS[] = {{"weeks", 604800000000000}, {"days", 86400000000000},  {"hours", 3600000000000},
             {"minutes", 60000000000},   {"milliseconds", 1000000}, {"microseconds", 1000}};

/* Takes the units out of the words of a constructor, and adds up their nanoseconds. */
static int take_units(Module *module, PyObject *named, __int128 *whole) {
    size_t place;
    for (place = 0; place < sizeof UNITS / sizeof *UNITS; place++) {
        PyObject *word = PyDict_GetItemString(named, UNITS[place].name);
        int64_t number;
        int beyond;
        if (!word) continue;
        if (!PyIndex_Check(word)) {
            PyErr_Format(PyExc_TypeError, "the argument '%s' must be an integer, not %R", UNITS[place].name,
                         Py_TYPE(word));
            return 0;
        }
        number = PyLong_AsLongLongAndOverflow(word, &beyond);
        if (number == -1 && !beyond && PyErr_Occurred()) return 0;
        if (beyond) {
            refuse(module, MUXANDU_REFUSED_DURATION);
            return 0;
        }
        *whole += (__int128)number * UNITS[place].nanoseconds;
        if (PyDict_DelItemString(named, UNITS[place].name) < 0) return 0;
    }
    return 1;
}

static PyObject *Duration_of_whole(Module *module, PyTypeObject *type, __int128 whole) {
    MuxanduDuration value;
    return put_nanoseconds(module, whole, &value) ? make_Duration(module, type, value) : NULL;
}

static PyObject *Duration_of_numbers(PyTypeObject *type, PyObject *given, PyObject *named);

/* The duration of seconds and nanoseconds, and of other units by name. */
static PyObject *Duration_new(PyTypeObject *type, PyObject *given, PyObject *named) {
    Module *module = owner(type, kind_Duration, kind_Duration);
    PyObject *left = named && PyDict_Size(named) ? PyDict_Copy(named) : NULL, *made = NULL;
    __int128 whole = 0;
    if (!left) return PyErr_Occurred() ? NULL : Duration_of_numbers(type, given, NULL);
    if (take_units(module, left, &whole)) made = Duration_of_numbers(type, given, left);
    Py_DECREF(left);
    if (made && whole) {
        MuxanduDuration first = VALUE(Duration, made);
        Py_DECREF(made);
        made = Duration_of_whole(module, type, nanoseconds_of(first) + whole);
    }
    return made;
}

static PyObject *Duration_of_numbers(PyTypeObject *type, PyObject *given, PyObject *named) {
    Module *module = owner(type, kind_Duration, kind_Duration);
    PyObject *words[ALL_WORDS], *zero = NULL, *made = NULL;
    MuxanduDuration value = {0, 0};
    int place;
    if (!take_words(module, "Duration", given, named, SECONDS, 0, NANOSECONDS + 1, words)) return NULL;
    for (place = SECONDS; place <= NANOSECONDS; place++) {
        if (words[place] && !PyIndex_Check(words[place])) return is_no_number(place, words[place]), NULL;
    }
    if (!words[SECONDS] && words[NANOSECONDS]) words[SECONDS] = zero = PyLong_FromLong(0);
    if (!words[SECONDS] || take_both(module, words[SECONDS], words[NANOSECONDS], &value)) {
        made = make_Duration(module, type, value);
    }
    Py_XDECREF(zero);
    return made;
}

/* Two durations together, or one less another, where 64 bits hold the seconds on the way: it
 * takes less than wholes do. */
static int add_short(MuxanduDuration left, MuxanduDuration right, int sign, MuxanduDuration *out) {
    const int32_t most = 1000000000;
    int64_t parts = (int64_t)left.nanoseconds + sign * (int64_t)right.nanoseconds, seconds;
    if (sign > 0 ? __builtin_add_overflow(left.seconds, right.seconds, &seconds)
                 : __builtin_sub_overflow(left.seconds, right.seconds, &seconds))
        return 0;
    if (__builtin_add_overflow(seconds, parts / most, &seconds)) return 0;
    parts %= most;
    if (seconds > 0 && parts < 0) seconds--, parts += most;
    if (seconds < 0 && parts > 0) seconds++, parts -= most;
    out->seconds = seconds;
    out->nanoseconds = (int32_t)parts;
    return 1;
}

static PyObject *Duration_sum(PyObject *first, PyObject *second, int sign) {
    Module *module = OWNER(Duration, first);
    PyObject *like = module ? first : second;
    MuxanduDuration left, right;
    if (!module) module = OWNER(Duration, second);
    if (!module || !is_length(module, first) || !is_length(module, second)) Py_RETURN_NOTIMPLEMENTED;
    if (!take_MuxanduDuration(module, first, &left) || !take_MuxanduDuration(module, second, &right)) return NULL;
    if (add_short(left, right, sign, &left)) return make_Duration(module, Py_TYPE(like), left);
    return Duration_of_whole(module, Py_TYPE(like), nanoseconds_of(left) + sign * nanoseconds_of(right));
}

static PyObject *Duration_add(PyObject *first, PyObject *second) {
    return Duration_sum(first, second, 1);
}
static PyObject *Duration_subtract(PyObject *first, PyObject *second) {
    return Duration_sum(first, second, -1);
}
static PyObject *Duration_negative(PyObject *self) {
    return Duration_of_whole(OWNER(Duration, self), Py_TYPE(self), -nanoseconds_of(VALUE(Duration, self)));
}

static PyObject *Duration_absolute(PyObject *self) {
    __int128 whole = nanoseconds_of(VALUE(Duration, self));
    return Duration_of_whole(OWNER(Duration, self), Py_TYPE(self), whole < 0 ? -whole : whole);
}

static int Duration_is_some(PyObject *self) {
    return VALUE(Duration, self).seconds || VALUE(Duration, self).nanoseconds;
}

static PyObject *Duration_compared(PyObject *first, PyObject *second, int how) {
    Module *module = OWNER(Duration, first);
    MuxanduDuration other;
    __int128 left, right;
    if (Py_TYPE(second) == module->types[kind_Duration]) {
        /* The parts of each have one sign, so that they are in order as their wholes are. */
        MuxanduDuration mine = VALUE(Duration, first), its = VALUE(Duration, second);
        int64_t one = mine.seconds, two = its.seconds;
        if (one == two) one = mine.nanoseconds, two = its.nanoseconds;
        Py_RETURN_RICHCOMPARE(one, two, how);
    }
    if (!is_length(module, second)) Py_RETURN_NOTIMPLEMENTED;
    if (!take_MuxanduDuration(module, second, &other)) return NULL;
    left = nanoseconds_of(VALUE(Duration, first));
    right = nanoseconds_of(other);
    Py_RETURN_RICHCOMPARE(left, right, how);
}

/* The hash that Python gives a whole number. */
static Py_hash_t hash_of_whole(__int128 whole) {
    const unsigned __int128 prime = ((uint64_t)1 << 61) - 1;
    int64_t hash = (int64_t)((whole < 0 ? -(unsigned __int128)whole : (unsigned __int128)whole) % prime);
    if (whole < 0) hash = -hash;
    return hash == -1 ? -2 : hash;
}

/* The hash that Python gives the three numbers of a timedelta, as a tuple: `fill` tests that, as
 * it tests their places. */
static Py_hash_t hash_of_three(int64_t days, int64_t seconds, int64_t microseconds) {
    const uint64_t lanes[] = {(uint64_t)(days == -1 ? -2 : days), (uint64_t)seconds, (uint64_t)microseconds};
    uint64_t hash = 2870177450012600261u;
    size_t place;
    for (place = 0; place < 3; place++) {
        hash += lanes[place] * 14029467366897019727u;
        hash = (hash << 31 | hash >> 33) * 11400714785074694791u;
    }
    hash += 3 ^ (2870177450012600261u ^ 3527539u);
    return hash == UINT64_MAX ? 1546275796 : (Py_hash_t)hash;
}

/* The hash of the datetime.timedelta that it equals, if there is one, else that of its
 * nanoseconds. */
static Py_hash_t hash_of_duration(PyObject *self) {
    MuxanduDuration value = VALUE(Duration, self);
    int64_t days = value.seconds / 86400, seconds = value.seconds % 86400, microseconds = value.nanoseconds / 1000;
    Module *module = OWNER(Duration, self);
    PyObject *timedelta;
    Py_hash_t hash;
    if (microseconds < 0) microseconds += 1000000, seconds -= 1;
    if (seconds < 0) seconds += 86400, days -= 1;
    if (value.nanoseconds % 1000 || days < -999999999 || days > 999999999) return hash_of_whole(nanoseconds_of(value));
    if (module->timedelta_is_so) return hash_of_three(days, seconds, microseconds);
    timedelta = PyObject_CallFunction(module->timedelta, "LLL", days, seconds, microseconds);
    hash = timedelta ? PyObject_Hash(timedelta) : -1;
    Py_XDECREF(timedelta);
    return hash;
}

static Py_hash_t Duration_hash(PyObject *self) {
    DurationObject *held = (DurationObject *)self;
    if (held->hash == -1) held->hash = hash_of_duration(self);
    return held->hash;
}

/* Days. */

static PyObject *Date_checked(Module *module, PyTypeObject *type, PyObject *const *words, MuxanduDate value) {
    static const uint8_t places[] = {MUXANDU_REFUSED_YEAR,
                                     YEAR,
                                     MUXANDU_REFUSED_MONTH,
                                     MONTH,
                                     MUXANDU_REFUSED_DAY,
                                     DAY,
                                     MUXANDU_REFUSED_DAY_OF_MONTH,
                                     DAY,
                                     0};
    int32_t number;
    uint32_t status = muxandu_day_from_date(value, &number);
    return status ? refuse_word(module, status, words, places) : make_Date(module, type, value, number);
}

static PyObject *Date_new(PyTypeObject *type, PyObject *given, PyObject *named) {
    Module *module = owner(type, kind_Date, kind_Date);
    PyObject *words[PARTS];
    MuxanduDate value = {0};
    if (!take_words(module, "Date", given, named, YEAR, 3, DAY + 1, words) ||
        !take_date(words, &value.year, &value.month, &value.day))
        return NULL;
    return Date_checked(module, type, words, value);
}

static PyObject *Date_replaced(PyObject *self, PyObject *const *given, Py_ssize_t count, PyObject *names) {
    Module *module = OWNER(Date, self);
    PyObject *words[PARTS] = {NULL};
    MuxanduDate value = VALUE(Date, self);
    if (!take_replaced(module, given, count, names, YEAR, DAY + 1, words) ||
        !take_date(words, &value.year, &value.month, &value.day))
        return NULL;
    return Date_checked(module, Py_TYPE(self), words, value);
}

/* The day of a number, which is that of a word. */
static PyObject *date_of_number(Module *module, PyTypeObject *type, PyObject *word) {
    MuxanduDate value;
    int32_t number;
    uint32_t status;
    if (!take_int32_t(word, &number)) return NULL;
    status = muxandu_date_from_day(number, &value);
    return status ? refuse_value(module, status, word, -1) : make_Date(module, type, value, number);
}

static PyObject *date_from_day_number(PyObject *class, PyObject *word) {
    return date_of_number(owner((PyTypeObject *)class, kind_Date, kind_Date), (PyTypeObject *)class, word);
}

static PyObject *date_number(PyObject *self, PyObject *unused) {
    (void)unused;
    return PyLong_FromLong(((DateObject *)self)->number);
}

static PyObject *date_weekday(PyObject *self, PyObject *unused) {
    uint8_t weekday;
    uint32_t status = muxandu_weekday_from_day(((DateObject *)self)->number, &weekday);
    (void)unused;
    return status ? refuse(OWNER(Date, self), status) : PyLong_FromLong(weekday);
}

static PyObject *date_read(PyObject *class, PyObject *word) {
    Module *module = owner((PyTypeObject *)class, kind_Date, kind_Date);
    Text text;
    MuxanduDate value;
    int32_t number = 0;
    uint32_t status;
    PyObject *made;
    if (!take_text(module, word, &text)) return NULL;
    status = muxandu_date_from_rfc3339(text.bytes, (size_t)text.size, &value);
    if (!status) status = muxandu_day_from_date(value, &number);
    made =
        status ? refuse_text(module, status, &text, word, 10) : make_Date(module, (PyTypeObject *)class, value, number);
    drop_text(&text);
    return made;
}

/* The day later or earlier by a whole number of days, or by the whole days of a duration,
 * rounded towards zero. */
static PyObject *date_moved_far(Module *module, PyObject *self, PyObject *word, int sign) {
    PyObject *days = NULL, *number = NULL, *made = NULL;
    MuxanduDuration length;
    if (PyLong_Check(word)) {
        days = exact(module, word);
    } else if (!is_length(module, word)) {
        Py_RETURN_NOTIMPLEMENTED;
    } else if (take_MuxanduDuration(module, word, &length) &&
               put_nanoseconds(module, nanoseconds_of(length), &length)) {
        days = PyLong_FromLongLong(length.seconds / 86400);
    }
    number = days ? date_number(self, NULL) : NULL;
    if (number) {
        PyObject *sum = (sign > 0 ? PyNumber_Add : PyNumber_Subtract)(number, days);
        made = sum ? date_of_number(module, Py_TYPE(self), sum) : NULL;
        Py_XDECREF(sum);
    }
    Py_XDECREF(number);
    Py_XDECREF(days);
    return made;
}

/* The same, in short for a number of days whose day is in the range. */
static PyObject *date_moved(Module *module, PyObject *self, PyObject *word, int sign) {
    int64_t few;
    MuxanduDate value;
    if (Py_TYPE(word) == &PyLong_Type && take_between(word, INT32_MIN, INT32_MAX, &few)) {
        few = ((DateObject *)self)->number + sign * few;
        if (few >= INT32_MIN && few <= INT32_MAX && !muxandu_date_from_day((int32_t)few, &value))
            return make_Date(module, Py_TYPE(self), value, (int32_t)few);
    }
    return date_moved_far(module, self, word, sign);
}

static PyObject *Date_add(PyObject *first, PyObject *second) {
    Module *module = OWNER(Date, first);
    if (module) return date_moved(module, first, second, 1);
    module = OWNER(Date, second);
    if (module) return date_moved(module, second, first, 1);
    Py_RETURN_NOTIMPLEMENTED;
}

static PyObject *Date_subtract(PyObject *first, PyObject *second) {
    Module *module = OWNER(Date, first);
    MuxanduDuration length = {0, 0};
    if (!module) Py_RETURN_NOTIMPLEMENTED;
    if (!IS_A(module, Date, second)) return date_moved(module, first, second, -1);
    length.seconds = ((int64_t)((DateObject *)first)->number - ((DateObject *)second)->number) * 86400;
    return make_Duration(module, module->types[kind_Duration], length);
}

static PyObject *Date_compared(PyObject *first, PyObject *second, int how) {
    Module *module = OWNER(Date, first);
    if (!IS_A(module, Date, second)) Py_RETURN_NOTIMPLEMENTED;
    Py_RETURN_RICHCOMPARE(((DateObject *)first)->number, ((DateObject *)second)->number, how);
}

static Py_hash_t Date_hash(PyObject *self) {
    return mix(((DateObject *)self)->number, 0);
}

static PyMemberDef Date_members[] = {
    {"year", T_INT, offsetof(DateObject, value) + offsetof(MuxanduDate, year), READONLY, NULL},
    {"month", T_UBYTE, offsetof(DateObject, value) + offsetof(MuxanduDate, month), READONLY, NULL},
    {"day", T_UBYTE, offsetof(DateObject, value) + offsetof(MuxanduDate, day), READONLY, NULL},
    {0}};

/* Offsets. */

static PyObject *UtcOffset_new(PyTypeObject *type, PyObject *given, PyObject *named) {
    static const uint8_t places[] = {MUXANDU_REFUSED_OFFSET_SECONDS, WHOLE_SECONDS, 0};
    Module *module = owner(type, kind_UtcOffset, kind_UtcOffset);
    PyObject *words[ALL_WORDS];
    MuxanduDateTime value = {1970, 1, 1, 0, 0, 0, 0, 0};
    uint32_t status;
    if (!take_words(module, "UtcOffset", given, named, WHOLE_SECONDS, 1, WHOLE_SECONDS + 1, words) ||
        !take_offset(module, words[WHOLE_SECONDS], &value.offset_seconds))
        return NULL;
    status = muxandu_date_time_check(value);
    return status ? refuse_word(module, status, words, places) : make_UtcOffset(module, type, value.offset_seconds);
}

static PyObject *UtcOffset_index(PyObject *self) {
    return PyLong_FromLong(VALUE(UtcOffset, self));
}

static PyObject *offset_whole_seconds(PyObject *self, PyObject *unused) {
    (void)unused;
    return UtcOffset_index(self);
}

static PyObject *UtcOffset_compared(PyObject *first, PyObject *second, int how) {
    Module *module = OWNER(UtcOffset, first);
    if (!IS_A(module, UtcOffset, second)) Py_RETURN_NOTIMPLEMENTED;
    Py_RETURN_RICHCOMPARE(VALUE(UtcOffset, first), VALUE(UtcOffset, second), how);
}

static Py_hash_t UtcOffset_hash(PyObject *self) {
    return mix(VALUE(UtcOffset, self), 0);
}
