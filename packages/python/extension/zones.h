/* Time zones with rules. Each rule of them is the library's: here are its numbers of a zone as an
 * object, and the calls that take it. */

/* The numbers of a zone, as calls of the library take them. */
#define OF_ZONE(zone) VALUE(Zone, zone), ((ZoneObject *)(zone))->transitions, ((ZoneObject *)(zone))->count

static PyObject *Zone_new(PyTypeObject *type, PyObject *given, PyObject *named) {
    static char *names[] = {"name", NULL};
    Module *module = owner(type, kind_Zone, kind_Zone);
    PyObject *name;
    if (!PyArg_ParseTupleAndKeywords(given, named, "O:Zone", names, &name)) return NULL;
    return PyObject_CallFunctionObjArgs(module->find_zone, (PyObject *)type, name, NULL);
}

static void Zone_let_go(PyObject *self) {
    ZoneObject *zone = (ZoneObject *)self;
    Py_XDECREF(zone->name);
    Py_XDECREF(zone->source);
    Py_XDECREF(zone->version);
    Py_XDECREF(zone->made_of);
    PyMem_Free(zone->transitions);
    let_go(self);
}

/* The zone of a class with the numbers of another memory, and with the words of the package: its
 * name, its source, its version, and its bytes or its rule. */
static PyObject *make_Zone(PyTypeObject *class, const MuxanduZone *value, const MuxanduTransition *transitions,
                           size_t count, PyObject *const *said) {
    PyObject *made = PyType_GenericAlloc(class, 0);
    ZoneObject *zone = (ZoneObject *)made;
    if (!made) return NULL;
    zone->transitions = PyMem_Malloc((count + 1) * sizeof *transitions);
    if (!zone->transitions) {
        Py_DECREF(made);
        return PyErr_NoMemory();
    }
    if (count) memcpy(zone->transitions, transitions, count * sizeof *transitions);
    zone->value = *value, zone->count = count;
    zone->name = Py_NewRef(said[0]), zone->source = Py_NewRef(said[1]);
    zone->version = Py_NewRef(said[2]), zone->made_of = Py_NewRef(said[3]);
    return made;
}

/* The zone of the bytes of a file; or the status, the place and the reason, where they are none. */
static PyObject *zone_of_bytes(PyObject *class, PyObject *const *words, Py_ssize_t count) {
    MuxanduTransition transitions[MUXANDU_ZONE_ROOM];
    MuxanduZone value;
    MuxanduOutcome outcome;
    char *bytes;
    Py_ssize_t size;
    if (!are("_of_bytes", count, 5) || PyBytes_AsStringAndSize(words[0], &bytes, &size) < 0) return NULL;
    outcome = muxandu_zone_from_tzif(bytes, (size_t)size, &value, transitions, MUXANDU_ZONE_ROOM);
    if (outcome.status) return Py_BuildValue("(InI)", outcome.status, (Py_ssize_t)outcome.size, outcome.reason);
    return make_Zone((PyTypeObject *)class, &value, transitions, outcome.size, words + 1);
}

/* The zone of the text of a rule; or the status, the place and the reason, where it is none. */
static PyObject *zone_of_rule(PyObject *class, PyObject *word) {
    PyObject *said[] = {Py_None, Py_None, Py_None, word};
    MuxanduZone value;
    MuxanduOutcome outcome;
    Text text;
    if (!take_text(owner((PyTypeObject *)class, kind_Zone, kind_Zone), word, &text)) return NULL;
    outcome = muxandu_zone_from_text(text.bytes, (size_t)text.size, &value);
    drop_text(&text);
    if (outcome.status) return Py_BuildValue("(InI)", outcome.status, (Py_ssize_t)outcome.size, outcome.reason);
    return make_Zone((PyTypeObject *)class, &value, NULL, 0, said);
}

/* Whether a text can be the name of a zone. */
static PyObject *is_zone_name(PyObject *self, PyObject *word) {
    uint32_t status;
    Text text;
    if (!take_text(OWNER_OF_FUNCTION(self), word, &text)) return NULL;
    status = muxandu_zone_name_check(text.bytes, (size_t)text.size);
    drop_text(&text);
    return PyBool_FromLong(status == MUXANDU_OK);
}

/* The zone of a word, which is one or the name of one. */
static PyObject *take_zone(Module *module, PyObject *word) {
    if (IS_A(module, Zone, word)) return Py_NewRef(word);
    if (PyUnicode_Check(word)) return PyObject_CallFunctionObjArgs((PyObject *)module->types[kind_Zone], word, NULL);
    return PyErr_Format(PyExc_TypeError, "the zone must be a Zone or the name of one, not %R", Py_TYPE(word));
}

/* The instant of a word. */
static int take_instant(Module *module, PyObject *word, MuxanduTimestamp *out) {
    if (IS_A(module, Timestamp, word)) {
        *out = VALUE(Timestamp, word);
        return 1;
    }
    if (!is_shown(module, word)) {
        PyErr_Format(PyExc_TypeError, "the instant must be a Timestamp, an OffsetDateTime or a UtcDateTime, not %R",
                     Py_TYPE(word));
        return 0;
    }
    return has_instant(word, out) || (refuse(module, MUXANDU_REFUSED_RESULT), 0);
}

/* The interval of an instant: the library says its offset, and where the transitions about it
 * are. */
static uint32_t find_interval(PyObject *zone, MuxanduTimestamp at, Interval *out) {
    const MuxanduTimestamp first = {at.seconds, 0}, last = {at.seconds, 999999999};
    MuxanduTransition beside;
    uint32_t status = muxandu_zone_offset_at(OF_ZONE(zone), at, &out->offset);
    if (status) return status;
    out->begin = muxandu_zone_previous_transition(OF_ZONE(zone), last, &beside) ? INT64_MIN : beside.second;
    out->end = muxandu_zone_next_transition(OF_ZONE(zone), first, &beside) ? INT64_MAX : beside.second;
    return 0;
}

static inline int is_in(const Interval *interval, int64_t second) {
    return second >= interval->begin && second < interval->end;
}

/* The interval of an instant, of those that are kept or else found. Each call of the library tests
 * the whole zone, so that intervals are kept for the next instants in them: the last two of each 49
 * days, which seldom have more than one transition. */
static uint32_t interval_of(PyObject *zone, Interval (*places)[2], size_t count, MuxanduTimestamp at,
                            const Interval **out) {
    Interval *kept = places[(uint64_t)(at.seconds >> 22) % count], found = {0, 0, 0};
    uint32_t status = 0;
    *out = is_in(&kept[0], at.seconds) ? &kept[0] : &kept[1];
    if (is_in(*out, at.seconds)) return 0;
    status = find_interval(zone, at, &found);
    if (status) return status;
    kept[1] = kept[0], kept[0] = found;
    *out = &kept[0];
    return 0;
}

static uint32_t offset_in(PyObject *zone, MuxanduTimestamp at, int32_t *out) {
    const Interval *in;
    uint32_t status = interval_of(zone, ((ZoneObject *)zone)->kept, PLACES, at, &in);
    if (!status) *out = in->offset;
    return status;
}

/* The number of moments that a zone shows, up to one that it does not, and the status of that. A
 * call of the library takes each run of rows in one interval. */
static MuxanduBatch to_zone_by_runs(PyObject *zone, Interval (*kept)[2], const MuxanduMoment *rows, size_t count,
                                    MuxanduMoment *out) {
    MuxanduBatch batch = {0, 0};
    const Interval *in;
    size_t start = 0, end;
    for (; start < count && !batch.status; start += batch.count) {
        MuxanduTimestamp at = {rows[start].seconds, 0};
        batch.status = interval_of(zone, kept, PLACES_OF_COLUMN, at, &in);
        if (batch.status) break;
        for (end = start + 1; end < count && is_in(in, rows[end].seconds);) end++;
        batch = muxandu_moments_to_offset(rows + start, end - start, in->offset, out + start, end - start);
    }
    batch.count = start;
    return batch;
}

/* The number of moments on the clocks of a zone up to one that fails, and the status of that. */
static PyObject *moments_to_zone(PyObject *self, PyObject *const *words, Py_ssize_t count) {
    Module *module = OWNER_OF_FUNCTION(self);
    Items rows = {0}, out = {0};
    PyObject *answer = NULL, *zone;
    Interval(*kept)[2];
    if (!are("moments_to_zone", count, 5)) return NULL;
    kept = PyMem_Calloc(PLACES_OF_COLUMN, sizeof *kept);
    zone = kept ? take_zone(module, words[2]) : PyErr_NoMemory();
    if (zone && take_items(words, &rows, 0) && take_items(words + 3, &out, 1)) {
        MuxanduBatch batch = {0, MUXANDU_REFUSED_BUFFER};
        Py_BEGIN_ALLOW_THREADS if (out.count >= rows.count) batch =
            to_zone_by_runs(zone, kept, rows.at, rows.count, out.at);
        Py_END_ALLOW_THREADS answer = Py_BuildValue("(nI)", (Py_ssize_t)batch.count, batch.status);
    }
    Py_XDECREF(zone);
    PyMem_Free(kept);
    drop_items(&rows);
    drop_items(&out);
    return answer;
}

/* The date-time that the clocks of a zone show at an instant. */
static PyObject *instant_to_zone(Module *module, PyObject *self, PyObject *word) {
    PyObject *zone = take_zone(module, word);
    MuxanduTimestamp at;
    MuxanduDateTime shown;
    int32_t offset;
    uint32_t status;
    if (!zone || !take_instant(module, self, &at)) {
        Py_XDECREF(zone);
        return NULL;
    }
    status = offset_in(zone, at, &offset);
    Py_DECREF(zone);
    if (!status) status = muxandu_date_time_from_timestamp(at, offset, &shown);
    return status ? refuse(module, status) : make_clock(module, module->types[kind_OffsetDateTime], shown, at.seconds);
}

static PyObject *timestamp_to_zone(PyObject *self, PyObject *word) {
    return instant_to_zone(OWNER(Timestamp, self), self, word);
}
static PyObject *shown_to_zone(PyObject *self, PyObject *word) {
    return instant_to_zone(CLOCK_OWNER(self), self, word);
}

#define ZONE_OWNER(self) OWNER(Zone, self)

static PyObject *zone_offset_at(PyObject *self, PyObject *word) {
    Module *module = ZONE_OWNER(self);
    MuxanduTimestamp at;
    int32_t offset;
    uint32_t status;
    if (!take_instant(module, word, &at)) return NULL;
    status = offset_in(self, at, &offset);
    return status ? refuse(module, status) : make_UtcOffset(module, module->types[kind_UtcOffset], offset);
}

static int take_type(PyObject *self, PyObject *word, MuxanduTimeType *out) {
    Module *module = ZONE_OWNER(self);
    MuxanduTimestamp at;
    uint32_t status;
    if (!take_instant(module, word, &at)) return 0;
    status = muxandu_zone_type_at(OF_ZONE(self), at, out);
    return !status || (refuse(module, status), 0);
}

/* The offset of a zone at an instant, and whether it is daylight saving time. */
static PyObject *zone_type_at(PyObject *self, PyObject *word) {
    MuxanduTimeType found;
    if (!take_type(self, word, &found)) return NULL;
    return Py_BuildValue("(iN)", (int)found.offset_seconds, PyBool_FromLong(found.is_daylight));
}

/* Writes the abbreviation with a number, from the bytes or from the rule that a zone is made of. */
static int write_abbreviation(PyObject *made_of, uint16_t number, char *out, size_t room, MuxanduOutcome *outcome) {
    Py_ssize_t size;
    char *bytes;
    const char *text;
    if (PyBytes_Check(made_of)) {
        if (PyBytes_AsStringAndSize(made_of, &bytes, &size) < 0) return 0;
        *outcome = muxandu_zone_abbreviation_from_tzif(bytes, (size_t)size, number, out, room);
        return 1;
    }
    text = PyUnicode_AsUTF8AndSize(made_of, &size);
    if (text) *outcome = muxandu_zone_abbreviation_from_text(text, (size_t)size, number, out, room);
    return text != NULL;
}

/* The abbreviation of a zone at an instant. */
static PyObject *zone_abbreviation_at(PyObject *self, PyObject *word) {
    PyObject *made_of = ((ZoneObject *)self)->made_of, *text;
    char buffer[64], *longer = NULL;
    MuxanduTimeType found;
    MuxanduOutcome outcome;
    if (!take_type(self, word, &found)) return NULL;
    if (!write_abbreviation(made_of, found.designation, buffer, sizeof buffer, &outcome)) return NULL;
    if (outcome.status == MUXANDU_REFUSED_BUFFER) {
        longer = PyMem_Malloc(outcome.size);
        if (!longer) return PyErr_NoMemory();
        (void)write_abbreviation(made_of, found.designation, longer, outcome.size, &outcome);
    }
    text = PyUnicode_DecodeUTF8(longer ? longer : buffer, (Py_ssize_t)outcome.size, "replace");
    PyMem_Free(longer);
    return text;
}

/* The numbers of the transition of a zone that is next to an instant, or None where there is
 * none. */
static PyObject *transition_beside(PyObject *self, PyObject *word, int is_next) {
    Module *module = ZONE_OWNER(self);
    MuxanduTimestamp at;
    MuxanduTransition found;
    uint32_t status;
    if (!take_instant(module, word, &at)) return NULL;
    status = (is_next ? muxandu_zone_next_transition : muxandu_zone_previous_transition)(OF_ZONE(self), at, &found);
    if (status == MUXANDU_REFUSED_RESULT) Py_RETURN_NONE;
    if (status) return refuse(module, status);
    return Py_BuildValue("(L(iN)(iN))", (long long)found.second, (int)found.before_offset_seconds,
                         PyBool_FromLong(found.before_is_daylight), (int)found.after_offset_seconds,
                         PyBool_FromLong(found.after_is_daylight));
}

static PyObject *zone_next(PyObject *self, PyObject *word) {
    return transition_beside(self, word, 1);
}
static PyObject *zone_previous(PyObject *self, PyObject *word) {
    return transition_beside(self, word, 0);
}

/* Wall clocks. */

static int take_wall(Module *module, PyObject *word, MuxanduDateTime *out) {
    if (!IS_A(module, PlainDateTime, word)) {
        PyErr_Format(PyExc_TypeError, "the wall clock must be a PlainDateTime, not %R", Py_TYPE(word));
        return 0;
    }
    *out = VALUE(Clock, word);
    return 1;
}

/* The date-time with a wall clock at an offset. */
static PyObject *at_wall(Module *module, MuxanduDateTime wall, int32_t offset) {
    wall.offset_seconds = offset;
    return make_clock(module, module->types[kind_OffsetDateTime], wall, NOT_ASKED);
}

/* The wall clock that clocks at an offset show at a second. */
static PyObject *wall_at(Module *module, int64_t second, int32_t offset) {
    const MuxanduTimestamp at = {second, 0};
    MuxanduDateTime shown;
    uint32_t status = muxandu_date_time_from_timestamp(at, offset, &shown);
    if (status) return refuse(module, status);
    return clock_like(module, module->types[kind_PlainDateTime], kind_PlainDateTime, shown);
}

/* The date-times of a zone with a wall clock, and of a gap its second and both wall clocks at its
 * ends, or None. */
static PyObject *zone_instants(PyObject *self, PyObject *word) {
    Module *module = ZONE_OWNER(self);
    MuxanduDateTime wall;
    MuxanduZoneInstants found;
    uint32_t status;
    if (!take_wall(module, word, &wall)) return NULL;
    status = muxandu_zone_instants_of(OF_ZONE(self), wall, &found);
    if (status) return refuse(module, status);
    if (found.count == 1) return Py_BuildValue("((N)O)", at_wall(module, wall, found.earlier_offset_seconds), Py_None);
    if (found.count == 2)
        return Py_BuildValue("((NN)O)", at_wall(module, wall, found.earlier_offset_seconds),
                             at_wall(module, wall, found.later_offset_seconds), Py_None);
    return Py_BuildValue("(()(LNN))", (long long)found.gap_second,
                         wall_at(module, found.gap_second, found.later_offset_seconds),
                         wall_at(module, found.gap_second, found.earlier_offset_seconds));
}

/* The date-time of a zone with a wall clock, by the number of a choice. */
static PyObject *plain_at_zone(PyObject *self, PyObject *const *words, Py_ssize_t count) {
    Module *module = CLOCK_OWNER(self);
    MuxanduDateTime shown;
    uint32_t choice, status;
    PyObject *zone;
    if (!are("_at_zone", count, 2) || !take_uint32_t(words[1], &choice)) return NULL;
    zone = take_zone(module, words[0]);
    if (!zone) return NULL;
    status = muxandu_date_time_at_zone(VALUE(Clock, self), OF_ZONE(zone), choice, &shown);
    Py_DECREF(zone);
    return status ? refuse(module, status) : make_OffsetDateTime(module, module->types[kind_OffsetDateTime], shown);
}

#define SAID(name, place)                                                                                              \
    { name, T_OBJECT, offsetof(ZoneObject, place), READONLY, NULL }

static PyMemberDef Zone_members[] = {
    SAID("name", name), SAID("source", source), SAID("version", version), SAID("_made_of", made_of), {0}};
