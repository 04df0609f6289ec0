/* exact_duration as a number of seconds: numeric, products, quotients and means. */
#include "durations.h"

#include "units.h"
#include "utils/array.h"
#include "utils/builtins.h"

static const char PART_HINT[] = "Name epoch, or use whole_units.";

/* The nanoseconds that a text of a number says. */
static int128 nanoseconds_in(const char *text, const char *type) {
    ExactDuration duration;
    MuxanduStatus status = read_duration(text, &duration);
    if (status != MUXANDU_OK) refuse(status == MUXANDU_REFUSED_SYNTAX ? MUXANDU_REFUSED_RESULT : status, type);
    return nanoseconds_of(&duration);
}

int128 nanoseconds_of_numeric(Datum seconds, const char *type) {
    Datum rounded = DirectFunctionCall2(numeric_round, seconds, Int32GetDatum(9));
    if (!DatumGetBool(DirectFunctionCall2(numeric_eq, seconds, rounded))) refuse(MUXANDU_REFUSED_RESULT, type);
    return nanoseconds_in(DatumGetCString(DirectFunctionCall1(numeric_out, rounded)), type);
}

static Datum seconds_of(const ExactDuration *duration) {
    char text[DURATION_ROOM];
    write_duration(duration, text);
    return DirectFunctionCall3(numeric_in, CStringGetDatum(text), ObjectIdGetDatum(InvalidOid), Int32GetDatum(-1));
}

static ExactDuration *product(const ExactDuration *duration, Datum factor) {
    Datum seconds = DirectFunctionCall2(numeric_mul, seconds_of(duration), factor);
    return from_nanoseconds(nanoseconds_of_numeric(seconds, DURATION_NAME));
}

FUNCTION(exact_duration_from_numeric) {
    PG_RETURN_POINTER(from_nanoseconds(nanoseconds_of_numeric(PG_GETARG_DATUM(0), DURATION_NAME)));
}

FUNCTION(exact_duration_seconds) {
    return seconds_of(GET_DURATION(0));
}

FUNCTION(exact_duration_part) {
    const text *word = PG_GETARG_TEXT_PP(0);
    int size = (int)VARSIZE_ANY_EXHDR(word);
    if (!is_named(VARDATA_ANY(word), (size_t)size, "epoch"))
        refuse_unit(DURATION_NAME, VARDATA_ANY(word), size, PART_HINT);
    return seconds_of(GET_DURATION(1));
}

FUNCTION(exact_duration_times) {
    PG_RETURN_POINTER(product(GET_DURATION(0), PG_GETARG_DATUM(1)));
}

FUNCTION(exact_duration_of_times) {
    PG_RETURN_POINTER(product(GET_DURATION(1), PG_GETARG_DATUM(0)));
}

/* The quotient in whole nanoseconds: the rest, of either sign, is dropped. */
FUNCTION(exact_duration_quotient) {
    Datum scale = DirectFunctionCall1(int8_numeric, Int64GetDatum(NANOSECONDS));
    Datum nanoseconds = DirectFunctionCall2(numeric_mul, seconds_of(GET_DURATION(0)), scale);
    Datum quotient = DirectFunctionCall2(numeric_div_trunc, nanoseconds, PG_GETARG_DATUM(1));
    const char *digits = DatumGetCString(DirectFunctionCall1(numeric_out, quotient));
    PG_RETURN_POINTER(from_nanoseconds(nanoseconds_in(psprintf("%s nanoseconds", digits), DURATION_NAME)));
}

/* The state of avg: the sum of the values, and their number as seconds. */
enum { SUM, COUNT, TOTALS };

static ExactDuration *totals_of(ArrayType *array) {
    if (ARR_NDIM(array) != 1 || ARR_DIMS(array)[0] != TOTALS || ARR_HASNULL(array))
        ereport(ERROR, (errcode(ERRCODE_INVALID_PARAMETER_VALUE), errmsg("expected a sum and a number of values")));
    return (ExactDuration *)ARR_DATA_PTR(array);
}

static Datum add_to_totals(FunctionCallInfo fcinfo, int128 nanoseconds, int64 count) {
    bool is_own = AggCheckCallContext(fcinfo, NULL) != 0;
    ArrayType *array = is_own ? PG_GETARG_ARRAYTYPE_P(0) : PG_GETARG_ARRAYTYPE_P_COPY(0);
    ExactDuration *totals = totals_of(array);
    totals[SUM] = *from_nanoseconds(nanoseconds_of(&totals[SUM]) + nanoseconds);
    totals[COUNT].seconds += count;
    PG_RETURN_ARRAYTYPE_P(array);
}

FUNCTION(exact_duration_enter) {
    return add_to_totals(fcinfo, nanoseconds_of(GET_DURATION(1)), 1);
}

FUNCTION(exact_duration_leave) {
    return add_to_totals(fcinfo, -nanoseconds_of(GET_DURATION(1)), -1);
}

FUNCTION(exact_duration_combine) {
    const ExactDuration *others = totals_of(PG_GETARG_ARRAYTYPE_P(1));
    return add_to_totals(fcinfo, nanoseconds_of(&others[SUM]), others[COUNT].seconds);
}

/* The mean in whole nanoseconds, rounded towards zero, or NULL of no values. */
FUNCTION(exact_duration_mean) {
    const ExactDuration *totals = totals_of(PG_GETARG_ARRAYTYPE_P(0));
    if (totals[COUNT].seconds == 0) PG_RETURN_NULL();
    PG_RETURN_POINTER(from_nanoseconds(nanoseconds_of(&totals[SUM]) / totals[COUNT].seconds));
}
