/* Sums and differences of offset_timestamp, and what windows, ranges and series make of them. */
#include "durations.h"

#include "funcapi.h"
#include "nodes/nodeFuncs.h"
#include "nodes/supportnodes.h"
#include "optimizer/optimizer.h"

/* The instant moved by a duration, at the offset that it had. */
FUNCTION(offset_timestamp_plus) {
    const OffsetTimestamp *at = GET_TIMESTAMP(0);
    MuxanduTimestamp sum;
    require(muxandu_timestamp_add(instant_of(at), duration_of(GET_DURATION(1)), &sum), TIMESTAMP_NAME);
    PG_RETURN_POINTER(at_offset(sum, at->offset_seconds));
}

FUNCTION(exact_duration_plus_timestamp) {
    return DirectFunctionCall2(offset_timestamp_plus, PG_GETARG_DATUM(1), PG_GETARG_DATUM(0));
}

FUNCTION(offset_timestamp_minus) {
    const OffsetTimestamp *at = GET_TIMESTAMP(0);
    MuxanduTimestamp difference;
    require(muxandu_timestamp_subtract(instant_of(at), duration_of(GET_DURATION(1)), &difference), TIMESTAMP_NAME);
    PG_RETURN_POINTER(at_offset(difference, at->offset_seconds));
}

FUNCTION(offset_timestamp_difference) {
    MuxanduDuration apart;
    require(muxandu_timestamp_difference(instant_of(GET_TIMESTAMP(0)), instant_of(GET_TIMESTAMP(1)), &apart),
            DURATION_NAME);
    PG_RETURN_POINTER(from_duration(apart));
}

/* The same day of the month and time of day a number of months later, or the last day of a month
 * that is shorter. */
FUNCTION(offset_timestamp_add_months) {
    MuxanduDateTime shown = shown_by(GET_TIMESTAMP(0));
    MuxanduDate date = {shown.year, shown.month, shown.day};
    require(muxandu_date_add_months(date, PG_GETARG_INT32(1), &date), TIMESTAMP_NAME);
    shown.year = date.year;
    shown.month = date.month;
    shown.day = date.day;
    PG_RETURN_POINTER(from_date_time(shown));
}

/* The beginning of the step in which an instant lies, where one step begins at the origin. */
FUNCTION(offset_timestamp_bin) {
    int128 step = nanoseconds_of(GET_DURATION(0)), past;
    const OffsetTimestamp *at = GET_TIMESTAMP(1);
    MuxanduDuration apart;
    MuxanduTimestamp start;
    if (step <= 0)
        ereport(ERROR, (errcode(ERRCODE_DATETIME_VALUE_OUT_OF_RANGE), errmsg("stride must be greater than zero")));
    require(muxandu_timestamp_difference(instant_of(at), instant_of(GET_TIMESTAMP(2)), &apart), DURATION_NAME);
    past = nanoseconds_of(from_duration(apart)) % step;
    if (past < 0) past += step;
    require(muxandu_timestamp_subtract(instant_of(at), duration_of(from_nanoseconds(past)), &start), TIMESTAMP_NAME);
    PG_RETURN_POINTER(at_offset(start, at->offset_seconds));
}

/* Whether a value lies within a duration of another: what RANGE BETWEEN asks. */
FUNCTION(offset_timestamp_in_range) {
    MuxanduTimestamp base = instant_of(GET_TIMESTAMP(1)), end;
    MuxanduDuration within = duration_of(GET_DURATION(2));
    bool is_before = PG_GETARG_BOOL(3), is_upper = PG_GETARG_BOOL(4);
    int order;
    if (within.seconds < 0 || within.nanoseconds < 0)
        ereport(ERROR, (errcode(ERRCODE_INVALID_PRECEDING_OR_FOLLOWING_SIZE),
                        errmsg("invalid preceding or following size in window function")));
    if (is_before)
        require(muxandu_timestamp_saturating_subtract(base, within, &end), TIMESTAMP_NAME);
    else
        require(muxandu_timestamp_saturating_add(base, within, &end), TIMESTAMP_NAME);
    order = muxandu_timestamp_compare(instant_of(GET_TIMESTAMP(0)), end);
    PG_RETURN_BOOL(is_upper ? order <= 0 : order >= 0);
}

/* The seconds between two instants, nearly: indexes ask which of their ranges are near. */
static double seconds_between(const OffsetTimestamp *later, const OffsetTimestamp *earlier) {
    MuxanduDuration apart;
    require(muxandu_timestamp_difference(instant_of(later), instant_of(earlier), &apart), DURATION_NAME);
    return (double)apart.seconds + apart.nanoseconds / 1e9;
}

FUNCTION(offset_timestamp_subtype_diff) {
    PG_RETURN_FLOAT8(seconds_between(GET_TIMESTAMP(0), GET_TIMESTAMP(1)));
}

FUNCTION(offset_timestamp_distance) {
    PG_RETURN_FLOAT8(seconds_between(GET_TIMESTAMP(1), GET_TIMESTAMP(0)));
}

/* A series: its next value, its last, and the step. */
typedef struct Series {
    OffsetTimestamp next, last;
    MuxanduDuration step;
    bool is_over;
} Series;

static Series *begin_series(const OffsetTimestamp *first, const OffsetTimestamp *last, const ExactDuration *step) {
    Series *series = palloc(sizeof *series);
    series->next = *first;
    series->last = *last;
    series->step = duration_of(step);
    series->is_over = false;
    if (series->step.seconds == 0 && series->step.nanoseconds == 0)
        ereport(ERROR, (errcode(ERRCODE_INVALID_PARAMETER_VALUE), errmsg("step size cannot equal zero")));
    return series;
}

static bool has_next(const Series *series) {
    bool is_back = series->step.seconds < 0 || series->step.nanoseconds < 0;
    int order = compare_instants(&series->next, &series->last);
    return !series->is_over && (is_back ? order >= 0 : order <= 0);
}

/* The value that is next, and then the series one step on. It is over where the next would be
 * out of range. */
static OffsetTimestamp *take_next(Series *series) {
    OffsetTimestamp *value = from_parts(instant_of(&series->next), series->next.offset_seconds);
    MuxanduTimestamp sum;
    MuxanduDateTime shown;
    if (muxandu_timestamp_add(instant_of(value), series->step, &sum) != MUXANDU_OK ||
        muxandu_date_time_from_timestamp(sum, value->offset_seconds, &shown) != MUXANDU_OK) {
        series->is_over = true;
        return value;
    }
    series->next.seconds = sum.seconds;
    series->next.nanoseconds = sum.nanoseconds;
    return value;
}

FUNCTION(offset_timestamp_series) {
    FuncCallContext *call;
    if (SRF_IS_FIRSTCALL()) {
        MemoryContext outer;
        call = SRF_FIRSTCALL_INIT();
        outer = MemoryContextSwitchTo(call->multi_call_memory_ctx);
        call->user_fctx = begin_series(GET_TIMESTAMP(0), GET_TIMESTAMP(1), GET_DURATION(2));
        MemoryContextSwitchTo(outer);
    }
    call = SRF_PERCALL_SETUP();
    if (has_next(call->user_fctx)) SRF_RETURN_NEXT(call, PointerGetDatum(take_next(call->user_fctx)));
    SRF_RETURN_DONE(call);
}

/* The number of values of a series, or 0 where there is none. */
static double values_of(const OffsetTimestamp *first, const OffsetTimestamp *last, const ExactDuration *step) {
    int128 each = nanoseconds_of(step), whole;
    MuxanduDuration apart;
    require(muxandu_timestamp_difference(instant_of(last), instant_of(first), &apart), DURATION_NAME);
    whole = nanoseconds_of(from_duration(apart));
    if (each == 0 || (whole != 0 && (whole < 0) != (each < 0))) return 0;
    return (double)(whole / each + 1);
}

/* Tells the planner how many values a series of known arguments has. */
FUNCTION(offset_timestamp_series_support) {
    SupportRequestRows *request = (SupportRequestRows *)PG_GETARG_POINTER(0);
    const void *known[3];
    ListCell *cell;
    int count = 0;
    if (!IsA(request, SupportRequestRows) || !is_funcclause(request->node)) PG_RETURN_POINTER(NULL);
    foreach (cell, ((FuncExpr *)request->node)->args) {
        Const *argument = (Const *)estimate_expression_value(request->root, lfirst(cell));
        if (!IsA(argument, Const) || argument->constisnull) PG_RETURN_POINTER(NULL);
        known[count++] = DatumGetPointer(argument->constvalue);
    }
    request->rows = values_of(known[0], known[1], known[2]);
    PG_RETURN_POINTER(request);
}
