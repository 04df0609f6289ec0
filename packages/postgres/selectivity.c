/* How many rows the planner expects within bounds: those of the common values of a column, and
 * those of its histogram, between whose bounds they lie evenly. PostgreSQL measures so inside a
 * bin, and takes a lower and an upper bound together, for its own types alone. */
#include "values.h"

#include "access/htup_details.h"
#include "catalog/pg_statistic.h"
#include "nodes/nodeFuncs.h"
#include "nodes/pathnodes.h"
#include "optimizer/optimizer.h"
#include "utils/lsyscache.h"
#include "utils/selfuncs.h"
#include "utils/timestamp.h"

#include "durations.h"
#include "units.h"

static double share_kept(PlannerInfo *root, Oid sign, List *sides, int relation);
static double share_joined(PlannerInfo *root, Oid sign, List *sides, JoinType kind, SpecialJoinInfo *join);

#define SELECTIVITIES(name)                                                                                            \
    FUNCTION(offset_timestamp_##name##sel) {                                                                           \
        PG_RETURN_FLOAT8(share_kept((PlannerInfo *)PG_GETARG_POINTER(0), PG_GETARG_OID(1),                             \
                                    (List *)PG_GETARG_POINTER(2), PG_GETARG_INT32(3)));                                \
    }                                                                                                                  \
    FUNCTION(offset_timestamp_##name##joinsel) {                                                                       \
        PG_RETURN_FLOAT8(share_joined((PlannerInfo *)PG_GETARG_POINTER(0), PG_GETARG_OID(1),                           \
                                      (List *)PG_GETARG_POINTER(2), (JoinType)PG_GETARG_INT16(3),                      \
                                      (SpecialJoinInfo *)PG_GETARG_POINTER(4)));                                       \
    }

SELECTIVITIES(lt)
SELECTIVITIES(le)
SELECTIVITIES(ge)
SELECTIVITIES(gt)

/* The bytes of a value of exact_duration on disk. */
enum { DURATION_BYTES = 12 };

/* The bytes of a value of a type, by which the types of these operators differ. */
static int bytes_of(Oid type) {
    return get_typlen(getBaseType(type));
}

/* A number of a value in the order of values: nanoseconds. An infinity is past all others. */
static int128 place_of(Datum value, int bytes) {
    const int128 past = (int128)1 << 120;
    MuxanduTimestamp at;
    if (bytes == DURATION_BYTES) return nanoseconds_of((const ExactDuration *)DatumGetPointer(value));
    if (bytes == sizeof(OffsetTimestamp)) {
        at = instant_of((const OffsetTimestamp *)DatumGetPointer(value));
    } else {
        TimestampTz other = DatumGetTimestampTz(value);
        if (TIMESTAMP_NOT_FINITE(other)) return TIMESTAMP_IS_NOBEGIN(other) ? -past : past;
        at = muxandu_timestamp_from_microseconds_2000(other);
    }
    return (int128)at.seconds * NANOSECONDS + at.nanoseconds;
}

/* The statistics of a column: its common values, the bounds of its histogram, the share of all
 * rows that the histogram has, and the share that is not NULL. */
typedef struct Shares {
    AttStatsSlot common, bounds;
    double in_bounds, known;
} Shares;

static bool read_shares(VariableStatData *column, Shares *shares) {
    HeapTuple found = column->statsTuple;
    bool has_common, has_bounds;
    memset(shares, 0, sizeof *shares);
    if (!HeapTupleIsValid(found)) return false;
    has_common = get_attstatsslot(&shares->common, found, STATISTIC_KIND_MCV, InvalidOid,
                                  ATTSTATSSLOT_VALUES | ATTSTATSSLOT_NUMBERS);
    has_bounds = get_attstatsslot(&shares->bounds, found, STATISTIC_KIND_HISTOGRAM, InvalidOid, ATTSTATSSLOT_VALUES);
    shares->known = 1 - ((Form_pg_statistic)GETSTRUCT(found))->stanullfrac;
    shares->in_bounds = shares->known;
    for (int at = 0; at < shares->common.nnumbers; at++) shares->in_bounds -= shares->common.numbers[at];
    shares->in_bounds = Max(shares->in_bounds, 0);
    return has_common || has_bounds;
}

static void drop_shares(Shares *shares) {
    free_attstatsslot(&shares->common);
    free_attstatsslot(&shares->bounds);
}

static int128 place_in(const AttStatsSlot *slot, int at) {
    return place_of(slot->values[at], bytes_of(slot->valuetype));
}

/* The share of the rows in a histogram that lie below a place. */
static double below_in_bounds(const AttStatsSlot *bounds, int128 place) {
    int low = 0, high = bounds->nvalues - 1, bins = high;
    int128 first, last;
    double part;
    if (bins < 1) return 0.5;
    while (high - low > 1) {
        int middle = (low + high) / 2;
        if (place_in(bounds, middle) <= place)
            low = middle;
        else
            high = middle;
    }
    first = place_in(bounds, low);
    last = place_in(bounds, high);
    part = place <= first ? 0 : place >= last ? 1 : (double)(place - first) / (double)(last - first);
    return (low + part) / bins;
}

/* The share of all rows that have a common value below a place, with the one at it or without. */
static double below_in_common(const Shares *shares, int128 place, bool has_equal) {
    double share = 0;
    for (int at = 0; at < shares->common.nvalues; at++) {
        int128 common = place_in(&shares->common, at);
        if (common < place || (has_equal && common == place)) share += shares->common.numbers[at];
    }
    return share;
}

static double share_below(const Shares *shares, int128 place, bool has_equal) {
    return shares->in_bounds * below_in_bounds(&shares->bounds, place) + below_in_common(shares, place, has_equal);
}

/* A bound that a condition sets for a column: the sign that has the column on its left, the value
 * and its place where they are known, and whether rows at the place count as below it. */
typedef struct Bound {
    List *sides;
    Oid sign;
    Const *value;
    bool is_upper, has_equal;
    int128 place;
} Bound;

/* The bound that a sign of these types sets for what is on its left. */
static bool read_sign(Oid sign, Bound *bound) {
    FmgrInfo function;
    Oid selectivity = get_oprrest(sign);
    if (!OidIsValid(selectivity)) return false;
    fmgr_info(selectivity, &function);
    bound->is_upper = function.fn_addr == offset_timestamp_ltsel || function.fn_addr == offset_timestamp_lesel;
    bound->has_equal = function.fn_addr == offset_timestamp_lesel || function.fn_addr == offset_timestamp_gtsel;
    return bound->is_upper || bound->has_equal || function.fn_addr == offset_timestamp_gesel;
}

static bool is_column(Node *side, const Node *column) {
    while (IsA(side, RelabelType)) side = (Node *)((RelabelType *)side)->arg;
    return equal(side, column);
}

/* The bound that a sign sets for the column on one of its sides. The other side may have no
 * column. */
static bool read_bound(PlannerInfo *root, Oid sign, List *sides, const Node *column, Bound *bound) {
    Node *other;
    bool is_turned;
    if (list_length(sides) != 2 || !read_sign(sign, bound)) return false;
    is_turned = !is_column(linitial(sides), column);
    if (is_turned && !is_column(lsecond(sides), column)) return false;
    other = is_turned ? linitial(sides) : lsecond(sides);
    if (contain_var_clause(other)) return false;
    other = estimate_expression_value(root, other);
    bound->sides = sides;
    bound->sign = is_turned ? get_commutator(sign) : sign;
    bound->is_upper ^= is_turned;
    bound->has_equal ^= is_turned;
    bound->value = IsA(other, Const) && !((Const *)other)->constisnull ? (Const *)other : NULL;
    bound->place = bound->value ? place_of(bound->value->constvalue, bytes_of(bound->value->consttype)) : 0;
    return true;
}

/* The two bounds that decide, of those that all hold for a column; of equal bounds the first. */
typedef struct Ends {
    Bound low, high;
    bool has_low, has_high;
} Ends;

static void take_bound(Ends *ends, Bound bound) {
    bool *has = bound.is_upper ? &ends->has_high : &ends->has_low;
    Bound *best = bound.is_upper ? &ends->high : &ends->low;
    bool is_nearer = bound.is_upper ? bound.place < best->place : bound.place > best->place;
    if (!*has || (best->value && (!bound.value || is_nearer))) *best = bound;
    *has = true;
}

static Node *clause_of(Node *condition) {
    RestrictInfo *kept = (RestrictInfo *)condition;
    if (!IsA(condition, RestrictInfo)) return condition;
    return (Node *)(kept->orclause ? kept->orclause : kept->clause);
}

/* Of conditions that all hold, those that hold together with the one of these sides: all of them,
 * or those of an arm of an OR. NIL where it is not there. */
static List *conditions_beside(List *conditions, const List *sides) {
    ListCell *cell, *inner;
    foreach (cell, conditions) {
        Node *clause = clause_of(lfirst(cell));
        if (is_opclause(clause) && ((OpExpr *)clause)->args == sides) return conditions;
        if (!is_orclause(clause)) continue;
        foreach (inner, ((BoolExpr *)clause)->args) {
            Node *arm = clause_of(lfirst(inner));
            List *found = conditions_beside(is_andclause(arm) ? ((BoolExpr *)arm)->args : list_make1(arm), sides);
            if (found != NIL) return found;
        }
    }
    return NIL;
}

/* The bounds that decide for a column, where a condition that sets one of them holds. */
static Ends ends_beside(PlannerInfo *root, VariableStatData *column, Bound own) {
    List *all = column->rel ? column->rel->baserestrictinfo : NIL;
    List *conditions = conditions_beside(all, own.sides);
    Ends ends = {{0}};
    ListCell *cell;
    if (conditions == NIL) {
        take_bound(&ends, own);
        conditions = all;
    }
    foreach (cell, conditions) {
        OpExpr *clause = (OpExpr *)clause_of(lfirst(cell));
        Bound bound;
        if (is_opclause((Node *)clause) && read_bound(root, clause->opno, clause->args, column->var, &bound))
            take_bound(&ends, bound);
    }
    return ends;
}

/* The share of the rows in the histogram of a column that lie below a bound. Past the ends of the
 * histogram PostgreSQL asks an index where the column ends now, and takes half a bin for the new
 * rows. */
static double below_bound(PlannerInfo *root, VariableStatData *column, const Shares *shares, const Bound *bound) {
    const AttStatsSlot *bounds = &shares->bounds;
    bool can_equal = bound->has_equal == bound->is_upper;
    double part = below_in_bounds(bounds, bound->place);
    FmgrInfo compare;
    if (bounds->nvalues < 2 || (part > 0 && part < 1)) return part;
    fmgr_info(get_opcode(bound->sign), &compare);
    part = ineq_histogram_selectivity(root, column, bound->sign, &compare, !bound->is_upper, can_equal, InvalidOid,
                                      bound->value->constvalue, bound->value->consttype);
    return bound->is_upper ? part : 1 - part;
}

/* The share of all rows between two bounds. */
static double share_between(PlannerInfo *root, VariableStatData *column, const Ends *ends) {
    const Bound *low = ends->has_low ? &ends->low : NULL, *high = ends->has_high ? &ends->high : NULL;
    double share = low && high ? DEFAULT_RANGE_INEQ_SEL : DEFAULT_INEQ_SEL;
    Shares shares;
    if ((low && !low->value) || (high && !high->value)) return share;
    if (read_shares(column, &shares)) {
        double below_low = low ? below_bound(root, column, &shares, low) : 0;
        double part = (high ? below_bound(root, column, &shares, high) : 1) - below_low;
        bool are_apart = low && high && low->place < high->place;
        /* both bounds are in the half of a bin for new rows */
        if (part <= 0 && are_apart && below_low > 0 && below_low < 1) part = 0.25 / (shares.bounds.nvalues - 1);
        share = shares.in_bounds * part;
        share += high ? below_in_common(&shares, high->place, high->has_equal) : shares.known - shares.in_bounds;
        share -= low ? below_in_common(&shares, low->place, low->has_equal) : 0;
    }
    drop_shares(&shares);
    return Min(Max(share, 1e-10), 1);
}

/* The share of the rows that a condition keeps. Of a lower and an upper bound the lower one has
 * the share of both, and all others have 1. */
static double share_kept(PlannerInfo *root, Oid sign, List *sides, int relation) {
    VariableStatData column;
    Node *other;
    bool is_left;
    double share = DEFAULT_INEQ_SEL;
    Bound own;
    if (!get_restriction_variable(root, sides, relation, &column, &other, &is_left)) return share;
    if (IsA(other, Const) && ((Const *)other)->constisnull) {
        share = 0;
    } else if (read_bound(root, sign, sides, column.var, &own)) {
        Ends ends = ends_beside(root, &column, own);
        bool decides = (own.is_upper ? ends.high.sides : ends.low.sides) == sides;
        share = !decides || (own.is_upper && ends.has_low) ? 1 : share_between(root, &column, &ends);
    }
    ReleaseVariableStats(column);
    return share;
}

/* The share of the pairs of rows of two columns of which the first is below the second. */
static double share_of_pairs(const Shares *first, const Shares *second, bool has_equal) {
    double share = 0, mean = 0;
    int bins = second->bounds.nvalues - 1;
    for (int at = 0; at < second->common.nvalues; at++)
        share += second->common.numbers[at] * share_below(first, place_in(&second->common, at), has_equal);
    for (int at = 0; at <= bins; at++) {
        double part = at == 0 || at == bins ? 0.5 : 1;
        mean += part * share_below(first, place_in(&second->bounds, at), has_equal) / Max(bins, 1);
    }
    return share + second->in_bounds * (bins < 1 ? first->known / 2 : mean);
}

/* The share of the pairs of rows that a join keeps. */
static double share_joined(PlannerInfo *root, Oid sign, List *sides, JoinType kind, SpecialJoinInfo *join) {
    VariableStatData left, right;
    Shares first, second;
    Bound bound;
    bool is_reversed;
    double share = DEFAULT_INEQ_SEL;
    if (kind == JOIN_SEMI || kind == JOIN_ANTI || !read_sign(sign, &bound)) return share;
    get_join_variables(root, sides, join, &left, &right, &is_reversed);
    if (read_shares(&left, &first) & read_shares(&right, &second)) {
        share = share_of_pairs(&first, &second, bound.has_equal);
        if (!bound.is_upper) share = first.known * second.known - share;
        share = Min(Max(share, 1e-10), 1);
    }
    drop_shares(&first);
    drop_shares(&second);
    ReleaseVariableStats(left);
    ReleaseVariableStats(right);
    return share;
}
