/* The GiST class of offset_timestamp: a key is a range, whose functions of GiST PostgreSQL has. */
#include "values.h"

#include "access/gist.h"
#include "access/stratnum.h"
#include "catalog/pg_type.h"
#include "utils/lsyscache.h"
#include "utils/rangetypes.h"
#include "utils/syscache.h"

#if PG_VERSION_NUM >= 160000
#define MAKE_RANGE(type, lower, upper) make_range(type, lower, upper, false, NULL)
#else
#define MAKE_RANGE(type, lower, upper) make_range(type, lower, upper, false)
#endif

/* The strategies of the operators, of which the first five are those of btree. */
enum { NOT_EQUAL = BTMaxStrategyNumber + 1 };

/* The type of the ranges, which lies where the function does. */
static TypeCacheEntry *range_type(FunctionCallInfo fcinfo) {
    Oid schema, type;
    if (fcinfo->flinfo->fn_extra == NULL) {
        schema = get_func_namespace(fcinfo->flinfo->fn_oid);
        type = GetSysCacheOid2(TYPENAMENSP, Anum_pg_type_oid, CStringGetDatum("offset_timestamp_range"),
                               ObjectIdGetDatum(schema));
        fcinfo->flinfo->fn_extra = lookup_type_cache(type, TYPECACHE_RANGE_INFO);
    }
    return fcinfo->flinfo->fn_extra;
}

/* Each value becomes the range that has it alone. */
FUNCTION(offset_timestamp_gist_compress) {
    GISTENTRY *entry = (GISTENTRY *)PG_GETARG_POINTER(0), *compressed;
    RangeBound lower = {entry->key, false, true, true}, upper = {entry->key, false, true, false};
    if (!entry->leafkey) PG_RETURN_POINTER(entry);
    compressed = palloc(sizeof *compressed);
    gistentryinit(*compressed, RangeTypePGetDatum(MAKE_RANGE(range_type(fcinfo), &lower, &upper)), entry->rel,
                  entry->page, entry->offset, false);
    PG_RETURN_POINTER(compressed);
}

/* The ends of a key. */
static void ends_of(FunctionCallInfo fcinfo, const GISTENTRY *entry, RangeBound *lower, RangeBound *upper) {
    bool is_empty;
    range_deserialize(range_type(fcinfo), DatumGetRangeTypeP(entry->key), lower, upper, &is_empty);
}

FUNCTION(offset_timestamp_gist_fetch) {
    GISTENTRY *entry = (GISTENTRY *)PG_GETARG_POINTER(0), *fetched = palloc(sizeof *fetched);
    RangeBound lower, upper;
    ends_of(fcinfo, entry, &lower, &upper);
    gistentryinit(*fetched, lower.val, entry->rel, entry->page, entry->offset, false);
    PG_RETURN_POINTER(fetched);
}

/* Whether a value within the ends of a key can be in that order with another. */
FUNCTION(offset_timestamp_gist_consistent) {
    const OffsetTimestamp *other = GET_TIMESTAMP(1);
    RangeBound lower, upper;
    int low, high;
    ends_of(fcinfo, (GISTENTRY *)PG_GETARG_POINTER(0), &lower, &upper);
    low = compare_instants((const OffsetTimestamp *)DatumGetPointer(lower.val), other);
    high = compare_instants((const OffsetTimestamp *)DatumGetPointer(upper.val), other);
    *(bool *)PG_GETARG_POINTER(4) = false;
    switch (PG_GETARG_UINT16(2)) {
    case BTLessStrategyNumber: PG_RETURN_BOOL(low < 0);
    case BTLessEqualStrategyNumber: PG_RETURN_BOOL(low <= 0);
    case BTEqualStrategyNumber: PG_RETURN_BOOL(low <= 0 && high >= 0);
    case BTGreaterEqualStrategyNumber: PG_RETURN_BOOL(high >= 0);
    case BTGreaterStrategyNumber: PG_RETURN_BOOL(high > 0);
    case NOT_EQUAL: PG_RETURN_BOOL(low != 0 || high != 0);
    default: elog(ERROR, "unknown strategy of GiST: %d", (int)PG_GETARG_UINT16(2));
    }
}
