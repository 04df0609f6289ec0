/* The order of offset_timestamp, which is that of the instants, and its hashes. */
#include "values.h"

#include "common/hashfn.h"
#include "utils/sortsupport.h"

#define COMPARISON(name, relation)                                                                                     \
    FUNCTION(offset_timestamp_##name) {                                                                                \
        PG_RETURN_BOOL(compare_instants(GET_TIMESTAMP(0), GET_TIMESTAMP(1)) relation 0);                               \
    }

COMPARISON(eq, ==)
COMPARISON(ne, !=)
COMPARISON(lt, <)
COMPARISON(le, <=)
COMPARISON(gt, >)
COMPARISON(ge, >=)

FUNCTION(offset_timestamp_cmp) {
    PG_RETURN_INT32(compare_instants(GET_TIMESTAMP(0), GET_TIMESTAMP(1)));
}

/* Whether both are one instant at one offset. */
FUNCTION(offset_timestamp_same) {
    const OffsetTimestamp *first = GET_TIMESTAMP(0), *second = GET_TIMESTAMP(1);
    PG_RETURN_BOOL(compare_instants(first, second) == 0 && first->offset_seconds == second->offset_seconds);
}

FUNCTION(offset_timestamp_larger) {
    PG_RETURN_DATUM(PG_GETARG_DATUM(compare_instants(GET_TIMESTAMP(0), GET_TIMESTAMP(1)) >= 0 ? 0 : 1));
}

FUNCTION(offset_timestamp_smaller) {
    PG_RETURN_DATUM(PG_GETARG_DATUM(compare_instants(GET_TIMESTAMP(0), GET_TIMESTAMP(1)) <= 0 ? 0 : 1));
}

FUNCTION(offset_timestamp_hash) {
    return hash_any((const unsigned char *)GET_TIMESTAMP(0), INSTANT_BYTES);
}

FUNCTION(offset_timestamp_hash_extended) {
    return hash_any_extended((const unsigned char *)GET_TIMESTAMP(0), INSTANT_BYTES, (uint64)PG_GETARG_INT64(1));
}

static int compare_datums(Datum first, Datum second, SortSupport support) {
    (void)support;
    return compare_instants((const OffsetTimestamp *)DatumGetPointer(first),
                            (const OffsetTimestamp *)DatumGetPointer(second));
}

#if SIZEOF_DATUM >= 8
/* The seconds of all years take 46 bits, and 18 are left for the nanoseconds by 4,096. */
enum { FRACTION_BITS = 18, NANOSECOND_SHIFT = 12 };

static Datum abbreviate(Datum original, SortSupport support) {
    const OffsetTimestamp *at = (const OffsetTimestamp *)DatumGetPointer(original);
    (void)support;
    return Int64GetDatum(at->seconds * (INT64CONST(1) << FRACTION_BITS) + (at->nanoseconds >> NANOSECOND_SHIFT));
}

/* Keys differ wherever the instants are 4,096 nanoseconds apart, so they always pay. */
static bool abbreviate_abort(int count, SortSupport support) {
    (void)count;
    (void)support;
    return false;
}

#if PG_VERSION_NUM < 150000
static int ssup_datum_signed_cmp(Datum first, Datum second, SortSupport support) {
    int64 one = DatumGetInt64(first), other = DatumGetInt64(second);
    (void)support;
    return (one > other) - (one < other);
}
#endif
#endif

FUNCTION(offset_timestamp_sortsupport) {
    SortSupport support = (SortSupport)PG_GETARG_POINTER(0);
    support->comparator = compare_datums;
#if SIZEOF_DATUM >= 8
    if (support->abbreviate) {
        support->abbrev_full_comparator = compare_datums;
        support->comparator = ssup_datum_signed_cmp;
        support->abbrev_converter = abbreviate;
        support->abbrev_abort = abbreviate_abort;
    }
#endif
    PG_RETURN_VOID();
}
