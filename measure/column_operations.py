"""What measure/columns_speed asks of a column of moments and of pandas' column of the same instants: 59 operations.

Two columns of COUNT rows lie in 25 years, at seven offsets. Half of the instants repeat another, half have a fraction of a second,
and 2 of 100 rows are gaps. `a` and `b` are the columns of moments, `k` and `m` those of datetime64[ns, UTC], A, B, K and L tables
with them, and `walls` what the clocks of `a` show.
"""

import numpy
import pandas

import muxandu
import muxandu.pandas
from muxandu.pandas import ROW, MomentArray

UTC, GAPS, SPAN = "UTC", 0.02, 788_000_000
OFFSETS = (0, 3_600, -18_000, 19_800, -12_345, 93_599, -93_599)


def columns(drawn, count):
    """A column of moments, that of pandas, and the offsets."""
    seconds = drawn.integers(0, SPAN, count)
    seconds = numpy.where(drawn.random(count) < 0.5, drawn.choice(seconds, count), seconds)
    rows = numpy.zeros(count, ROW)
    rows["nanoseconds"] = numpy.where(drawn.random(count) < 0.5, 0, drawn.integers(0, 10**9, count))
    rows["seconds"], rows["offset_seconds"] = seconds, drawn.choice(OFFSETS, count)
    offsets, counts, is_gap = rows["offset_seconds"].copy(), seconds * 10**9 + rows["nanoseconds"], drawn.random(count) < GAPS
    rows[is_gap] = (muxandu.pandas.NO_SECOND, 0, 0)
    counts[is_gap] = numpy.iinfo("int64").min
    return pandas.Series(MomentArray(rows)), pandas.Series(counts.view("M8[ns]")).dt.tz_localize(UTC), offsets


def numbers(column):
    """The instants of a column in nanoseconds, or its numbers, with NaN for a gap."""
    values = getattr(column, "array", column)
    if isinstance(values, MomentArray):
        return values.to_numpy("datetime64[ns]").view("int64")
    dtype = str(getattr(values, "dtype", ""))
    if dtype.startswith(("datetime64", "timedelta64")):
        return pandas.Series(values).to_numpy("m8[ns]" if dtype.startswith("time") else "M8[ns]").view("int64")
    if dtype in ("boolean", "Int64", "UInt32"):
        return values.to_numpy("float64", na_value=numpy.nan)
    return numpy.asarray(values)


def are_same(ours, theirs):
    """Whether two answers are the same instants, numbers or rows. A comparison with a gap is False in pandas, and missing here."""
    if isinstance(ours, pandas.DataFrame):
        return list(ours) == list(theirs) and all(are_same(ours[name], theirs[name]) for name in ours)
    if isinstance(ours, pandas.Series) and not isinstance(ours.index, pandas.RangeIndex):
        if not are_same(ours.index, theirs.index):
            return False
    found, wanted = numbers(ours), numbers(theirs)
    if getattr(ours, "dtype", None) == "boolean":
        found = numpy.nan_to_num(found)
    if "f" in found.dtype.kind + wanted.dtype.kind:
        return numpy.array_equal(found.astype(float), wanted.astype(float), equal_nan=True)
    return numpy.array_equal(found, wanted)


def operations(count, seed=7):
    """The name of each operation, the call here, and that of pandas."""
    drawn = numpy.random.default_rng(seed)
    a, k, offsets = columns(drawn, count)
    b, m, _ = columns(drawn, count)
    n, g = (pandas.Series(drawn.integers(0, most, count)) for most in (1_000, 2_000))
    lengths = pandas.Series(drawn.integers(-(10**15), 10**15, count).view("m8[ns]"))
    half, few, some = slice(count // 2), slice(min(count, 20_000)), slice(min(count, 50_000))
    A, K = (pandas.DataFrame({"at": at, "n": n, "g": g}) for at in (a, k))
    B, L = (pandas.DataFrame({"at": at, "v": n}) for at in (b, m))
    shift = pandas.to_timedelta(offsets, unit="s")
    walls = (k + shift).dt.tz_localize(None)
    there, word = pandas.Timestamp("1990-06-05T01:02:03.000000004Z"), "1990-06-05T02:02:03.000000004+01:00"
    here, hour = muxandu.OffsetDateTime.from_rfc3339(word), pandas.Timedelta("90min")
    known, shares = a.notna(), [0, 0.25, 0.5, 0.9, 1]

    def back(at):
        return (at - shift[: len(at)]).dt.tz_localize(UTC)

    def both(name, call):
        return name, lambda: call(a, A, b, B, here), lambda: call(k, K, m, L, there)

    return (
        both("`<` of two columns", lambda at, _a, other, _b, _v: at < other),
        both("`>=` of a value", lambda at, _a, _o, _b, value: at >= value),
        both("`==` of two columns", lambda at, _a, other, _b, _v: at == other),
        both("plus a length", lambda at, _a, _o, _b, _v: at + hour),
        both("plus a column of lengths", lambda at, _a, _o, _b, _v: at + lengths),
        both("less a column of lengths", lambda at, _a, _o, _b, _v: at - lengths),
        both("less another column", lambda at, _a, other, _b, _v: at - other),
        both("less a value", lambda at, _a, _o, _b, value: at - value),
        ("the year", lambda: a.moment.year, lambda: walls.dt.year),
        ("the month", lambda: a.moment.month, lambda: walls.dt.month),
        ("the hour", lambda: a.moment.hour, lambda: walls.dt.hour),
        ("the nanosecond", lambda: a.moment.nanosecond, lambda: walls.dt.microsecond * 1_000 + walls.dt.nanosecond),
        ("ISO weeks", lambda: a.moment.isocalendar(), lambda: walls.dt.isocalendar()),
        ("rounded down to the hour", lambda: a.moment.floor("hour"), lambda: back(walls.dt.floor("H"))),
        ("rounded down to the day", lambda: a.moment.floor("day"), lambda: back(walls.dt.floor("D"))),
        ("rounded down to the millisecond", lambda: a.moment.floor("millisecond"), lambda: back(walls.dt.floor("ms"))),
        both("sorted", lambda at, _a, _o, _b, _v: at.sort_values(kind="stable").reset_index(drop=True)),
        both("the order", lambda at, _a, _o, _b, _v: at[known].argsort(kind="stable")),
        both("sorted, the last first", lambda at, _a, _o, _b, _v: at.sort_values(ascending=False).reset_index(drop=True)),
        both("a table sorted", lambda _a, table, _o, _b, _v: table.sort_values(["at", "n"], kind="stable").index),
        both("`unique`", lambda at, _a, _o, _b, _v: at.unique()),
        both("`nunique`", lambda at, _a, _o, _b, _v: numpy.array([at.nunique()])),
        both("`factorize`", lambda at, _a, _o, _b, _v: pandas.factorize(at)[0]),
        both("`factorize`, sorted", lambda at, _a, _o, _b, _v: pandas.factorize(at, sort=True)[0]),
        both("`value_counts`", lambda at, _a, _o, _b, _v: at.value_counts().sort_index()),
        both("`duplicated`", lambda at, _a, _o, _b, _v: at.duplicated()),
        both("`drop_duplicates`", lambda at, _a, _o, _b, _v: at.drop_duplicates(keep="last")),
        ("the ends", lambda: pandas.array([a.min(), a.max()], dtype="moment"), lambda: pandas.array([k.min(), k.max()])),
        both("the places of the ends", lambda at, _a, _o, _b, _v: numpy.array([at.idxmin(), at.idxmax()])),
        both("quantiles", lambda at, _a, _o, _b, _v: at.quantile(shares, interpolation="lower")),
        both("`rank`", lambda at, _a, _o, _b, _v: at.rank()),
        both("`rank`, the last first", lambda at, _a, _o, _b, _v: at.rank(method="min", ascending=False)),
        both("sums by instants", lambda _a, table, _o, _b, _v: table.groupby("at")["n"].sum()),
        both("the least of groups", lambda _a, table, _o, _b, _v: table.groupby("g")["at"].min()),
        both("the greatest of groups", lambda _a, table, _o, _b, _v: table.groupby("g")["at"].max()),
        both("the first of groups", lambda _a, table, _o, _b, _v: table.groupby("g")["at"].first()),
        both("the last of groups", lambda _a, table, _o, _b, _v: table.groupby("g")["at"].last()),
        both("the greatest of its group", lambda _a, table, _o, _b, _v: table.groupby("g")["at"].transform("max")),
        both("the row before in its group", lambda _a, table, _o, _b, _v: table.groupby("g")["at"].shift()),
        both("`nunique` of groups", lambda _a, table, _o, _b, _v: table.groupby("g")["at"].nunique()),
        both("groups filled", lambda _a, table, _o, _b, _v: table.groupby("g")["at"].ffill()),
        both("`merge`, inner", lambda _a, one, _o, _b, _v: one.dropna().drop_duplicates("at").merge(one.dropna(), on="at")),
        both(
            "`merge`, left", lambda _a, one, _o, two, _v: one.drop_duplicates("at").merge(two.drop_duplicates("at"), "left", "at")
        ),
        both("`isin`", lambda at, _a, _o, _b, _v: at.isin(at.iloc[::7])),
        both("`fillna`", lambda at, _a, _o, _b, value: at.fillna(value)),
        both("`ffill` of one", lambda at, _a, _o, _b, _v: at.ffill(limit=1)),
        both("`bfill`", lambda at, _a, _o, _b, _v: at.bfill()),
        both("`shift`", lambda at, _a, _o, _b, _v: at.shift(3)),
        both("`diff`", lambda at, _a, _o, _b, _v: at.iloc[half].diff()),
        both("`where`", lambda at, _a, _o, _b, _v: at.where(n > 500)),
        both("`clip`", lambda at, _a, _o, _b, value: at.clip(lower=value)),
        both(
            "`searchsorted`", lambda at, _a, other, _b, _v: at.dropna().sort_values().searchsorted(other.dropna().array[:1_000])
        ),
        both(
            "an index, sorted and sliced",
            lambda _a, table, _o, _b, value: table.dropna().set_index("at").sort_index(kind="stable").loc[value:]["n"],
        ),
        both("`concat`", lambda at, _a, other, _b, _v: pandas.concat([at, other]).reset_index(drop=True)),
        both("`pivot_table`", lambda _a, one, _o, _b, _v: one.iloc[few].pivot_table(index="at", values="n", aggfunc="max")),
        ("as `datetime64`", lambda: a.astype("datetime64[ns]"), lambda: k.dt.tz_localize(None)),
        (
            "months later",
            lambda: a.iloc[some].moment.add_months(13),
            lambda: back(walls.iloc[some] + pandas.DateOffset(months=13)),
        ),
        both("`cumcount` of instants", lambda _a, table, _o, _b, _v: table.groupby("at").cumcount()),
        both("`mode`", lambda at, _a, _o, _b, _v: at.mode()),
    )
