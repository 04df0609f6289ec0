"""What people write of a column of instants: each call of a column of moments beside the same call of datetime64[ns, UTC].

The tables have the calls. ALIKE are those that both columns take. OWN are calls of the package, each with what pandas writes for
it. BY_CLOCKS have what clocks show, beside datetime64 without an offset that shows the same. RULED_OUT are those that pandas takes
of its own columns alone: each with the error of a column of moments, and with the call that works.
"""

import datetime
import functools
import importlib.util
import operator
import sqlite3
import unittest
import warnings
import zoneinfo

import numpy
import pandas

from muxandu import Date, Duration, OffsetDateTime, RefusedNoText, Unit
from muxandu.pandas import ROW, MomentArray, date_range, merge_asof

UTC = "datetime64[ns, UTC]"
NOON = pandas.Timestamp("2024-02-29T12:00:00Z")
OFFSETS = (0, 3_600, 19_800, -12_600, -43_200, 50_400)

# How far a mean of pandas is from the whole number of nanoseconds, whose sums are floats.
MOST_OF_FLOATS = 2_000


def seconds_near(chance, size):
    """Whole quarters of hours, some of which repeat, with and without a fraction."""
    return 1_709_164_800 + 450 * chance.integers(-400, 400, size), chance.choice([0, 1, 499_999_999, 500_000_000], size)


def seconds_far(chance, size):
    """Instants of the years 1700 to 2240."""
    return chance.integers(-8_520_336_000, 8_520_336_000, size), chance.integers(0, 10**9, size)


@functools.lru_cache(maxsize=None)
def columns(ways=(seconds_near, seconds_far)):
    """Random columns of moments, each with its instants as datetime64 in UTC, with and without gaps."""
    return tuple(made_columns(ways))


def made_columns(ways):
    for seed, size in enumerate((1, 2, 9, 60)):
        for seconds in ways:
            for share in (0, 0.2):
                chance = numpy.random.default_rng(seed)
                rows = numpy.zeros(size, ROW)
                rows["seconds"], rows["nanoseconds"] = seconds(chance, size)
                rows["offset_seconds"] = chance.choice(OFFSETS, size)
                counts = rows["seconds"] * 10**9 + rows["nanoseconds"]
                is_gap = chance.random(size) < share
                is_gap[0] = False
                at = pandas.Series(MomentArray(rows), name="at").mask(is_gap)
                instants = pandas.Series(counts.view("M8[ns]"), name="at").mask(is_gap).dt.tz_localize("UTC")
                yield at, instants


def frame(at):
    return pandas.DataFrame({"at": at, "n": numpy.arange(len(at)), "g": numpy.arange(len(at)) % 3})


def in_order(at):
    return frame(at).dropna().sort_values("at", kind="stable")


def once(at):
    """Numbers by each instant, in their order."""
    return frame(at).dropna().drop_duplicates("at").set_index("at")["n"].sort_index()


def plain(item):
    """A result without types: an instant and a length in nanoseconds, a gap as None, and a table by its columns."""
    if isinstance(item, pandas.DataFrame):
        return [plain(item.index), [[str(name), plain(item[name])] for name in item]]
    if isinstance(item, pandas.Series):
        return [plain(item.index), plain(list(item))]
    if isinstance(item, dict):
        return [[plain(key), plain(value)] for key, value in item.items()]
    if isinstance(item, (list, tuple, numpy.ndarray, pandas.Index, pandas.api.extensions.ExtensionArray)):
        return [plain(one) for one in item]
    if isinstance(item, pandas.Interval):
        return [plain(item.left), plain(item.right)]
    if isinstance(item, OffsetDateTime):
        return item.to_timestamp().as_nanoseconds()
    if isinstance(item, Date):
        return item.to_date()
    if item is None or item is pandas.NA or item is pandas.NaT or item != item:
        return None
    if isinstance(item, (pandas.Timestamp, pandas.Timedelta)):
        return item.value
    if isinstance(item, (numpy.datetime64, numpy.timedelta64)):
        return plain(pandas.Series([item])[0])
    return item.item() if isinstance(item, numpy.generic) else item


def is_near(found, wanted):
    """Whether two results differ in nothing but the nanoseconds that floats lack."""
    if isinstance(found, list) and isinstance(wanted, list):
        return len(found) == len(wanted) and all(map(is_near, found, wanted))
    if isinstance(found, int) and isinstance(wanted, int):
        return abs(found - wanted) <= MOST_OF_FLOATS
    return found == wanted


ALIKE = {
    "the ends": lambda at: [at.min(), at.max()],
    "the ends of an index": lambda at: [pandas.Index(at).min(), pandas.Index(at).max()],
    "the ends by name": lambda at: at.agg(["min", "max"]),
    "the ends of a table": lambda at: frame(at)[["at"]].agg(["min", "max"]),
    "cummax": lambda at: at.cummax(),
    "cummin": lambda at: at.cummin(),
    "cummax of a table": lambda at: frame(at)[["at", "n"]].cummax(),
    "rank": lambda at: at.rank(),
    "idxmin": lambda at: at.dropna().idxmin() if at.notna().any() else None,
    "the order of rows": lambda at: frame(at).sort_values(["at", "n"]),
    "groupby first": lambda at: frame(at).groupby("g")["at"].first(),
    "groupby last": lambda at: frame(at).groupby("g")["at"].last(),
    "groupby min": lambda at: frame(at).groupby("g")["at"].min(),
    "groupby max": lambda at: frame(at).groupby("g")["at"].max(),
    "groupby first of two": lambda at: frame(at).groupby("g")["at"].first(min_count=2),
    "groupby max of two": lambda at: frame(at).groupby("g")["at"].max(min_count=2),
    "groupby of keys with a gap": lambda at: frame(at).assign(g=frame(at)["g"].replace(1, numpy.nan)).groupby("g")["at"].min(),
    "groupby rank": lambda at: frame(at).groupby("g")["at"].rank(),
    "groupby rank from the last": lambda at: frame(at).groupby("g")["at"].rank(method="min", ascending=False, na_option="top"),
    "groupby cummax": lambda at: frame(at).groupby("g")["at"].cummax(),
    "groupby cummin": lambda at: frame(at).groupby("g")["at"].cummin(),
    "groupby nunique": lambda at: frame(at).groupby("g")["at"].nunique(),
    "groupby agg": lambda at: frame(at).groupby("g").agg(first=("at", "min"), last=("at", "max"), n=("n", "sum")),
    "groupby diff": lambda at: frame(at).groupby("g")["at"].diff(),
    "groupby shift": lambda at: frame(at).groupby("g")["at"].shift(),
    "groupby transform": lambda at: frame(at).groupby("g")["at"].transform("min"),
    "groupby length": lambda at: frame(at).groupby("g")["at"].max() - frame(at).groupby("g")["at"].min(),
    "less a Timestamp": lambda at: at - NOON,
    "a Timestamp less it": lambda at: NOON - at,
    "less a datetime": lambda at: at - NOON.to_pydatetime(),
    "a datetime less it": lambda at: NOON.to_pydatetime() - at,
    "less a column of datetime64": lambda at: at - at.astype(UTC).shift(),
    "a column of datetime64 less it": lambda at: at.astype(UTC).shift() - at,
    "less an index of datetime64": lambda at: at - pandas.DatetimeIndex(at.astype(UTC)[::-1]),
    "less the row before": lambda at: at.diff(),
    "an hour later": lambda at: at + pandas.offsets.Hour(1),
    "two days before": lambda at: at - pandas.offsets.Day(2),
    "a Timedelta later": lambda at: pandas.Timedelta("90min") + at,
    "months later": lambda at: utc_of(at) + pandas.DateOffset(months=1),
    "months and days before": lambda at: utc_of(at) - pandas.DateOffset(years=1, months=1, weeks=1, days=2, hours=3),
    "two DateOffset": lambda at: utc_of(at) + 2 * pandas.DateOffset(months=1, minutes=1),
    "a DateOffset of a day": lambda at: utc_of(at) + pandas.DateOffset(),
    "query": lambda at: frame(at).dropna().query("at > @NOON")["n"],
    "between": lambda at: at.dropna().between(NOON - pandas.Timedelta("1d"), NOON),
    "clip": lambda at: at.clip(lower=NOON),
    "as instants": lambda at: at.astype(UTC),
    "as instants of a zone": lambda at: at.astype("datetime64[ns, Europe/Paris]").dt.hour,
    "as instants without a zone": lambda at: at.astype("datetime64[ns]"),
    "as an array of instants": lambda at: at.to_numpy("datetime64[ns]"),
    "as a category": lambda at: at.astype("category").cat.codes,
    "pivot_table": lambda at: frame(at).dropna().pivot_table(index="at", columns="g", values="n"),
    "merge": lambda at: frame(at).dropna().merge(frame(at).dropna()[::-1], on="at", sort=True),
    "value_counts": lambda at: at.value_counts().sort_index(),
    "mode": lambda at: at.mode(),
    "mode with gaps": lambda at: at.mode(dropna=False),
    "duplicated": lambda at: [at.duplicated(keep) for keep in ("first", "last", False)],
    "duplicated of an index": lambda at: pandas.Index(at).duplicated("last"),
    "drop_duplicates": lambda at: at.drop_duplicates(keep="last"),
    "factorize": lambda at: [*pandas.factorize(at), *pandas.factorize(at, sort=True)],
    "the places of the ends": lambda at: [at.argmin(), at.argmax(), at.idxmin(), at.idxmax()],
    "filled from the row before": lambda at: [at.ffill(), at.ffill(limit=1), at.bfill(), at.bfill(limit=2)],
    "shift": lambda at: [at.shift(2), at.shift(-1), at.shift(1, fill_value=NOON)],
    "where": lambda at: at.where(numpy.arange(len(at)) % 2 == 0),
    "a key of each row": lambda at: [frame(at).dropna().set_index("at")["n"].sort_index().loc[key] for key in at.dropna()],
    "quantiles that are rows": lambda at: [
        at.dropna().quantile(share, interpolation=way) for share in (0, 0.3, 0.5, 1) for way in ("lower", "higher", "nearest")
    ],
    "ranks as shares": lambda at: [at.rank(pct=True), at.rank(method="dense", na_option="bottom")],
    "the order with gaps first": lambda at: at.sort_values(na_position="first", kind="stable"),
    "the order in groups": lambda at: frame(at).sort_values(["g", "at"], ascending=[True, False], kind="stable")["n"],
    "groups with a gap": lambda at: frame(at).groupby("at", dropna=False)["n"].sum(),
    "groups of two keys": lambda at: frame(at).groupby(["at", "g"], sort=False)["n"].sum(),
    "rows of groups": lambda at: [getattr(frame(at).groupby("g")["at"], way)(1) for way in ("head", "tail", "nth")],
    "numbers of groups": lambda at: [frame(at).groupby("at").ngroup(), frame(at).groupby("at").cumcount()],
    "groups filled": lambda at: [frame(at).groupby("g")["at"].bfill(), frame(at).groupby("g")["at"].ffill(limit=1)],
    "merge with its side": lambda at: frame(at)
    .merge(frame(at)[::2], "outer", "at", indicator=True, sort=True)["_merge"]
    .astype(str),
    "merge_ordered": lambda at: pandas.merge_ordered(frame(at).dropna(), frame(at).dropna()[::2], on="at", fill_method="ffill"),
    "sums by an index": lambda at: once(at) + once(at[::2]),
    "unstack": lambda at: frame(at).dropna().drop_duplicates("at").set_index(["g", "at"])["n"].unstack().to_numpy(),
    "sets of an index": lambda at: [
        getattr(once(at).index, way)(once(at[::2]).index) for way in ("union", "difference", "symmetric_difference")
    ],
    "places in an index": lambda at: [once(at).index.get_indexer(at[::2].dropna()), once(at).index.get_indexer([NOON])],
    "an index changed": lambda at: [
        pandas.Index(at).insert(0, NOON),
        pandas.Index(at).delete(0),
        pandas.Index(at).where(numpy.arange(len(at)) % 2 == 0, NOON),
        pandas.Index(at).repeat(2),
    ],
    "order of an index": lambda at: [
        pandas.Index(at.dropna()).is_monotonic_decreasing,
        pandas.Index(at.dropna().sort_values()).is_monotonic_increasing,
        pandas.Index(at).is_unique,
        pandas.Index(at).hasnans,
    ],
    "rows that are set": lambda at: [at.mask(at.isna(), NOON), at.combine_first(at.shift()), at.reindex([0, 1, 99])],
    "clip on both sides": lambda at: at.clip(NOON - pandas.Timedelta("1d"), NOON),
    "values by a table": lambda at: at.map({item: place for place, item in enumerate(at.dropna().unique())}),
    "slices": lambda at: [in_order(at).set_index("at")["n"].loc[NOON:], in_order(at).set_index("at")["n"].loc[: at.max()]],
}

# Those that are exact for moments, and sums of floats in pandas. The median of groups has no gaps: pandas 1.5 counts NaT in it.
NEAR = {
    "quantile": lambda at: at.quantile([0, 0.1, 0.25, 0.5, 1]),
    "median": lambda at: at.median(),
    "mean": lambda at: at.mean(),
    "std": lambda at: at.std(),
    "groupby mean": lambda at: frame(at).groupby("g")["at"].mean(),
    "groupby median": lambda at: frame(at).dropna().groupby("g")["at"].median(),
}

# A call of the package, and that of pandas.
OWN = {
    "describe": (lambda at: at.moment.describe(), lambda at: at.describe(datetime_is_numeric=True)),
    "counts by steps": (
        lambda at: steps_of(at, "15min").size(),
        lambda at: frame(at).dropna().resample("15min", on="at")["n"].size().pipe(lambda all: all[all > 0]),
    ),
    "sums by groups and steps": (
        lambda at: frame(at).assign(at=utc_of(at).moment.floor("6h")).groupby(["at", "g"])["n"].sum(),
        lambda at: frame(at).groupby([pandas.Grouper(key="at", freq="6h"), "g"])["n"].sum(),
    ),
    "quantiles of groups": (
        lambda at: frame(at).dropna().groupby("g")["at"].apply(lambda group: group.quantile(0.25)).astype("moment"),
        lambda at: frame(at.dt.tz_localize(None)).dropna().groupby("g")["at"].quantile(0.25),
    ),
    "the greatest": (lambda at: at.sort_values(ascending=False, kind="stable").dropna().head(5), lambda at: at.nlargest(5)),
    "the least": (lambda at: at.sort_values(kind="stable").dropna().head(5), lambda at: at.nsmallest(5)),
    "the hours of a zone": (
        lambda at: at.moment.to_zone("America/New_York").moment.hour,
        lambda at: at.dt.tz_convert(zoneinfo.ZoneInfo("America/New_York")).dt.hour,
    ),
    "the year of an index": (lambda at: pandas.Index(utc_of(at)).moment.year, lambda at: pandas.Index(at).year),
    "the ISO week of an index": (
        lambda at: pandas.Index(utc_of(at)).moment.isocalendar(),
        lambda at: pandas.Index(at).isocalendar().reset_index(drop=True).set_index(pandas.Index(at)),
    ),
}

# Of the moments, and of datetime64 that shows what their clocks show. A result of moments is compared as clocks show it.
BY_CLOCKS = {
    **{
        name: (operator.attrgetter(f"moment.{name}"), operator.attrgetter(f"dt.{name}"))
        for name in (
            *("weekday", "dayofweek", "day_of_week", "dayofyear", "day_of_year", "quarter", "days_in_month", "daysinmonth"),
            *("is_leap_year", "is_month_start", "is_month_end", "is_quarter_start", "is_quarter_end", "is_year_start"),
            *("is_year_end", "date", "year", "month", "day", "hour", "minute", "second"),
        )
    },
    **{
        f"{way} {step}": (operator.methodcaller(way, step), operator.methodcaller(way, step))
        for way in ("floor", "ceil", "round")
        for step in (
            "15min",
            "90min",
            "10s",
            "6H",
            "1D",
            "T",
            "500ms",
            "us",
            pandas.Timedelta(hours=8),
            datetime.timedelta(minutes=5),
        )
    },
    **{
        f"floor to a {step}": (operator.methodcaller("floor", step), lambda at, freq=freq: at.dt.to_period(freq).dt.start_time)
        for step, freq in (("week", "W"), ("month", "M"), ("quarter", "Q"), ("year", "Y"))
    },
    **{
        f"ceil to a {step}": (
            operator.methodcaller("ceil", step),
            lambda at, freq=freq: at.where(at == at.dt.to_period(freq).dt.start_time, (at.dt.to_period(freq) + 1).dt.start_time),
        )
        for step, freq in (("week", "W"), ("month", "M"), ("quarter", "Q"), ("year", "Y"))
    },
    "strftime": (
        lambda at: at.moment.strftime("%d/%b/%Y:%H:%M:%S.%f %j %a %p"),
        lambda at: at.dt.strftime("%d/%b/%Y:%H:%M:%S.%f %j %a %p"),
    ),
    "format": (lambda at: at.moment.format("[weekday] [day].[month].[year]"), lambda at: at.dt.strftime("%A %d.%m.%Y")),
    "day_name": (lambda at: at.moment.day_name(), lambda at: at.dt.day_name()),
    "month_name": (lambda at: at.moment.month_name(), lambda at: at.dt.month_name()),
}

# A call that pandas has of its own columns alone: its error of a column of moments, and the call that works.
RULED_OUT = {
    "resample": (
        lambda at: frame(at).resample("1h", on="at")["n"].sum(),
        "Only valid with DatetimeIndex",
        lambda at: frame(at).astype({"at": UTC}).resample("1h", on="at")["n"].sum(),
    ),
    "Grouper": (
        lambda at: frame(at).groupby(pandas.Grouper(key="at", freq="1h"))["n"].sum(),
        "Only valid with DatetimeIndex",
        lambda at: frame(at).astype({"at": UTC}).groupby(pandas.Grouper(key="at", freq="1h"))["n"].sum(),
    ),
    "rolling": (
        lambda at: in_order(at).rolling("1h", on="at")["n"].sum(),
        "window must be an integer",
        lambda at: in_order(at).astype({"at": UTC}).rolling("1h", on="at")["n"].sum(),
    ),
    "merge_asof": (
        lambda at: pandas.merge_asof(in_order(at), in_order(at)[::2], on="at"),
        "ambiguous argument types|No matching signature",
        lambda at: merge_asof(in_order(at), in_order(at)[::2], on="at"),
    ),
    "nlargest": (
        lambda at: at.dropna().nlargest(3),
        "Cannot use method 'nlargest'",
        lambda at: at.dropna().sort_values(ascending=False, kind="stable").head(3),
    ),
    "nsmallest of a table": (
        lambda at: frame(at).dropna().nsmallest(3, "at"),
        "cannot use method 'nsmallest'",
        lambda at: frame(at).dropna().sort_values("at", kind="stable").head(3),
    ),
    "cut": (lambda at: pandas.cut(at, 4), "", lambda at: pandas.cut(at.astype(UTC), 4)),
    "qcut": (lambda at: pandas.qcut(at, 2), "", lambda at: pandas.qcut(at.astype(UTC), 2)),
    "to_datetime": (lambda at: pandas.to_datetime(at), "not convertible to datetime", lambda at: at.astype(UTC)),
    "between_time": (
        lambda at: frame(at).set_index("at").between_time("08:00", "12:00"),
        "Index must be DatetimeIndex",
        lambda at: frame(at).astype({"at": UTC}).set_index("at").between_time("08:00", "12:00"),
    ),
}


# Those that have a row for each step from the first instant to the last, which are millions over years.
OF_EACH_STEP = {"counts by steps", "sums by groups and steps", "resample", "Grouper"}


def utc_of(at):
    """The column at the clocks of UTC, which those of datetime64 are."""
    return at.moment.to_utc() if at.dtype == "moment" else at


def steps_of(at, step):
    """The rows of a table by steps, of which each has one at least."""
    return frame(at).groupby(utc_of(at).moment.floor(step))["n"]


def walls_of(at, instants):
    """What clocks show, as datetime64 without an offset."""
    offsets = at.moment.offset_seconds.fillna(0).to_numpy("int64").astype("m8[s]")
    return instants.dt.tz_localize(None) + offsets


class Calls(unittest.TestCase):
    """Each call of the tables, over random columns."""

    def answers(self, name, calls, columns):
        """Both answers, without types."""
        with warnings.catch_warnings():
            warnings.simplefilter("ignore")
            try:
                wanted = plain(calls[1](columns[1]))
            except (TypeError, ValueError, OverflowError, KeyError):
                # pandas has no answer, such as qcut of one instant.
                self.left_out[name] = self.left_out.get(name, 0) + 1
                return None, None
            return plain(calls[0](columns[0])), wanted

    def compare(self, table, is_same=operator.eq):
        self.left_out = {}
        for name, calls in table.items():
            with self.subTest(name):
                for both in columns(*[(seconds_near,)] if name in OF_EACH_STEP else ()):
                    found, wanted = self.answers(name, calls if isinstance(calls, tuple) else (calls, calls), both)
                    self.assertTrue(is_same(found, wanted), f"{name}: {str(found)[:400]} is not {str(wanted)[:400]}")
        for name, count in self.left_out.items():
            self.assertLess(count, 12, f"pandas has no answer to {name} for most columns")

    def test_alike(self):
        self.compare(ALIKE)

    def test_near(self):
        self.compare(NEAR, is_near)

    def test_own(self):
        near = ("describe", "quantiles of groups")
        self.compare({name: calls for name, calls in OWN.items() if name not in near})
        self.compare({name: OWN[name] for name in near}, is_near)

    def test_by_clocks(self):
        for name, (call, wanted_call) in BY_CLOCKS.items():
            with self.subTest(name):
                for at, instants in columns():
                    walls = walls_of(at, instants)
                    is_way = isinstance(call, operator.methodcaller)
                    found = call(at.moment if is_way else at)
                    if is_way:
                        self.assertTrue((found.moment.offset_seconds == at.moment.offset_seconds).all())
                        found = walls_of(found, found.astype(UTC))
                    wanted = wanted_call(walls if "to a" in name or not is_way else walls.dt)
                    known = [place for place, item in enumerate(at.isna()) if not item]
                    self.assertEqual(found.isna().tolist(), at.isna().tolist())
                    self.assertEqual(*(plain(list(one.iloc[known])) for one in (found, wanted)), name)

    def test_ruled_out(self):
        """What pandas refuses of a column of moments, and what works in its place."""
        for name, (call, error, _) in RULED_OUT.items():
            at = list(columns())[6][0].dropna()
            with self.assertRaisesRegex((TypeError, ValueError, AttributeError), error, msg=name):
                call(at)
        self.compare({name: (works, call) for name, (call, _, works) in RULED_OUT.items()})


class Steps(unittest.TestCase):
    def test_other_steps(self):
        at = pandas.Series(["2024-02-29T13:47:11.5+01:00", None]).astype("moment")
        for step in ("hour", "1h", "H", Unit.HOUR, Duration(3_600), pandas.Timedelta("1h"), pandas.offsets.Hour()):
            for way, text in (("floor", "13:00:00"), ("ceil", "14:00:00"), ("round", "14:00:00")):
                found = getattr(at.moment, way)(step).moment.to_rfc3339().tolist()
                self.assertEqual(found, [f"2024-02-29T{text}+01:00", pandas.NA], (way, step))
        for step in ("7h", "2D", Duration(7), pandas.Timedelta("1w")):
            with self.assertRaisesRegex(ValueError, "a step must divide a day, as 15min and 6h do, and "):
                at.moment.floor(step)
        for step in ("fortnight", "M", "W", "-1h", "0s", "", None, 1.5, Duration(-1)):
            with self.assertRaisesRegex(ValueError, "a step is one of day, hour, .*, week, month, quarter, year, or a length"):
                at.moment.ceil(step)
        with self.assertRaisesRegex(ValueError, "have no nearest one: use floor or ceil to a month"):
            at.moment.round("month")

    def test_the_middle_of_two_steps(self):
        """Of which a day has an odd number, so that the even one changes from day to day."""
        for step, hours in (("1D", (12,)), ("8h", (4, 12, 20))):
            walls = [pandas.Timestamp(1969, 12, day, hour) for day in range(28, 32) for hour in hours]
            for offset in (0, 19_800):
                moments = [OffsetDateTime(wall.year, wall.month, wall.day, wall.hour, offset_seconds=offset) for wall in walls]
                found = pandas.Series(moments, dtype="moment").moment.round(step)
                wanted = [wall.round(step) - pandas.Timedelta(offset, "s") for wall in walls]
                self.assertEqual(plain(found.tolist()), plain(wanted))

    def test_far_years(self):
        """Steps of each year of the library, at the clocks of each row."""
        at = pandas.Series(
            [OffsetDateTime(-999_999, 5, 17, 13, 5, offset_seconds=-3_600), OffsetDateTime(12_024, 12, 31, 23, 59)]
        )
        at = at.astype("moment").moment
        for step, shown in (
            ("10min", ["-999999-05-17 13:00:00.0", "+12024-12-31 23:50:00.0"]),
            ("week", ["-999999-05-17 0:00:00.0", "+12024-12-30 0:00:00.0"]),
            ("month", ["-999999-05-01 0:00:00.0", "+12024-12-01 0:00:00.0"]),
            ("quarter", ["-999999-04-01 0:00:00.0", "+12024-10-01 0:00:00.0"]),
            ("year", ["-999999-01-01 0:00:00.0", "+12024-01-01 0:00:00.0"]),
        ):
            found = at.floor(step)
            if step != "week":
                self.assertEqual([str(item).rpartition(" ")[0] for item in found], shown)
            self.assertEqual(found.moment.weekday.tolist() if step == "week" else [0, 0], [0, 0])
        self.assertEqual([str(item).partition(" ")[0] for item in at.ceil("year")], ["-999998-01-01", "+12025-01-01"])

    def test_ranges(self):
        """Beside those of pandas, at each kind of step."""
        first, last = pandas.Timestamp("2024-02-01T00:00:00Z"), pandas.Timestamp("2025-03-05T06:00:00Z")
        for step, freq in (
            ("6h", "6h"),
            ("day", "D"),
            ("1D", "D"),
            ("week", "7D"),
            ("month", "MS"),
            ("90min", "90min"),
            ("2D", "2D"),
        ):
            wanted = pandas.date_range(first, last, freq=freq)
            self.assertEqual(plain(date_range(first, last, freq=step)), plain(wanted))
            self.assertEqual(plain(date_range(first, periods=5, freq=step)), plain(wanted[:5]))
        self.assertEqual(plain(date_range(first, last, freq="quarter")), plain(pandas.date_range(first, last, freq="3MS")[:5]))
        self.assertEqual(len(date_range(first, last, freq="year")), 2)
        self.assertEqual(len(date_range(last, first)), 0)
        self.assertEqual(len(date_range(last, first, freq="month")), 0)
        self.assertEqual(len(date_range(first, first, freq="month")), 1)
        found = date_range("2024-01-31T00:00:00.5+05:30", periods=3, freq="month")
        self.assertEqual([item.to_rfc3339()[:10] for item in found], ["2024-01-31", "2024-02-29", "2024-03-31"])
        self.assertEqual([item.offset_seconds for item in found], [19_800] * 3)
        self.assertEqual(len(date_range("0001-01-01T00:00:00Z", "0999-01-01T00:00:00Z", freq="year")), 999)
        for words in ({}, {"end": last, "periods": 2}):
            self.assertRaisesRegex(TypeError, "needs an end or a number of periods", date_range, first, **words)
        with self.assertRaisesRegex(OverflowError, "have no timedelta64"):
            date_range("2024-01-01T00:00:00Z", "9999-01-01T00:00:00Z", freq="1ns")

    def test_counts_of_each_step(self):
        """The steps of a log with those that have no line, as `resample` counts them."""
        for at, instants in columns((seconds_near,)):
            at, instants = at.dropna(), instants.dropna()
            steps = at.moment.to_utc().moment.floor("15min")
            every = date_range(steps.min(), steps.max(), freq="15min")
            found = frame(at).groupby(steps)["n"].sum().reindex(every, fill_value=0)
            self.assertEqual(plain(found), plain(frame(instants).resample("15min", on="at")["n"].sum()))


class MergeAsof(unittest.TestCase):
    def test_beside_pandas(self):
        for at, instants in columns():
            for words in (
                {},
                {"direction": "forward"},
                {"direction": "nearest"},
                {"allow_exact_matches": False},
                {"tolerance": pandas.Timedelta("10min")},
                {"by": "g"},
                {"suffixes": ("_left", "_right")},
            ):
                (left, right), (one, other) = ([in_order(column), in_order(column)[::3]] for column in (at, instants))
                found, wanted = merge_asof(left, right, on="at", **words), pandas.merge_asof(one, other, on="at", **words)
                self.assertEqual(plain(found), plain(wanted), words)
                names = {"left_on": "at", "right_on": "then"}
                found = merge_asof(left, right.rename(columns={"at": "then"}), **names, **words)
                wanted = pandas.merge_asof(one, other.rename(columns={"at": "then"}), **names, **words)
                self.assertEqual(plain(found), plain(wanted), words)
                self.assertEqual(found.dtypes["then"], "moment")

    def test_far_years(self):
        at = pandas.Series(["0001-01-01T00:00:00Z", "2024-01-01T00:00:00Z", "9999-01-01T00:00:00Z"]).astype("moment")
        left, right = pandas.DataFrame({"at": at, "n": [1, 2, 3]}), pandas.DataFrame({"at": at[1:], "m": [5, 6]})
        self.assertEqual(plain(merge_asof(left, right, on="at")["m"].tolist()), [None, 5, 6])
        with self.assertRaisesRegex(OverflowError, "a tolerance needs moments of the years 1678 to 2261"):
            merge_asof(left, right, on="at", tolerance=Duration(1))

    def test_refused(self):
        left = frame(pandas.Series(["2024-01-01T00:00:00Z", None]).astype("moment"))
        with self.assertRaisesRegex(ValueError, "the column of moments of the left table has a gap: drop it"):
            merge_asof(left, left.dropna(), on="at")
        with self.assertRaisesRegex(ValueError, "right table has a gap"):
            merge_asof(left.dropna(), left, on="at")
        with self.assertRaisesRegex(ValueError, "left keys must be sorted"):
            merge_asof(left.assign(at=["2024-01-02T00:00:00Z", "2024-01-01T00:00:00Z"]), left.dropna(), on="at")
        for words in ({}, {"left_on": "at"}, {"on": "at", "left_on": "at"}):
            self.assertRaisesRegex(TypeError, "needs the name of a column of moments", merge_asof, left, left, **words)


class Others(unittest.TestCase):
    def setUp(self):
        self.at = pandas.Series(["2024-02-29T13:47:11.5+01:00", None, "2024-02-28T00:00:00Z"]).astype("moment")

    def test_texts(self):
        """A column as texts has those that it shows."""
        texts = self.at.moment.to_rfc3339().tolist()
        self.assertEqual(self.at.astype(str).tolist(), [texts[0], "<NA>", texts[2]])
        self.assertEqual(self.at.astype("string").tolist(), texts)
        self.assertEqual(self.at.astype("string").dtype, "string")
        self.assertIn(texts[0], repr(self.at))
        far = pandas.Series([OffsetDateTime(-5, 1, 1), None]).astype("moment")
        self.assertEqual(far.astype(str).tolist(), [str(far[0]), "<NA>"])
        self.assertTrue(far.astype("string").astype("moment").equals(far))

    def test_patterns_of_columns(self):
        self.assertEqual(self.at.moment.strftime("%H:%M %z").tolist(), ["13:47 +0100", pandas.NA, "00:00 +0000"])
        odd = pandas.Series([None, OffsetDateTime(2024, 1, 1, offset_seconds=1)], dtype="moment").moment
        with self.assertRaisesRegex(ValueError, "%z has no seconds: the offset 1 s"):
            odd.strftime("%z")
        self.assertRaisesRegex(ValueError, "no description says %Q", self.at.moment.strftime, "%Q")
        with self.assertRaises(RefusedNoText) as caught:
            pandas.Series([None, OffsetDateTime(2024, 1, 1), OffsetDateTime(10_000, 1, 1)], dtype="moment").moment.format(
                "-" * 60 + "[year]"
            )
        self.assertEqual(caught.exception.count, 2)

    def test_other_offsets_of_pandas(self):
        for offset in (pandas.offsets.MonthEnd(), pandas.offsets.BDay(), pandas.DateOffset(day=1), pandas.DateOffset(weekday=0)):
            for call in (operator.add, operator.sub):
                self.assertRaisesRegex(
                    TypeError, "a column of moments takes lengths, and DateOffset of years", call, self.at, offset
                )

    def test_ends_that_gaps_break(self):
        """With skipna=False a gap is the end of the rows after it; an infinite number is no moment, but where pandas marks gaps."""
        self.assertEqual(self.at.cummax(skipna=False).isna().tolist(), [False, True, True])
        self.assertEqual(self.at.cummin().isna().tolist(), [False, True, False])
        for rows in ([0], self.at.notna()):
            with self.assertRaises(TypeError):
                self.at.array[rows] = float("inf")
        self.assertIs(self.at.mean(skipna=False), pandas.NA)
        self.assertIs(self.at[1:2].median(), pandas.NA)
        self.assertIs(self.at[1:2].std(), pandas.NaT)
        self.assertRaisesRegex(TypeError, "has no sum", self.at.sum)

    def test_rows_that_are_added(self):
        """pandas makes objects of a column in which a row is put by a new label, and keeps what it puts together."""
        table, at = pandas.DataFrame({"at": self.at, "n": 1}), OffsetDateTime(2024, 1, 1)
        more = pandas.DataFrame({"at": [at], "n": [2]}, index=[9]).astype({"at": "moment"})
        self.assertEqual(pandas.concat([table, more]).dtypes["at"], "moment")
        table.loc[9] = [at, 2]
        self.assertEqual(table.dtypes["at"], object)
        self.assertTrue(table.astype({"at": "moment"}).equals(pandas.concat([table[:3], more]).astype({"at": "moment"})))

    def test_to_sql(self):
        """The texts of a column go into SQLite, and come back, with no adapter."""
        connection = sqlite3.connect(":memory:")
        pandas.DataFrame({"at": self.at}).to_sql("log", connection, index=False)
        read = pandas.read_sql("SELECT at FROM log", connection)
        self.assertTrue(read["at"].astype("moment").equals(self.at))
        connection.close()


@unittest.skipUnless(importlib.util.find_spec("matplotlib"), "matplotlib is not installed")
class Plots(unittest.TestCase):
    def setUp(self):
        import matplotlib

        with warnings.catch_warnings():
            warnings.simplefilter("ignore")
            matplotlib.use("Agg")
            import muxandu.matplotlib  # noqa: F401
            from matplotlib import pyplot
        self.pyplot = pyplot
        self.addCleanup(pyplot.close, "all")

    def days(self, draw):
        """What an axis has."""
        self.pyplot.close("all")
        draw()
        axes = self.pyplot.gca()
        self.pyplot.gcf().canvas.draw()
        shown = [line.get_xdata(orig=False).tolist() for line in axes.lines]
        return (
            shown,
            [(box.get_x(), box.get_height()) for box in axes.patches],
            [text.get_text() for text in axes.get_xticklabels()],
        )

    def test_beside_datetime64(self):
        for at, instants in list(columns())[6::4]:
            for call in (
                lambda at: self.pyplot.plot(at, range(len(at))),
                lambda at: self.pyplot.hist(at, 5),
                lambda at: at.hist(),
                lambda at: (self.pyplot.plot(at, range(len(at))), self.pyplot.axvline(at.iloc[0])),
            ):
                found, wanted = self.days(lambda: call(at)), self.days(lambda: call(instants))
                self.assertEqual(found[2], wanted[2])
                for one, other in zip(found[:2], wanted[:2]):
                    self.assertEqual(len(one), len(other))
                    for some, others in zip(one, other):
                        numpy.testing.assert_allclose(some, others, rtol=0, atol=1e-9)

    def test_gaps_and_other_types(self):
        at = pandas.Series(["2024-02-29T12:00:00+01:00", None, "2024-02-29T12:00:00Z"]).astype("moment")
        shown = self.days(lambda: self.pyplot.plot(at, [1, 2, 3]))[0][0]
        self.assertTrue(numpy.isnan(shown[1]))
        self.assertAlmostEqual(shown[2] - shown[0], 1 / 24)
        for item in (at[0], at[0].to_utc(), at[0].to_timestamp()):
            self.assertEqual(self.days(lambda: self.pyplot.plot([item], [1]))[0], [[shown[0]]])


if __name__ == "__main__":
    unittest.main()
