"""Random rows of the extension for PostgreSQL, and questions of them whose answers Python knows: it has each instant as a whole number
of nanoseconds.

A question is a statement that prints one line. It is asked by each method of a join, and with each kind of index and without one.
"""

import bisect
import collections
import operator
import random

from shared.iso8601 import FIRST, LAST, LAST_OFFSET, shortest_text

NANOSECONDS = 10**9

# The kinds of questions.
KINDS = ("texts", "copies", "order", "joins", "comparisons", "frames", "partitions", "ranges")

# The seconds that a timestamptz has: 4714-11-24 BC, whose day is -2440588, up to the last of the year 294276.
FIRST_OF_TIMESTAMPTZ, LAST_OF_TIMESTAMPTZ = -210_866_803_200, 9_224_318_015_999

# Nanoseconds beside the ends of a microsecond, of a second, and of what the keys of a sort tell apart.
NANOS = (0, 1, 31, 32, 999, 1_000, 4_095, 4_096, 999_999_000, 999_999_999)

OPERATORS = {"<": operator.lt, "<=": operator.le, "=": operator.eq, ">=": operator.ge, ">": operator.gt, "<>": operator.ne}
TURNED = {"<": ">", "<=": ">=", "=": "=", ">=": "<=", ">": "<", "<>": "<>"}

# How a planner is told to join by one method alone, and to read a table by an index or without one.
METHODS = {
    "hash": "SET enable_mergejoin = off; SET enable_nestloop = off; ",
    "merge": "SET enable_hashjoin = off; SET enable_nestloop = off; ",
    "loops": "SET enable_hashjoin = off; SET enable_mergejoin = off; ",
}
BY_INDEX = "SET enable_seqscan = off; "
BY_SCAN = "SET enable_indexscan = off; SET enable_bitmapscan = off; SET enable_indexonlyscan = off; "

# Durations around a value, as texts and in nanoseconds.
FRAMES = (
    (("1", 10**9), ("2s", 2 * 10**9)),
    (("31ns", 31), ("0", 0)),
    (("0", 0), ("PT0.000000001S", 1)),
    (("100000 days", 100_000 * 86_400 * 10**9), ("4096ns", 4_096)),
    (("9223372036854775807", 9_223_372_036_854_775_807 * 10**9), ("1h30m", 5_400 * 10**9)),
)

TABLES = """\
SET TimeZone = 'UTC';
CREATE TABLE ours (id int, at offset_timestamp, wanted text);
CREATE TABLE days (id int, day int, second int, micro int);
"""
OF_TABLES = """\
CREATE TABLE theirs AS SELECT id, '1970-01-01 00:00:00+00'::timestamptz + day * interval '1 day' + second * interval '1 second'
    + micro * interval '1 microsecond' AS tz FROM days;
INSERT INTO theirs VALUES (-1, 'infinity'), (-2, '-infinity');
ANALYZE ours; ANALYZE theirs;
"""
INDEXES = "CREATE INDEX ON ours (at); CREATE INDEX ON theirs (tz); ANALYZE ours; ANALYZE theirs; "
PARTITIONS = """\
CREATE TABLE by_range (id int, at offset_timestamp) PARTITION BY RANGE (at);
CREATE TABLE by_range_0 PARTITION OF by_range FOR VALUES FROM (MINVALUE) TO ('1970-01-01T00:00:00+05:30');
CREATE TABLE by_range_1 PARTITION OF by_range FOR VALUES FROM ('1970-01-01T00:00:00+05:30') TO ('2024-02-29T12:00:00.000000032Z');
CREATE TABLE by_range_2 PARTITION OF by_range FOR VALUES FROM ('2024-02-29T12:00:00.000000032Z') TO (MAXVALUE);
CREATE TABLE by_hash (id int, at offset_timestamp) PARTITION BY HASH (at);
CREATE TABLE by_hash_0 PARTITION OF by_hash FOR VALUES WITH (MODULUS 3, REMAINDER 0);
CREATE TABLE by_hash_1 PARTITION OF by_hash FOR VALUES WITH (MODULUS 3, REMAINDER 1);
CREATE TABLE by_hash_2 PARTITION OF by_hash FOR VALUES WITH (MODULUS 3, REMAINDER 2);
INSERT INTO by_range SELECT id, at FROM ours; INSERT INTO by_hash SELECT id, at FROM ours;
"""
# The instants at which the partitions by range begin.
BORDERS = ((-19_800) * NANOSECONDS, 1_709_208_000 * NANOSECONDS + 32)
RANGE_TABLE = "CREATE TABLE spans (id int, span offset_timestamp_range);\n"
RANGE_INDEXES = {
    "GiST": "CREATE INDEX spans_index ON spans USING gist (span); ANALYZE spans; ",
    "SP-GiST": "DROP INDEX spans_index; CREATE INDEX spans_index ON spans USING spgist (span); ANALYZE spans; ",
    "hash": "DROP INDEX spans_index; CREATE INDEX spans_index ON spans USING hash (span); ANALYZE spans; ",
}
COPIES = """\
CREATE TABLE again (LIKE ours);
\\copy ours TO '{0}/rows.copy' {1}
\\copy again FROM '{0}/rows.copy' {1}
SELECT (SELECT count(*) FROM ours o JOIN again a USING (id) WHERE o.at === a.at) || ' ' || (SELECT count(*) FROM again);
DROP TABLE again;
"""


class Questions:
    """Statements that print one line each, by the kind of the question, with the line that each must print and how many answers it
    has."""

    def __init__(self):
        self.asked = []

    def add(self, kind, text, wanted, answers=1):
        self.asked.append((kind, text, str(wanted), answers))

    def compare(self, server):
        """The number of answers of each kind, and the first question whose answer is another, or None."""
        told = server.ask("".join(f"{text};\nRESET ALL;\n" for _, text, _, _ in self.asked)).split("\n")[:-1]
        counts, wrong = collections.Counter(), {}
        for at, (kind, text, wanted, answers) in enumerate(self.asked):
            counts[kind] += answers
            given = told[at] if at < len(told) else "nothing"
            if given != wanted:
                wrong.setdefault(kind, f"{text} must be {wanted[:200]}, not {given[:200]}")
        self.asked = []
        return {kind: (count, wrong.get(kind)) for kind, count in counts.items()}


class Rows:
    """Random rows: instants of both types out of one pool, so that many are equal, at random offsets."""

    def __init__(self, seed, count):
        self.source = random.Random(seed)
        pool = [self.instant() for _ in range(count // 4)]
        self.ours = [self.source.choice(pool) for _ in range(count)]
        short = [it // 1_000 * 1_000 for it in pool if FIRST_OF_TIMESTAMPTZ <= it // NANOSECONDS <= LAST_OF_TIMESTAMPTZ]
        self.theirs = [self.source.choice(short) for _ in range(count // 2)]
        self.texts = [self.text(it) for it in self.ours]

    def instant(self):
        """The nanoseconds of an instant, near one that is much used, near an end, or anywhere."""
        near = self.source.choice((FIRST + 1, LAST - 1, 0, -19_800, 946_684_800, 1_709_208_000, FIRST_OF_TIMESTAMPTZ + 5))
        second = near + self.source.randint(-2, 2) if self.source.random() < 0.6 else self.source.randint(FIRST, LAST)
        if self.source.random() < 0.3:
            second = self.source.randint(FIRST_OF_TIMESTAMPTZ, LAST_OF_TIMESTAMPTZ)
        nano = self.source.choice((*NANOS, self.source.randrange(NANOSECONDS)))
        return min(max(second, FIRST), LAST) * NANOSECONDS + nano

    def text(self, instant):
        """A text of an instant, at an offset whose clocks show a year of the range."""
        second, nano = divmod(instant, NANOSECONDS)
        offset = self.source.choice(
            (0, 19_800, -43_200, 4_772, LAST_OFFSET, -LAST_OFFSET, self.source.randint(-LAST_OFFSET, LAST_OFFSET))
        )
        return shortest_text(second, nano, min(max(offset, FIRST - second), LAST - second))

    def tables(self):
        """What makes the tables of both types."""
        of_ours = "".join(f"{number}\t{text}\t{text}\n" for number, text in enumerate(self.texts))
        of_theirs = "".join(f"{number}\t{day_of(instant)}\n" for number, instant in enumerate(self.theirs))
        return f"{TABLES}COPY ours FROM STDIN;\n{of_ours}\\.\nCOPY days FROM STDIN;\n{of_theirs}\\.\n{OF_TABLES}"


def day_of(instant):
    """The day, the second of the day and the microsecond of an instant, as words of COPY."""
    second, nano = divmod(instant, NANOSECONDS)
    return f"{second // 86_400}\t{second % 86_400}\t{nano // 1_000}"


def timestamptz_of(instant):
    """An instant as PostgreSQL's own type, by its own sums."""
    day, second, micro = day_of(instant).split("\t")
    return f"('1970-01-01 00:00:00+00'::timestamptz + interval '{day} days {second} seconds {micro} microseconds')"


def ask_texts(asked, rows):
    """Each text that Python writes is read, and written in the same way."""
    count = len(rows.ours)
    asked.add("texts", "SELECT count(*) FROM ours WHERE at::text = wanted AND wanted::offset_timestamp === at", count, count)


def ask_order(asked, rows):
    upwards = sorted(range(len(rows.ours)), key=lambda number: (rows.ours[number], number))
    downwards = sorted(range(len(rows.ours)), key=lambda number: (-rows.ours[number], number))
    for words, numbers in (("at, id", upwards), ("at DESC, id", downwards)):
        text = f"SELECT string_agg(id::text, ' ') FROM (SELECT id FROM ours ORDER BY {words}) s"
        for settings in ("", BY_INDEX, BY_SCAN):
            asked.add("order", settings + text, " ".join(map(str, numbers)), len(numbers))


def ask_joins(asked, rows):
    """Questions of equal values, of one type and of both, by each method."""
    ours, theirs = collections.Counter(rows.ours), collections.Counter(rows.theirs)
    pairs = sum(count * theirs[it] for it, count in ours.items())
    alone = sum(count for it, count in ours.items() if it not in theirs)
    left = sum(count for it, count in theirs.items() if it not in ours)
    evens, odds = set(rows.ours[::2]), set(rows.ours[1::2])
    wanted = {
        "ours JOIN theirs ON at = tz": pairs,
        "theirs LEFT JOIN ours o ON tz = at WHERE o.id IS NOT NULL": pairs,
        "ours a JOIN ours b ON a.at = b.at": sum(count**2 for count in ours.values()),
        "ours WHERE at IN (SELECT tz FROM theirs)": len(rows.ours) - alone,
        "ours WHERE at NOT IN (SELECT tz FROM theirs)": alone,
        "ours WHERE NOT EXISTS (SELECT FROM theirs WHERE tz = at)": alone,
        # two rows are infinite
        "ours FULL JOIN theirs ON tz = at": pairs + alone + left + 2,
        "ours a JOIN theirs ON a.at = tz JOIN ours b ON b.at = tz": sum(ours[it] ** 2 * count for it, count in theirs.items()),
        "theirs a JOIN theirs b ON a.tz = b.tz JOIN ours ON at = b.tz": sum(
            ours[it] * count**2 for it, count in theirs.items()
        ),
        "(SELECT DISTINCT at FROM ours) s": len(ours),
        "(SELECT at FROM ours GROUP BY at HAVING count(*) > 1) s": sum(count > 1 for count in ours.values()),
        "(SELECT at FROM ours WHERE id % 2 = 0 EXCEPT SELECT at FROM ours WHERE id % 2 = 1) s": len(evens - odds),
        "(SELECT at FROM ours WHERE id % 2 = 0 INTERSECT SELECT at FROM ours WHERE id % 2 = 1) s": len(evens & odds),
    }
    for settings in (*METHODS.values(), "SET enable_sort = off; ", "SET enable_hashagg = off; "):
        for text, count in wanted.items():
            asked.add("joins", f"{settings}SELECT count(*) FROM {text}", count)


def ask_comparisons(asked, rows, count):
    """Rows by each operator and a bound of either type, by an index and by a scan."""
    values = sorted(rows.ours)
    for _ in range(count):
        bound, other = rows.source.choice(rows.theirs), rows.source.choice(rows.ours)
        for sign, holds in OPERATORS.items():
            for instant, literal in ((bound, timestamptz_of(bound)), (other, f"'{rows.text(other)}'::offset_timestamp")):
                number = sum(holds(it, instant) for it in values)
                for settings, condition in ((BY_INDEX, f"at {sign} {literal}"), (BY_SCAN, f"{literal} {TURNED[sign]} at")):
                    asked.add("comparisons", f"{settings}SELECT count(*) FROM ours WHERE {condition}", number)


def ask_frames(asked, rows):
    values = sorted(rows.ours)
    for (before, below), (after, above) in FRAMES:
        for direction in ("", "DESC"):
            low, high = (above, below) if direction else (below, above)
            counts = [bisect.bisect_right(values, it + high) - bisect.bisect_left(values, it - low) for it in rows.ours]
            frame = f"ORDER BY at {direction} RANGE BETWEEN '{before}' PRECEDING AND '{after}' FOLLOWING"
            text = f"SELECT string_agg(n::text, ' ' ORDER BY id) FROM (SELECT id, count(*) OVER ({frame}) AS n FROM ours) s"
            asked.add("frames", text, " ".join(map(str, counts)), len(counts))


def ask_partitions(asked, rows, count):
    """Rows in their partitions, and conditions that leave out partitions."""
    numbers = [0, 0, 0]
    for it in rows.ours:
        numbers[bisect.bisect_right(BORDERS, it)] += 1
    for place, number in enumerate(numbers):
        asked.add("partitions", f"SELECT count(*) FROM by_range_{place}", number, number)
    asked.add(
        "partitions",
        "SELECT (SELECT count(*) FROM by_hash_0) + (SELECT count(*) FROM by_hash_1) + (SELECT count(*) FROM by_hash_2)",
        len(rows.ours),
    )
    ours = collections.Counter(rows.ours)
    for _ in range(count):
        one, other, short = rows.source.choice(rows.ours), rows.source.choice(rows.ours), rows.source.choice(rows.theirs)
        of_both = sum(ours[it] for it in {one, other})
        for table in ("by_range", "by_hash"):
            front = f"SELECT count(*) FROM {table} WHERE at"
            asked.add("partitions", f"{front} = '{rows.text(one)}'", ours[one])
            asked.add("partitions", f"{front} = {timestamptz_of(short)}", ours[short])
            asked.add("partitions", f"{front} < '{rows.text(one)}'", sum(it < one for it in rows.ours))
            asked.add("partitions", f"{front} >= {timestamptz_of(short)}", sum(it >= short for it in rows.ours))
            texts = f"ARRAY['{rows.text(one)}', '{rows.text(other)}']::offset_timestamp[]"
            asked.add("partitions", f"{front} = ANY ({texts})", of_both)


# A range is empty, or has two ends: numbers of which an end that it lacks lies between those of the instants.
def span_of(low, high, marks):
    ends = 4 * low + (marks[0] == "("), 4 * high - (marks[1] == ")")
    return ends if ends[0] <= ends[1] else None


def is_adjacent(one, other):
    """Whether one ends at the instant at which the other begins, which just one of them has."""
    return any(round(a / 4) == round(b / 4) and abs(a - b) == 1 for a, b in ((one[1], other[0]), (other[1], one[0])))


# The operators of two ranges that are not empty.
SPANS = {
    "&&": lambda one, other: one[0] <= other[1] and other[0] <= one[1],
    "@>": lambda one, other: one[0] <= other[0] and other[1] <= one[1],
    "<@": lambda one, other: other[0] <= one[0] and one[1] <= other[1],
    "<<": lambda one, other: one[1] < other[0],
    ">>": lambda one, other: other[1] < one[0],
    "-|-": is_adjacent,
    "&<": lambda one, other: one[1] <= other[1],
    "&>": lambda one, other: one[0] >= other[0],
    "=": lambda one, other: one == other,
}


def holds_of(sign, one, other):
    """The same of any two: all ranges contain an empty one, and two of them are equal."""
    if one is None or other is None:
        return {"@>": other is None, "<@": one is None, "=": one == other}.get(sign, False)
    return SPANS[sign](one, other)


def span_at_random(rows):
    """A range as SQL writes it, and its ends."""
    low, high = sorted((rows.source.choice(rows.ours), rows.source.choice(rows.ours)))
    if rows.source.random() < 0.2:
        high = low
    marks = rows.source.choice(("[)", "[]", "(]", "()"))
    return f"{marks[0]}{rows.text(low)},{rows.text(high)}{marks[1]}", span_of(low, high, marks)


def ask_spans(asked, rows, spans, count):
    for _ in range(count):
        word, ends = span_at_random(rows)
        if rows.source.random() < 0.3:
            word, ends = rows.source.choice(spans)
        instant = rows.source.choice(rows.ours)
        questions = [(f"span {sign} '{word}'", sum(holds_of(sign, it, ends) for _, it in spans)) for sign in SPANS]
        inside = sum(it is not None and it[0] <= 4 * instant <= it[1] for _, it in spans)
        questions.append((f"span @> '{rows.text(instant)}'::offset_timestamp", inside))
        for condition, number in questions:
            for settings in (BY_INDEX, BY_SCAN):
                asked.add("ranges", f"{settings}SELECT count(*) FROM spans WHERE {condition}", number)


def copy_rows(server, rows, folder):
    """The rows are what they were after COPY, as texts and as bytes. The number of answers, and a problem or None."""
    count = len(rows.ours)
    told = "".join(server.ask(COPIES.format(folder, form)) for form in ("", "(FORMAT csv)", "(FORMAT binary)"))
    return 3 * count, None if told == f"{count} {count}\n" * 3 else told


def compare_rows(server, seed, count, rounds):
    """The number of answers of each kind, and its first problem or None, of random rows in a database that has none of these tables."""
    rows, asked = Rows(seed, count), Questions()
    printed = server.ask(rows.tables())
    if printed:
        return {"tables": (0, printed)}
    found = {"copies": copy_rows(server, rows, server.folder)}
    ask_texts(asked, rows)
    ask_joins(asked, rows)
    ask_frames(asked, rows)
    add_to(found, asked.compare(server))
    server.ask(INDEXES + PARTITIONS)
    ask_order(asked, rows)
    ask_joins(asked, rows)
    ask_comparisons(asked, rows, rounds)
    ask_partitions(asked, rows, rounds)
    add_to(found, asked.compare(server))
    spans = [span_at_random(rows) for _ in rows.ours]
    copied = "".join(f"{number}\t{word}\n" for number, (word, _) in enumerate(spans))
    server.ask(f"{RANGE_TABLE}COPY spans FROM STDIN;\n{copied}\\.\n")
    for made in RANGE_INDEXES.values():
        server.ask(made)
        ask_spans(asked, rows, spans, rounds)
        add_to(found, asked.compare(server))
    server.ask("DROP TABLE ours, days, theirs, by_range, by_hash, spans;")
    return found


def add_to(found, more):
    for kind, (count, problem) in more.items():
        before, first = found.get(kind, (0, None))
        found[kind] = before + count, first or problem
