"""Records of JSON with a stamp at any byte, and what each word of stamps makes of them, by Python's `json` and `datetime`."""

import heapq
import json
from datetime import datetime, timedelta, timezone

# The most bytes of a line up to the end of a stamp.
MOST = 65_500

NOON = datetime(2024, 2, 29, 12, tzinfo=timezone.utc)
EAST = timezone(timedelta(hours=5, minutes=30))
FORM = "--form rfc3339 --place json:time"

# The number of the bytes up to the end of the stamp of each record. The stamp of the last record but one begins at 70,000.
ENDS = (90, 1_600, 60_020, MOST - 1, MOST, MOST + 1, MOST + 40, 70_020, 90)


def record(end, at, text="x"):
    """A record whose stamp ends before this byte."""
    line = json.dumps({"msg": "", "time": at.isoformat(), "level": 5})
    place = line.index('", "level"')
    return line.replace('"msg": ""', f'"msg": "{text * (end - place)}"')


def instant_of(line):
    """The instant of a record, if the text of its stamp ends within the first bytes."""
    if line.index('", "level"') > MOST:
        return None
    return datetime.fromisoformat(json.loads(line)["time"])


def rewritten(line, text):
    """A record with another stamp, as JSON, if its own is found."""
    return line if instant_of(line) is None else json.dumps({**json.loads(line), "time": text(instant_of(line))})


def utc(at, zone=timezone.utc, sign="Z"):
    return at.astimezone(zone).strftime("%Y-%m-%dT%H:%M:%S.000000000") + sign


def notes_on(lines, name=""):
    """What is told of the records that have no stamp, or one past the first bytes."""
    front, none = f"stamps: {name}: " if name else "stamps: ", [
        number for number, line in enumerate(lines, 1) if instant_of(line) is None
    ]
    return (
        f"{front}{len(none)} of {len(lines)} lines have no stamp, the first is line {none[0]}\n",
        f"{front}{len(none)} lines have no stamp in their first 65,500 bytes, the first is line {none[0]}: put it there, "
        "as jq -c '{time} + .' does\n",
    )


RECORDS = [record(end, NOON + timedelta(minutes=min(number, 5))) for number, end in enumerate(ENDS)]
SHORT = [record(90, NOON + timedelta(minutes=minute, seconds=30), "y") for minute in range(-1, 7)]


def as_text(lines):
    return "".join(line + "\n" for line in lines).encode()


def instants_up_to(lines):
    """The records with the instant of the last stamp up to each."""
    last = datetime.min.replace(tzinfo=timezone.utc)
    for line in lines:
        last = instant_of(line) or last
        yield last, line


def long_rules():
    """The runs of each word over the records: a name, the words, the input, the output, what is told, and the status."""
    bound = NOON + timedelta(minutes=3)
    pairs = list(instants_up_to(RECORDS))
    rows = [f"{utc(at)} {sum(instant_of(line) == at for line in RECORDS)}\n" for at in sorted({at for at, _ in pairs})]
    gaps = [
        f"{utc(at)} line {number}: 60.0 s after {utc(before)}\n"
        for number, ((before, _), (at, line)) in enumerate(zip(pairs, pairs[1:]), 2)
        if instant_of(line) and at > before
    ]
    count, long = notes_on(RECORDS)
    runs = (
        ("utc", [rewritten(line, utc) for line in RECORDS], count + long, 0),
        ("at +05:30", [rewritten(line, lambda at: utc(at, EAST, "+05:30")) for line in RECORDS], count + long, 0),
        ("since 2024-02-29T12:03:00Z", [line for at, line in pairs if at >= bound], count + long, 0),
        ("until 2024-02-29T12:03:00Z", [line for at, line in pairs if at < bound], count + long, 0),
        ("merge", RECORDS, count + long, 0),
        ("check", [], long, 0),
    )
    rules = [(name, as_text(lines), said, status) for name, lines, said, status in runs]
    rules += [("count minute", "".join(rows).encode(), count + long, 0), ("gaps 30s", "".join(gaps).encode(), count + long, 1)]
    rules += [("utc --quiet", as_text(rewritten(line, utc) for line in RECORDS), "", 0)]
    # `unix` writes a number in place of the text
    seconds = [
        line if instant_of(line) is None else json.loads(line) | {"time": int(instant_of(line).timestamp())} for line in RECORDS
    ]
    written = as_text(
        line if isinstance(line, str) else json.dumps(line).replace(', "level"', '.000000000, "level"') for line in seconds
    )
    rules += [("unix", written, count + long, 0)]
    return tuple(
        ("records of many bytes", f"{words} {FORM}", as_text(RECORDS), written, said.encode(), status)
        for words, written, said, status in rules
    )


# A merge of the records with others that come between them.
LONG_FILES = {"long.log": as_text(RECORDS), "short.log": as_text(SHORT)}
LONG_MERGE = (
    f"merge long.log short.log {FORM}",
    as_text(line for _, line in heapq.merge(instants_up_to(RECORDS), instants_up_to(SHORT), key=lambda pair: pair[0])),
    "".join(notes_on(RECORDS, "long.log")).encode(),
    0,
)
