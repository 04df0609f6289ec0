"""Lines that begin with stamps of RFC 3339, and what `stamps` makes of them: by Python's `re` and `datetime`, nanoseconds by
hand."""

import codecs
import functools
import heapq
import random
import re
from dataclasses import dataclass
from datetime import datetime, timedelta
from itertools import groupby

# The form of a stamp, which nothing that belongs to a date-time follows.
FORM = re.compile(
    rb"(\d{4})-(\d\d)-(\d\d)[Tt ](\d\d):(\d\d):(\d\d)(?:\.(\d+))?(?:([Zz])|([+-])(\d\d):(\d\d))(?![0-9A-Za-z_+-]|[.:][0-9A-Za-z])"
)

# The most bytes of a stamp.
LONGEST = 65_500

# The byte order mark of UTF-8.
MARK = codecs.BOM_UTF8

EPOCH = datetime(2000, 1, 1)
EPOCH_SECONDS = 946_684_800
SECONDS_OF_400_YEARS = 146_097 * 86_400
NANOS = 1_000_000_000

PARTS = ("month", "day", "hour", "minute", "second", "offset hour", "offset minute")


def second_of(year, month, day, hour, minute, second):
    """The Unix second of a wall clock in UTC, of any year: `datetime` has no year 0, so 400 years are shifted."""
    shifts = 1 if year < 1 else 0
    span = datetime(year + 400 * shifts, month, day, hour, minute, second) - EPOCH
    return EPOCH_SECONDS + span.days * 86_400 + span.seconds - shifts * SECONDS_OF_400_YEARS


def days_of(year, month):
    """The days of a month."""
    following = (year, month + 1) if month < 12 else (year + 1, 1)
    first = second_of(year, month, 1, 0, 0, 0)
    # The year 10000 is not one of `datetime`; December has 31 days anyway.
    return 31 if month == 12 else (second_of(*following, 1, 0, 0, 0) - first) // 86_400


@functools.lru_cache(maxsize=100_000)
def stamp_of(line):
    """The instant in nanoseconds and the length of the stamp in front, or why there is none: None, or the name of a part."""
    found = FORM.match(line)
    if not found or found.end() > LONGEST:
        return None
    year, month, day, hour, minute, second = (int(found[k]) for k in range(1, 7))
    fraction = int(((found[7] or b"") + b"000000000")[:9])
    hours, minutes = (0, 0) if found[8] else (int(found[10]), int(found[11]))
    tests = (
        1 <= month <= 12,
        1 <= month <= 12 and 1 <= day <= days_of(year, month),
        hour <= 23,
        minute <= 59,
        second <= 59,
        hours <= 23,
        minutes <= 59,
    )
    for name, holds in zip(PARTS, tests):
        if not holds:
            return name
    sign = -1 if found[9] == b"-" else 1
    instant = second_of(year, month, day, hour, minute, second) - sign * (hours * 3_600 + minutes * 60)
    return instant * NANOS + fraction, found.end()


@functools.lru_cache(maxsize=100_000)
def minute_text(minute):
    """The text of a wall clock in minutes without an offset; None outside the years 0 to 9999."""
    seconds, shifts = minute * 60, 0
    if seconds < -62_135_596_800:
        seconds, shifts = seconds + SECONDS_OF_400_YEARS, 1
    if seconds < -62_135_596_800 or seconds > 253_402_300_799:
        return None
    at = EPOCH + timedelta(seconds=seconds - EPOCH_SECONDS)
    year = at.year - 400 * shifts
    return None if year < 0 else f"{year:04}-{at.month:02}-{at.day:02}T{at.hour:02}:{at.minute:02}".encode()


def wall_text(wall):
    """The text of a wall clock in nanoseconds without an offset, with nine digits; None outside the years 0 to 9999."""
    seconds, nanos = divmod(wall, NANOS)
    minute, second = divmod(seconds, 60)
    text = minute_text(minute)
    return None if text is None else b"%b:%02d.%09d" % (text, second, nanos)


def text_at(instant, offset):
    """The text of an instant at an offset of so many minutes."""
    wall = wall_text(instant + offset * 60 * NANOS)
    if wall is None:
        return None
    if offset == 0:
        return wall + b"Z"
    return wall + f"{'-' if offset < 0 else '+'}{abs(offset) // 60:02}:{abs(offset) % 60:02}".encode()


def unix_text(instant):
    """The Unix seconds with nine digits."""
    seconds, nanos = divmod(abs(instant), NANOS)
    return f"{'-' if instant < 0 else ''}{seconds}.{nanos:09}".encode()


# The most bytes of the first read of a log.
BLOCK = 65_536

# What is told of a log whose first lines have no stamp.
BARE = b"the first lines have no stamp: name the form by --form, and the place by --place\n"


def first_lines(data):
    """The lines of a log by which it is known: those that end in its first block, and the rest if the log ends there, or if no line
    with text ends."""
    *ended, rest = data[:BLOCK].removeprefix(MARK).split(b"\n")
    return ended, [rest] if len(data) < BLOCK or not any(ended) else []


def told_bare(data, find=stamp_of, name=""):
    """What is told of a log if a line of its first block ends, and none has a stamp, neither one with a part out of its range.
    `find` has the stamp of a line, and `name` is that of the log."""
    ended, rest = first_lines(data)
    if not any(ended) or any(find(line) is not None for line in ended + rest):
        return b""
    return b"stamps: " + (f"{name}: ".encode() if name else b"") + BARE


def told_tally(data, find=stamp_of, name="", is_check=False):
    """What is told of the lines of a log that have no stamp, and the status: 1 where none has one, or more than half of those with
    text have none. A line that begins with a blank or a tab continues another, unless it is too long. `find` has the stamp of a line.
    `check` tells the lines that are too long alone.
    """
    stamped, bare, continued, long = 0, [], 0, []
    for number, line in enumerate(re.findall(rb"[^\n]*\n|[^\n]+", data), 1):
        stamp = find((line[len(MARK) :] if number == 1 and line.startswith(MARK) else line).removesuffix(b"\n"))
        if isinstance(stamp, tuple):
            stamped += 1
        elif len(line.removesuffix(b"\n")) > LONGEST:
            bare.append(number)
            long.append(number)
        elif line[:1] in (b" ", b"\t"):
            continued += 1
        elif line.strip(b"\n") not in (b"", b"\r"):
            bare.append(number)
    if is_check:
        return told_long(long, name), 0
    total = stamped + len(bare)
    if len(bare) > 1:
        text = f"{len(bare)} of {total} lines have no stamp, the first is line {bare[0]}"
    elif bare:
        text = f"1 of {total} lines has no stamp: line {bare[0]}"
    elif continued and not stamped:
        text = "no line has a stamp"
    else:
        return b"", 0
    more = (
        "" if not continued else f", and {continued} lines continue others" if continued > 1 else ", and 1 line continues another"
    )
    front = f"stamps: {name}: " if name else "stamps: "
    return f"{front}{text}{more}\n".encode() + told_long(long, name), int(len(bare) > stamped or not total)


def told_long(long, name=""):
    """What is told of lines of these numbers that have no stamp in their first bytes, and more bytes than these."""
    if not long:
        return b""
    some, one = f"{len(long)} lines have no stamp in their", f"line {long[0]} has no stamp in its"
    text = f"{one if len(long) == 1 else some} first {LONGEST:,} bytes"
    text += f", the first is line {long[0]}" if len(long) > 1 else ""
    return f"stamps: {f'{name}: ' if name else ''}{text}: put it there, as jq -c '{{time}} + .' does\n".encode()


STYLES = {"utc": lambda instant, _: text_at(instant, 0), "at": text_at, "unix": lambda instant, _: unix_text(instant)}


def offset_of(text):
    """The minutes of an offset."""
    if text == "Z":
        return 0
    return (-1 if text[0] == "-" else 1) * (int(text[1:3]) * 60 + int(text[4:6]))


@dataclass
class LogLine:
    """A line of a log: its text, its number, the instant up to it, and whether that is before the one of the line before."""

    log: int
    text: bytes
    number: int
    instant: tuple
    is_back: bool


def log_lines(log, data, find=stamp_of):
    """The lines of a log, one after another. Those before the first instant come before all instants. `find` has the stamp of a
    line."""
    instant = (0, 0)
    for number, found in enumerate(re.finditer(rb"[^\n]*\n|[^\n]+", data), 1):
        text = found[0]
        stamp = find((text[len(MARK) :] if number == 1 and text.startswith(MARK) else text).removesuffix(b"\n"))
        own = (1, stamp[0]) if isinstance(stamp, tuple) else instant
        yield LogLine(log, text, number, own, own < instant)
        instant = own


def text_of(texts):
    """The text of lines: one without a line feed gets one if another follows."""
    return b"".join(text if text.endswith(b"\n") else text + b"\n" for text in texts[:-1]) + b"".join(texts[-1:])


def lines_in_order(logs, finds=None):
    """The lines of logs in the order of their instants. `finds` has what finds the stamps of each log, if that is not RFC 3339."""
    finds = finds or [stamp_of] * len(logs)
    lines = (log_lines(log, data, find) for log, (data, find) in enumerate(zip(logs, finds)))
    return heapq.merge(*lines, key=lambda line: line.instant)


def merge_of(logs, is_strict, finds=None):
    """What `stamps merge` writes for logs, and the lines that it names on standard error, as numbers of logs and lines."""
    texts, backs = [], {}
    for line in lines_in_order(logs, finds):
        if line.is_back and is_strict:
            return text_of(texts), [(line.log, line.number)]
        if line.is_back:
            backs.setdefault(line.log, line.number)
        texts.append(line.text)
    return text_of(texts), sorted(backs.items())


# What continues a word behind a date-time.
CONTINUES = re.compile(rb"[0-9A-Za-z_+-]|[.:][0-9A-Za-z]")


def member_with(line, stamp, text, is_number):
    """A record of JSON with a text in place of its stamp: a number has no quotes, and a date has those of the text, or its own where
    it was a number."""
    start, end = stamp[2], stamp[1]
    before, after = line[start - 1 : start] == b'"', line[end : end + 1] == b'"'
    if is_number and before and after:
        return line[: start - 1] + text + line[end + 1 :]
    quote = b"" if is_number or before else b'"'
    return line[:start] + quote + text + quote + line[end:]


def front_lines(data, offset, find=stamp_of, is_member=lambda: False, is_unix=False):
    """A log whose lines have their stamps in front at an offset of so many minutes, as `merge --to` reads it: in place of a stamp that
    begins its line and whose word ends there, and else before the line with a blank. A byte order mark before a stamp goes away.
    A stamp in a member of JSON that `is_member` tells of stays in its place, in Unix seconds if it `is_unix`.
    """
    made = []
    for number, line in enumerate(re.findall(rb"[^\n]*\n|[^\n]+", data), 1):
        text = line[len(MARK) :] if number == 1 and line.startswith(MARK) else line
        stamp = find(text.removesuffix(b"\n"))
        front = text_at(stamp[0], offset) if isinstance(stamp, tuple) else None
        if isinstance(stamp, tuple) and is_member():
            member = unix_text(stamp[0]) if is_unix else front
            made.append(line if member is None else line[: len(line) - len(text)] + member_with(text, stamp, member, is_unix))
        elif front is None:
            made.append(line)
        elif sum(stamp[2:]) == 0 and not CONTINUES.match(text, stamp[1]):
            made.append(front + text[stamp[1] :])
        else:
            made.append(front + b" " + text)
    return b"".join(made)


UNITS = {"minute": 60, "hour": 3_600, "day": 86_400}

# The words of a duration.
DURATION = re.compile(r"(?:(\d{1,9})d)?(?:(\d{1,9})h)?(?:(\d{1,9})m)?(?:(\d{1,9})s)?")


def duration_of(text):
    """The nanoseconds of a duration such as 1h30m."""
    numbers = [int(number or 0) for number in DURATION.fullmatch(text).groups()]
    return sum(number * seconds for number, seconds in zip(numbers, (86_400, 3_600, 60, 1))) * NANOS


def label_of(instant, offset):
    """The text of an instant at an offset of so many minutes, or its Unix seconds."""
    return text_at(instant, offset) or unix_text(instant)


def gap_of(number, before, instant):
    """The line that `stamps gaps` writes."""
    seconds, nanos = divmod(instant - before, NANOS)
    fraction = f"{nanos:09}".rstrip("0") or "0"
    return label_of(instant, 0) + f" line {number}: {seconds}.{fraction} s after ".encode() + label_of(before, 0) + b"\n"


# The most units without lines one after another that have rows, where not all are asked for.
MOST_EMPTY = 10_000


def row_of(start, offset, count):
    """The row of a unit and the number of its lines; without a unit, what is in place of so many rows of 0."""
    return b"... %d rows of 0\n" % count if start is None else label_of(start, offset) + b" %d\n" % count


def count_of(words, data, is_ended=True, find=stamp_of):
    """What `stamps count` writes for an input, or for the beginning of one, and what it prints on standard error."""
    offset = offset_of(words[3]) if "at" in words else 0
    unit = UNITS[words[1]] * NANOS
    shift = offset * 60 * NANOS
    starts, told = [], b""
    for number, line in enumerate(re.findall(rb"[^\n]*\n|[^\n]+", data if is_ended else data[: data.rfind(b"\n") + 1]), 1):
        stamp = find((line[len(MARK) :] if number == 1 and line.startswith(MARK) else line).removesuffix(b"\n"))
        start = stamp[0] - (stamp[0] + shift) % unit if isinstance(stamp, tuple) else None
        goes_back = start is not None and bool(starts) and start < starts[-1]
        if words[-1] == "--strict" and (start is None or goes_back):
            told = f"stamps: line {number}: {'no valid stamp' if start is None else 'earlier than the one before'}\n".encode()
            break
        if goes_back and not told:
            told = f"stamps: line {number}: earlier than the one before\n".encode()
        if start is not None:
            starts.append(start)
    rows = []
    for start, run in groupby(starts):
        between = range(rows[-1][0] + unit, start, unit) if rows else ()
        is_long = len(between) > MOST_EMPTY and "--all" not in words
        rows += [(None, len(between))] if is_long else [(empty, 0) for empty in between]
        rows.append((start, len(list(run))))
    return b"".join(row_of(start, offset, count) for start, count in (rows if is_ended else rows[:-1])), told


def cut_merge_of(logs, broken):
    """What `stamps merge` writes for logs if a read of this one fails after its bytes, and the lines that it names: all up to its
    last line, and that line too if it has the bytes that decide on it."""
    rest = logs[broken].rpartition(b"\n")[2]
    last = logs[broken].count(b"\n") + (len(rest) >= BLOCK)
    texts, backs = [], {}
    for line in lines_in_order(logs) if last else ():
        if line.is_back:
            backs.setdefault(line.log, line.number)
        texts.append(line.text)
        if (line.log, line.number) == (broken, last):
            break
    return text_of(texts), sorted(backs.items())


def bounds_of(words):
    """The instant from which a cut writes lines, and the one before which: those of one word may have no end."""
    instants = [found[0] for found in (stamp_of(word.encode()) for word in words[1:]) if isinstance(found, tuple)]
    if words[0] == "until":
        return float("-inf"), instants[0]
    if words[0] in ("since", "between"):
        return instants[0], instants[1] if len(instants) > 1 else float("inf")
    return None


def result_of(words, data, find=stamp_of):
    """What `stamps` writes for an input, and what it prints on standard error, if anything. `find` has the instant and the end of the
    stamp of a line, and its beginning if that is not the front; or the part that is out of range; or None."""
    word, is_strict = words[0], words[-1] == "--strict"
    mark = MARK if data.startswith(MARK) else b""
    lines = data[len(mark) :].split(b"\n")
    written = []
    last = latest = None
    goes_on = word == "until"
    bounds = bounds_of(words)
    offset = offset_of(words[1]) if word == "at" else 0
    limit = duration_of(words[1]) if word == "gaps" else 0

    def end_by(number, cause):
        return b"".join(written), f"stamps: line {number}: {cause}\n".encode()

    for number, line in enumerate(lines, 1):
        end = b"\n" if number < len(lines) else b""
        front = mark if number == 1 else b""
        if not front + line + end:
            break
        stamp = find(line)
        is_read = isinstance(stamp, tuple)
        cause = None if is_read else "no stamp" if stamp is None else f"{stamp} is out of range"
        if word in STYLES:
            text = STYLES[word](stamp[0], offset) if is_read else None
            if is_read and is_strict and line[stamp[1] :].startswith(b"["):
                return end_by(number, "a zone in brackets follows the stamp")
            if text is None:
                if is_strict:
                    return end_by(number, cause or "its instant has no text")
                written.append(front + line + end)
            else:
                written.append(front + line[: sum(stamp[2:])] + text + line[stamp[1] :] + end)
        elif word == "check":
            if is_read:
                if last is not None and stamp[0] < last:
                    cause = "earlier than the one before"
                last = stamp[0]
            elif stamp is None and not is_strict:
                continue
            if cause and "--all" not in words:
                return end_by(number, cause)
            if cause:
                written.append(f"line {number}: {cause}\n".encode())
        elif word == "gaps":
            if not is_read:
                if is_strict:
                    return end_by(number, cause)
                continue
            if last is not None and stamp[0] < last and is_strict:
                return end_by(number, "earlier than the one before")
            if latest is not None and stamp[0] - latest > limit:
                written.append(gap_of(number, latest, stamp[0]))
            latest = stamp[0] if latest is None else max(latest, stamp[0])
            last = stamp[0]
        else:
            if is_read:
                goes_on = bounds[0] <= stamp[0] < bounds[1]
            if goes_on:
                written.append(front + line + end)
    if word == "check" and last is None and data:
        return b"".join(written), b"stamps: no line has a stamp\n"
    return b"".join(written), b""


def stamp_text(rng, second, nanos):
    """One of the texts of an instant."""
    offset = rng.choice((0, 0, 330, -480, 60, -210, 1_439, -1_439))
    wall = wall_text((second + offset * 60) * NANOS)
    body = wall[:19]
    digits = rng.choice((0, 0, 3, 6, 9, 12))
    if digits:
        body += b"." + (b"%09d" % nanos + b"000")[:digits]
    if offset == 0 and rng.random() < 0.8:
        zone = rng.choice((b"Z", b"Z", b"z"))
    else:
        zone = b"%c%02d:%02d" % (b"-"[0] if offset < 0 else b"+"[0], abs(offset) // 60, abs(offset) % 60)
    return body[:10] + rng.choice((b"T", b"T", b"T", b"t", b" ")) + body[11:] + zone


ODD = (
    b"",
    b"    at Main.run(Main.java:12)",
    b"2024-02-30T00:00:00Z no such day",
    b"2023-13-01T00:00:00Z",
    b"2024-06-30T23:59:60Z a leap second",
    b"2024-06-30T24:00:00Z",
    b"2024-06-30T12:00:00+24:00",
    b"2024-06-30T12:00:00+05:60",
    b"2024-06-30T12:00:00.Z",
    b"2024-06-30T12:00:00",
    b"2024-06-30T12:00:00+0530",
    b"0000-01-01T00:00:00+00:01 before the year 0 in UTC",
    b"9999-12-31T23:59:59.999999999-00:01 after the year 9999 in UTC",
    b"0000-02-29T12:00:00Z",
    b"1969-12-31T23:59:59.5Z half a second before 1970",
    b"2024-06-30T12:00:00.1234567899Z ten digits",
    b"2024-06-30T12:00:00ZZ and Z",
    b"1900-01-01T00:00:00+00:19:32 an offset with a second",
    b"2024-06-30T12:00:00+05:3099 an offset with more digits",
    b"2024-06-30T12:00:00Z-1",
    b"2024-06-30T12:00:00Z.5",
    b"2024-06-30T12:00:00Z:5",
    b"2024-06-30T12:00:00Z: a colon",
    b"2024-06-30T12:00:00+05:30.",
    b"2024-06-30T12:00:00+05:30+05:30",
    b"2024-06-30T12:00:00Z, and a comma",
    b"2024-06-30T12:00:00Z[UTC] and a zone",
    b"2024-06-30T12:00:00+02:00[Europe/Paris] and a zone",
    b"2024-06-30T12:00:00Z_",
    b"2024-06-30T12:00:00Z\xc3\xa9",
    b"2024-06-31T12:00:00Zulu",
    b"2024-06-31T12:00:00.25+05:30:15",
    MARK + b"2024-06-30T12:00:00Z a mark inside",
    b"\xff\xfe no text",
)


def lines_of(seed, count, is_ordered=False):
    """So many lines: mostly stamps at mixed offsets, some with other fronts, some long; in the order of time, and refused by
    none, where that is asked."""
    rng = random.Random(seed)
    second = 1_700_000_000
    lines = []
    for _ in range(count):
        second += rng.randrange(3) if is_ordered else rng.randrange(-20_000, 20_000)
        kind = rng.random()
        if kind < 0.06 and not is_ordered:
            lines.append(rng.choice(ODD))
        elif kind < 0.12:
            lines.append(b"    at line %d" % rng.randrange(1_000))
        else:
            rest = b" [worker-%d] GET /items/%d took %d ms" % (rng.randrange(8), rng.randrange(10_000), rng.randrange(500))
            lines.append(stamp_text(rng, second, rng.randrange(NANOS) if not is_ordered else 0) + rest)
        if kind > 0.9995 and not is_ordered:
            lines[-1] += b" long" * rng.choice((195, 13_080, 13_090, 20_000))
        if kind < 0.0003 and not is_ordered:
            lines[-1] = b"2024-06-30T12:00:00." + b"1" * rng.choice((1_001, 65_478, 65_479, 65_480, 70_000)) + b"Z long stamp"
    return b"\n".join(lines) + (b"\n" if seed % 2 == 0 else b"")


def place_log(name, offset, count):
    """A log of so many lines in the order of time at an offset in minutes. One line in eight is of a stack trace."""
    rng = random.Random(name)
    instant = 1_709_188_200 * NANOS + rng.randrange(NANOS)
    lines = []
    for number in range(count):
        if number and rng.random() < 0.125:
            lines.append(b"    at %s.main(Main.java:%d)\n" % (name.encode(), number))
            continue
        instant += rng.choice((0, 0, 1, 1_000, 1_000_000, 1_000_000, 3_000_000, 10_000_000))
        lines.append(text_at(instant, offset) + b" %s %d event\n" % (name.encode(), number))
    return b"".join(lines)
