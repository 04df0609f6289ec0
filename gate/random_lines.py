"""Random lines for times_bench, of each kind, and what it must answer to them, by the calendar of civil.py."""

import random

from shared.civil import (
    DAY,
    FIRST,
    FIRST_SECOND,
    FIRST_YEAR,
    LAST,
    LAST_SECOND,
    LAST_YEAR,
    MONTHS,
    SECOND,
    WEEKDAYS,
    civil_date,
    date_text,
    date_time_text,
    day_number,
    iso_week_date,
    month_length,
    offset_text,
    ordinal,
    time_text,
    timestamp_text,
    weekday,
)

I64 = 2**63

# The most bytes of a line that is no bad line.
LONGEST_LINE = 1_024


def hms(clock):
    seconds = clock // SECOND
    return f"{seconds // 3_600} {seconds // 60 % 60} {seconds % 60}"


# What the reads of the date print of a day.
DATE_READS = {
    "date": date_text,
    "year": lambda day: civil_date(day)[0],
    "month": lambda day: MONTHS[civil_date(day)[1] - 1],
    "day": lambda day: civil_date(day)[2],
    "ordinal": ordinal,
    "iso_week": lambda day: iso_week_date(day)[1],
    # The weeks begin with the first Sunday, or the first Monday, of the year.
    "sunday_based_week": lambda day: (ordinal(day) - (weekday(day) + 1) % 7 + 6) // 7,
    "monday_based_week": lambda day: (ordinal(day) - weekday(day) + 6) // 7,
    "to_calendar_date": lambda day: "{0} {1} {2}".format(civil_date(day)[0], MONTHS[civil_date(day)[1] - 1], civil_date(day)[2]),
    "to_ordinal_date": lambda day: f"{civil_date(day)[0]} {ordinal(day)}",
    "to_iso_week_date": lambda day: "{0} {1} {2}".format(*iso_week_date(day), WEEKDAYS[weekday(day)]),
    "weekday": lambda day: WEEKDAYS[weekday(day)],
    "to_julian_day": lambda day: day + 2_440_588,
}

# What the reads of the time of day print of a clock.
CLOCK_READS = {
    "time": time_text,
    "as_hms": hms,
    "as_hms_milli": lambda clock: f"{hms(clock)} {clock % SECOND // 1_000_000}",
    "as_hms_micro": lambda clock: f"{hms(clock)} {clock % SECOND // 1_000}",
    "as_hms_nano": lambda clock: f"{hms(clock)} {clock % SECOND}",
    "hour": lambda clock: clock // (3_600 * SECOND),
    "minute": lambda clock: clock // (60 * SECOND) % 60,
    "second": lambda clock: clock // SECOND % 60,
    "millisecond": lambda clock: clock % SECOND // 1_000_000,
    "microsecond": lambda clock: clock % SECOND // 1_000,
    "nanosecond": lambda clock: clock % SECOND,
}

# The parts of the clock that are replaced: the largest value, and the length of one and of them all in nanoseconds.
CLOCK_PARTS = {
    "hour": (23, 3_600 * SECOND, DAY),
    "minute": (59, 60 * SECOND, 3_600 * SECOND),
    "second": (59, SECOND, 60 * SECOND),
    "millisecond": (999, 1_000_000, SECOND),
    "microsecond": (999_999, 1_000, SECOND),
    "nanosecond": (999_999_999, 1, SECOND),
}

# The largest value that a line can write for a part.
WRITTEN = {"day": 255, "ordinal": 65_535, "hour": 255, "minute": 255, "second": 255, "millisecond": 65_535}


class Refused(Exception):
    """A part is out of its range."""


def with_part(at, part, value):
    """The instant with a part replaced."""
    day, clock = divmod(at, DAY)
    year, month, day_of_month = civil_date(day)
    if part in CLOCK_PARTS:
        largest, one, all_of_them = CLOCK_PARTS[part]
        if value > largest:
            raise Refused(part)
        return at - clock + clock // all_of_them * all_of_them + value * one + (clock % one if one >= SECOND else 0)
    if part == "year":
        if not FIRST_YEAR <= value <= LAST_YEAR:
            raise Refused("year")
        year = value
    elif part == "month":
        month = value
    elif part == "day":
        day_of_month = value
    elif part == "ordinal":
        start = day_number(year, 1, 1)
        if not 1 <= value <= day_number(year + 1, 1, 1) - start:
            raise Refused("ordinal")
        return (start + value - 1) * DAY + clock
    if not 1 <= day_of_month <= month_length(year, month):
        raise Refused("day")
    return day_number(year, month, day_of_month) * DAY + clock


class Source(random.Random):
    """Random numbers, and the Unix seconds that lines begin between, if not all."""

    ends = ()


def random_second(source):
    if source.ends:
        return source.randint(*source.ends)
    near = source.choice((FIRST_SECOND, LAST_SECOND, 0, 951_782_400, None, None, None, None))
    return source.randint(FIRST_SECOND, LAST_SECOND) if near is None else near + source.randint(-100_000, 100_000)


def random_nanosecond(source):
    return source.choice((0, 0, 1, 500_000_000, 999_999_999, source.randrange(SECOND), SECOND))


def random_offset(source):
    return source.choice((0, 93_599, -93_599, source.randint(-93_599, 93_599)))


def start_of(second, nanosecond):
    if not FIRST_SECOND <= second <= LAST_SECOND:
        raise Refused("seconds")
    if nanosecond >= SECOND:
        raise Refused("nanoseconds")
    return second * SECOND + nanosecond


def room(front, count):
    """The most bytes that a word may have where so many follow the front of a line, each after a space."""
    return (LONGEST_LINE - len(front)) // count - 1


def unix_line(source):
    second = random_second(source)
    in_range = FIRST_SECOND <= second <= LAST_SECOND
    return f"unix {second}", f"{date_time_text(second * SECOND)} +00" if in_range else "refused timestamp"


def stamp_line(source):
    second, nanosecond = random_second(source), random_nanosecond(source)
    line = f"stamp {second} {nanosecond}"
    if not FIRST_SECOND <= second <= LAST_SECOND:
        return line, "refused timestamp"
    if nanosecond >= SECOND:
        return line, "refused nanosecond"
    day = second * SECOND // DAY
    words = (ordinal(day), WEEKDAYS[weekday(day)], day + 2_440_588)
    return line, f"{date_time_text(second * SECOND + nanosecond)} +00 {words[0]} {words[1]} {words[2]}"


def call(source, at):
    """A random call: its word, what it replies, and the instant after it."""
    kind = source.randrange(4)
    day, clock = divmod(at, DAY)
    if kind == 0:
        name = source.choice(list(DATE_READS) + list(CLOCK_READS))
        return name, DATE_READS[name](day) if name in DATE_READS else CLOCK_READS[name](clock), at
    if kind == 1:
        name = source.choice(("checked_add", "checked_sub", "saturating_add", "saturating_sub"))
        seconds = source.choice((0, 1, 86_400, 31_622_400, 10**13, I64 - 1)) * source.choice((1, -1))
        fraction = source.choice((0, 1, 999_999_999)) * (-1 if seconds < 0 else 1)
        span = seconds * SECOND + fraction
        moved = at + span if name.endswith("add") else at - span
        word = f"{name}={seconds},{fraction}"
        if name.startswith("checked") and not FIRST <= moved <= LAST:
            return word, "refused", at
        moved = min(max(moved, FIRST), LAST)
        return word, date_time_text(moved), moved
    if kind == 2:
        offset = random_offset(source)
        shown = at + offset * SECOND
        word = f"checked_to_offset={offset_text(offset)}"
        return word, f"{date_time_text(shown)} {offset_text(offset)}" if FIRST <= shown <= LAST else "refused", at
    part = source.choice(("time", "date", "year", "month", "day", "ordinal", *CLOCK_PARTS))
    if part == "time":
        parts = (source.randrange(24), source.randrange(60), source.randrange(60), source.randrange(SECOND))
        moved = at - clock + ((parts[0] * 60 + parts[1]) * 60 + parts[2]) * SECOND + parts[3]
        return "replace_time={},{},{},{}".format(*parts), date_time_text(moved), moved
    if part == "date":
        year, month = source.randint(FIRST_YEAR, LAST_YEAR), source.randint(1, 12)
        parts = (year, month, source.randint(1, month_length(year, month)))
        moved = day_number(*parts) * DAY + clock
        return "replace_date={},{},{}".format(*parts), date_time_text(moved), moved
    if part == "year":
        value = source.choice((2000, 1900, -1, LAST_YEAR, LAST_YEAR + 1, -(2**31), source.randint(FIRST_YEAR, LAST_YEAR)))
    elif part == "month":
        value = source.randint(1, 12)
    else:
        largest = CLOCK_PARTS[part][0] if part in CLOCK_PARTS else 366 if part == "ordinal" else 31
        value = source.choice((0, largest, largest + 1, WRITTEN.get(part, 2**32 - 1), source.randint(0, largest)))
    try:
        moved = with_part(at, part, value)
        return f"replace_{part}={value}", date_time_text(moved), moved
    except Refused as refusal:
        return f"replace_{part}={value}", f"refused {refusal}", at


def run_of(source, second, nanosecond, count, longest):
    """A run of so many calls, whose words have at most so many bytes, and its answer."""
    words, replies = [f"run {second} {nanosecond}"], []
    at = start_of(second, nanosecond)
    while len(replies) < count:
        word, reply, next_at = call(source, at)
        if len(word) <= longest:
            words.append(word)
            replies.append(f"{reply}; ")
            at = next_at
    return " ".join(words), f"{''.join(replies)}end {timestamp_text(at)}"


def run_line(source):
    second, nanosecond = random_second(source), random_nanosecond(source)
    try:
        start_of(second, nanosecond)
    except Refused as refusal:
        return f"run {second} {nanosecond} year", f"refused {refusal}"
    return run_of(source, second, nanosecond, source.randint(0, 12), LONGEST_LINE)


def long_run_line(source, count):
    """A run of so many calls, each of a length with which all of them have room in a line."""
    second, nanosecond = random_second(source), source.randrange(SECOND)
    return run_of(source, second, nanosecond, count, room(f"run {second} {nanosecond}", count))


def held_text(kind, offset, at):
    if kind == "stamp":
        return f"stamp {timestamp_text(at)}"
    if kind == "utc":
        return f"utc {date_time_text(at)} +00"
    return f"offset {date_time_text(at + offset * SECOND)} {offset_text(offset)}"


def random_step(source):
    kind = source.choice(("stamp", "utc", "offset", "offset"))
    offset = random_offset(source) if kind == "offset" else 0
    return kind, offset, offset_text(offset) if kind == "offset" else kind


def chain_of(second, nanosecond, start, steps):
    """A chain of these steps, and its answer."""
    line = " ".join(["chain", str(second), str(nanosecond), start[2], *(step[2] for step in steps)])
    try:
        shown = start_of(second, nanosecond)
    except Refused as refusal:
        return line, f"refused {refusal}"
    # With an offset, the second and the nanosecond are what clocks there show.
    at = shown - start[1] * SECOND
    held = start
    for index, step in enumerate(steps):
        if not FIRST <= at + step[1] * SECOND <= LAST:
            return line, f"stopped {index} {held_text(held[0], held[1], at)}"
        held = step
    return line, held_text(held[0], held[1], at)


def chain_line(source):
    second, nanosecond = random_second(source), random_nanosecond(source)
    start = random_step(source)
    return chain_of(second, nanosecond, start, [random_step(source) for _ in range(source.randint(0, 12))])


def long_chain_line(source, count):
    """A chain of so many steps, each of a length with which all of them have room in a line."""
    second, nanosecond, start = random_second(source), source.randrange(SECOND), random_step(source)
    longest = room(f"chain {second} {nanosecond} {start[2]}", count)
    steps = []
    while len(steps) < count:
        step = random_step(source)
        if len(step[2]) <= longest:
            steps.append(step)
    return chain_of(second, nanosecond, start, steps)


def bad_line(source):
    second, nanosecond = random_second(source), random_nanosecond(source)
    return (
        source.choice(
            (
                "",
                f"time {second}",
                f"unix {second} ",
                f"unix +{abs(second)}",
                f"stamp {second}",
                f"stamp {second}  {nanosecond}",
                f"run {second} {nanosecond} ",
                f"run {second} -1 year",
                f"run {second} {nanosecond} Year",
                f"run {second} {nanosecond} replace_day",
                f"run {second} {nanosecond} replace_day=256",
                f"run {second} {nanosecond} replace_month=13",
                f"run {second} {nanosecond} replace_date=2019,2,29",
                f"run {second} {nanosecond} checked_add=1,-1",
                f"run {second} {nanosecond} checked_to_offset=+26:00:00",
                f"chain {second} {nanosecond}",
                f"chain {second} {nanosecond} local",
                f"chain {second} {nanosecond} utc 01:00:00",
            )
        ),
        "bad line",
    )
