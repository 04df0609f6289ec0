#!/usr/bin/env python3
"""Random questions about the time zones of this machine, each compared with Python's `zoneinfo`.

    compare_zones.py [COUNT [SEED]]

The calls go through ctypes to the shared library that MUXANDU_LIBRARY names. PYTHONPATH leads to muxandu_sys.py, which
`make/bindings python` prints. Each zone is read from its file, and from the text of its rule, which then holds at all times. The
last line is 'N passed, M failed', a question each.
"""

import ctypes
import io
import os
import random
import sys
import zoneinfo
from datetime import datetime, timedelta, timezone

import muxandu_sys
from muxandu_sys import MuxanduDateTime, MuxanduTimestamp, MuxanduTimeType, MuxanduTransition, MuxanduZone, MuxanduZoneInstants

library = muxandu_sys.declare(ctypes.CDLL(os.environ["MUXANDU_LIBRARY"]))

EPOCH = datetime(1970, 1, 1)

# The seconds that both know: years that `datetime` has with a day to spare.
FIRST, LAST = ((datetime(year, 1, 1) - EPOCH) // timedelta(seconds=1) for year in (2, 9999))

# Questions of one zone, one after another.
SHARE = 50

# The choices, and the errors by their names.
COMPATIBLE, EARLIER, LATER, REJECT = range(1, 5)
GAP, FOLD = 27, 28

passed = failed = 0


def count(holds, told):
    global passed, failed
    passed, failed = passed + holds, failed + (not holds)
    if not holds and failed <= 20:
        print(told)


def parts(value):
    return tuple(getattr(value, name) for name, _ in value._fields_)


def file_of(rule):
    """A file of RFC 9636 with a rule alone."""
    head = b"TZif2" + bytes(15)
    return head + bytes(24) + head + bytes(19) + b"\1\0\0\0\4" + bytes(6) + b"UTC\0\n" + rule + b"\n"


class Zone:
    """A zone, by the library and by `zoneinfo`."""

    def __init__(self, name, data, rule=None):
        self.name, self.zone, self.rows = name, MuxanduZone(), (MuxanduTransition * 512)()
        self.data, self.rule = data, rule
        if rule is None:
            made = library.muxandu_zone_from_tzif(data, len(data), ctypes.byref(self.zone), self.rows, 512)
        else:
            made = library.muxandu_zone_from_text(rule, len(rule), ctypes.byref(self.zone))
        self.size = made.size
        self.python = zoneinfo.ZoneInfo.from_file(io.BytesIO(data if rule is None else file_of(rule)))
        count(made.status == 0, f"{name} is refused: {parts(made)}")

    def offset(self, second):
        return self.shown(second)[1]

    def shown(self, second):
        """The wall clock at a second, and the offset."""
        at = (EPOCH + timedelta(seconds=second)).replace(tzinfo=timezone.utc).astimezone(self.python)
        return at.replace(tzinfo=None, fold=0), at.utcoffset() // timedelta(seconds=1)

    def abbreviation(self, number):
        """The abbreviation with a number, by the library."""
        room = ctypes.create_string_buffer(64)
        if self.rule is None:
            made = library.muxandu_zone_abbreviation_from_tzif(self.data, len(self.data), number, room, len(room))
        else:
            made = library.muxandu_zone_abbreviation_from_text(self.rule, len(self.rule), number, room, len(room))
        return None if made.status else room.raw[: made.size].decode()

    def abbreviation_at(self, second):
        """The abbreviation at a second, by `zoneinfo`."""
        return (EPOCH + timedelta(seconds=second)).replace(tzinfo=timezone.utc).astimezone(self.python).tzname()

    def instants(self, wall):
        """The seconds of a wall clock by both offsets that `zoneinfo` has for it, and those at which the zone shows it."""
        second = (wall - EPOCH) // timedelta(seconds=1)
        offsets = [wall.replace(tzinfo=self.python, fold=fold).utcoffset() // timedelta(seconds=1) for fold in (0, 1)]
        seconds = sorted({second - offset for offset in offsets})
        return seconds, [one for one in seconds if self.shown(one)[0] == wall]

    def gap_between(self, low, high):
        """The second between two at which the zone has another offset."""
        before = self.offset(low)
        while low + 1 < high:
            middle = (low + high) // 2
            low, high = (middle, high) if self.offset(middle) == before else (low, middle)
        return high


def date_time(wall, nanosecond, offset):
    return MuxanduDateTime(wall.year, wall.month, wall.day, wall.hour, wall.minute, wall.second, nanosecond, offset)


def ask_instant(zone, second, nanosecond):
    """The offset of a zone at an instant, and its date-time there."""
    wall, offset = zone.shown(second)
    found, shown, at = ctypes.c_int32(), MuxanduDateTime(), MuxanduTimestamp(second, nanosecond)
    status = library.muxandu_zone_offset_at(zone.zone, zone.rows, zone.size, at, ctypes.byref(found))
    count((status, found.value) == (0, offset), f"{zone.name} at {second}: {status} {found.value}, not {offset}")
    kind, name = MuxanduTimeType(), zone.abbreviation_at(second)
    status = library.muxandu_zone_type_at(zone.zone, zone.rows, zone.size, at, ctypes.byref(kind))
    told = status, kind.offset_seconds, zone.abbreviation(kind.designation)
    count(told == (0, offset, name), f"{zone.name} at {second}: {told}, not {name} at {offset}")
    status = library.muxandu_timestamp_to_zone(at, zone.zone, zone.rows, zone.size, ctypes.byref(shown))
    wanted = parts(date_time(wall, nanosecond, offset))
    count((status, parts(shown)) == (0, wanted), f"{zone.name} at {second}: {status} {parts(shown)}, not {wanted}")
    batch = library.muxandu_timestamps_to_zone(ctypes.byref(at), 1, zone.zone, zone.rows, zone.size, ctypes.byref(shown), 1)
    count((*parts(batch), parts(shown)) == (1, 0, wanted), f"{zone.name} at {second} in a column: {parts(shown)}")


def ask_wall(zone, wall, nanosecond):
    """The instants of a wall clock, and the date-time by each choice."""
    found, local = MuxanduZoneInstants(), date_time(wall, nanosecond, 0)
    seconds, shown = zone.instants(wall)
    second = (wall - EPOCH) // timedelta(seconds=1)
    early, late = (shown or seconds)[0], (shown or seconds)[-1]
    gap = 0 if shown else zone.gap_between(early, late)
    wanted = (early, late, gap, nanosecond, second - early, second - late, len(shown))
    status = library.muxandu_zone_instants_of(zone.zone, zone.rows, zone.size, local, ctypes.byref(found))
    count((status, parts(found)) == (0, wanted), f"{zone.name} of {wall}: {status} {parts(found)}, not {wanted}")
    rejected = (GAP, 0, FOLD)[len(shown)]
    for choice, at in ((COMPATIBLE, early if shown else late), (EARLIER, early), (LATER, late), (REJECT, early)):
        ask_choice(zone, local, choice, at, nanosecond, rejected if choice == REJECT else 0)


def ask_choice(zone, local, choice, second, nanosecond, status):
    """The date-time of a choice is that of this second, or it has this status."""
    answer = MuxanduDateTime()
    told = library.muxandu_date_time_at_zone(local, zone.zone, zone.rows, zone.size, choice, ctypes.byref(answer))
    wall, offset = zone.shown(second)
    wanted = parts(date_time(wall, nanosecond, offset)) if status == 0 else parts(MuxanduDateTime())
    holds = (told, parts(answer)) == (status, wanted)
    count(holds, f"{zone.name} of {parts(local)} by {choice}: {told} {parts(answer)}, not {status} {wanted}")
    items = ctypes.byref(local), 1, zone.zone, zone.rows, zone.size, choice, ctypes.byref(answer), 1
    batch = library.muxandu_date_times_at_zone(*items)
    holds = (*parts(batch), parts(answer)) == (not status, status, wanted)
    count(holds, f"{zone.name} of {parts(local)} by {choice} in a column: {parts(batch)} {parts(answer)}")


def ask(rng, zone, number):
    """Instants of all years, of years with a table, and near a transition; and wall clocks near them."""
    for _ in range(number):
        second = rng.randint(FIRST, LAST) if rng.random() < 0.2 else rng.randint(-4_000_000_000, 5_000_000_000)
        if rng.random() < 0.7:
            row = MuxanduTransition()
            at = MuxanduTimestamp(second, 0)
            if library.muxandu_zone_next_transition(zone.zone, zone.rows, zone.size, at, ctypes.byref(row)) == 0:
                second = min(row.second + rng.choice((0, -1, 1, rng.randint(-8_000, 8_000))), LAST)
        nanosecond = rng.choice((0, 999_999_999, rng.randrange(10**9)))
        ask_instant(zone, second, nanosecond)
        ask_wall(zone, zone.shown(second)[0] + timedelta(seconds=rng.choice((0, rng.randint(-8_000, 8_000)))), nanosecond)


def zones(rng):
    """A random zone of this machine by its file, or by its rule."""
    names = sorted(zoneinfo.available_timezones())
    while True:
        name = rng.choice(names)
        path = next(path for path in (os.path.join(folder, name) for folder in zoneinfo.TZPATH) if os.path.isfile(path))
        with open(path, "rb") as file:
            data = file.read()
        rule = data.rpartition(b"\n")[0].rpartition(b"\n")[2]
        yield Zone(name, data) if rng.random() < 0.7 or not rule else Zone(f"{name} by {rule}", data, rule)


def main():
    number, seed = (int(word) for word in (sys.argv[1:] + ["20000", "74"][len(sys.argv) - 1 :]))
    rng = random.Random(seed)
    for zone in zones(rng):
        ask(rng, zone, SHARE)
        if passed + failed >= number:
            break
    print(f"{passed} passed, {failed} failed")
    sys.exit(1 if failed else 0)


if __name__ == "__main__":
    main()
