#!/usr/bin/env python3
"""Random instants and wall clocks of all zones of the machine, each judged by Python's `zoneinfo`.

    zones.py [COUNT [SEED]]

COUNT instants (20,000) are spread over the zones: random ones of the years 1 to 9999 and near the present, and those at a transition and
beside it. Each is shown by `to_zone`, `offset_at` and a column, then the wall clock near it goes through `instants_of` and `at_zone`. From
there `next_transition` and `previous_transition` lead to transitions between which zoneinfo's offset is one. The last line is 'N passed,
M failed', an instant or a column each.
"""

import datetime
import os
import random
import sys
import zoneinfo
from pathlib import Path

if not os.environ.get("MUXANDU_INSTALLED"):
    sys.path.insert(0, str(Path(__file__).resolve().parents[2]))
sys.dont_write_bytecode = True

from muxandu import Duration, PlainDateTime, Timestamp, UtcOffset, Zone, columns  # noqa: E402

EPOCH, WALL_EPOCH = datetime.datetime(1970, 1, 1, tzinfo=datetime.timezone.utc), datetime.datetime(1970, 1, 1)

# The seconds of the years that datetime has, less some days.
LOW, HIGH = -62_135_510_400, 253_402_128_000

# The seconds that most programs ask for.
NEAR = (-3_000_000_000, 6_000_000_000)


class Clocks:
    """A zone as zoneinfo has it."""

    def __init__(self, name):
        self.zone = zoneinfo.ZoneInfo(name)

    def offset_at(self, second):
        """The seconds of the offset at a second."""
        return int((EPOCH + datetime.timedelta(seconds=second)).astimezone(self.zone).utcoffset().total_seconds())

    def instants(self, wall):
        """The seconds by the offsets of both folds of a wall clock, in their order, and those whose wall clock it is."""
        clock = WALL_EPOCH + datetime.timedelta(seconds=wall)
        by_fold = [wall - int(clock.replace(tzinfo=self.zone, fold=fold).utcoffset().total_seconds()) for fold in (0, 1)]
        return sorted(by_fold), sorted({second for second in by_fold if second + self.offset_at(second) == wall})


def names():
    """The zones of the machine, of which no package tells."""
    found = zoneinfo.available_timezones()
    return sorted(name for name in found if any(os.path.isfile(os.path.join(folder, name)) for folder in zoneinfo.TZPATH))


class Judge:
    """The random instants of a zone."""

    def __init__(self, source, name):
        self.source, self.name = source, name
        self.zone, self.clocks = Zone(name), Clocks(name)
        self.faults = []

    def compare(self, what, found, wanted):
        """Notes what differs."""
        if found != wanted:
            self.faults.append(f"{self.name}: {what} is {found!r}, must be {wanted!r}")

    def is_right(self, call, *words):
        """Whether a call finds no fault."""
        before = len(self.faults)
        call(*words)
        return len(self.faults) == before

    def draw(self, count):
        """So many seconds: random ones, and those at a transition, which may be the next one, or beside it."""
        seconds = [0]
        while len(seconds) <= count:
            kind = self.source.randrange(4)
            second = self.source.randrange(*((LOW, HIGH) if kind == 0 else NEAR))
            found = self.zone.next_transition(Timestamp(seconds[-1] if kind == 2 else second)) if kind > 1 else None
            beside = second if found is None else found.at.seconds + self.source.randrange(-1, 2)
            seconds.append(beside if LOW < beside < HIGH else second)
        return seconds[1:]

    def judge(self, second):
        """Judges the calls of an instant."""
        nanosecond = self.source.choice((0, 1, 999_999_999, self.source.randrange(1_000_000_000)))
        at, offset = Timestamp(second, nanosecond), self.clocks.offset_at(second)
        self.compare(f"the offset at {second}", self.zone.offset_at(at), UtcOffset(offset))
        shown = at.to_zone(self.zone)
        self.compare(f"to_zone of {second}", shown.__reduce__()[1], at.to_offset(offset).__reduce__()[1])
        self.judge_wall(second + offset + self.source.choice((0, self.source.randrange(-8_000, 8_000))), nanosecond)
        self.judge_transitions(at, offset)

    def judge_wall(self, wall, nanosecond):
        """Judges the calls of a wall clock."""
        clock = (PlainDateTime(1970, 1, 1) + Duration(wall)) + Duration(0, nanosecond)
        both, wanted = self.clocks.instants(wall)
        times, gap = self.zone.instants_of(clock)
        self.compare(f"instants_of {clock}", [at.to_timestamp() for at in times], [Timestamp(at, nanosecond) for at in wanted])
        self.compare(f"the wall clocks of {clock}", {at.date_time() for at in times}, {clock} if times else set())
        choices = {"earlier": both[0], "later": both[-1], "compatible": both[0 if wanted else -1]}
        for choice, second in choices.items():
            found = clock.at_zone(self.zone, choice)
            shown = Timestamp(second, nanosecond).to_offset(self.clocks.offset_at(second))
            self.compare(f"{choice} of {clock}", found.__reduce__()[1], shown.__reduce__()[1])
        if gap is None:
            self.compare(f"the instants of {clock}", len(times) > 0, True)
            return
        ends = [gap.at.seconds + self.clocks.offset_at(gap.at.seconds + step) for step in (-1, 0)]
        self.compare(f"the gap of {clock}", [gap.start, gap.end], [PlainDateTime(1970, 1, 1) + Duration(end) for end in ends])
        self.compare(f"whether {clock} is in its gap", gap.start <= clock < gap.end, True)

    def judge_transitions(self, at, offset):
        """Judges the transitions beside an instant: zoneinfo has one offset between them."""
        after, before = self.zone.next_transition(at), self.zone.previous_transition(Timestamp(at.seconds, 999_999_999))
        first = LOW if before is None else max(LOW, before.at.seconds)
        last = HIGH if after is None else min(HIGH, after.at.seconds)
        asked = (first, last - 1, *(self.source.randrange(first, last) for _ in range(2))) if first < last else ()
        found = {self.clocks.offset_at(second) for second in asked}
        self.compare(f"the offset from {first} to {last}", found, {offset} if asked else set())
        for beside in (after, before):
            if beside is None or not LOW < beside.at.seconds < HIGH:
                continue
            self.compare(f"whether {beside.at} is after {at}", beside.at > at, beside is after)
            self.compare(f"the one before {beside.at}", self.zone.previous_transition(beside.at) == beside, False)
            sides = [self.clocks.offset_at(beside.at.seconds + step) for step in (-1, 0)]
            kinds = [beside.before.offset.whole_seconds(), beside.after.offset.whole_seconds()]
            self.compare(f"the offsets beside {beside.at}", kinds, sides)

    def judge_column(self, seconds):
        """Judges a column of instants."""
        rows = (columns.MomentParts * len(seconds))(*((second, 7, 60) for second in seconds))
        found = columns.moments_to_zone(rows, self.zone)
        wanted = [(second, 7, self.clocks.offset_at(second)) for second in seconds]
        self.compare("the column", [(row.seconds, row.nanoseconds, row.offset_seconds) for row in found], wanted)


def main():
    numbers = [int(word) for word in sys.argv[1:]]
    count, seed = (*numbers, *(20_000, 1)[len(numbers) :])
    source, zones = random.Random(seed), names()
    source.shuffle(zones)
    passed = failed = 0
    for place, name in enumerate(zones):
        judge = Judge(source, name)
        seconds = judge.draw((count + len(zones) - 1 - place) // len(zones))
        rights = [judge.is_right(judge.judge, second) for second in seconds]
        rights += [judge.is_right(judge.judge_column, some) for some in (seconds, sorted(seconds))]
        for told in judge.faults[:5] if failed < 20 else ():
            print("FAILED:", told)
        passed, failed = passed + rights.count(True), failed + rights.count(False)
    print(f"{passed} passed, {failed} failed")
    sys.exit(1 if failed or not passed else 0)


if __name__ == "__main__":
    main()
