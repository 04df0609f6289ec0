"""Logs of local times about the changes of the clocks of three zones, some of which change their form, and what each word of stamps
makes of them and tells of them, by Python's `zoneinfo`."""

import itertools
import random
import re
from datetime import datetime, timedelta, timezone
from zoneinfo import ZoneInfo

from shared.form_changes import YEAR_LACKS, Changing
from shared.form_lines import Reader, told_first
from shared.stamp_lines import NANOS, count_of, result_of, told_tally

# Two zones of an hour of summer time, and one of half an hour. Their files end before 2038, and rules hold from then on.
ZONES = ("Europe/Berlin", "America/New_York", "Australia/Lord_Howe")
YEARS = (2024, 2091)

# Each word, by its words.
WORDS = (
    ("utc",),
    ("at", "+05:30"),
    ("unix",),
    ("check", "--all"),
    ("gaps", "25m"),
    ("since", "2024-10-27T00:30:00Z"),
    ("until", "2024-10-27T00:30:00Z"),
    ("count", "day", "at", "+05:30"),
)

EPOCH = datetime(1970, 1, 1, tzinfo=timezone.utc)


def changes_of(zone, year):
    """The local times at which the clocks of a zone change in a year, by the offset before."""
    hours = [datetime(year, 1, 1, tzinfo=timezone.utc) + timedelta(minutes=30 * count) for count in range(48 * 365)]
    shown = [at.astimezone(zone).replace(tzinfo=None) for at in hours]
    return [before + timedelta(minutes=30) for before, after in zip(shown, shown[1:]) if after - before != timedelta(minutes=30)]


def local_lines(rng, zone):
    """Lines with local times near each change, and one an hour from the start of both years."""
    times = [datetime(year, month, 10, 12, 30) for year in YEARS for month in range(1, 13)]
    for year in YEARS:
        for change in changes_of(zone, year):
            times += [
                change + timedelta(minutes=minutes) for minutes in (-121, -90, -61, -60, -31, -30, -1, 0, 1, 29, 30, 59, 60, 89)
            ]
            times += [change + timedelta(milliseconds=rng.randrange(-7_200_000, 7_200_000)) for _ in range(10)]
    rng.shuffle(times)
    return [f"{at:%Y-%m-%d %H:%M:%S}.{at.microsecond // 1000:03} {rng.choice('abc')}\n".encode() for at in times]


def finder(zone):
    """What finds the stamp of a line: its instant by the earlier of two offsets, its end and its beginning; or the part at fault, the
    hour where the clocks skip it."""

    def find(line):
        wall = datetime.fromisoformat(line[:23].decode())
        at = wall.replace(tzinfo=zone).astimezone(timezone.utc)
        if at.astimezone(zone).replace(tzinfo=None) != wall:
            return "hour"
        return (at - EPOCH) // timedelta(microseconds=1) * (NANOS // 1_000_000), 23, 0

    return find


def told_lines(lines, name, verb):
    """The only one of these lines, or their number and the first of them, whose times the clocks of a zone show so."""
    if len(lines) == 1:
        return f"line {lines[0]} has a time that the clocks of {name} {verb}"
    return f"{len(lines)} lines have times that the clocks of {name} {verb}, the first is line {lines[0]}"


def gap_at(zone, wall):
    """The ends of the gap that has a wall clock: those of the minutes about it that the clocks skip too."""
    step, ends = timedelta(minutes=1), []
    for way in (-step, step):
        at = wall.replace(second=0, microsecond=0)
        while at.replace(tzinfo=zone).astimezone(timezone.utc).astimezone(zone).replace(tzinfo=None) != at:
            at += way
        ends.append(at)
    return ends[0] + step, ends[1]


def told_clocks(walls, zone, said=""):
    """What is told of the lines of a log whose times the clocks of a zone show twice or skip, by the time of each line: None if it has
    none, or an offset."""
    twice, skipped, ends = [], [], None
    for number, wall in enumerate(walls, 1):
        if wall is None:
            continue
        first, second = (wall.replace(tzinfo=zone, fold=fold).astimezone(timezone.utc) for fold in (0, 1))
        if first.astimezone(zone).replace(tzinfo=None) != wall:
            skipped.append(number)
            ends = ends or gap_at(zone, wall)
        elif first != second:
            twice.append(number)
    told = []
    if twice:
        told.append(f"{told_lines(twice, zone.key, 'show twice')}: stamps takes the earlier instant")
    if skipped:
        told.append(f"{told_lines(skipped, zone.key, 'skip')}: from {ends[0]:%FT%T} to {ends[1]:%FT%T}")
    return "".join(f"stamps: {said}{text}\n" for text in told).encode()


def walls_of(data):
    """The local time of each line of a log that begins with one."""
    return [datetime.fromisoformat(line[:23].decode()) for line in data.splitlines()]


class ZonedReader(Reader):
    """Finds the stamps of a log in a form at a place: those without an offset are times on the clocks of a zone, of which the earlier
    of two instants counts. `wall` is the time of the last line, if it has such a one."""

    def __init__(self, zone, name, place, year):
        super().__init__(name, place, 0, year)
        self.zone, self.wall = zone, None

    def stamp_of(self, line):
        """The instant in nanoseconds, the end and the beginning of the stamp of a line, or the name of the part at fault, or None."""
        self.wall = None
        return super().stamp_of(line)

    def instant_of(self, parts, is_whole):
        """The instant of the parts of a stamp, or the name of a part out of its range: the hour of a time that the clocks skip."""
        before, shown = (self.year, self.month), super().instant_of(parts, is_whole)
        if is_whole or isinstance(shown, str):
            return shown
        self.wall = (EPOCH + timedelta(microseconds=shown // 1_000)).replace(tzinfo=None)
        at = self.wall.replace(tzinfo=self.zone).astimezone(timezone.utc)
        if at.astimezone(self.zone).replace(tzinfo=None) != self.wall:
            self.year, self.month = before
            return "hour"
        instant = (at - EPOCH) // timedelta(microseconds=1) * 1_000
        self.keep(instant)
        return instant


# Two files of local times of Berlin, merged: a time that is skipped stays behind the line before it.
ZONE_FILES = {
    "skip.log": b"2024-03-31 01:59:59.000 a\n2024-03-31 02:30:00.000 b\n2024-10-27 02:30:00.000 c\n2024-10-27 03:00:00.000 d\n",
    "fold.log": b"2024-03-31 03:00:00.000 e\n2024-10-27 02:45:00.000 f\n2024-10-27 02:50:00.000 g\n",
}


def zone_merges():
    """Runs of merge over these files: the words, what is written, what is told, and the status."""
    zone = ZoneInfo("Europe/Berlin")
    lines = [line for text in ZONE_FILES.values() for line in text.splitlines(keepends=True)]
    merged = b"".join(lines[place] for place in (0, 1, 4, 2, 5, 6, 3))
    bare = b"stamps: skip.log: 1 of 4 lines has no stamp: line 2\n"
    skip, fold = (told_clocks(walls_of(text), zone, f"{name}: ") for name, text in ZONE_FILES.items())
    form = b"".join(f"stamps: {name}: local at front\n".encode() for name in ZONE_FILES)
    in_utc = b"".join(
        b"2024-%s.000000000Z%s" % pair
        for pair in zip((b"03-31T01:00:00", b"10-27T00:45:00", b"10-27T00:50:00"), (b" e\n", b" f\n", b" g\n"))
    )
    words = "--zone Europe/Berlin skip.log fold.log"
    return (
        (f"merge --form local {words}", merged, bare + skip + fold, 0),
        (f"merge {words}", merged, form + bare + skip + fold, 0),
        (f"merge --quiet {words}", merged, b"", 0),
        ("merge --to utc --form local --zone Europe/Berlin fold.log", in_utc, fold, 0),
    )


def fold_rules():
    """Rules for a last line without a line feed, and for a long line."""
    zone, words = ZoneInfo("Europe/Berlin"), "--form local --zone Europe/Berlin"
    last = b"2024-10-27 02:30:00.000 c"
    long = b"2024-10-27 02:30:00.000 " + b"x" * 70_000 + b"\n2024-10-27 02:45:00.000 d\n"
    in_utc = long.replace(b"27 02:30:00.000", b"27T00:30:00.000000000Z").replace(b"27 02:45:00.000", b"27T00:45:00.000000000Z")
    yield "a last line without a line feed", f"check {words}", last, b"", told_clocks(walls_of(last), zone), 0
    yield "a long line of a zone", f"utc {words}", long, in_utc, told_clocks(walls_of(long), zone), 0


def zone_rules():
    """A rule for each word over a log of each zone: its name, the words, the input, what is written, what is told, and the status."""
    rng, rules = random.Random(12), list(fold_rules())
    for name in ZONES:
        zone = ZoneInfo(name)
        lines, find = local_lines(rng, zone), finder(zone)
        for words in WORDS:
            count = words[0] == "count"
            # a count has a row for each unit in between
            data = b"".join(sorted(line for line in lines if line.startswith(b"2024")) if count else lines)
            written, told = count_of(words, data, find=find) if count else result_of(words, data, find)
            is_over = told and not count
            note, status = (b"", 0) if is_over else told_tally(data, find, "", words[0] == "check")
            status = 1 if told or words[0] in ("check", "gaps") and written else status
            clocks = told_clocks(walls_of(data), zone) if not is_over else b""
            asked = f"{' '.join(words)} --form local --zone {name}"
            rules.append(("local times of a zone", asked, data, written, told + note + clocks, status))
            rules.append(("local times of a zone", f"{asked} --quiet", data, written, told, status))
    return tuple(rules)


# ---- forms that change

# What is told of an input that has no time of a last change.
NO_TIME = b"the input has no time of a last change: write the first year in place of mtime, as --year 2024"

# How a line is written in each form: its first lines choose it. The last two have an offset.
WRITTEN = {
    "local": "%Y-%m-%d %H:%M:%S.250 x",
    "haproxy": "%d/%b/%Y:%H:%M:%S.250 x",
    "syslog": "%b %d %H:%M:%S x",
    "local-comma": "%Y-%m-%d %H:%M:%S,250 x",
    "rfc3339": "%Y-%m-%dT%H:%M:%S.250+01:00 x",
    "git": "%Y-%m-%d %H:%M:%S +0100 x",
}


def changing_lines(rng, zone):
    """A log of three forms, 40 lines of each, in the order of their local times about the changes of the clocks in a year."""
    minutes = [rng.randrange(-150, 150) for _ in range(120)]
    changes = changes_of(zone, YEARS[0])
    times = sorted(changes[place % len(changes)] + timedelta(minutes=ahead) for place, ahead in enumerate(minutes))
    names = rng.sample(list(WRITTEN), 3)
    return b"".join(f"{at:{WRITTEN[names[place // 40]]}}\n".encode() for place, at in enumerate(times))


def changing_in(data, zone, has_year=True):
    """What finds the stamps of a log whose form may change, on the clocks of a zone."""

    def lacking(name):
        return YEAR_LACKS if name == "syslog" and not has_year else None

    return Changing(data, 0, 2024, lacking, lambda name, place, _, year: ZonedReader(zone, name, place, year))


def changed_told(data, zone, has_year=True):
    """What is told of the changes of form of such a log, and of its times that the clocks show twice or skip."""
    changing, walls = changing_in(data, zone, has_year), []
    for line in data.splitlines():
        changing.stamp_of(line)
        walls.append(getattr(getattr(changing.find, "__self__", None), "wall", None))
    return changing.told_changes(), told_clocks(walls, zone)


def rule_of_change(words, data, zone, given):
    """The rule of a word over a log whose form may change, on the clocks of a zone."""
    has_year, count = "--year 2024" in given, words[0] == "count"
    find = changing_in(data, zone, has_year).stamp_of
    written, told = count_of(words, data, find=find) if count else result_of(words, data, find)
    note, status = told_tally(data, changing_in(data, zone, has_year).stamp_of, "", words[0] == "check")
    changes, clocks = changed_told(data, zone, has_year)
    status = 1 if told or words[0] in ("check", "gaps") and written else status
    if "mtime" in given:
        changes = changes.replace(f"the form has {YEAR_LACKS}".encode(), NO_TIME)
    asked = " ".join((*words, *given.split(), "--zone", zone.key))
    return (
        f"a form that changes to that of {data.splitlines()[-1].decode()}",
        asked,
        data,
        written,
        told_first(data) + changes + told + note + clocks,
        status,
    )


def changed_log(first, second):
    """A log of 20 lines of a form, and 40 of another one, a minute after one another."""
    times = [datetime(2024, 7, 1, 12) + timedelta(minutes=minutes) for minutes in range(60)]
    return b"".join(f"{at:{WRITTEN[first if place < 20 else second]}}\n".encode() for place, at in enumerate(times))


def change_rules():
    """Rules for the logs of each zone whose form changes."""
    rng = random.Random(13)
    yield rule_of_change(("check", "--all"), changed_log("local", "syslog"), ZoneInfo("Asia/Tokyo"), "--year mtime")
    for name in ZONES:
        zone = ZoneInfo(name)
        yield rule_of_change(("utc",), changed_log("local", "haproxy"), zone, "")
        yield rule_of_change(("utc",), changed_log("rfc3339", "local"), zone, "")
        yield rule_of_change(("check", "--all"), changed_log("local", "syslog"), zone, "")
        for words in WORDS:
            for _ in range(3):
                yield rule_of_change(words, changing_lines(rng, zone), zone, "--year 2024")


# Words, the two forms of a log, and what the second form lacks.
LACKING = (
    ("utc --year 2024", "rfc3339", "haproxy", "no offset"),
    ("utc", "rfc3339", "syslog", "no offset and no year"),
    ("utc --offset Z", "rfc3339", "syslog", "no year"),
    ("utc --zone Asia/Tokyo", "local", "syslog", "no year"),
    ("utc --zone Asia/Tokyo --year mtime", "local", "syslog", "no time of a last change"),
    ("utc --year mtime", "rfc3339", "syslog", "no offset"),
    ("count hour --offset Z --year mtime", "rfc3339", "syslog", "no time of a last change"),
    ("merge --zone Asia/Tokyo", "haproxy", "syslog", "no year"),
)


def with_remedy(words, told):
    """Words with the remedy of what is told of them: options more, or one in place of the value `mtime`."""
    options = dict(re.findall(r"(--[a-z]+) ([^ \n]+)", told.partition(" fits: ")[2]))
    if "in place of mtime" in told:
        return words.replace("--year mtime", f"--year {options['--year']}")
    return " ".join((words, *itertools.chain(*options.items())))


def problem_of_remedy(run, words, data, lack):
    """What is wrong with what is told of the second form of a log: the words with its remedy, and again with the next one, read it."""
    ended = run(words, data)
    if f"has {lack}: " not in ended.told.decode():
        return f"{ended.told.decode()!r} has not {lack!r}"
    for _ in range(2):
        if b" fits: " in ended.told:
            words = with_remedy(words, ended.told.decode())
            ended = run(words, data)
    is_read = ended.status == 0 and b"line 37: the form changes" in ended.told
    return None if is_read else f"{words}: status {ended.status}, {ended.told.decode()!r}"
