"""Stamps of logs in named forms at places of a line, and random lines of each form: by Python's `re` and `datetime`, with
nanoseconds by hand. The words for time zones are those of the zones of this system, by Python's `zoneinfo`."""

import functools
import os
import re
import struct
import zoneinfo
from datetime import timedelta

from shared.stamp_lines import (
    BARE,
    BLOCK,
    EPOCH,
    EPOCH_SECONDS,
    MARK,
    NANOS,
    days_of,
    first_lines,
    second_of,
    told_bare,
    wall_text,
)

MONTHS = "Jan Feb Mar Apr May Jun Jul Aug Sep Oct Nov Dec".split()
WEEKDAYS = "Mon Tue Wed Thu Fri Sat Sun".split()

# The parts of a stamp: %G is a year before other digits, %e a day without a zero before it, %k an hour that a space can pad, %l one
# that can have one digit, %F a fraction of 3, 6 or 9 digits, %y a year of 1970 to 2069, %s a Unix timestamp, %z and %n the hours and
# the minutes of an offset.
PARTS = {
    "Y": ("year", "[0-9]{4}(?![0-9])"),
    "G": ("year", "[0-9]{4}"),
    "y": ("short", "[0-9]{2}"),
    "m": ("month", "[0-9]{2}"),
    "b": ("name", f"(?i:{'|'.join(MONTHS)})"),
    "d": ("day", "[0-9]{2}"),
    "e": ("day", " [0-9]|[0-9]{1,2}"),
    "a": ("weekday", "|".join(WEEKDAYS)),
    "H": ("hour", "[0-9]{2}"),
    "k": ("hour", " [0-9]|[0-9]{2}"),
    "l": ("hour", " [0-9]|[0-9]{1,2}"),
    "M": ("minute", "[0-9]{2}"),
    "S": ("second", "[0-9]{2}"),
    "f": ("fraction", "[0-9]+"),
    "F": ("fraction", "[0-9]{9}|[0-9]{6}|[0-9]{3}"),
    "z": ("hours", "[+-][0-9]{2}"),
    "n": ("minutes", "[0-9]{2}"),
    "p": ("ignored", "[0-9]+"),
    "s": ("count", "[0-9]{%d}(?![0-9])"),
}

# The text before a stamp of each form, and the stamp: {a|b} is a or b.
FORMS = {
    "rfc3339": ("", "%Y-%m-%d{T|t| }%H:%M:%S{.%f|}{%z:%n|Z|z}"),
    "rfc3339-comma": ("", "%Y-%m-%d{T|t| }%H:%M:%S,%f{%z:%n|Z|z}"),
    "journald": ("", "%Y-%m-%d{T|t| }%H:%M:%S{.%f|,%f|}%z%n"),
    "rfc5424": ("<%p>%p ", "%Y-%m-%dT%H:%M:%S{.%f|}{%z:%n|Z|z}"),
    "rfc3164": ("<%p>", "%b %e %H:%M:%S{.%f|}"),
    "git": ("", "%Y{-|/}%m{-|/}%d %H:%M:%S{.%f|,%f|} %z{:|}%n"),
    "postgres": ("", "%Y-%m-%d %H:%M:%S{.%f|} {UTC|GMT}"),
    "clf": ("", "%d/%b/%Y:%H:%M:%S %z%n"),
    "git-default": ("", "%a %b %e %H:%M:%S %Y %z%n"),
    "date": ("", "%a %b %e %H:%M:%S {UTC|GMT} %Y"),
    "rfc2822": ("", "{%a, |}%e %b %Y %H:%M{:%S|} {%z%n|GMT|UTC|Z|z}"),
    "haproxy": ("", "%d/%b/%Y:%H:%M:%S{.%f|}"),
    "nginx-error": ("", "%Y/%m/%d %H:%M:%S{.%f|}"),
    "local-comma": ("", "%Y{-|/}%m{-|/}%d{T|t| }%H:%M:%S,%F"),
    "local": ("", "%Y-%m-%d{T|t| |\t}%l:%M:%S{.%f|}"),
    "two-spaces": ("", "%Y-%m-%d  %H:%M:%S{.%f|,%F|}"),
    "apache-error": ("", "%a %b %e %H:%M:%S{.%f|} %Y"),
    "redis": ("", "%d %b %Y %H:%M:%S{.%f|}"),
    "tomcat": ("", "%d-%b-%Y %H:%M:%S{.%f|}"),
    "erlang": ("", "%d-%b-%Y::%H:%M:%S{.%f|}"),
    "bgl": ("", "%Y-%m-%d-%H.%M.%S{.%f|}"),
    "syslog": ("", "%b %e %H:%M:%S{.%f|}"),
    "klog": ("{I|W|E|F}", "%m%d %H:%M:%S{.%f|}"),
    "android": ("", "%m-%d %H:%M:%S{.%f|}"),
    "syslog-year": ("", "%b %e %H:%M:%S{.%f|} %Y"),
    "modsecurity": ("", "%d/%b/%Y:%H:%M:%S.%f %z%n"),
    "php": ("", "%d-%b-%Y %H:%M:%S UTC"),
    "hour-offset": ("", "%Y-%m-%d{T| }%H:%M:%S{.%f|}{ |}%z"),
    "cisco-utc": ("{*|.|}", "%b %e %H:%M:%S{.%f|} UTC"),
    "cisco": ("{*|.}", "%b %e %H:%M:%S{.%f|}"),
    "asa": ("{*|.|}", "%b %e %Y %H:%M:%S{.%f|}"),
    "nxos": ("", "%Y %b %e %H:%M:%S{.%f|}"),
    "django": ("", "%d/%b/%Y %H:%M:%S"),
    "splunk": ("", "%m-%d-%Y %H:%M:%S.%f %z%n"),
    "clickhouse": ("", "%Y.%m.%d %H:%M:%S{.%f|}"),
    "suricata": ("", "%m/%d/%Y-%H:%M:%S.%f"),
    "redis-2.8": ("", "%d %b %H:%M:%S{.%f|}"),
    "glog": ("{I|W|E|F}", "%G%m%d %H:%M:%S.%f"),
    "unix": ("", "%s{.%f|}"),
    "unix-ms": ("", "%s"),
    "unix-us": ("", "%s"),
    "unix-ns": ("", "%s"),
    "mysql-5.6": ("", "%y%m%d %k:%M:%S"),
    "hdfs": ("", "%y%m%d %H%M%S"),
    "spark": ("", "%y/%m/%d %H:%M:%S"),
}

# The forms whose stamps have an offset, or are a Unix timestamp.
WHOLE = {name for name, (_, text) in FORMS.items() if re.search("%z|UTC|%s", text)}

# The sample of each form that the program prints.
SAMPLES = {
    "rfc3339": "2024-02-29T12:00:00.5+05:30",
    "rfc3339-comma": "2024-02-29T12:00:00,5+05:30",
    "journald": "2024-02-29T12:00:00+0530",
    "rfc5424": "<34>1 2024-02-29T12:00:00.003Z",
    "rfc3164": "<34>Feb 29 12:00:00",
    "git": "2024-02-29 12:00:00 +0530",
    "postgres": "2024-02-29 12:00:00.123 UTC",
    "clf": "29/Feb/2024:12:00:00 +0530",
    "git-default": "Thu Feb 29 12:00:00 2024 +0530",
    "date": "Thu Feb 29 12:00:00 UTC 2024",
    "rfc2822": "Thu, 29 Feb 2024 12:00:00 +0530",
    "haproxy": "29/Feb/2024:12:00:00.123",
    "nginx-error": "2024/02/29 12:00:00",
    "local-comma": "2024-02-29 12:00:00,123",
    "local": "2024-02-29 12:00:00.123",
    "two-spaces": "2024-02-29  12:00:00",
    "apache-error": "Thu Feb 29 12:00:00.123456 2024",
    "redis": "29 Feb 2024 12:00:00.123",
    "tomcat": "29-Feb-2024 12:00:00.123",
    "erlang": "29-Feb-2024::12:00:00",
    "bgl": "2024-02-29-12.00.00.123456",
    "syslog": "Feb 29 12:00:00",
    "klog": "I0229 12:00:00.123456",
    "android": "02-29 12:00:00.123",
    "syslog-year": "Feb 29 12:00:00 2024",
    "modsecurity": "29/Feb/2024:12:00:00.123456 +0530",
    "php": "29-Feb-2024 12:00:00 UTC",
    "hour-offset": "2024-02-29 12:00:00.123 -03",
    "cisco-utc": "*Feb 29 12:00:00.123 UTC",
    "cisco": "*Feb 29 12:00:00.123",
    "asa": "Feb 29 2024 12:00:00",
    "nxos": "2024 Feb 29 12:00:00",
    "django": "29/Feb/2024 12:00:00",
    "splunk": "02-29-2024 12:00:00.123 +0530",
    "clickhouse": "2024.02.29 12:00:00.123456",
    "suricata": "02/29/2024-12:00:00.123456",
    "redis-2.8": "29 Feb 12:00:00.123",
    "glog": "I20240229 12:00:00.123456",
    "unix": "1709188200.123",
    "unix-ms": "1709188200123",
    "unix-us": "1709188200123456",
    "unix-ns": "1709188200123456789",
    "mysql-5.6": "240229 12:00:00",
    "hdfs": "240229 120000",
    "spark": "24/02/29 12:00:00",
}

# The digits of a Unix timestamp in each form, of which so many are of a fraction of a second.
DIGITS = {"unix": (10, 0), "unix-ms": (13, 3), "unix-us": (16, 6), "unix-ns": (19, 9)}

# The forms that are chosen by the first lines of a log, and the places at which they are tried.
CHOSEN = [name for name in FORMS if "%y" not in FORMS[name][1]]
MEMBERS_OF_TIME = (
    "time timestamp @timestamp ts eventTime @t time_iso8601 time_local msec requestReceivedTimestamp __REALTIME_TIMESTAMP"
)
NAMES_OF_TIME = ('"$date":"', 'time="', "time=", "time='", "ts=", " t=", "t=", "audit(", "__REALTIME_TIMESTAMP=", "eventtime=")
NAMED = ("access", "after:[", *(f"json:{name}" for name in MEMBERS_OF_TIME.split()))
NAMED += (*(f"after:{name}" for name in NAMES_OF_TIME), 'after:"eventTime":"', "after:: [")
PLACES = ("front", "coloured", *NAMED, "after:] ", "after: at ", "field:2", "field:3", "field:1")
PLACES += ("after:,", 'after:"', "after:#", "after:: ", 'after:ime":"', 'after:ime": "', 'after:tamp":"', 'after:tamp": "')
PLACES += ("after:='", "after:>", 'after:,"', "after:=")

# The first and the last of the seconds at which a count is a Unix timestamp where no name leads to it, and the most between two.
NEAR, MOST_APART = (946_684_800, 2_208_988_799), 366 * 86_400


def abbreviations(data):
    """The abbreviations in a file of the time zone database: in its second block, which has times of eight bytes."""

    def counts(at):
        return struct.unpack(">6l", data[at + 20 : at + 44])

    in_utc, in_standard, leaps, times, types, chars = counts(0)
    second = 44 + times * 5 + types * 6 + chars + leaps * 8 + in_standard + in_utc
    _, _, _, times, types, chars = counts(second)
    first = second + 44 + times * 9 + types * 6
    return data[first : first + chars].decode().split("\0")


def zone_words():
    """The abbreviations of time zones: those of all zones of this system at any time, and a few that older systems have. `SET` is
    none, because log messages begin with it."""
    words = set("CLT COT ACWST PET AoE BRT ART ICT SGT Z".split())
    for name in zoneinfo.available_timezones():
        paths = [path for path in (os.path.join(folder, name) for folder in zoneinfo.TZPATH) if os.path.isfile(path)]
        for path in paths[:1]:
            with open(path, "rb") as file:
                words.update(abbreviations(file.read()))
    return sorted(word for word in words if word.isalpha() and word != "SET")


ZONES = zone_words()
ZONE_NAMES = sorted(name for name in zoneinfo.available_timezones() if "/" in name)


def in_either_case(word):
    """The regular expression of a word whose small letters may be capital ones."""
    return "".join(f"[{letter}{letter.upper()}]" if letter.islower() else letter for letter in word)


ZONE_AREAS = sorted({name.partition("/")[0] for name in ZONE_NAMES})

# What belongs to a stamp, so that one ends before it in no form, and to none but a count. What belongs to one without an offset, to
# one without a fraction, and to one without a year.
WORD_GOES_ON = "[0-9A-Za-z_+-]|[.:][0-9A-Za-z]"
CONTINUED = re.compile(WORD_GOES_ON.encode())
COUNT_CONTINUED = re.compile(rb"[0-9A-Za-z_+-]|[.][0-9A-Za-z]")
HALVES = f"[AaPp][.]?[Mm](?!{WORD_GOES_ON})"
WORDS_OF_ZONES = "|".join(map(in_either_case, ZONES))
NAMES_OF_ZONES = "|".join(map(in_either_case, ZONE_AREAS))
NAMED_OFFSETS = f"(?:{WORDS_OF_ZONES}|(?i:utc|gmt))(?![A-Za-z])|{HALVES}|(?:{NAMES_OF_ZONES})/[A-Za-z]"
OFFSETS = f"[+-][0-9]{{2}}|{NAMED_OFFSETS}"
OFFSET_FOLLOWS = re.compile(f"[ \t]*[(\\[]?(?:{OFFSETS})|[ \t]*[,;|\"'][ \t,;|\"']*(?:{NAMED_OFFSETS})".encode())
FRACTION_FOLLOWS = re.compile(rb",(?:[0-9]{3}|[0-9]{6}|[0-9]{9})(?![0-9]|,[^ \t])", re.DOTALL)

# The last word before a stamp: for one without an offset it is no time zone.
LAST_WORD = re.compile(rb"([^ \t()\[\]]+)[ \t()\[\]]*\Z", re.DOTALL)
ZONE_BEFORE = re.compile(f"(?=[A-Za-z]{{2}})(?:{NAMED_OFFSETS})".encode())
YEAR_FOLLOWS = re.compile(f" (?:19|20)[0-9]{{2}}(?!{WORD_GOES_ON})".encode())

# The bytes of a line that decide on its stamp, and those up to the end of a stamp.
LONGEST_FRONT, LONGEST_STAMP = 65_533, 65_500

CHOICES = re.compile(r"\{([^}]*)\}|%(.)|([^{%]+)")


def pattern_of(name, text):
    """The regular expression of a text of FORMS. The number after the name of a group tells those of one part apart."""
    made = []
    for place, (choices, code, literal) in enumerate(CHOICES.findall(text)):
        if literal:
            made.append(re.escape(literal))
        elif code:
            part, form = PARTS[code]
            made.append(f"(?P<{part}_{place}>{form % DIGITS[name][0] if code == 's' else form})")
        else:
            options = [pattern_of(name, option) for option in choices.split("|")]
            made.append("(?:%s)" % "|".join(re.sub(r"_(\d+)>", rf"_{place}_{at}_\1>", one) for at, one in enumerate(options)))
    return "".join(made)


PATTERNS = {name: [re.compile(pattern_of(name, text).encode()) for text in texts] for name, texts in FORMS.items()}


def member_in(name, line):
    """The place of the value of the first member of a name in the outermost object of JSON: behind the quote of a text."""
    member = re.compile(rb'"%s"[ \t]*:[ \t]*"?' % re.escape(name))
    depth = 0
    for token in re.finditer(rb'"(?:\\.|[^"\\])*(?:"|\\?$)|[{}\[\]]', line, re.DOTALL):
        if not token[0].startswith(b'"'):
            depth = depth + 1 if token[0] in b"{[" else max(depth - 1, 0)
            continue
        found = member.match(line, token.start()) if depth == 1 else None
        if found:
            return found.end()
    return None


COLOURS = re.compile(rb"(?:\x1b\[[0-9;]*m){1,2}")


@functools.lru_cache(1_024)
def place_in(place, line):
    """The place in a line at which a stamp begins, or None."""
    word, _, text = place.partition(":")
    if word == "front":
        return 0
    if word == "coloured":
        found = COLOURS.match(line)
        return found and found.end()
    if word == "access":
        at = line.partition(b'"')[0].rfind(b" [")
        return at + 2 if at >= 0 else None
    if word == "field":
        found = re.match(rb"[ \t]*(?:[^ \t]+[ \t]+){%d}(?=[^ \t])" % (int(text) - 1), line)
        return found and found.end()
    if word == "json":
        return member_in(text.encode(), line)
    at = line.find(text.encode())
    return at + len(text.encode()) if at >= 0 else None


def is_behind_zone(before):
    """Whether the last word of a text is the name of a time zone."""
    word = LAST_WORD.search(before)
    return bool(word and ZONE_BEFORE.match(word[1]))


class Reader:
    """Finds the stamps of a log in a form at a place, with an offset in minutes and a year for those that have none."""

    def __init__(self, name, place="front", offset=0, year=2000):
        self.lead, self.pattern = PATTERNS[name]
        self.name, self.place, self.offset, self.year, self.month = name, place, offset, year, 0

    def stamp_of(self, line):
        """The instant in nanoseconds, the end and the beginning of the stamp of a line, or the name of the part that is out of its
        range, or None."""
        line = line[:LONGEST_FRONT]
        at = place_in(self.place, line)
        lead = None if at is None else self.lead.match(line, at)
        found = lead and self.pattern.match(line, lead.end())
        if not found or found.end() > LONGEST_STAMP:
            return None
        parts = {name.split("_")[0]: text.decode() for name, text in found.groupdict().items() if text is not None}
        rest = line[found.end() :]
        is_whole = self.name in WHOLE
        if (COUNT_CONTINUED if "count" in parts else CONTINUED).match(rest):
            return None
        if not is_whole and (OFFSET_FOLLOWS.match(rest) or self.has_column(parts, found[0], rest)):
            return None
        if not is_whole and is_behind_zone(line[: found.start()]):
            return None
        if not {"year", "short", "count"} & set(parts) and YEAR_FOLLOWS.match(rest):
            return None
        instant = self.instant_of(parts, is_whole)
        return instant if isinstance(instant, str) else (instant, found.end(), found.start())

    def has_column(self, parts, text, rest):
        """Whether a fraction behind a comma follows a stamp without one, or a comma one that has such a fraction."""
        if "fraction" not in parts:
            return FRACTION_FOLLOWS.match(rest)
        return rest.startswith(b",") and text.endswith(b"," + parts["fraction"].encode())

    def instant_of(self, parts, is_whole):
        """The instant of the parts of a stamp in nanoseconds, or the name of the first part out of its range."""
        nanos = int((parts.get("fraction", "") + "000000000")[:9])
        if "count" in parts:
            return int(parts["count"]) * 10 ** (9 - DIGITS[self.name][1]) + nanos
        month = int(parts["month"]) if "month" in parts else MONTHS.index(parts["name"].title()) + 1
        year, day = self.year_of(parts, month), int(parts["day"])
        clock = [int(parts.get(part, 0)) for part in ("hour", "minute", "second")]
        hours, minutes = int(parts.get("hours", "+0")[1:]), int(parts.get("minutes", 0))
        tests = {
            "month": 1 <= month <= 12,
            "day": 1 <= month <= 12 and 1 <= day <= days_of(year, month),
            "hour": clock[0] <= 23,
            "minute": clock[1] <= 59,
            "second": clock[2] <= 59,
            "offset hour": hours <= 23,
            "offset minute": minutes <= 59,
        }
        for part, holds in tests.items():
            if not holds:
                return part
        ahead = (-1 if parts.get("hours", "+")[0] == "-" else 1) * (hours * 60 + minutes) if is_whole else self.offset
        instant = (second_of(year, month, day, *clock) - ahead * 60) * NANOS + nanos
        self.keep(instant)
        return instant

    def year_of(self, parts, month):
        """The year of a stamp. Without one it is that in which the month is nearest to the month of the stamp before. Of two
        years that are equally near it is that of the stamp before."""
        if "short" in parts:
            return 1970 + (int(parts["short"]) - 70) % 100
        if "year" in parts:
            return int(parts["year"])
        if self.month == 0:
            return self.year
        before = self.year * 12 + self.month
        return min((self.year, self.year - 1, self.year + 1), key=lambda year: abs(year * 12 + month - before))

    def keep(self, instant):
        """Keeps the year and the month of a stamp at the offset, for the next one."""
        wall = wall_text(instant + self.offset * 60 * NANOS)
        if wall is not None:
            self.year, self.month = int(wall[:4]), int(wall[5:7])


def options_of(name, place):
    """The options of the command line for a form at a place, with those that the form lacks: the offset +05:30 and the year 2024."""
    offset = [] if name in WHOLE else ["--offset", "+05:30"]
    year = [] if re.search("%[YGys]", FORMS[name][1]) else ["--year", "2024"]
    return ["--form", name, "--place", place, *offset, *year]


def stamps_of(reader, lines):
    """The stamps that a reader finds in lines. Those that are counts without a fraction are none where they are far from now, unless
    the place has a name. Those that end with digits behind a comma are none where they have not as many."""
    pairs = [(Reader(*reader).stamp_of(line), line) for line in lines]
    found = [stamp for stamp, _ in pairs if isinstance(stamp, tuple)]
    texts = [line[stamp[2] : stamp[1]].rpartition(b",") for stamp, line in pairs if isinstance(stamp, tuple)]
    if len({len(digits) for _, comma, digits in texts if comma and digits.isdigit()}) > 1:
        return [], True
    digits, _ = DIGITS.get(reader[0], (0, 0))
    if reader[1] in NAMED or all(end - start > digits for _, end, start in found):
        return found, True
    seconds = [instant // NANOS for instant, _, _ in found]
    is_steady = found == sorted(found) and found[-1][0] - found[0][0] < MOST_APART * NANOS
    return found if is_steady and all(NEAR[0] <= second <= NEAR[1] for second in seconds) else [], False


def readers_of(lines):
    """The forms and the places that are tried in lines, but for the places that none of them has."""
    places = [place for place in PLACES if any(place_in(place, line[:LONGEST_FRONT]) is not None for line in lines)]
    return [(name, place) for place in places for name in CHOSEN]


@functools.lru_cache(maxsize=10_000)
def is_read(line):
    """Whether a reader finds a stamp in a line."""
    return any(stamps_of(reader, [line])[0] for reader in readers_of([line]))


def chosen_reader(lines):
    """The form and the place that are chosen by the first lines of a log: those that both first lines have, or most lines. Counts
    without a fraction are chosen where two grow slowly, or a name is before them."""
    return reader_of(tuple(lines))


@functools.lru_cache(maxsize=10_000)
def reader_of(lines):
    """The form and the place that these lines choose, which programs that are tried one after another share."""
    readers = readers_of(lines)

    def count(reader, among):
        found, is_sure = stamps_of(reader, among)
        return len(found) if is_sure or len(found) > 1 else 0

    if len(lines) > 1:
        both = next((reader for reader in readers if count(reader, lines[:2]) == 2), None)
        if both:
            return both
    best = max(readers, key=lambda reader: count(reader, lines), default=None)
    return best if best and count(best, lines) else None


# The most lines that choose a form. The lines in which the nearest form is looked for, their bytes, and those that are shown.
MOST_CHOOSING = 16
MOST_NEAR, MOST_NEAR_BYTES, MOST_SHOWN = 4, 100, 20


def finds(reader, line):
    """Whether the reader of a form and a place finds a stamp in a line."""
    return isinstance(Reader(*reader).stamp_of(line), tuple)


@functools.lru_cache(maxsize=10_000)
def chosen_in(data):
    """The form and the place that a log chooses by its first lines with a stamp that some reader reads."""
    ended, rest = first_lines(data)
    found = []
    for line in ended + rest:
        if re.search(b"[0-9]", line) and is_read(line):
            found.append(line)
            reader = chosen_reader(found) if len(found) == 2 else None
            if reader and all(finds(reader, one) for one in found) or len(found) == MOST_CHOOSING:
                break
    return chosen_reader(found) if found else None


@functools.lru_cache(maxsize=10_000)
def nearest(data):
    """What is told of the form that is nearest to a line of a log, or None."""
    for number, line in enumerate(data[:BLOCK].removeprefix(MARK).split(b"\n")[:-1][:MOST_NEAR], 1):
        for size in range(min(len(line), MOST_NEAR_BYTES), 0, -1):
            chosen = chosen_reader([line[:size]])
            if chosen:
                end = Reader(*chosen).stamp_of(line[:size])[1]
                rest = "".join(chr(byte) if 32 <= byte < 127 and byte != 34 else "?" for byte in line[end : end + MOST_SHOWN])
                shown = rest[:2] + rest[2:].partition(" ")[0]
                return f'line {number}: {chosen[0]} fits up to "{shown}"'.encode()
    return None


def told_first(data, name=""):
    """What is told of the first lines of a log that may choose its form: the choice, or that they have no stamp."""
    chosen = chosen_in(data)
    named = b"stamps: " + (f"{name}: ".encode() if name else b"")
    if chosen:
        return b"" if chosen == ("rfc3339", "front") else named + " at ".join(chosen).encode() + b"\n"
    told, near = told_bare(data, name=name), nearest(data)
    return named + near + b": " + BARE.partition(b": ")[2] if told and near else told


# Values at the ends of ranges, one of which some stamps have.
ENDS_OF_RANGES = {
    "m": ("00", "12", "13"),
    "d": ("00", "29", "30", "31", "32"),
    "H": ("23", "24"),
    "M": ("59", "60"),
    "S": ("59", "60"),
}
ENDS_OF_RANGES |= {
    "e": (" 0", "29", "30", "31", "32"),
    "z": ("-00", "+23", "-24", "+24"),
    "n": ("00", "59", "60"),
    "f": ("0", "9" * 12),
}


def stamp_text(rng, name, second):
    """A text of an instant in a form, and what is before it, at a random offset where the form has one. The parts of the clock are
    those of UTC at the offset, also where the form has none."""
    offset = rng.choice((0, 0, 330, -480, 60, -210, 1_439, -1_439))
    wall = EPOCH + timedelta(seconds=second - EPOCH_SECONDS + offset * 60)
    digits, of_fraction = DIGITS.get(name, (0, 0))
    texts = {
        "Y": f"{wall.year:04}",
        "G": f"{wall.year:04}",
        "y": f"{wall.year % 100:02}",
        "m": f"{wall.month:02}",
        "b": rng.choice(
            (MONTHS[wall.month - 1], MONTHS[wall.month - 1], MONTHS[wall.month - 1].upper(), MONTHS[wall.month - 1].lower())
        ),
        "d": f"{wall.day:02}",
        "e": rng.choice((f"{wall.day:2}", str(wall.day), f"{wall.day:02}")),
        "a": rng.choice((WEEKDAYS[wall.weekday()], rng.choice(WEEKDAYS))),
        "H": f"{wall.hour:02}",
        "k": rng.choice((f"{wall.hour:2}", f"{wall.hour:02}")),
        "l": rng.choice((f"{wall.hour:02}", f"{wall.hour:02}", f"{wall.hour:2}", str(wall.hour))),
        "M": f"{wall.minute:02}",
        "S": f"{wall.second:02}",
        "f": "".join(rng.choices("0123456789", k=rng.choice((1, 3, 3, 6, 6, 9, 10, 12)))),
        "F": "".join(rng.choices("0123456789", k=rng.choice((3, 3, 3, 6, 9, 2, 4)))),
        "z": f"{'-' if offset < 0 else '+'}{abs(offset) // 60:02}",
        "n": f"{abs(offset) % 60:02}",
        "p": str(rng.randrange(200)),
        "s": str(second) + "".join(rng.choices("0123456789", k=of_fraction)) if digits else "",
    }

    if rng.random() < 0.2:
        code = rng.choice(list(ENDS_OF_RANGES))
        texts[code] = rng.choice(ENDS_OF_RANGES[code])

    def fill(text):
        def one(found):
            choices, code, literal = found.groups()
            return literal or (texts[code] if code else fill(rng.choice(choices.split("|"))))

        return CHOICES.sub(one, text)

    return "".join(map(fill, FORMS[name])).encode()


# What follows a stamp: mostly what ends it.
ENDS = [
    b"",
    b" ",
    b" x",
    b" [12] info: done",
    b"[UTC] x",
    b"] y",
    b'", "level": "info"}',
    b": message",
    b", next",
    b"\t-",
    b" -5 degrees",
]
ENDS += [
    b" CETERA",
    b" AESTX",
    b" Amber",
    b" PM2 x",
    b" Main/Worker",
    b"+05",
    b" +0530",
    b" -08 x",
    b",5",
    b", 5",
    b".5",
    b"Z",
    b"-1",
]
ENDS += [
    b":30",
    b"0",
    b"a",
    b" +5",
    b"_",
    b"_123 x",
    b"\xc3\xa9",
    b": x",
    b". x",
    b":x",
    b",123,x",
    b",123 x",
    b",42,x",
    b",",
    b" 2019 x",
    b" 1999:",
]
ENDS += [b" 2001:db8::1 x", b" 20190"]


def zone_end(rng):
    """A time zone or a half of the day, behind blanks and a bracket, in the ways that logs have them."""
    halves = ("AM", "pm", "Pm", "a.m.", "P.M.", "p.m")
    kinds = (ZONES, ZONE_NAMES, halves, ("utc", "Gmt", "UTC", "GMT+1", "utc-3"), ("+05:30", "-0800", "+01"))
    blanks, bracket = rng.choice((" ", " ", " ", "  ", "\t", " \t", "")), rng.choice(("", "", "", "(", "["))
    text = blanks + bracket + rng.choice(rng.choice(kinds)) + {"": "", "(": ")", "[": "]"}[bracket]
    return text.encode() + rng.choice((b"", b" x", b"x", b": y"))


# The bytes that a change puts into a line.
CHANGES = b'0123456789 :-.,+/TZtz[]<>JFMADuUGCSPI\t"x\xff'


def mutate(rng, line):
    """A line with one to three of its first bytes changed, taken out or doubled, or with another digit for one or two."""
    line = bytearray(line)
    digits = [at for at, byte in enumerate(line[:45]) if byte in b"0123456789"]
    if digits and rng.random() < 0.5:
        for at in rng.choices(digits, k=rng.randrange(1, 3)):
            line[at] = rng.choice(b"0123456789")
        return bytes(line)
    for _ in range(rng.randrange(1, 4)):
        at = rng.randrange(min(len(line), 45) + 1)
        line[at : at + rng.randrange(2)] = bytes(rng.choices(CHANGES, k=rng.randrange(3)))
    return bytes(line)


def form_lines(rng, name, count):
    """So many lines of a form: most have a stamp at their front, some another one, and a third of them is changed."""
    short, least, most = "%y" in FORMS[name][1], -62_135_500_000, 253_402_200_000
    if short or name in DIGITS:
        least, most = (86_400 * 366, 3_155_600_000) if short else (1_000_000_000, 9_999_999_999)
    second, lines = rng.randrange(1_600_000_000, 1_750_000_000), []
    for _ in range(count):
        second = second + rng.randrange(-90_000, 3_000_000) if rng.random() < 0.9 else rng.randrange(least, most)
        second = min(max(second, least), most)
        line = stamp_text(rng, name if rng.random() < 0.97 else rng.choice([one for one in FORMS if one not in DIGITS]), second)
        line += zone_end(rng) if rng.random() < 0.1 else rng.choice(ENDS[:11] if rng.random() < 0.7 else ENDS)
        lines.append(mutate(rng, line) if rng.random() < 0.33 else line)
        if rng.random() < 0.001:
            lines[-1] = b" " * rng.choice((1_000, 65_460, 65_475, 65_480, 65_500, 65_510)) + lines[-1]
    return lines


def ended_lines(rng, name):
    """Lines of a form with each end three times. Those of `local` have each word for a time zone too."""
    ends = [end for end in ENDS for _ in range(3)]
    if name == "local":
        ends += [f" {word}".encode() for word in ZONES]
    return [stamp_text(rng, name, rng.randrange(1_600_000_000, 1_750_000_000)) + end for end in ends]


# Texts before a stamp, some with what a place looks for.
WORDS = [b"host", b"[worker-3]", b"time=", b'a="b\\"c"', b"INFO", b"-", b"10.0.0.1", b"ts", b"{}"]
WORDS += [b"IST", b"(CET)", b"Asia/Tokyo", b"[utc", b"PSTN", b"gmt:"]
MEMBERS = [
    b'"level": "info"',
    b'"a": {"%s": "2001-01-01"}',
    b'"b": [1, {"%s": 0}, "]"]',
    b'"c": "\\"%s\\": 5"',
    b'"d": "1\\" wide"',
    b'"%s2": 1',
    b'"n" : -1.5e3',
]


def place_stamp(rng, place, line):
    """A line with the stamp of another at a place, or nearly so."""
    word, _, text = place.partition(":")
    if word == "field":
        before = rng.choices(WORDS, k=max(int(text) - 1 + rng.choice((0, 0, 0, 1, -1)), 0))
        return rng.choice((b"", b" ", b"\t")) + b"".join(one + rng.choice((b" ", b"  ", b"\t")) for one in before) + line
    if word == "coloured":
        return rng.choice((b"\x1b[2m", b"\x1b[0m\x1b[38;5;1m", b"\x1b[m", b"\x1b[2K", b"")) + line
    if word == "access":
        before = rng.choice((b"10.0.0.1 - - [", b"10.0.0.1 - [x] [", b"[", b"- [2001-01-01T00:00:00Z] [", b'a "b" ['))
        return before + line + rng.choice((b'] "GET / [x]"', b"] x", b""))
    if word == "after":
        before = b" ".join(rng.choices(WORDS, k=rng.randrange(3)))
        return before + rng.choice((text.encode(), text.encode(), b" " + text.encode(), b"")) + line
    if word == "json":
        key = text.encode()
        before = [one.replace(b"%s", key) for one in rng.choices(MEMBERS, k=rng.randrange(4))]
        blank, after = rng.choice((b"", b"", b" ", b"\t ")), rng.choice((b"", b" ", b" "))
        quote = rng.choice((b'"', b'"', b'"', b""))
        return b"{" + b", ".join([*before, b'"' + key + b'"' + blank + b":" + after + quote + line])
    return line
