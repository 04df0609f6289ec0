"""Why bytes are no file of a time zone, read anew by RFC 9636 for gate/zones: which part of the file is at fault, and at which byte."""

import functools
import struct

# The part at fault, the number that the programs print of it, and what asks for the part to be right: sections of RFC 9636.
PARTS = (
    ("Length", "3.2: the parts have the sizes that the counts of the header give; 3.3: a new line ends the footer"),
    ("Magic", "3.1: a header begins with the four octets TZif"),
    ("Version", "3.1: the version is a zero octet, 2, 3 or 4, and both headers have one version"),
    ("Count", "3.1: the numbers of local time types and of octets of their designations are not zero"),
    ("Offset", "3.2: an offset is in the range from -89,999 to 93,599; down to -93,599 is read"),
    ("Daylight", "3.2: the indicator of daylight saving time is 0 or 1"),
    ("Designation", "3.2: the index of a designation is less than the number of their octets"),
    ("Names", "3.2: a zero octet ends each designation"),
    ("Index", "3.2: the index of a local time type is less than their number"),
    ("Footer", "3.3: a new line begins the footer"),
    ("Name", "3.3.1: a name has three letters or more, or between < and > letters, digits and signs"),
    ("Digit", "3.3.1: an offset, a day and a time have digits"),
    ("Range", "3.3.1: offsets have at most 24 hours, times at most 167, and days lie in their ranges"),
    ("Byte", "3.3.1: daylight saving time has two days and times, and nothing follows them"),
    ("Transition", "3.2: transition times ascend; one whose gap or fold starts before the last one has ended is no clock"),
    ("Rule", "3.3: the rule has the local time type of the last transition then; one that overlaps itself is no clock"),
    ("LeapSeconds", "3.2: with leap seconds, transition times count them, and Unix time does not"),
)
NAMES = tuple(name for name, _ in PARTS)

# The seconds of 400 years, after which the moments of a rule repeat.
CYCLE_SECONDS = 146_097 * 86_400

# The most seconds from 1970 of a transition, and the greatest offset.
MOST_SECONDS, MOST_OFFSET = 34_560_000_000_000, 93_599

LETTERS = frozenset(b"ABCDEFGHIJKLMNOPQRSTUVWXYZabcdefghijklmnopqrstuvwxyz")
DIGITS = frozenset(b"0123456789")
QUOTED = LETTERS | DIGITS | frozenset(b"+-")

# The numbers of a rule: the least and the greatest number of digits, and the range.
MONTH, WEEK, WEEKDAY, COMMON, COUNTED = (1, 2, 1, 12), (1, 1, 1, 5), (1, 1, 0, 6), (1, 3, 1, 365), (1, 3, 0, 365)
OFFSET_HOURS, TIME_HOURS, SIXTIETH = (1, 3, 0, 24), (1, 3, 0, 167), (2, 2, 0, 59)


class Fault(Exception):
    """A part at fault, and its byte."""

    def __init__(self, part, place):
        super().__init__(part)
        self.part, self.place = part, place


class Text:
    """The text of a rule, and how far it is read."""

    def __init__(self, text):
        self.text, self.at = text, 0

    def sees(self, byte):
        """Whether this byte comes next."""
        return self.text[self.at : self.at + 1] == byte

    def run(self, kind):
        """The bytes of a kind that come next."""
        begin = self.at
        while self.at < len(self.text) and self.text[self.at] in kind:
            self.at += 1
        return self.text[begin : self.at]

    def take(self, byte):
        """Reads a byte that must come next."""
        if not self.sees(byte):
            raise Fault("Byte", self.at)
        self.at += 1

    def skips(self, byte):
        """Whether this byte comes next: then it is read."""
        found = self.sees(byte)
        self.at += found
        return found

    def name(self):
        """A name."""
        is_quoted = self.skips(b"<")
        begin = self.at
        name = self.run(QUOTED if is_quoted else LETTERS)
        if len(name) < 3:
            raise Fault("Name", begin)
        if is_quoted:
            self.take(b">")
        return name

    def number(self, least, most, low, high):
        """A number of so many digits, in a range."""
        begin = self.at
        digits = self.run(DIGITS)
        if not digits:
            raise Fault("Digit", begin)
        if not (least <= len(digits) <= most and low <= int(digits) <= high):
            raise Fault("Range", begin)
        return int(digits)

    def seconds(self, hours):
        """Hours with a sign, and perhaps minutes and seconds, in seconds."""
        sign = -1 if self.skips(b"-") else 1
        if sign == 1:
            self.skips(b"+")
        value = self.number(*hours) * 3600
        if self.skips(b":"):
            value += self.number(*SIXTIETH) * 60
            if self.skips(b":"):
                value += self.number(*SIXTIETH)
        return sign * value

    def moment(self):
        """A day of each year as four numbers, and a time."""
        self.take(b",")
        if self.skips(b"M"):
            day = [0, self.number(*MONTH)]
            self.take(b".")
            day.append(self.number(*WEEK))
            self.take(b".")
            day.append(self.number(*WEEKDAY))
        elif self.skips(b"J"):
            day = [1, self.number(*COMMON), 0, 0]
        else:
            day = [2, self.number(*COUNTED), 0, 0]
        return tuple(day), self.seconds(TIME_HOURS) if self.skips(b"/") else 7200


def rule_of(line):
    """The kinds of local time of the text of a rule, and the days and the times of its moments, if it has two."""
    text = Text(line)
    standard = (text.name(), -text.seconds(OFFSET_HOURS))
    if text.at == len(line):
        return standard, None
    name, offset = text.name(), standard[1] + 3600
    if not text.sees(b","):
        offset = -text.seconds(OFFSET_HOURS)
    moments = text.moment(), text.moment()
    if text.at < len(line):
        raise Fault("Byte", text.at)
    return standard, (name, offset, *zip(*moments))


def header_of(data, at):
    """The version of a header, and its counts."""
    if len(data) < at + 44:
        raise Fault("Length", len(data))
    if data[at : at + 4] != b"TZif":
        raise Fault("Magic", at)
    if data[at + 4] not in b"\x00234":
        raise Fault("Version", at + 4)
    is_ut, is_standard, leaps, *counts = struct.unpack(">6L", data[at + 20 : at + 44])
    if leaps:
        raise Fault("LeapSeconds", at + 28)
    return data[at + 4], (is_ut, is_standard, *counts)


def end_of(data, at, size, counts):
    """Where a block ends, whose seconds have that many bytes."""
    is_ut, is_standard, times, types, names = counts
    end = at + times * (size + 1) + types * 6 + names + is_standard + is_ut
    if end > len(data):
        raise Fault("Length", len(data))
    return end


def block_of(data, at, size, counts):
    """The transitions of a block, each with its second and the kind of local time after it, the first kind, and the abbreviations."""
    times, types, names = counts[2:]
    if not types or not names:
        raise Fault("Count", at)
    seconds = struct.unpack(f">{times}{'q' if size == 8 else 'l'}", data[at : at + times * size])
    at += times * size
    indexes = data[at : at + times]
    for place, index in enumerate(indexes, at):
        if index >= types:
            raise Fault("Index", place)
    at += times
    texts, kinds = data[at + 6 * types : at + 6 * types + names], []
    for place in range(at, at + 6 * types, 6):
        offset, is_daylight, index = struct.unpack(">lBB", data[place : place + 6])
        if abs(offset) > MOST_OFFSET:
            raise Fault("Offset", place)
        if is_daylight > 1:
            raise Fault("Daylight", place + 4)
        if index >= names:
            raise Fault("Designation", place + 5)
        kinds.append((offset, is_daylight, texts[index:].split(b"\0")[0]))
    if texts[-1]:
        raise Fault("Names", at + 6 * types + names - 1)
    return [(second, kinds[index]) for second, index in zip(seconds, indexes)], kinds[0], texts


def footer_of(data, at):
    """The rule of the footer, or None if that is empty."""
    if at == len(data):
        raise Fault("Length", at)
    if data[at] != 10:
        raise Fault("Footer", at)
    end = data.find(b"\n", at + 1)
    if end < 0:
        raise Fault("Length", len(data))
    try:
        return rule_of(data[at + 1 : end]) if end > at + 1 else None
    except Fault as fault:
        raise Fault(fault.part, at + 1 + fault.place) from None


def parts_of(data):
    """The transitions of a file, the first kind of local time, the abbreviations, and the rule."""
    version, counts = header_of(data, 0)
    if version == 0:
        end_of(data, 44, 4, counts)
        return *block_of(data, 44, 4, counts), None
    at = end_of(data, 44, 4, counts)
    second, counts = header_of(data, at)
    if second != version:
        raise Fault("Version", at + 4)
    end = end_of(data, at + 44, 8, counts)
    rows, first, texts = block_of(data, at + 44, 8, counts)
    return rows, first, texts, footer_of(data, end)


def row_fault(rows, first):
    """The index of the first transition that is out of range or of none that follows the one before it."""
    for place, (second, _) in enumerate(rows):
        if abs(second) > MOST_SECONDS:
            return place
    before, last, ended = first, None, None
    for place, (second, after) in enumerate(rows):
        shifts = before[0], after[0]
        if last is not None and (second <= last or ended > second + min(shifts)):
            return place
        before, last, ended = after, second, second + max(shifts)
    return None


@functools.lru_cache(maxsize=4096)
def clocks_of(make_rule, standard, daylight):
    """The rule of two kinds of local time, the kind that it keeps all year, and whether it overlaps itself."""
    name, offset, days, times = daylight
    rule = make_rule((standard[1], 0, standard[0]), (offset, 1, name), days, times)
    kept = rule.kind_all_year()
    return rule, kept, kept is None and not rule.runs_forward()


def is_followed(rows, first, rule, make_rule):
    """Whether the rule follows the last transition."""
    standard, daylight = rule
    if daylight is None:
        return not rows or rows[-1][1] == (standard[1], 0, standard[0])
    clocks, kept, overlaps = clocks_of(make_rule, standard, daylight)
    if kept is not None:
        return not rows or rows[-1][1] == kept
    if overlaps or not rows:
        return not overlaps
    second, after = rows[-1]
    second %= CYCLE_SECONDS
    if clocks.at(second) != after:
        return False
    begin = next(begin for begin, _ in clocks.around(second) if begin > second)
    before = rows[-2][1] if len(rows) > 1 else first
    return second + max(before[0], after[0]) <= begin + min(clocks.standard[0], clocks.daylight[0])


def faults_of(data, make_rule):
    """The faults of a file, each a part and a byte, or the index of a transition: none if it is the file of a zone."""
    try:
        rows, first, _, rule = parts_of(data)
    except Fault as fault:
        return [(fault.part, fault.place)]
    row = row_fault(rows, first)
    faults = [] if row is None else [("Transition", row)]
    if row is None and rule is not None and not is_followed(rows, first, rule, make_rule):
        faults.append(("Rule", 0))
    # Where the last transition is at fault, the rule may be told before it.
    if row is not None and rule is not None:
        faults.append(("Rule", 0))
    return faults
