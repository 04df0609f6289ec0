"""The headline of the library: the clauses of runs, chains, comparisons, conversions, texts, the program and the laws of zones, and all that
they lead to."""

import hashlib
from typing import NamedTuple

from led_to import Part, Reached, function, members

# The types that have an instant, and what compares their values.
COMPARED = (
    ("date-times in UTC", "utc_times/src/utc_date_time/comparisons.rt", "UtcDateTime"),
    ("timestamps", "stamp_times/src/timestamp/comparisons.rt", "Timestamp"),
    ("date-times at an offset", "offset_times/src/offset_date_time/comparisons.rt", "OffsetDateTime"),
)
COMPARISONS = (
    ("Equality of", "PartialEq"),
    ("Order of", "Ord"),
    ("Operators of the order of", "PartialOrd"),
    ("The input of a hasher for", "Hash"),
)

# The laws of zones in a user's words.
ZONE_LAWS = (
    "instants_are_kept",
    "instants_are_found",
    "choices_are_right",
    "stays_between",
    "order_is_kept",
    "rules_repeat",
    "fixed_is_its_offset",
)

# The headline: each part, and what it is of. A function is named by its file and its name, an implementation by its head.
HEADLINE = (
    ("A run over any type that holds an instant", "stamp_times/src/runs.rt", "fn run"),
    ("The same over both types", "stamp_times/src/runs.rt", "fn run_both"),
    ("A chain of conversions", "stamp_times/src/chains.rt", "fn chain"),
    *((f"{title} {of}", path, f"impl {trait} for {name}") for of, path, name in COMPARED for title, trait in COMPARISONS),
    ("Equality of an offset and UTC", "offset_times/src/offset_date_time/with_utc.rt", "fn eq_utc"),
    ("Order of an offset and UTC", "offset_times/src/offset_date_time/with_utc.rt", "fn cmp_utc"),
    ("Equality of a timestamp and UTC", "stamp_times/src/timestamp/with_utc.rt", "fn eq_utc"),
    ("Order of a timestamp and UTC", "stamp_times/src/timestamp/with_utc.rt", "fn cmp_utc"),
    ("Equality of a timestamp and an offset", "stamp_times/src/timestamp/with_offset.rt", "fn eq_offset"),
    ("Order of a timestamp and an offset", "stamp_times/src/timestamp/with_offset.rt", "fn cmp_offset"),
    ("A conversion to an offset", "offset_times/src/offset_date_time/conversions.rt", "fn checked_to_offset"),
    ("A text that is read", "rfc3339/src/parse.rt", "fn parse_rfc3339"),
    ("The program", "times_bench/src/bench.rt", "fn bench"),
    *((f"A law of zones, {name}", "zoned_times/src/laws.rt", f"fn {name}") for name in ZONE_LAWS),
)

TRAITS = (
    ("stamp_times/src/runs/moment.rt", "pub trait Moment"),
    ("stamp_times/src/runs/moment.rt", "impl Moment for UtcDateTime"),
    ("stamp_times/src/runs/moment.rt", "impl Moment for Timestamp"),
    ("line_devices/src/devices.rt", "pub trait Source"),
    ("line_devices/src/devices.rt", "pub trait Sink"),
    ("line_devices/src/devices.rt", "impl<T: Read> Source for Device"),
    ("line_devices/src/devices.rt", "impl<T: Write> Sink for Device"),
)


class Headline(NamedTuple):
    """The clauses of the headline, each below its title, the models of types with an instant and of devices, and all that these lead to."""

    clauses: list
    traits: list
    reached: Reached

    def definitions(self):
        return [it for it in self.reached.order if not isinstance(it, Part)]

    def lines(self):
        """The number of lines of the definitions, with their comments."""
        return sum(it.text().count("\n") + 1 for it in self.definitions())

    def text(self):
        """The whole of it, as `make/explain headline` prints it."""
        shown = [f"-- {title}, {it.path}\n{it.shown}" for title, it in self.clauses]
        shown += [f"-- {it.path}\n{it.text()}" for it in [*self.traits, *self.reached.order]]
        return "\n\n".join(shown) + "\n"

    def checksum(self):
        """The first digits of the SHA-256 of the whole text."""
        return hashlib.sha256(self.text().encode()).hexdigest()[:16]


def part(sources, path, what):
    path = f"crates/{path}"
    text = sources.rust[path]
    return function(path, text, what[3:]) if what.startswith("fn ") else members(path, text, what)


def headline(sources):
    clauses = [(title, part(sources, path, what)) for title, path, what in HEADLINE]
    traits = [part(sources, path, what) for path, what in TRAITS]
    reached = Reached(sources)
    for it in [*(it for _, it in clauses), *traits]:
        reached.follow(it.path, it.shown)
    return Headline(clauses, traits, reached)
