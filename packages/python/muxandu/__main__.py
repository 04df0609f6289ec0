"""The parts of an instant: python -m muxandu TEXT, a text of RFC 3339, or a Unix second with or
without a fraction.

`--version` prints the version of the package, and `--help` the usage.
"""

import re
import sys

from . import Refused, RefusedTimestamp, Timestamp, __version__
from ._values import OffsetDateTime


def _read(text: str) -> OffsetDateTime:
    """The date-time of a text, or of the decimal of a Unix second."""
    parts = re.fullmatch(r"([+-]?)(\d+)(?:\.(\d{1,9})\d*)?", text, re.ASCII)
    if parts is None:
        return OffsetDateTime.from_rfc3339(text)
    sign, seconds, fraction = parts.groups()
    if len(seconds.lstrip("0")) > 20:
        raise RefusedTimestamp
    whole = int(seconds) * 10**9 + int((fraction or "0").ljust(9, "0"))
    return OffsetDateTime.from_parts(Timestamp(*divmod(-whole if sign == "-" else whole, 10**9)).to_offset(0))


USAGE = """\
usage: python -m muxandu TEXT | --version | --help
TEXT is a date-time of RFC 3339 with an offset, or a Unix second such as 1709166600.5"""


def main(words: list[str]) -> int:
    if words == ["--help"]:
        print(USAGE)
        return 0
    if words == ["--version"]:
        print(f"muxandu {__version__}")
        return 0
    if len(words) != 1 or words[0].startswith("--"):
        print(USAGE, file=sys.stderr)
        return 2
    try:
        shown = _read(words[0])
        date = shown.date()
        week = date.to_iso_week_date()
        rows = [
            ("date-time", str(shown)),
            ("in UTC", str(shown.to_utc())),
            ("Unix second", str(shown.to_timestamp())),
            ("day", f"{date.day_number()} from 1970-01-01, {date.to_ordinal_date().ordinal} of {date.year}"),
            ("ISO week", f"{week.year:04}-W{week.week:02}-{week.weekday + 1}"),
        ]
    except Refused as refused:
        print(f"{words[0]}: {refused}", file=sys.stderr)
        return 1
    for name, told in rows:
        print(f"{name:12} {told}")
    return 0


if __name__ == "__main__":
    sys.exit(main(sys.argv[1:]))
