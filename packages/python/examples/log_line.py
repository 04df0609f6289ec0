"""Prints each line of a log with its timestamp at the offset +02:00, or the name of the error in
the timestamp."""

import sys

from muxandu import OffsetDateTime, Refused

for line in sys.stdin:
    stamp, rest = line.split(" ", 1)
    try:
        print(OffsetDateTime.from_rfc3339(stamp).to_offset(2 * 3600).to_rfc3339(), rest, end="")
    except Refused as error:
        print(f"{error.name}: {line}", end="")
