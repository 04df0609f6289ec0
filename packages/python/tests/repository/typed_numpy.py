"""A user's program over NumPy, for a checker of types: each line that it must refuse says that it is wrong. It is not run."""

from array import array
from typing import Any

import numpy

import muxandu
from muxandu import Duration, columns

Array = numpy.ndarray[Any, Any]

seconds = numpy.array([0, 1])
shown: Array = muxandu.date_times_from_seconds(seconds, 3_600)
again: Array = muxandu.seconds_from_date_times(shown)
also_shown, told = muxandu.date_times_from_each_second(seconds)
is_missing: bool = bool((told == muxandu.MISSING).any())
rows: Array = columns.moments_from_arrow(columns.arrow_from_moments(muxandu_rows := columns.moments_from_date_times(shown)))
later: Array = columns.moments_add(muxandu_rows, Duration(1))
moments, statuses = columns.each_moment_subtract(rows, numpy.array([1, 2], "m8[s]"))
parts: Array = muxandu.timestamps_from_rfc3339(b"1970-01-01T00:00:00Z", numpy.zeros(1, numpy.dtype(muxandu.Span)))
coerced: Array = muxandu.datetime64_from_rfc3339(["1970-01-01T00:00:00Z", None], errors="coerce")
filled: Array = muxandu.seconds_from_date_times(shown, numpy.zeros(2, "M8[s]"))

one: "array[int]" = muxandu.seconds_from_date_times(shown)  # wrong
two: int = columns.moments_add(rows, Duration(1))  # wrong
columns.moments_compare(rows, "1970-01-01T00:00:00Z")  # wrong
three, four, five = columns.each_moment_to_offset(rows, 0)  # wrong
numbers: int = muxandu.datetime64_from_timestamps([])  # wrong
