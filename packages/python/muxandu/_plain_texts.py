"""Columns of texts without an offset, at an offset that the caller names."""

from __future__ import annotations

import ctypes
import sys
from typing import Any

from . import _batch, _missing, _texts
from . import _extension as _engine
from ._structures import MuxanduDateTime
from ._words import as_bytes, one_offset

# An offset that each call rejects.
_NO_OFFSET = 2**31 - 1


def _in_utc(text: Any) -> Any:
    """A text with the offset of UTC. A missing item stays as it is, and so does what is no text,
    which the call that reads it rejects."""
    if isinstance(text, str):
        return str.__add__(text, "Z")
    is_bytes = isinstance(text, (bytes, bytearray, memoryview))
    return as_bytes(text) + b"Z" if is_bytes else text


def _known_offsets(offset_seconds: Any, count: int) -> tuple[Any, Any]:
    """The offset of each text, as numbers, and the places of those that are missing. One offset is
    for all."""
    one = one_offset(offset_seconds)
    if one is not None:
        return [one] * count, []
    known, missing = _missing.fill_masked(offset_seconds, _NO_OFFSET)
    known = _batch._as_array(known)
    if _missing.is_float(known):
        known, missing = _missing.whole_of_floats(known, _NO_OFFSET)
    elif not _batch._is_buffer(known):
        known = list(known)
        missing = _missing.places_of(known)
        for place in missing:
            known[place] = _NO_OFFSET
    found = _batch._numbers(known, ctypes.c_int32)
    if len(found) != count:
        raise ValueError(f"there must be one offset, or one for each text: {count}, not {len(found)}")
    return found, missing


def _put_offsets(parts: Any, offsets: Any) -> None:
    """Writes the offset of each date-time."""
    if _batch._is_array(parts):
        parts["offset_seconds"] = offsets
        return
    for item, offset in zip(parts, offsets):
        item.offset_seconds = offset


def date_times_of(texts: Any, offset_seconds: Any) -> tuple[Any, Any]:
    """The date-time of each text at its offset, of zeros for a text that fails, and the status of
    each."""
    each = [_in_utc(text) for text in _batch._sequence(texts)]
    room = [_batch._room(len(each), kind, "numpy" in sys.modules) for kind in (MuxanduDateTime, ctypes.c_uint32)]
    parts, statuses = _texts._read_each(_engine.date_times_from_each_rfc3339, each, None, MuxanduDateTime, *room)
    offsets, missing = _known_offsets(offset_seconds, len(each))
    _put_offsets(parts, offsets)
    _missing.mark(statuses, missing)
    return parts, statuses


def copy_errors(statuses: Any, others: Any) -> None:
    """Writes those of other statuses that are not 0."""
    told, found = memoryview(statuses).cast("B").cast("I"), memoryview(others).cast("B").cast("I")
    if "numpy" in sys.modules:
        import numpy

        to, of = numpy.frombuffer(told, "uint32")[: len(found)], numpy.frombuffer(found, "uint32")
        to[of != 0] = of[of != 0]
        return
    for place, status in enumerate(found):
        told[place] = status or told[place]
