"""How numbers and texts of Python go to calls."""

from __future__ import annotations

import ctypes
import datetime
import functools
import operator
from typing import Any, Optional

from . import _buffers


@functools.lru_cache(maxsize=None)
def ends(kind: Any) -> tuple[int, int]:
    """The least and the greatest number that a type with a sign holds."""
    half = 1 << (8 * ctypes.sizeof(kind) - 1)
    return -half, half - 1


def to_int(number: Any) -> int:
    """A plain int, also of a class derived from int with other operators."""
    return int.__index__(operator.index(number))


def limit(number: Any, kind: Any) -> int:
    """The number, or the nearer end of the type, which the library rejects, if it does not fit."""
    low, high = ends(kind)
    number = to_int(number)
    return int(number) if low <= number <= high else low if number < low else high


def one_offset(offset: Any) -> Optional[int]:
    """The seconds of one offset, which is for all rows, or None for a column of offsets."""
    try:
        return limit(offset, ctypes.c_int32)
    except TypeError:
        return None


def nanoseconds_of(length: datetime.timedelta) -> int:
    """The nanoseconds of a datetime.timedelta past its seconds: one of pandas has more than
    microseconds."""
    return to_int(length.microseconds) * 1_000 + to_int(getattr(length, "nanoseconds", 0))


def as_bytes(text: Any) -> bytes:
    """The bytes of a text, a str or an object with bytes. A character that is not ASCII becomes
    bytes that no text of RFC 3339 has."""
    if isinstance(text, str):
        return str.encode(text, "utf-8", "surrogatepass")
    if type(text) is bytes:
        return text
    try:
        view = _buffers.row(text)
    except TypeError:
        raise TypeError(f"a text must be a str or bytes, not {type(text).__name__}") from None
    _buffers.of_bytes(view)
    return view.tobytes()
