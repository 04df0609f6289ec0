"""Items that are missing: None, NaN, NA and NaT, and items that an array of NumPy masks.

A call over many items raises a TypeError with the place of the first such item. The calls of
`each` return the status MISSING for it.
"""

from __future__ import annotations

import datetime
import sys
from typing import Any

# The status of an item that is missing, above each status of the library.
MISSING = 1_000


def mask_of(items: Any) -> Any:
    """The mask of a NumPy array, as an array, or None if it masks no item. A mask of any field
    masks a structure."""
    numpy = sys.modules.get("numpy")
    if numpy is None or not isinstance(items, numpy.ma.MaskedArray):
        return None
    mask = numpy.ma.getmaskarray(items)
    if mask.dtype.names:
        mask = mask.copy().view(bool).reshape(*mask.shape, mask.dtype.itemsize).any(axis=-1)
    return mask if mask.any() else None


def refuse_mask(items: Any) -> None:
    """Raises TypeError if an array masks an item."""
    mask = mask_of(items)
    if mask is not None:
        raise _error(int(mask.argmax()), "masked")


def _error(place: int, word: str) -> TypeError:
    """The error of an item that is missing or masked."""
    return TypeError(f"item {place} is {word}: fill it, or use an `each` call, which returns a status for it")


def error_of(items: list[Any], problem: TypeError) -> TypeError:
    """The error of the first item that is missing, or the problem with a list that has none."""
    places = places_of(items)
    return _error(places[0], "missing") if places else problem


def is_missing(item: Any) -> bool:
    """Whether an item is missing: None, NaN, NA, NaT or the masked item of NumPy."""
    numpy, pandas = sys.modules.get("numpy"), sys.modules.get("pandas")
    if item is None or pandas is not None and item is pandas.NA or numpy is not None and item is numpy.ma.masked:
        return True
    # NaN and NaT alone are not equal to themselves.
    kinds = (float, datetime.datetime) if numpy is None else (float, datetime.datetime, numpy.generic)
    return isinstance(item, kinds) and bool(item != item)


def places_of(items: list[Any]) -> list[int]:
    """The places of the items of a list that are missing."""
    return [place for place, item in enumerate(items) if type(item) is not str and is_missing(item)]


def is_float(items: Any) -> bool:
    """Whether these are an array of floats, as a column of pandas with a gap is."""
    return getattr(getattr(items, "dtype", None), "kind", "") == "f"


def refuse_nan(items: Any) -> None:
    """Raises TypeError if an array of floats has a NaN."""
    import numpy

    is_nan = numpy.isnan(items)
    if is_nan.any():
        raise _error(int(is_nan.argmax()), "missing")


def whole_of_float(number: Any, place: int) -> Any:
    """A number of a list, as an integer if it is a float. TypeError of a fraction."""
    if not isinstance(number, float):
        return number
    if not number.is_integer():
        raise TypeError(f"item {place} must be an integer, not {number}")
    return int(number)


def whole_of_floats(items: Any, filling: int) -> tuple[Any, Any]:
    """The whole numbers of an array of floats, with `filling` for NaN, and the places of NaN.
    TypeError of a fraction."""
    import numpy

    is_nan = numpy.isnan(items)
    known = numpy.where(is_nan, 0, items)
    is_part = known != numpy.floor(known)
    if is_part.any() or numpy.isinf(known).any():
        place = int((is_part | numpy.isinf(known)).argmax())
        raise TypeError(f"item {place} must be an integer, not {items[place]}")
    # What 64 bits do not hold is refused as `filling` is.
    is_held = numpy.abs(known) < 2.0**62
    whole = numpy.where(is_held, known, 0).astype("int64")
    return numpy.where(is_held & ~is_nan, whole, filling), numpy.flatnonzero(is_nan)


def fill_masked(items: Any, filling: Any) -> tuple[Any, Any]:
    """An array with `filling` in place of the items that it masks, and the places of these; without
    a mask the array itself."""
    mask = mask_of(items)
    if mask is None:
        return items, ()
    import numpy

    data: Any = numpy.array(items.data)
    # A short whole number does not hold the filling.
    data = data.astype("int64") if data.dtype.kind in "iu" and data.dtype.itemsize < 8 else data
    # A structure of zeros is no date-time.
    own = {"f": float("nan"), "M": "NaT", "m": "NaT", "O": None, "V": numpy.zeros(1, data.dtype)[0]}
    data[mask] = own.get(data.dtype.kind, filling)
    return data, numpy.flatnonzero(mask)


def mark(statuses: Any, places: Any) -> None:
    """Writes the status MISSING to these places."""
    if not len(places):
        return
    told = memoryview(statuses).cast("B").cast("I")
    if not isinstance(places, list):
        import numpy

        numpy.frombuffer(told, "uint32")[places] = MISSING
        return
    for place in places:
        told[place] = MISSING
