"""Columns of moments from arrays and streams of Arrow.

The interface has addresses and lengths, which a reader can only believe. All else is tested: the
schema, the number of buffers and children, the lengths of children, and each row by a call of the
library.
"""

from __future__ import annotations

import ctypes
from typing import Any, Iterator, NamedTuple

from ._arrow_structures import FORMATS, Array, GetInto, GetText, Schema, Stream
from ._arrow_structures import release, structure_in
from ._columns import NO_SECOND
from ._structures import MuxanduMoment

_WANTED = (
    "a structure of seconds: int64, nanoseconds: uint32 and offset_seconds: int32, or of at: timestamp and offset_seconds: int32"
)

# The units of a timestamp in a second, by the front of its format. After it comes the name of a zone.
_UNITS = {b"tss:": 1, b"tsm:": 1_000, b"tsu:": 1_000_000, b"tsn:": 1_000_000_000}
_FRONT = 4


class _Form(NamedTuple):
    """The fields of a row with their types, their places among the children of a schema, and the
    units of a timestamp in a second, or 0 where a row has none."""

    fields: list[tuple[str, Any]]
    places: list[int]
    units: int


def _children(structure: Any) -> list[Any]:
    return [structure.children[place].contents for place in range(structure.n_children)]


def _units_of(form: bytes) -> int:
    """The units of an instant in a second, or 0 of another format, such as a timestamp without a
    zone."""
    return _UNITS.get(form[:_FRONT], 0) if len(form) > _FRONT else 0


def _form_of(schema: Any) -> _Form:
    """The fields of a row, of a schema. TypeError of another."""
    if schema.format != b"+s" or schema.dictionary:
        raise TypeError(f"the column of Arrow must be {_WANTED}, not of format {schema.format!r}")
    found = [(child.name, child.format) for child in _children(schema)]
    instant = dict(found).get(b"at") or b""
    units = _units_of(instant)
    forms = {"at": instant, "offset_seconds": FORMATS["offset_seconds"]} if units else FORMATS
    wanted = [(name.encode(), form) for name, form in forms.items()]
    if sorted(found) != sorted(wanted) or any(child.dictionary for child in _children(schema)):
        raise TypeError(f"the column of Arrow must be {_WANTED}, not of the fields {found}")
    kinds: dict[str, Any] = {name: kind for name, kind in (("at", ctypes.c_int64), *MuxanduMoment._fields_)}
    return _Form([(name, kinds[name]) for name in forms], [found.index(field) for field in wanted], units)


def _test(array: Any, buffers: int, children: int, least: int) -> None:
    """Raises ValueError of an array with other numbers of buffers and children, or that is too
    short."""
    if array.n_buffers != buffers or array.n_children != children or array.dictionary:
        raise ValueError(
            f"an array of Arrow has {array.n_buffers} buffers and {array.n_children} children, not {buffers} and {children}"
        )
    if array.offset < 0 or array.length < least:
        raise ValueError(f"an array of Arrow has {array.length} items from {array.offset} on, and needs {least}")


def _items(address: Any, kind: Any, first: int, count: int) -> Any:
    """The items of a buffer from a place on, as an array of NumPy over its memory."""
    import numpy

    if not address:
        raise ValueError(f"a buffer of Arrow must have {count} items, not the address 0")
    begin = address + first * ctypes.sizeof(kind)
    return numpy.frombuffer((kind * count).from_address(begin), numpy.dtype(kind))


def _gaps(array: Any, first: int, count: int) -> Any:
    """Which items from a place on are null."""
    import numpy

    if not count or not array.buffers[0]:
        return numpy.zeros(count, bool)
    begin = array.offset + first
    octets = _items(array.buffers[0], ctypes.c_uint8, begin // 8, (begin % 8 + count + 7) // 8)
    return numpy.unpackbits(octets, bitorder="little")[begin % 8 : begin % 8 + count] == 0


def _enter(rows: Any, name: str, items: Any, units: int) -> None:
    """Enters the items of a field into rows: a timestamp is the second, rounded down, and the
    rest."""
    if name != "at":
        rows[name] = items
        return
    rows["seconds"] = items // units
    rows["nanoseconds"] = items % units * (_UNITS[b"tsn:"] // units)


def _rows(array: Any, form: _Form) -> Any:
    """The rows of an array: a gap where it, or a field of it, is null."""
    import numpy

    _test(array, 1, len(form.fields), 0)
    rows: Any = numpy.zeros(array.length, numpy.dtype(MuxanduMoment))
    gaps = _gaps(array, 0, array.length)
    children = _children(array)
    for (name, kind), place in zip(form.fields, form.places):
        child = children[place]
        _test(child, 2, 0, array.offset + array.length)
        if array.length:
            _enter(rows, name, _items(child.buffers[1], kind, child.offset + array.offset, array.length), form.units)
            gaps |= _gaps(child, array.offset, array.length)
    rows[gaps] = (NO_SECOND, 0, 0)
    return rows


def _call(stream: Any, name: str, into: Any) -> Any:
    """A structure that a call of a stream has filled. OSError, with the text of the stream, if it
    failed."""
    status = GetInto(getattr(stream, name))(ctypes.addressof(stream), ctypes.addressof(into))
    if status:
        told = GetText(stream.get_last_error)(ctypes.addressof(stream))
        text = ctypes.string_at(told).decode("utf-8", "replace") if told else "it has no text for the error"
        raise OSError(status, f"the stream of Arrow failed in {name}: {text}")
    return into


def _chunks(stream: Any) -> Iterator[Any]:
    """The rows of each array of a stream."""
    schema = _call(stream, "get_schema", Schema())
    try:
        form = _form_of(schema)
    finally:
        release(schema)
    while True:
        array = _call(stream, "get_next", Array())
        if not array.release:
            return
        try:
            yield _rows(array, form)
        finally:
            release(array)


def rows_of_arrow(column: Any) -> Any:
    """The rows of a column of Arrow, which has `__arrow_c_array__` or `__arrow_c_stream__`."""
    import numpy

    if hasattr(column, "__arrow_c_array__"):
        schema, array = column.__arrow_c_array__()
        return _rows(structure_in(array, Array), _form_of(structure_in(schema, Schema)))
    if not hasattr(column, "__arrow_c_stream__"):
        raise TypeError(f"a column of Arrow has __arrow_c_array__ or __arrow_c_stream__, and {type(column).__name__} has neither")
    capsule = column.__arrow_c_stream__()
    found = list(_chunks(structure_in(capsule, Stream)))
    return numpy.concatenate([numpy.zeros(0, numpy.dtype(MuxanduMoment)), *found])
