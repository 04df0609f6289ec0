"""A column of moments as arrays and streams of Arrow: a structure with a child for each field of a
row, and a bit for each gap."""

from __future__ import annotations

import ctypes
import errno
from typing import Any

from ._arrow_structures import FORMATS, NULLABLE, Array, GetInto, GetText, Schema, Stream
from ._arrow_structures import address_of_call, capsule_of, held, make, make_parent


def _schema() -> Any:
    children = tuple(make(Schema, None, format=form, name=name.encode()) for name, form in FORMATS.items())
    return make_parent(Schema, None, children, format=b"+s", name=b"", flags=NULLABLE)


def _buffers(*arrays: Any) -> Any:
    """The addresses of arrays of NumPy, each of which may be None."""
    return (ctypes.c_void_p * len(arrays))(*(None if array is None else array.ctypes.data for array in arrays))


def _child(numbers: Any) -> Any:
    """The array of the numbers of a field."""
    buffers = _buffers(None, numbers)
    return make(Array, (numbers, buffers), length=len(numbers), n_buffers=2, buffers=buffers)


def _array(rows: Any, gaps: Any) -> Any:
    import numpy

    # All that may fail comes before the first structure, which else nobody would release.
    count, numbers = int(gaps.sum()), [numpy.ascontiguousarray(rows[name]) for name in FORMATS]
    bits = numpy.packbits(~gaps, bitorder="little") if count else None
    buffers, children = _buffers(bits), tuple(map(_child, numbers))
    return make_parent(Array, (bits, buffers), children, length=len(rows), null_count=count, n_buffers=1, buffers=buffers)


class _Chunks:
    """The chunks of a stream that are left, and the text of its last error."""

    def __init__(self, chunks: list[Any]) -> None:
        self.left, self.error = chunks, ctypes.c_char_p(None)

    def schema(self) -> Any:
        """The schema of each chunk."""
        return _schema()

    def next(self) -> Any:
        """The array of the next chunk, or an array that is released after the last. A chunk that
        fails stays the next: the stream must not seem to end there."""
        if not self.left:
            return Array()
        made = _array(*self.left[0])
        del self.left[0]
        return made


def _move(made: Any, place: int) -> None:
    """Moves a structure to a place, which a caller has for it."""
    ctypes.memmove(place, ctypes.addressof(made), ctypes.sizeof(made))


def _get(read: Any) -> Any:
    """The call of a stream that writes what `read` makes of its chunks. It returns 0, or the number
    of an error, of which the stream then has the text."""

    def get(stream: int, place: int) -> int:
        chunks = held[Stream.from_address(stream).private_data]
        try:
            _move(read(chunks), place)
        except Exception as problem:  # noqa: BLE001
            chunks.error = ctypes.c_char_p(f"{type(problem).__name__}: {problem}".encode())
            return errno.ENOMEM if isinstance(problem, MemoryError) else errno.EIO
        return 0

    return GetInto(get)


def _text(stream: int) -> Any:
    return ctypes.cast(held[Stream.from_address(stream).private_data].error, ctypes.c_void_p).value


_GET_SCHEMA, _GET_NEXT, _GET_LAST_ERROR = _get(_Chunks.schema), _get(_Chunks.next), GetText(_text)


def _stream(chunks: list[Any]) -> Any:
    calls = {"get_schema": _GET_SCHEMA, "get_next": _GET_NEXT, "get_last_error": _GET_LAST_ERROR}
    return make(Stream, _Chunks(chunks), **{name: address_of_call(call) for name, call in calls.items()})


class ArrowMoments:
    """A column of moments for each library that reads Arrow: rows, and which of them are gaps."""

    def __init__(self, rows: Any, gaps: Any) -> None:
        self._rows, self._gaps = rows, gaps

    def __len__(self) -> int:
        return len(self._rows)

    def __arrow_c_schema__(self) -> Any:
        """The capsule of the schema."""
        return capsule_of(_schema())

    def __arrow_c_array__(self, requested_schema: Any = None) -> tuple[Any, Any]:
        """The capsules of the schema and of the array. Another schema is not made on request."""
        return capsule_of(_schema()), capsule_of(_array(self._rows, self._gaps))

    def __arrow_c_stream__(self, requested_schema: Any = None) -> Any:
        """The capsule of a stream of one array. Another schema is not made on request."""
        return capsule_of(_stream([(self._rows, self._gaps)]))
