"""Fields of lines, and texts without an offset: from the bytes of a log to columns.

`field_spans` finds a field in each line of a block, and `moments_from_local` reads the texts there,
with no object for a row:

    spans = field_spans(block, 0, " ", " ")
    moments = moments_from_local(block, 3600, spans)
"""

from __future__ import annotations

import ctypes
from typing import Any, Callable, Union

from . import _batch, _texts
from . import _extension as _engine
from ._structures import MuxanduMoment, MuxanduSpan
from ._words import one_offset

__all__ = ["field_spans", "moments_from_each_local", "moments_from_local"]

_Call = Callable[..., tuple[int, int]]


def _byte(text: Union[str, bytes], name: str) -> int:
    """The only byte of a separator or a quote."""
    if not isinstance(text, (str, bytes)):
        raise TypeError(f"`{name}` must be a str or bytes, not {type(text).__name__}")
    held = text.encode() if isinstance(text, str) else text
    if len(held) != 1:
        raise ValueError(f"`{name}` must be one byte, got {len(held)}: pass it as an ASCII letter or mark")
    return held[0]


# The bytes that are copied at once, to count the newlines in them.
_PART = 1 << 20


def _newlines(data: Any) -> int:
    """The newlines of a block. A block that is no bytes is copied in parts."""
    if isinstance(data, (bytes, bytearray)):
        return data.count(b"\n")
    view = memoryview(data).cast("B")
    return sum(bytes(view[start : start + _PART]).count(b"\n") for start in range(0, len(view), _PART))


def field_spans(block: Any, field: int, separator: Union[str, bytes] = ",", quote: Union[str, bytes] = '"') -> Any:
    """The place of a field in each line of a block of bytes: an array of Spans. Fields count from
    0. A field that begins with `quote` ends after the next single quote, and may contain separators
    and newlines. Its Span has the bytes between the quotes. A line with fewer fields has an empty
    Span at its end. Pass the separator as `quote` too if no field has quotes."""
    if isinstance(block, str):
        raise TypeError("a block of texts must be bytes, not a str")
    if field < 0:
        raise ValueError(f"`field` counts from 0, got {field}")
    read = _batch._reading(block, ctypes.c_uint8)
    spans = (MuxanduSpan * (_newlines(read.data) + 1))()
    marks = _byte(separator, "separator"), _byte(quote, "quote")
    count, status = _engine.field_spans(read.data, read.count, field, *marks, spans, len(spans))
    _batch._test(status, count)
    return (MuxanduSpan * count).from_buffer(spans)


def _with_offset(call: _Call, call_at: _Call, offset: Any) -> _Call:
    """A call over texts at one offset, or at the offsets of a column."""
    one = one_offset(offset)
    if one is not None:
        return lambda block, size, spans, count, *places: call(block, size, spans, count, one, *places)
    each = _batch._reading(_batch._numbers(offset, ctypes.c_int32), ctypes.c_int32)

    def call_at_each(block: Any, size: int, spans: Any, count: int, *places: Any) -> tuple[int, int]:
        if each.count != count:
            raise ValueError(f"there must be one offset, or one for each text: {count}, not {each.count}")
        # The results may be in the memory of the offsets.
        return call_at(block, size, spans, count, each.copy(), count, *places)

    return call_at_each


def moments_from_local(texts: Any, offset: Any, spans: Any = None, out: Any = None) -> Any:
    """The moment of each text of RFC 3339, with or without an offset: items of MomentParts. A text
    without an offset has `offset`, an integer of seconds, a UtcOffset, or a buffer or sequence of
    integers with one for each text. The texts are as columns.moments_from_rfc3339 takes them."""
    call = _with_offset(_engine.moments_from_local, _engine.moments_from_local_at, offset)
    return _batch._read_texts(call, texts, spans, MuxanduMoment, out)[0]


def moments_from_each_local(texts: Any, offset: Any, spans: Any = None, out: Any = None, statuses: Any = None) -> tuple[Any, Any]:
    """The moment of each text of RFC 3339, with or without an offset, and the status of each. The
    texts and `offset` are as moments_from_local takes them."""
    call = _with_offset(_engine.moments_from_each_local, _engine.moments_from_each_local_at, offset)
    return _texts._read_each(call, texts, spans, MuxanduMoment, out, statuses)
