"""The types of what calls over many items take and return.

A call returns an array of NumPy for an array of NumPy or a column of pandas, else an array of
ctypes or an array.array. With `out` it returns that, and with `statuses` that too.
"""

from __future__ import annotations

import datetime
from typing import TYPE_CHECKING, Any, Iterable, Protocol, SupportsIndex, TypeVar, Union

from ._structures import MuxanduDate, MuxanduDateTime, MuxanduDuration, MuxanduMoment, MuxanduSpan, MuxanduTimestamp
from ._values import Date, Duration, OffsetDateTime, Timestamp
from ._zones import Zone

if TYPE_CHECKING:
    import array
    import ctypes

    import numpy


class SupportsArray(Protocol):
    """An array of NumPy, or a column of pandas."""

    def __array__(self) -> Any:
        ...


# What calls over many items take. A memoryview or a bytes-like object is tested when a call reads it.
Buffer = Union[bytes, bytearray, memoryview]
Numbers = Union[Iterable[SupportsIndex], Buffer]
NumbersWithGaps = Union[Iterable[Union[SupportsIndex, float, None]], Buffer]
Texts = Union[Iterable[Union[str, Buffer]], Buffer]
TextsWithGaps = Union[Iterable[Union[str, Buffer, float, None]], Buffer]
DateTimes = Union[Iterable[Union[OffsetDateTime, MuxanduDateTime]], Buffer]
DateTimesWithGaps = Union[Iterable[Union[OffsetDateTime, MuxanduDateTime, float, None]], Buffer]
Dates = Union[Iterable[Union[Date, MuxanduDate]], Buffer]
Timestamps = Union[Iterable[Union[Timestamp, MuxanduTimestamp]], Buffer]
TimestampsWithGaps = Union[Iterable[Union[Timestamp, MuxanduTimestamp, float, None]], Buffer]
Moments = Union[Iterable[Union[OffsetDateTime, MuxanduMoment, float, None]], Buffer]
OtherMoments = Union[OffsetDateTime, Moments]
_Length = Union[Duration, datetime.timedelta]
Durations = Union[_Length, Iterable[Union[_Length, MuxanduDuration, float, None]], Buffer]
Offsets = Union[SupportsIndex, NumbersWithGaps]
Spans = Union[Iterable[MuxanduSpan], Buffer]
ZoneOrName = Union[Zone, str]

# What they return: a new array, or the `out` or `statuses` of a caller.
Out = TypeVar("Out")
Told = TypeVar("Told")
NumPyOr = Union["numpy.ndarray[Any, Any]", Out]
NumbersOr = Union["array.array[int]", Out]
DateTimesOr = Union["ctypes.Array[MuxanduDateTime]", Out]
DatesOr = Union["ctypes.Array[MuxanduDate]", Out]
TimestampsOr = Union["ctypes.Array[MuxanduTimestamp]", Out]
MomentsOr = Union["ctypes.Array[MuxanduMoment]", Out]
DurationsOr = Union["ctypes.Array[MuxanduDuration]", Out]
