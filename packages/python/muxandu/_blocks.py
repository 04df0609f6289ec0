"""Calls over columns of NumPy whose rows may be gaps. A gap leads to a gap.

Results of short life are made in blocks, which stay in the cache of the processor.
"""

from __future__ import annotations

import operator
from typing import Any, Iterator

import numpy

from . import _extension as _engine
from . import DateTimeParts, columns
from ._missing import mask_of
from ._refusals import REFUSALS
from ._values import OffsetDateTime

ROW = numpy.dtype(columns.MomentParts)

# The row of a gap.
GAP = (columns.NO_SECOND, 0, 0)

# The rows of a block.
BLOCK = 16_384

# The comparisons of Python, by the number that C has for each.
COMPARISONS = (operator.lt, operator.le, operator.eq, operator.ne, operator.gt, operator.ge)

_OF_ONE_LENGTH = "columns must have one length, not {} and {}"

_DURATION, _PARTS = numpy.dtype(columns.DurationParts), numpy.dtype(DateTimeParts)


def in_place(rows: Any) -> Any:
    """The rows as the library can read them in place: side by side and aligned, or a copy of them
    that is, in which a row that is masked is a gap."""
    if type(rows) is numpy.ndarray and rows.flags.c_contiguous and rows.__array_interface__["data"][0] % 8 == 0:
        return rows
    mask, made = mask_of(rows), numpy.array(rows)
    if mask is not None:
        made = numpy.array(made.data) if isinstance(made, numpy.ma.MaskedArray) else made
        made[mask] = GAP
    return made


def row_of(moment: OffsetDateTime) -> tuple[int, int, int]:
    """The row of a date-time."""
    at = moment.to_timestamp()
    return at.seconds, at.nanoseconds, moment.offset_seconds


def _write_results(call: Any, rows: Any, out: Any, words: tuple[int, ...] = (), others: Any = None) -> tuple[int, int, int]:
    """Writes the results of a call past gaps: returns how many there are, the status of the next,
    and how many of the results are gaps."""
    gaps = numpy.zeros(1, "uintp")
    given = (rows, len(rows)) if others is None else (rows, len(rows), others, len(others))
    done, status = call(*given, *words, out, len(out), gaps, 1)
    return done, status, int(gaps[0])


def past_gaps(call: Any, rows: Any, out: Any, *words: int, others: Any = None, start: int = 0) -> int:
    """Writes the results of a call past gaps for these rows, and returns how many are gaps. The
    error of the first row that fails has its place, counted from `start` on."""
    done, status, gaps = _write_results(call, rows, out, words, others)
    if status:
        raise REFUSALS[status](start + done)
    return gaps


def _blocks_of(rows: Any, other: Any, of_one: Any) -> Iterator[tuple[slice, Any, Any]]:
    """The blocks of a column, each with the rows of another that it is for, or with one for all."""
    size = min(len(rows), BLOCK)
    others = None if of_one is None else numpy.full(size, of_one)
    if others is None and len(other) != len(rows):
        raise ValueError(_OF_ONE_LENGTH.format(len(rows), len(other)))
    rows, other = in_place(rows), other if others is not None else in_place(other)
    for start in range(0, len(rows), BLOCK):
        block = slice(start, min(start + BLOCK, len(rows)))
        yield block, rows[block], other[block] if others is None else others[: block.stop - block.start]


def _one_row(other: Any) -> Any:
    return numpy.array(row_of(other), ROW) if isinstance(other, OffsetDateTime) else None


def comparison(rows: Any, other: Any, how: int) -> tuple[Any, Any]:
    """Which rows are as one of COMPARISONS asks of them and those of another column, or of them and
    one date-time for all, and in which pairs a row is a gap."""
    one = _one_row(other)
    others = in_place(other) if one is None else one.reshape(1)
    if one is None and len(others) != len(rows):
        raise ValueError(_OF_ONE_LENGTH.format(len(rows), len(others)))
    rows, found, gaps = in_place(rows), numpy.empty(len(rows), bool), numpy.zeros(len(rows), bool)
    done, status = _engine.compare_moments(rows, len(rows), others, len(others), how, found, len(found), gaps, len(gaps))
    if status:
        raise REFUSALS[status](done)
    return found, gaps


def choice(mask: Any, rows: Any, others: Any) -> Any:
    """The rows where a mask says so, and elsewhere those of another column, or its only row."""
    if not len(mask) == len(rows) or len(others) not in (1, len(rows)):
        raise ValueError(_OF_ONE_LENGTH.format(len(rows), len(mask) if len(mask) != len(rows) else len(others)))
    rows, others, made = in_place(rows), in_place(others), numpy.empty(len(rows), ROW)
    chosen = numpy.ascontiguousarray(mask, bool)
    _engine.choose_moments(rows, len(rows), others, len(others), chosen, len(chosen), made, len(made))
    return made


def lengths(rows: Any, other: Any) -> Any:
    """The nanoseconds to each row from that of another column, or from one date-time for all, and
    those of NaT for a gap. OverflowError beyond 292 years."""
    counts, room = numpy.empty(len(rows), "int64"), numpy.empty(min(len(rows), BLOCK), _DURATION)
    for block, some, others in _blocks_of(rows, other, _one_row(other)):
        done, status, _ = _write_results(_engine.moments_difference_past_gaps, some, room, others=others)
        fitting = _engine.nanoseconds_from_lengths(room, done, counts[block], len(some))
        if fitting < done:
            raise OverflowError(f"item {block.start + fitting} is more than 292 years: use columns.moments_difference")
        if status:
            raise REFUSALS[status](block.start + done)
    return counts


def sums(call: Any, rows: Any, durations: Any, is_one: bool) -> Any:
    """The rows some durations later, or earlier: those of a column, or one for all."""
    made = numpy.empty(len(rows), ROW)
    for block, some, others in _blocks_of(rows, durations, durations if is_one else None):
        past_gaps(call, some, made[block], others=others, start=block.start)
    return made


def _by_blocks(call: Any, rows: Any, made: Any, *words: int) -> Any:
    """Makes each row by a call past gaps. It counts the gaps of a block while the cache has
    them."""
    rows = in_place(rows)
    for start in range(0, len(rows), BLOCK):
        block = slice(start, start + BLOCK)
        past_gaps(call, rows[block], made[block], *words, start=start)
    return made


def change(call: Any, rows: Any, *words: int) -> Any:
    """The rows that a call past gaps makes."""
    return _by_blocks(call, rows, numpy.empty(len(rows), ROW), *words)


def at_offsets(rows: Any, offsets: Any) -> Any:
    """The rows of the same instants, each at the offset of its place. A gap stays a gap."""
    if len(offsets) != len(rows):
        raise ValueError(_OF_ONE_LENGTH.format(len(rows), len(offsets)))
    made = numpy.array(in_place(rows))
    made["offset_seconds"] = numpy.where(made["seconds"] == GAP[0], 0, offsets)
    # A comparison tests each row, with its offset.
    comparison(made, rows, 0)
    return made


def parts_shown(rows: Any) -> Any:
    """The parts of each row as its clocks show it: items of DateTimeParts, of zeros for a gap."""
    return _by_blocks(_engine.date_times_past_gaps, rows, numpy.zeros(len(rows), _PARTS))
