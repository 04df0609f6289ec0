"""Tests of the buffers of callers: whether their items are of a kind.

A kind is a type of ctypes: a whole number, or a structure of whole numbers of _structures. A buffer
is one of its items if their names, their places, their sizes, their signs and their byte order are
those of the kind.
"""

from __future__ import annotations

import ctypes
import functools
import re
import sys
from typing import Any, NamedTuple, Optional, Union

from ._missing import refuse_mask

# The bytes of a number of each letter, in the order and with the alignment of the machine, and by the standard of `struct`.
_NATIVE = {letter: size for letters, size in (("bB", 1), ("hH", 2), ("iI", 4), ("lLqQnN", 8)) for letter in letters}
_STANDARD = {**_NATIVE, "l": 4, "L": 4}

# The marks of a format after which numbers are in the order of this machine.
_ORDERS = "@=^" + ("<" if sys.byteorder == "little" else ">!")

# A mark, or bytes that are left out, or a letter and its name.
_PIECE = re.compile(r"([@=<>!^])|(\d*)x|([a-zA-Z?]):([^:]+):")


class Field(NamedTuple):
    """A number in an item. It has no name if the item is that number."""

    name: str
    at: int
    size: int
    is_signed: bool


def _sign(form: str, size: int) -> Optional[bool]:
    """Whether the number of a format of one letter has a sign, or None if that is no integer of
    this machine with that size."""
    order, letter = (form[0], form[1:]) if len(form) > 1 else ("@", form)
    is_here = order in _ORDERS or size == 1 and order in "<>!"
    if letter not in _NATIVE or size not in (_NATIVE[letter], _STANDARD[letter]) or not is_here:
        return None
    return letter.islower()


def _fields_of_structure(structure: Any) -> Optional[tuple[Field, ...]]:
    """The numbers of a structure of ctypes by its fields, or None if it has others. Its format
    leaves out padding and bits."""
    named = [field for base in reversed(structure.__mro__) for field in vars(base).get("_fields_", ())]
    fields = []
    for name, kind, *bits in named:
        size, form = ctypes.sizeof(kind), memoryview(kind()).format
        is_signed = None if bits or not issubclass(kind, ctypes._SimpleCData) else _sign(form, size)
        if is_signed is None:
            return None
        fields.append(Field(name, getattr(structure, name).offset, size, is_signed))
    return tuple(fields)


@functools.lru_cache(maxsize=256)
def _fields_of_format(form: str) -> Optional[tuple[Field, ...]]:
    """The numbers of the format of a structure, as PEP 3118 has them, or None if it has other
    fields."""
    place, order, at = 0, "@", 0
    fields: list[Field] = []
    while place < len(form):
        piece = _PIECE.match(form, place)
        if not piece:
            return None
        place = piece.end()
        mark, skipped, letter, name = piece.groups()
        if mark:
            order = mark
        elif not letter:
            at += int(skipped or 1)
        else:
            size = (_NATIVE if order in "@^" else _STANDARD).get(letter, 0)
            is_signed = _sign(order + letter, size)
            if is_signed is None:
                return None
            at = -(-at // size) * size if order == "@" else at
            fields.append(Field(name, at, size, is_signed))
            at += size
    return tuple(fields)


def _owner(view: memoryview) -> Any:
    """The type of the items of the array of ctypes that a view is of."""
    kind: Any = type(view.obj)
    while issubclass(kind, ctypes.Array):
        kind = kind._type_
    return kind


def _form(structure: Any) -> tuple[str, int]:
    """The format and the size of a structure of ctypes."""
    view = memoryview(structure())
    return view.format, view.itemsize


def fields_of(view: memoryview) -> Optional[tuple[Field, ...]]:
    """The numbers of an item of a buffer, or None if it has other fields."""
    owner = _owner(view)
    if issubclass(owner, ctypes.Structure) and (view.format, view.itemsize) == _form(owner):
        return _fields_of_structure(owner)
    inner = re.fullmatch(r"T\{(.*)\}", view.format)
    if inner:
        return _fields_of_format(inner.group(1))
    is_signed = _sign(view.format, view.itemsize)
    return None if is_signed is None else (Field("", 0, view.itemsize, is_signed),)


@functools.lru_cache(maxsize=None)
def fields_of_kind(kind: Any) -> tuple[Field, ...]:
    """The numbers of an item of a kind."""
    return fields_of(memoryview((kind * 1)())) or ()


def _describe(fields: tuple[Field, ...]) -> str:
    """The numbers of an item in words."""
    words = [f"{'' if field.is_signed else 'u'}int{8 * field.size}" for field in fields]
    if fields[0].name:
        words = [f"{field.name}: {word} at byte {field.at}" for field, word in zip(fields, words)]
    return ", ".join(words)


def row(items: Any) -> memoryview:
    """The buffer of one row of items, none of which is masked."""
    refuse_mask(items)
    try:
        view = memoryview(items)
    except ValueError as problem:
        raise TypeError(f"items must be a buffer of integers or structures, not {type(items).__name__}: {problem}") from None
    if view.ndim != 1:
        raise TypeError(f"items must have one dimension, not {view.ndim}")
    return view


def of_kind(view: memoryview, kind: Any) -> None:
    """Raises TypeError if the items of a buffer are of another kind."""
    if view.itemsize != ctypes.sizeof(kind) or fields_of(view) != fields_of_kind(kind):
        size = ctypes.sizeof(kind)
        form = f"{view.itemsize} bytes of format {view.format!r}"
        raise TypeError(f"items must have {size} bytes in this machine's order ({_describe(fields_of_kind(kind))}), not {form}")


def of_bytes(view: memoryview) -> None:
    """Raises TypeError if the items of a buffer are no bytes."""
    if view.itemsize != 1 or view.format.lstrip("@=<>!") not in ("B", "b", "c"):
        raise TypeError(f"items must be bytes, not of format {view.format!r}")


def side_by_side(view: memoryview) -> Union[memoryview, bytes]:
    """The buffer, or a copy of its items if they are not contiguous."""
    return view if view.c_contiguous else view.tobytes()


def writable_buffer(out: Any, kind: Any) -> memoryview:
    """The buffer that items of a kind are written to."""
    view = row(out)
    # Python 3.9 says of an empty array of ctypes that its items have no bytes.
    if len(view) or view.itemsize:
        of_kind(view, kind)
    if view.readonly:
        raise TypeError("`out` must be writable")
    if len(view) and not view.c_contiguous:
        raise TypeError("`out` must be contiguous")
    return view
