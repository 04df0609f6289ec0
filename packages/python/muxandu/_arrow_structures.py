"""The structures of the C data interface and of the C stream interface of Arrow, and their
capsules.

A capsule owns the structure in it. A consumer that takes the structure over calls its `release`,
and else the capsule does.
"""

from __future__ import annotations

import ctypes
import itertools
from typing import Any

# The flag of a field that may have gaps.
NULLABLE = 2

# The fields of a row in their order, with the formats of int64, uint32 and int32.
FORMATS = {"seconds": b"l", "nanoseconds": b"I", "offset_seconds": b"i"}


class Schema(ctypes.Structure):
    """ArrowSchema of the interface."""


class Array(ctypes.Structure):
    """ArrowArray of the interface."""


class Stream(ctypes.Structure):
    """ArrowArrayStream of the interface."""


Schema._fields_ = [
    ("format", ctypes.c_char_p),
    ("name", ctypes.c_char_p),
    ("metadata", ctypes.c_char_p),
    ("flags", ctypes.c_int64),
    ("n_children", ctypes.c_int64),
    ("children", ctypes.POINTER(ctypes.POINTER(Schema))),
    ("dictionary", ctypes.c_void_p),
    ("release", ctypes.c_void_p),
    ("private_data", ctypes.c_void_p),
]
Array._fields_ = [
    ("length", ctypes.c_int64),
    ("null_count", ctypes.c_int64),
    ("offset", ctypes.c_int64),
    ("n_buffers", ctypes.c_int64),
    ("n_children", ctypes.c_int64),
    ("buffers", ctypes.POINTER(ctypes.c_void_p)),
    ("children", ctypes.POINTER(ctypes.POINTER(Array))),
    ("dictionary", ctypes.c_void_p),
    ("release", ctypes.c_void_p),
    ("private_data", ctypes.c_void_p),
]
Stream._fields_ = [
    ("get_schema", ctypes.c_void_p),
    ("get_next", ctypes.c_void_p),
    ("get_last_error", ctypes.c_void_p),
    ("release", ctypes.c_void_p),
    ("private_data", ctypes.c_void_p),
]

# The calls of the structures: each gets the address of its own.
Release = ctypes.CFUNCTYPE(None, ctypes.c_void_p)
GetInto = ctypes.CFUNCTYPE(ctypes.c_int, ctypes.c_void_p, ctypes.c_void_p)
GetText = ctypes.CFUNCTYPE(ctypes.c_void_p, ctypes.c_void_p)

# What structures that are not released point to, by their private data; and the structures of capsules, by their addresses.
held: dict[int, Any] = {}
owned: dict[int, Any] = {}
_numbers = itertools.count(1)


def address_of_call(call: Any) -> Any:
    """The address of a call for a structure."""
    return ctypes.cast(call, ctypes.c_void_p).value


def release(structure: Any) -> None:
    """Releases a structure, if it is not released."""
    if structure.release:
        Release(structure.release)(ctypes.addressof(structure))


def _release_of(kind: Any) -> Any:
    """The release of structures of a kind: it releases their children, and drops what they point
    to."""

    def drop(address: int) -> None:
        structure = kind.from_address(address)
        for place in range(getattr(structure, "n_children", 0)):
            release(structure.children[place].contents)
        structure.release = None
        held.pop(structure.private_data, None)

    return Release(drop)


_RELEASES = {kind: _release_of(kind) for kind in (Schema, Array, Stream)}


def make(kind: Any, pointed: Any, **fields: Any) -> Any:
    """A structure that holds what it points to until it is released."""
    number = next(_numbers)
    held[number] = pointed
    return kind(release=address_of_call(_RELEASES[kind]), private_data=number, **fields)


def make_parent(kind: Any, pointed: Any, children: tuple[Any, ...], **fields: Any) -> Any:
    """A structure with children, which it holds too."""
    pointers = (ctypes.POINTER(kind) * len(children))(*map(ctypes.pointer, children))
    return make(kind, (pointed, children, pointers), n_children=len(children), children=pointers, **fields)


_api = ctypes.pythonapi
_new_capsule = ctypes.PYFUNCTYPE(ctypes.py_object, ctypes.c_void_p, ctypes.c_char_p, ctypes.c_void_p)(("PyCapsule_New", _api))
_pointer_of = ctypes.PYFUNCTYPE(ctypes.c_void_p, ctypes.py_object, ctypes.c_char_p)(("PyCapsule_GetPointer", _api))
# At the end of a capsule no object of it may be made.
_pointer_at_end = ctypes.PYFUNCTYPE(ctypes.c_void_p, ctypes.c_void_p, ctypes.c_char_p)(("PyCapsule_GetPointer", _api))
_name_at_end = ctypes.PYFUNCTYPE(ctypes.c_char_p, ctypes.c_void_p)(("PyCapsule_GetName", _api))

_NAMES = {Schema: b"arrow_schema", Array: b"arrow_array", Stream: b"arrow_array_stream"}


@ctypes.PYFUNCTYPE(None, ctypes.c_void_p)
def _end(capsule: int) -> None:
    """The end of a capsule: it releases its structure, if no consumer has taken that over."""
    structure = owned.pop(_pointer_at_end(capsule, _name_at_end(capsule)), None)
    if structure is not None:
        release(structure)


def capsule_of(structure: Any) -> Any:
    """The capsule that owns a structure."""
    address = ctypes.addressof(structure)
    owned[address] = structure
    return _new_capsule(address, _NAMES[type(structure)], address_of_call(_end))


def structure_in(capsule: Any, kind: Any) -> Any:
    """The structure in a capsule, which keeps it. ValueError of another capsule, or of a structure
    that is released."""
    structure = kind.from_address(_pointer_of(capsule, _NAMES[kind]))
    if not structure.release:
        raise ValueError(f"the {_NAMES[kind].decode()} is released: ask for a new one")
    return structure
