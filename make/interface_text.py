"""What packages/c/interface.json says of a name of the interface for C: the parameters of a call with their roles, the fields of a
struct with their places, the numbers of an enum, or the number of a constant."""

import functools

from shared.interface import CONSTANTS, read, variants_of

# What you pass for a parameter of each role.
ROLES = {
    "in": "a value",
    "out": "the address of one value, which the call writes",
    "text": "the address of bytes, which the call reads; the next parameter is their count",
    "items in": "the address of items, which the call reads; the next parameter is their count",
    "items out": "the address of items, which the call writes; the next parameter is their count",
    "room": "the address of bytes for a text, which the call writes; the next parameter is the room there",
    "count": "the number of bytes or items at the address before it",
}


@functools.cache
def interface():
    return read()


def of_call(call):
    """The lines of a call."""
    lines = []
    for one in call["parameters"]:
        most = f", of at most {one['most']} bytes" if "most" in one else ""
        lines.append(f"{one['name']}: {one['type']}, {one['role']}: {ROLES[one['role']]}{most}")
    return [*lines, f"result: {call['result']}", call["doc"]]


def of_struct(name, struct):
    """The lines of a struct."""
    fields = [f"{one['offset']:>4} {one['name']}: {one['type']}, {one['doc']}" for one in struct["fields"]]
    return [f"{name}, {struct['size']} bytes: {struct['doc']}", *fields]


def of_numbers(alias, of):
    """The lines of a type of numbers."""
    return [alias, *(f"{one['number']:>4} MUXANDU_{one['constant']}: {one['doc']}" for one in variants_of(interface(), of))]


def parts_of(name):
    """The lines of a name, or none if the interface does not have it."""
    data = interface()
    if name in data["calls"]:
        return of_call(data["calls"][name])
    if name in data["structs"]:
        return of_struct(name, data["structs"][name])
    if name in data["numbers"]:
        return of_numbers(name, data["numbers"][name]["of"])
    bare = name.removeprefix("MUXANDU_")
    found = [data[group][bare] for group in CONSTANTS if bare in data[group]]
    found += [one for enum in data["enums"] for one in variants_of(data, enum) if one["constant"] == bare]
    return [f"MUXANDU_{bare} = {one['number']}: {one['doc']}" for one in found]
