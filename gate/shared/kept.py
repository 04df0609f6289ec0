"""Where the time of a check went, by the work that it kept: a check keeps each module as soon as it has checked it, so with
one job, and nothing kept before, a module took the time since the one before it was kept. Several jobs at once keep their
modules in one another's time, and nothing is known then."""

import os

# The ends of the names of modules that a check makes of a function: its contract, code, goals, proof and the like.
KINDS = {
    "Answers", "Code", "Given", "Goals", "Invariants", "Key", "Kinds", "Layout", "Lts", "Met", "Mir", "Named", "Proof",
    "Reads", "Statement", "Symbol", "TheImpl", "TheLink", "Tie", "View",
}  # fmt: skip


def kept_modules(folder):
    """When each module in a folder of kept work was kept, and its name in parts, the first one first."""
    kept = []
    for inside, _, names in os.walk(folder):
        kept += [(os.stat(os.path.join(inside, name)).st_mtime, name) for name in names if name.endswith(".oantt")]
    return [(time, name.removesuffix(".oantt").removesuffix(".decls").split(".")) for time, name in sorted(kept)]


def kind_of(parts):
    """What a module has of its function, or else the library that it belongs to."""
    return parts[-1] if parts[-1] in KINDS else parts[0]


def subject_of(parts):
    """The function, or the file, that a module belongs to."""
    while len(parts) > 2 and parts[-1] in KINDS:
        parts = parts[:-1]
    library, *inside = parts
    crate = library.removeprefix("Rattle-").removesuffix("-proofs").removesuffix("-specs")
    return "::".join([crate, *(part for part in inside if part not in ("contracts", "proofs"))])


def spent(folder):
    """The seconds of the modules of a check by kind, those by function, and all of them."""
    kinds, subjects, kept = {}, {}, kept_modules(folder)
    for (before, _), (after, parts) in zip(kept, kept[1:]):
        for found, name in ((kinds, kind_of(parts)), (subjects, subject_of(parts))):
            found[name] = found.get(name, 0) + after - before
    return kinds, subjects, kept[-1][0] - kept[0][0] if kept else 0


def slowest(seconds, most):
    """The names with the most seconds, each in a line with them."""
    return [f"{time:8.1f} s  {name}" for name, time in sorted(seconds.items(), key=lambda item: -item[1])[:most]]
