"""Files that a tool writes from the sources: written, or compared with what stands there."""

import difflib
import os
import sys

from shared.gate import REPOSITORY, read_text, write_text

# How a tool names the state of each of its files, in a line `NAME: STATE`, which make/made reads.
IN_STEP, DIFFERS, WRITTEN = "in step", "differs from the sources", "written"


def standing(name):
    """The text of a file of the repository, or none where it is not there."""
    path = os.path.join(REPOSITORY, name)
    if not os.path.exists(path):
        return ""
    return read_text(path)


def end_all(made):
    """Writes these texts to the files of these names, or compares the two, as the word on the command line says, and ends
    the tool. The last lines are the state of each file."""
    words = sys.argv[1:]
    if words not in (["write"], ["compare"]):
        sys.exit(f"usage: {sys.argv[0]} write|compare")
    stale = [name for name, text in made.items() if standing(name) != text]
    for name in stale:
        lines = difflib.unified_diff(standing(name).split("\n"), made[name].split("\n"), name, "the sources", n=0, lineterm="")
        if words == ["compare"]:
            print("\n".join(list(lines)[:20]))
        else:
            write_text(os.path.join(REPOSITORY, name), made[name])
    tell(made, stale, words == ["write"])
    if stale and words == ["compare"]:
        tool = os.path.relpath(sys.argv[0], os.getcwd())
        sys.exit(f"not in step with the sources: {', '.join(stale)}: {tool} write")
    print(f"{len(made)} made files are {'written' if words == ['write'] else 'in step with the sources'}")
    sys.exit(0)


def tell(names, stale, are_written=False):
    """Prints the state of each of these files, of which some were not as the sources make them."""
    for name in names:
        print(f"{name}: {IN_STEP if name not in stale else WRITTEN if are_written else DIFFERS}")


def end(page, text):
    """As `end_all`, for one file."""
    end_all({page: text})
