"""The code that the modules of WebAssembly were made of, by a sum for each crate in a file beside that of C.

Comments, contracts, proofs and tests are not in the sums, since no compiler makes code of them.
"""

import hashlib
import os

from shared.gate import REPOSITORY, read_text
from shared.rattle_tokens import Lexer, Refused

CRATE = "muxandu_c"
MODULE = os.path.join("packages", "c", "muxandu.wasm")
# The same without vectors, of which JavaScript has its calls.
PLAIN = os.path.join("packages", "javascript", "plain.wasm")
LOWERED = os.path.join("packages", "javascript", "module.js")
RECORD = os.path.join("packages", "c", "CHECKSUMS")
# How the parts begin of which no compiler makes code.
ANSWERS = (["#", "[", "tactic"], ["#", "!", "[", "tactic"])
TESTS = ["#", "[", "cfg", "(", "test", ")", "]", "mod"]

HEAD = "# The code that muxandu.wasm was made of, and what is made of it. Made by make/module; `make/module check` compares it.\n"


def crates_below(root=REPOSITORY):
    """The names of the crates that the module is made of, the last one after those that it stands on."""
    lines = [line.partition(":") for line in read_text(os.path.join(root, "crates.txt")).split("\n")]
    [below] = [names.split() for head, _, names in lines if head.split()[:1] == [CRATE]]
    return [*below, CRATE]


def end_of_part(tokens, begin):
    """The place after the part that begins there, if no compiler makes code of it: an answer for the prover, or a module of tests."""
    if tokens[begin : begin + len(TESTS)] == TESTS:
        return tokens.index(";", begin) + 1
    if not any(tokens[begin : begin + len(answer)] == answer for answer in ANSWERS):
        return begin
    depth = 0
    for place in range(begin, len(tokens)):
        depth += {"[": 1, "]": -1}.get(tokens[place], 0)
        if tokens[place] == "]" and depth == 0:
            return place + 1
    return len(tokens)


def code_of(path, text):
    """The tokens of a source of which the compiler makes code, a line each. Where it has a form that is not known, its whole text."""
    try:
        tokens = [token.text for token in Lexer(path, text).tokens() if token.is_code]
    except Refused:
        return text
    kept, place = [], 0
    while place < len(tokens):
        end = end_of_part(tokens, place)
        if end == place:
            kept.append(tokens[place])
        place = max(end, place + 1)
    return "\n".join(kept)


def is_of_tests(name):
    """Whether a file or a folder of src is one of tests."""
    return name.removesuffix(".rt") == "tests" or name.removesuffix(".rt").endswith("_tests")


def sources_of(crate, root=REPOSITORY):
    """The sources of a crate by their paths from the repository's root, without its tests."""
    for folder, below, names in os.walk(os.path.join(root, "crates", crate, "src")):
        below[:] = sorted(name for name in below if not is_of_tests(name))
        for name in sorted(names):
            if name.endswith(".rt") and not is_of_tests(name):
                yield os.path.relpath(os.path.join(folder, name), root)


def sum_of_code(crate, root=REPOSITORY):
    """The sum of the code of a crate."""
    total = hashlib.sha256()
    for path in sources_of(crate, root):
        code = code_of(path, read_text(os.path.join(root, path)))
        total.update(f"{path}\n{len(code)}\n{code}\n".encode())
    return total.hexdigest()


def lines_of_record(root=REPOSITORY):
    """The lines that the record must have, by what each is of."""
    found = {}
    for name in (MODULE, PLAIN, LOWERED):
        with open(os.path.join(root, name), "rb") as file:
            found[name] = hashlib.sha256(file.read()).hexdigest()
    return found | {f"crates/{crate}/src": sum_of_code(crate, root) for crate in crates_below(root)}


def record_text(root=REPOSITORY):
    """The text of the record, for the module and the sources that are there."""
    return HEAD + "".join(f"sha256 {total} {name}\n" for name, total in lines_of_record(root).items())


def record(root=REPOSITORY):
    """The sums of the record by what each is of; none where it is not there."""
    path = os.path.join(root, RECORD)
    lines = read_text(path).split("\n") if os.path.exists(path) else []
    return {line.split()[2]: line.split()[1] for line in lines if line.startswith("sha256 ") and len(line.split()) == 3}


def differences(root=REPOSITORY):
    """What is not as the record says: crates of which the module is not made, the module, and what is made of it."""
    known, wanted = record(root), lines_of_record(root)
    return [name for name in {**wanted, **known} if known.get(name) != wanted.get(name)]


def newer_crates(root=REPOSITORY):
    """The crates whose code is newer than the module."""
    return [name.split("/")[1] for name in differences(root) if name.startswith("crates/")]
