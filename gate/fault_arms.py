"""Puts several faults of C into one build, each as an arm of its function, so that they are compiled once.

A fault whose edits all lie in bodies of functions becomes an arm of these. The variable PLANTED_FAULT has the number of the one
that is on, and without it none is:

    int f(int a) { if (planted_fault_is(7)) { THE BODY WITH FAULT 7 } else { THE BODY } }

A fault of a macro, a table, a declaration or another language is no arm, and neither is one whose arm does not compile.
"""

import collections
import os
import re

from case_texts import C_TOKENS, items_of
from shared.gate import read_text, write_text

VARIABLE = "PLANTED_FAULT"

# How often the arms that do not compile are left out, before all are.
MOST_BUILDS = 6

# Lines of the preprocessor, with those that they go on in: no body begins or ends there.
DIRECTIVE = r"^[ \t]*#(?:\\\n|//[^\n]*|/\*.*?\*/|[^\n])*"
TOKENS = re.compile(f"{DIRECTIVE}|{C_TOKENS.pattern}", re.MULTILINE | re.DOTALL)

SWITCH = f"""\
#ifndef PLANTED_FAULT_IS
#define PLANTED_FAULT_IS
static inline int planted_fault_is(int number) {{
    extern char *getenv(const char *);
    static int one = -1;
    if (one < 0) {{
        const char *said = getenv("{VARIABLE}");
        one = 0;
        for (; said && *said >= '0' && *said <= '9'; said++) one = one * 10 + (*said - '0');
    }}
    return one == number;
}}
#endif
"""


def body_around(text, begin, end):
    """The offsets of the body of the function that has this part of a text in it, or None."""
    items, at = items_of(text, TOKENS), 0
    for item, code in items or ():
        opens, closes = code.find("{"), code.rfind("}")
        head = code[:opens].strip()
        is_function = head.endswith(")") and "=" not in head and not code[closes + 1 :].strip()
        if is_function and at + opens < begin and end <= at + closes:
            return at + opens + 1, at + closes
        at += len(item)
    return None


def edits_in_bodies(root, fault):
    """The edits of a fault, each the path, the offsets of the body that it is in, and the old and the new text; or None."""
    found = []
    for path, old, new in fault.edits:
        place = os.path.join(root, path)
        if not path.endswith((".c", ".h")) or fault.problem_of(root):
            return None
        text = read_text(place)
        begin = text.index(old)
        body = body_around(text, begin, begin + len(old))
        if body is None:
            return None
        found.append((path, body, old, new))
    return found


class Arms:
    """The faults of a copy that are arms, by their numbers, in one build of it."""

    def __init__(self, root, faults):
        self.root, self.kept, self.spans = root, {}, {}
        self.edits = {number: edits_in_bodies(root, fault) for number, fault in enumerate(faults, 1)}
        self.edits = {number: edits for number, edits in self.edits.items() if edits}
        self.faults = {number: fault for number, fault in enumerate(faults, 1) if number in self.edits}

    def build(self, compile_all):
        """Has all arms compiled, and leaves out those that are not. `compile_all` gives a status and what was printed. Gives the
        faults that were left out."""
        left_out = []
        for _ in range(MOST_BUILDS):
            if not self.faults:
                break
            self.write()
            status, said = compile_all()
            if status == 0:
                return left_out
            # an error that is at no arm is of all of them
            for number in self.numbers_at(said) or list(self.faults):
                left_out.append(self.faults.pop(number))
        left_out += self.faults.values()
        self.faults = {}
        self.take_out()
        return left_out

    def write(self):
        """Writes each file with the arms of its functions, and keeps which lines each arm has."""
        bodies = collections.defaultdict(lambda: collections.defaultdict(dict))
        for number in self.faults:
            for path, body, old, new in self.edits[number]:
                text = self.original(path)[slice(*body)]
                bodies[path][body][number] = bodies[path][body].get(number, text).replace(old, new)
        self.take_out()
        self.spans = {path: self.write_file(path, places) for path, places in bodies.items()}

    def original(self, path):
        if path not in self.kept:
            self.kept[path] = read_text(os.path.join(self.root, path))
        return self.kept[path]

    def write_file(self, path, places):
        """Writes a file with arms. Gives the first and the last line of each arm with its number, and those of the body without a
        fault with the numbers of all its arms."""
        text, out, at, spans = self.original(path), SWITCH, 0, []
        for (begin, end), arms in sorted(places.items()):
            out += text[at:begin] + "\n"
            for number, body in arms.items():
                first = out.count("\n") + 1
                out += f"if (planted_fault_is({number})) {{{body}}} else "
                spans.append((first, out.count("\n") + 1, {number}))
            first = out.count("\n") + 1
            out += f"{{{text[begin:end]}}}\n"
            spans.append((first, out.count("\n"), set(arms)))
            at = end
        write_text(os.path.join(self.root, path), out + text[at:])
        return spans

    def numbers_at(self, said):
        """The arms at which a compiler told an error."""
        found = set()
        for name, line in re.findall(r"^(\S+?):(\d+):(?:\d+:)? (?:fatal )?error: ", said, re.MULTILINE):
            for path, spans in self.spans.items():
                if os.path.basename(path) == os.path.basename(name):
                    found = found.union(*(numbers for first, last, numbers in spans if first <= int(line) <= last))
        return found & set(self.faults)

    def take_out(self):
        """Writes each file as it was."""
        for path, text in self.kept.items():
            write_text(os.path.join(self.root, path), text)
