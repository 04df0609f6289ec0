"""Makes the keys of faults: a key is a sum of all that decides whether a case sees its fault. A fault that has the key that it
had when it was seen needs no further try.

The fault itself decides, the file that it changes, the case, and the program that runs the case. So the key of a fault has

- its edits, the name of its case, and of its head what is copied, prepared and run, and what a failure prints,
- the whole text of each file that it edits,
- the text of its case with all that it names, as `case_texts` finds it; where it is not found, all of the test files,
- each program that the head runs, with what it imports, and the files of tests and of the gate that these name.

The versions of the tools are left out, and so are the other files of a package: the sample and `--all` are for these.
"""

import os
import re

from case_texts import Files

# What is run with this word as a test file holds the cases one by one.
CASE_BY_CASE = ("gate/gate_tests",)

# The folders whose files a program may name, the folders below that no program reads, and files that decide nothing of a case.
ROOTS, UNREAD = ("gate", "make", "packages"), {"__pycache__", "target", "out", "build", "node_modules", "results", "verdicts"}
NO_PART = ("gate/README.md", "gate/counts.txt")

ENDINGS = "c|h|txt|json|jsonl|sql|out|expected|hex|js|mjs|ts|rs|s|toml|html|css|svg|edits"
NAMED_FILE = re.compile(rf"(?:[\w.-]+/)*[\w-]+(?:\.[\w-]+)*\.(?:{ENDINGS})\b")
JOINED = re.compile(r"os\.path\.join\((GATE|MAKE), ((?:\"[\w.]+\"(?:, )?)+)\)")


def data_files(root):
    """The paths of the files of tests and of the gate by their names: those that a program may name."""
    found = {}
    for top in ROOTS:
        for at, below, names in os.walk(os.path.join(root, top)):
            below[:] = sorted(set(below) - UNREAD)
            place = os.path.relpath(at, root).split(os.sep)
            if place[0] == "gate" or {"tests", "sql", "expected"} & set(place):
                for name in names:
                    found.setdefault(name, []).append("/".join([*place, name]))
    return found


class Keys:
    """The keys of faults of a repository."""

    def __init__(self, root, sum_of):
        self.files, self.sum_of, self.data, self.programs = (Files(root), sum_of, data_files(root), {})

    def key(self, fault):
        """The key of a fault."""
        head = [fault.head[key] for key in ("copy", "prepare", "build", "run", "failed", "archive")]
        edited = [(path, self.text(path)) for path in sorted({path for path, _, _ in fault.edits})]
        commands = "\n".join((*(fault.head[it] for it in ("prepare", "build")), fault.head["run"].replace("{case}", fault.case)))
        case, holders = self.case_of(fault, commands)
        runs = [path for path in self.paths_in(commands) if path not in holders]
        if not case and not runs:
            case = self.all_tests(fault.head["copy"].split())
        return self.sum_of(fault.edits, fault.case, head, edited, case, [self.program(path) for path in runs])

    def all_tests(self, copied):
        """All files of tests that a fault's copy has, for a case of which nothing is found."""
        places = sorted({path for paths in self.data.values() for path in paths})
        return [(path, self.files.read(path)) for path in places if any(path.startswith(f"{it}/") for it in copied)]

    def text(self, path):
        return self.files.read(path) if self.files.has(path) else "there is no such file"

    def paths_in(self, commands):
        """The files that commands name, below the folders that they enter."""
        folders = ["", *re.findall(r"\bcd ([\w./-]+)", commands)]
        words = {word for word in re.findall(r"[\w./-]*\w", commands.replace("$PWD/", "")) if "/" in word or "." in word}
        found = (os.path.normpath(os.path.join(folder, word)) for word in words for folder in folders)
        return sorted({path for path in found if not path.startswith("..") and self.files.has(path)})

    def program(self, path):
        """The texts of a program: of what it imports, and of the files that it names."""
        if path not in self.programs:
            self.programs[path] = self.sum_of(self.with_data(self.files.all_of(path)))
        return self.programs[path]

    def with_data(self, pairs):
        """The texts of parts of files, and those of the files that they name. A file of C names its headers."""
        texts, seen = self.files.texts_of(pairs), set()
        todo = [text for _, text in texts]
        while todo:
            for path in sorted(self.named_in(todo.pop()) - seen):
                seen.add(path)
                todo += [self.files.read(path)] if path.endswith((".c", ".h")) else []
        return texts, [(path, self.files.read(path)) for path in sorted(seen)]

    def named_in(self, text):
        """The files of tests and of the gate that a text names: by their names, or by the folders too where it says these."""
        named = set(NAMED_FILE.findall(text))
        found = {path for name in named for path in self.data.get(os.path.basename(name), ()) if f"/{path}".endswith(f"/{name}")}
        joined = (os.path.join(one.lower(), *re.findall(r"\w[\w.]*", rest)) for one, rest in JOINED.findall(text))
        return (found | {path for path in joined if self.files.has(path)}) - set(NO_PART)

    def case_of(self, fault, commands):
        """What decides of the case of a fault, and the files that hold it, of which nothing else counts."""
        for find in (self.in_gate_tests, self.in_python, self.in_rust, self.in_script, self.in_rows, self.in_postgres):
            found = find(fault.case, commands)
            if found and found[0]:
                return found
        return [], ()

    def one_of(self, paths, case):
        """What a case has of the first of these files that has it, or all of these files, and their paths."""
        paths = [path for path in paths if self.files.has(path)]
        for path in paths:
            found = self.files.of_case(path, case)
            if found:
                return self.with_data(found), paths
        return [self.with_data(self.files.all_of(path)) for path in paths], paths

    def in_gate_tests(self, case, commands):
        """A case of a program that holds its cases one by one: a function of it or of a module that it imports, or a row."""
        for path in CASE_BY_CASE:
            if path not in self.paths_in(commands):
                continue
            modules = [found for part in self.files.parts(path) for found, name in self.files.links(path, part) if name is None]
            holders = [path, *sorted(set(modules))]
            found = next((row for it in holders for row in [self.files.of_row(it, case)] if row), None)
            return (self.with_data(found), (path,)) if found else (self.one_of(holders, case)[0], (path,))
        return None

    def in_python(self, case, commands):
        """A case of `unittest`: MODULE.CLASS.TEST."""
        named = re.fullmatch(r"(\w+)\.(\w+\.\w+)", case)
        if not named or "-m unittest" not in commands:
            return None
        folders = tuple(f"{folder}/" for folder in re.findall(r"\bcd ([\w./-]+)", commands))
        paths = [path for path in self.data.get(f"{named[1]}.py", ()) if path.startswith(folders)]
        return self.one_of(sorted(paths), named[2])

    def in_rust(self, case, commands):
        """A case of cargo: of a file of tests, of an example, or of the library itself."""
        run = re.search(r"\bcd ([\w./-]+)(?:;| &&) cargo (?:test|run)\b.*? --(?:(test|example) (\w+)|lib)", commands)
        if not run:
            return None
        if run[2]:
            return self.one_of([f"{run[1]}/{run[2]}s/{run[3]}.rs"], case)
        module = case.split("::")[0]
        places = [f"{run[1]}/src/{module}.rs", f"{run[1]}/src/{module}/mod.rs"]
        return self.in_library([path for path in places if self.files.has(path)], case.split("::"))

    def in_library(self, paths, names):
        """A case of a module within a file of the library."""
        for path in paths:
            for part in self.files.parts(path):
                inner = re.search(r"\bmod \w+ \{\n(.*)\}\s*$", part.text, re.DOTALL)
                if names[-2] in part.names and inner:
                    return self.with_data([(path, part)]), ()
        return [self.with_data(self.files.all_of(path)) for path in paths], ()

    def in_script(self, case, commands):
        """A case of Node's own tests."""
        if "node --test" not in commands:
            return None
        return self.one_of([path for path in self.paths_in(commands) if path.endswith(".js")], case)

    def in_rows(self, case, commands):
        """A row of the calls of SQLite: a line with the call, and below it the answer."""
        path = "packages/sqlite/tests/cases.txt"
        if "gate/sqlite" not in commands or not self.files.has(path):
            return None
        lines = self.files.read(path).split("\n")
        if case not in lines or not re.search(r"--only (cases|register)\b", commands):
            return None
        return lines[lines.index(case) :][:2], ()

    def in_postgres(self, case, commands):
        """A file of `make installcheck`, and what it must print."""
        named = re.fullmatch(r"installcheck: (\w+)", case)
        if not named or "gate/postgres" not in commands:
            return None
        places = (f"packages/postgres/sql/{named[1]}.sql", f"packages/postgres/expected/{named[1]}.out")
        return [(path, self.text(path)) for path in places], ()
