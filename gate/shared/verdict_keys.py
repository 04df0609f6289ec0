"""Keys of wrong bodies: a sum of all that decides whether a body meets its contract. A body that has the key with which it was
refused is refused.

A check of a function sees what the function says, what its contract says, and what the functions, types and definitions that these
name say, in this crate and in those below. Of a function that it calls it sees the contract, and never the body. So a key has

- the body: its changes, the function that it makes wrong, and the clause,
- the function as its file has it, with its attributes, the head of its impl block, and the imports of its names,
- the contract of each method of its name, since one of a trait may have that of the trait,
- the contracts of functions that it calls, in macros and constants that it names too,
- the types, constants, traits, macros and impl blocks by each name in these, and so on: operators, `?` and `for` name no function,
  so a type has the contracts of all traits that it implements; those of a trait of an operator only where code has its sign, or
  something names the trait,
- the definitions that these lead to, by the imports of each file, and so on,
- the answers in proofs/ of the function, with the definitions that these name,
- the attributes of the root of the crate, the kit, and the code that judges what a check prints.

Lemmas, and lists of them, are left out: what is false stays so by other lemmas. A body whose changes are not in its function alone
has the sources of its whole crate in its key, since other functions see them. So has a twin, whose key has the function that
refuses it too.

What it cannot see is an instance that the prover picks by a type that nothing names. For such a case there are the sample and `--all`.
"""

import collections
import os
from dataclasses import replace

from shared.gate import read_text

from shared.source_parts import (
    OF_TYPE, SIGNS, Part, called_in, cited_files, ending, read_source, read_specs, signs_in, without_imports, words_of,
)  # fmt: skip
from shared.verdicts import sum_of
from shared.wrong import is_in_function, put_body

# The folders of a crate whose parts names lead to.
SOURCES, DEFINITIONS = "src", ("specs", "proofs")

# The kinds of parts that a check sees wherever they are named, those of types and traits, and the files that name lemmas.
SEEN = ("type", "declaration", "macro", "impl", "trait", "import")
TYPES = ("type", "trait")
ANSWERS = ("Answers.antt", "Proof.antt")


class Texts:
    """The files of a repository on a disk: their paths below a folder, and their texts, by paths from its root."""

    def __init__(self, root):
        self.root, self.paths, self.texts = root, {}, {}

    def files(self, folder):
        """The paths of all files below a folder."""
        if folder not in self.paths:
            found = [os.path.join(place, name) for place, _, names in os.walk(os.path.join(self.root, folder)) for name in names]
            self.paths[folder] = sorted(os.path.relpath(path, self.root).replace(os.sep, "/") for path in found)
        return self.paths[folder]

    def read(self, path):
        """The text of a file."""
        if path not in self.texts:
            self.texts[path] = read_text(os.path.join(self.root, path))
        return self.texts[path]


def is_of_tests(path):
    """Whether a source has tests alone, which no check of a wrong body has."""
    return any(part.removesuffix(".rt") == "tests" or part.endswith("_tests.rt") for part in path.split("/"))


class Crate:
    """The parts of a crate: those of its sources, by file, and its declarations of definitions."""

    def __init__(self, texts, name):
        self.name, self.sources, self.rests, self.definitions = name, {}, {}, []
        for path in texts.files(f"crates/{name}/{SOURCES}"):
            if path.endswith(".rt") and not is_of_tests(path):
                self.sources[path], self.rests[path] = read_source(name, path, texts.read(path))
        for folder in DEFINITIONS:
            for path in texts.files(f"crates/{name}/{folder}"):
                # a file in a folder of proofs/ has the answers of one function, which no other names
                if path.endswith(".antt") and (folder != "proofs" or path.count("/") == 3):
                    self.definitions += read_specs(name, path, texts.read(path))

    def root_rest(self):
        """The attributes of the root of the crate."""
        return [self.rests.get(f"crates/{self.name}/src/{root}.rt", "") for root in ("lib", "main")]

    def home_of(self, function):
        """The file of a function, by its path."""
        modules = function.split("::")[:-1]
        for size in range(len(modules), 0, -1):
            for path in (f"crates/{self.name}/src/{'/'.join(modules[:size])}{end}" for end in (".rt", "/mod.rt")):
                if path in self.sources:
                    return path
        return next(
            (path for path in (f"crates/{self.name}/src/{root}.rt" for root in ("lib", "main")) if path in self.sources), None
        )


class Names:
    """The parts of some crates by the names that lead to them.

    A block `impl A<B> for C`, and a method in it, is seen where C and B are: a body that applies it has values of both, and their
    types are named where these come from. `needs` has these types of a part. For a type that no crate here has, as an integer, it
    has the trait."""

    def __init__(self, crates):
        self.seen, self.contracts, self.definitions = (collections.defaultdict(list) for _ in range(3))
        self.crates, self.files = {crate.name for crate in crates}, set()
        self.needs, self.nexts, self.types_in = {}, {}, {}
        sources = [part for crate in crates for parts in crate.sources.values() for part in parts]
        self.types = {name for part in sources if part.kind in TYPES for name in part.names}
        for part in sources:
            self.add_source(part)
        for part in (part for crate in crates for part in crate.definitions):
            self.files.add(part.path)
            for name in part.names:
                self.definitions[name].append(part)
                self.definitions[part.path, name].append(part)
        self.blocks = {part for part in sources if part.kind == "impl" and part.trait}

    def add_source(self, part):
        """Adds a part of a source to its names."""
        self.needs[part] = frozenset((part.owners | set(part.trait[1:])) & self.types)
        if part.kind == "impl" and not self.needs[part]:
            self.needs[part] = frozenset(set(part.trait[:1]) & self.types)
        if part.kind in ("contract", *SEEN):
            for name in part.names:
                (self.contracts if part.kind == "contract" else self.seen)[name].append(part)

    def is_macro(self, name):
        """Whether a name is a macro of these crates."""
        return any(part.kind == "macro" for part in self.seen.get(name, ()))

    def called_by(self, part):
        """The contracts of the functions that a part calls, and of those that it names as values. What is passed to a macro of these
        crates may be called there."""
        is_any = part.kind == "macro" or any(self.is_macro(name) for name in part.called)
        for word in part.values:
            for contract in self.contracts.get(word, ()):
                if is_any or word in (part.free if contract.is_free else part.called):
                    yield contract

    def defined_by(self, part):
        """The definitions that the words of a part mean: those of its file, and those that the file imports. Where an imported file is
        none of these crates', as one that the prover makes, they are all of that name, and the types that the file's path names.
        """
        own = {part.path} if part.path.endswith(".antt") else set()
        for word in part.words:
            for path in own | part.cited.get(word, set()) | part.whole:
                if path in self.files:
                    yield from self.definitions.get((path, word), ())
                elif path.split("/")[1] in self.crates:
                    yield from self.definitions.get(word, ()) if path not in part.whole else ()
                    for name in path.removesuffix(".antt").split("/")[3:]:
                        yield from self.seen.get(name, ())

    def definitions_of(self, part):
        """The definitions that a part leads to. Lists of lemmas are passed through, and from answers lemmas are left out."""
        todo, passed, is_answer = list(self.defined_by(part)), set(), part.kind == "answers"
        while todo:
            found = todo.pop()
            if found in passed:
                continue
            passed.add(found)
            if found.kind == "ruleset":
                todo += [it for it in self.defined_by(found) if it.kind in ("ruleset", "definition")]
            elif found.kind == "passed" and is_answer:
                todo += list(self.defined_by(found))
            elif found.kind != "lemma" or not is_answer:
                yield found

    def next_to(self, part):
        """The parts that the words of a part lead to."""
        if part not in self.nexts:
            found = [it for word in part.words for it in self.seen.get(word, ())] if part.path.endswith(".rt") else []
            self.nexts[part] = frozenset([*found, *self.called_by(part), *self.definitions_of(part)])
            self.types_in[part] = part.words & self.types
        return self.nexts[part]

    def reached_from(self, parts):
        """All parts that these lead to, with them and the imports of all names."""
        reached, types, applied, left = set(), set(), set(), set(self.blocks)
        new = {*parts, *self.seen.get("", ())}
        while new:
            reached |= new
            left = left.union(*map(self.next_to, new)) - reached
            types.update(*(self.types_in[part] for part in new))
            applied.update(*(part.signs | part.words & SIGNS.keys() for part in new))
            new = {part for part in left if self.needs.get(part, frozenset()) <= types and is_applied(part, applied)}
        return reached


def is_applied(part, applied):
    """Whether a part is no block of an operator's trait, or of one of these."""
    return not (part.kind == "impl" and part.trait) or part.trait[0] not in SIGNS or part.trait[0] in applied


class Keys:
    """The keys of the wrong bodies of a repository, with texts as `Texts` has them, and what judges: the kit and the code, and the code
    for twins."""

    def __init__(self, texts, judge, twin_judge=()):
        self.texts, self.judge, self.twin_judge, self.crates, self.names = texts, judge, twin_judge, {}, {}
        self.below = {}
        for line in texts.read("crates.txt").split("\n"):
            name, separator, below = line.partition(":")
            if separator and not line.startswith("#"):
                self.below[name.split()[0]] = below.split()

    def crate(self, name):
        """The parts of a crate."""
        if name not in self.crates:
            self.crates[name] = Crate(self.texts, name)
        return self.crates[name]

    def seen_by(self, name):
        """The names of a crate and of those below it, which its functions see."""
        return [name, *(it for it in self.below.get(name, ()) if it in self.below)]

    def names_in(self, name):
        """The parts that names in a crate lead to."""
        if name not in self.names:
            self.names[name] = Names([self.crate(it) for it in self.seen_by(name)])
        return self.names[name]

    def sources_of(self, name, folders=(SOURCES, "specs")):
        """A sum of all sources and definitions of a crate, or of what else is in these folders."""
        paths = [path for folder in folders for path in self.texts.files(f"crates/{name}/{folder}")]
        return sum_of([(path, self.texts.read(path)) for path in paths])

    def answers_of(self, name, function):
        """The files of a crate in proofs/ that belong to a function, with their texts. The folder of a function that calls itself
        begins with `+`."""
        folder = f"crates/{name}/proofs/{function.replace('::', '/')}/"
        paths = [path for path in self.texts.files(f"crates/{name}/proofs") if path.replace("/+", "/").startswith(folder)]
        return [(path, self.texts.read(path)) for path in paths]

    def functions_of(self, name, wrong):
        """The functions that a body makes wrong: all of that name in the file of its module, in files of the module's folder, where
        impl blocks of its types may stand, and in the files that it changes."""
        crate, function = self.crate(name), wrong.function.rpartition("::")[2]
        home = crate.home_of(wrong.function)
        changed = {f"crates/{name}/{file}" for file, *_ in wrong.changes}
        paths = [
            path
            for path in crate.sources
            if path == home or path in changed or path.startswith(f"{home}".removesuffix(".rt") + "/")
        ]
        return [part for path in paths for part in crate.sources[path] if part.kind == "function" and function in part.names]

    def change_parts(self, name, wrong):
        """What the changes of a body say, as parts of the files that they are made in."""
        for file, _, old, new in wrong.changes:
            path, text = f"crates/{name}/{file}", f"{old}\n{new}"
            yield self.part_of("change", name, path, self.texts.read(path), text, new)

    def answer_parts(self, name, wrong):
        """The answers of a function, and its invariants, as parts: in answers and attributes lemmas are left out."""
        for path, text in self.answers_of(name, wrong.function):
            kind = "answers" if path.rpartition("/")[2] in ANSWERS else "invariants"
            yield self.part_of(kind, name, path, text, text)
        for part in self.functions_of(name, wrong):
            yield self.part_of("answers", name, part.path, part.tactics, part.tactics)

    @staticmethod
    def part_of(kind, name, path, file, text, code=""):
        """A part that no name leads to, of a file with that text."""
        cited, whole = cited_files(file, name)
        words, called, values = words_of(without_imports(path, text)), called_in(code), words_of(code)
        # a change may import what it names
        free, signs = (words_of(OF_TYPE.sub(" ", code)), signs_in(code)) if ending(path) == ".rt" else (values, frozenset())
        return Part(
            kind, name, path, frozenset(), text, sum_of(kind, path, text), words, values, called, free, signs, cited, whole
        )

    def key(self, name, wrong):
        """The key of a wrong body of a crate, or None where it has no place in the sources, so that it has to be tried."""
        folder = f"crates/{name}"
        if put_body(folder, {}, wrong, self.texts.read):
            return None
        functions, names = self.functions_of(name, wrong), self.names_in(name)
        body = (self.judge, wrong.function, wrong.clause, wrong.changes, self.answers_of(name, wrong.function))
        is_alone = functions and is_in_function(folder, wrong, self.texts.read)
        whole = [] if is_alone else [self.sources_of(it) for it in ([name] if functions else self.seen_by(name))]
        own = [*functions, *names.contracts.get(wrong.function.rpartition("::")[2], ())]
        if wrong.twin:
            other = replace(wrong, function=wrong.twin)
            body = (*body, wrong.twin, self.twin_judge, self.answers_of(name, wrong.twin))
            own += [*self.functions_of(name, other), *self.answer_parts(name, other)]
        reached = names.reached_from([*own, *self.change_parts(name, wrong), *self.answer_parts(name, wrong)])
        return sum_of(body, whole, self.crate(name).root_rest(), sorted({part.sum for part in reached}))
