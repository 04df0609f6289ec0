"""Finds the text of one case in its test file, with all that it names there and in the modules that the file imports.

A file is a list of parts: functions, classes, constants, and imports of one name each. A case has its own part, the parts
without a name, and each part whose name is a word of a part that the case has. So another test, or a helper that no word of the
case names, is no part of it. Where the case is not found, or the file is not understood, the case has all of its file: too much,
never too little. The title of a case is the name of its function, `Class.method` in Python, or the text of `test(..)` in
JavaScript.
"""

import ast
import collections
import functools
import os
import re
import symtable
import textwrap
from dataclasses import dataclass

WORD = re.compile(r"[A-Za-z_]\w*")

# Strings and comments, whose brackets count for nothing.
RUST_TOKENS = re.compile(
    r"//[^\n]*|/\*.*?\*/|b?r(?P<marks>#*)\".*?\"(?P=marks)|b?\"(?:\\.|[^\"\\])*\"|b?'(?:\\u\{\w+\}|\\x\w\w|\\.|[^'\\])'",
    re.DOTALL,
)
SCRIPT_TOKENS = re.compile(
    r"//[^\n]*|/\*.*?\*/|\"(?:\\.|[^\"\\\n])*\"|'(?:\\.|[^'\\\n])*'|`(?:\\.|[^`\\])*`"
    r"|(?<=[=(,:\[!&|?;{}]) ?/(?![*/ ])(?:\\.|\[(?:\\.|[^\]\\\n])*\]|[^/\\\n\[])+/",
    re.DOTALL,
)
C_TOKENS = re.compile(r"//[^\n]*|/\*.*?\*/|\"(?:\\.|[^\"\\\n])*\"|'(?:\\.|[^'\\\n])+'", re.DOTALL)

RUST_NAME = re.compile(r"\b(?:fn|const|static(?: mut)?|struct|enum|union|type|trait|mod|macro_rules!) +(\w+)")
SCRIPT_NAMES = re.compile(
    r"^\s*(?:export )?(?:default )?(?:async )?(?:function\*?|class|const|let|var) +(\{[^}]*\}|\[[^\]]*\]|\w+)"
)
SCRIPT_IMPORT = re.compile(r"^\s*import\s+(?P<names>.*?)\s*from\s+[\"'](?P<module>[^\"']+)[\"'];?\s*$", re.DOTALL)
SCRIPT_TEST = re.compile(r"^\s*(?:await )?(?:test|it)(?:\.\w+)?\(\s*(\"(?:\\.|[^\"\\])*\")")


@dataclass(eq=False)
class Part:
    """A part of a file: the names that lead to it, its text, the case that it is, and what it takes of other files: a path or a
    module, and the name that is taken, or none where each word may be taken."""

    names: frozenset
    text: str
    case: str = ""
    links: tuple = ()
    is_python: bool = False

    @functools.cached_property
    def words(self):
        return (python_words(self.text) if self.is_python else None) or frozenset(WORD.findall(self.text))


def blank(text, tokens):
    """A text with spaces in place of its strings and comments."""
    return tokens.sub(lambda found: re.sub(r"[^\n]", " ", found[0]), text)


def items_of(text, tokens):
    """The texts of the outermost items of a file of Rust, JavaScript or C, each with its blanked text. None where brackets do not
    match."""
    code, found, depth, begin, at = blank(text, tokens), [], 0, 0, 0
    for line in code.splitlines(keepends=True):
        at += len(line)
        depth += sum(line.count(mark) for mark in "([{") - sum(line.count(mark) for mark in ")]}")
        if depth < 0:
            return None
        if depth == 0 and line.rstrip().endswith((";", "}")):
            found.append((text[begin:at], code[begin:at]))
            begin = at
    if depth:
        return None
    return [*found, (text[begin:], code[begin:])] if code[begin:].strip() else found


def python_words(text):
    """The names that a part of Python has or may take from around it: those of its outermost scope, those that its functions do not
    bind, attributes, and texts that are names. None where it is no statement by itself.
    """
    try:
        tree, tables = ast.parse(text), [symtable.symtable(text, "a part", "exec")]
    except SyntaxError:
        return None
    found = {it.attr for it in ast.walk(tree) if isinstance(it, ast.Attribute)}
    found |= {it.value for it in ast.walk(tree) if isinstance(it, ast.Constant) and WORD.fullmatch(str(it.value))}
    while tables:
        table = tables.pop()
        found |= {it.get_name() for it in table.get_symbols() if it.is_global() or table.get_type() == "module"}
        tables += table.get_children()
    return frozenset(map(str, found))


def python_parts(text):
    """The parts of a module or a program in Python, or None where it is none."""
    try:
        body = ast.parse(text).body
    except SyntaxError:
        return None
    lines = text.splitlines(keepends=True)
    return [part for node in body for part in parts_of_statement(lines, node)]


def text_of(lines, node):
    first = min([node.lineno, *(it.lineno for it in getattr(node, "decorator_list", ()))])
    return "".join(lines[first - 1 : node.end_lineno])


def parts_of_statement(lines, node):
    """The parts of one statement of a module: its docstring has none."""
    if isinstance(node, ast.Expr) and isinstance(node.value, ast.Constant):
        return
    if isinstance(node, (ast.Import, ast.ImportFrom)):
        yield from parts_of_import(node)
    elif isinstance(node, ast.ClassDef):
        yield from parts_of_class(lines, node)
    else:
        is_start = isinstance(node, ast.If) and "__main__" in text_of(lines, node)
        # what starts a program of cases is a part of none
        names = ["__main__"] if is_start else bound_by(node)
        case = node.name if isinstance(node, ast.FunctionDef) else ""
        yield Part(frozenset(names), text_of(lines, node), case, links_within(node), is_python=True)


def bound_by(node):
    """The names that a statement binds in its module."""
    if isinstance(node, (ast.FunctionDef, ast.AsyncFunctionDef)):
        return {node.name}
    found = {it.id for it in ast.walk(node) if isinstance(it, ast.Name) and isinstance(it.ctx, ast.Store)}
    found |= {it.name for it in ast.walk(node) if isinstance(it, (ast.FunctionDef, ast.ClassDef))}
    aliases = (alias for it in ast.walk(node) if isinstance(it, (ast.Import, ast.ImportFrom)) for alias in it.names)
    return found | {alias.asname or alias.name.split(".")[0] for alias in aliases}


def parts_of_import(node):
    """A part for each name that is imported."""
    for alias in node.names:
        name = alias.asname or alias.name.split(".")[0]
        if isinstance(node, ast.Import):
            yield Part(frozenset([name]), f"import {alias.name} as {name}", links=((alias.name, None),))
        else:
            module = "." * node.level + (node.module or "")
            yield Part(frozenset([name]), f"from {module} import {alias.name} as {name}", links=((module, alias.name),))


def links_within(node):
    """What is imported within a statement."""
    imports = (it for it in ast.walk(node) if isinstance(it, (ast.Import, ast.ImportFrom)))
    return tuple(link for it in imports for part in parts_of_import(it) for link in part.links)


def parts_of_class(lines, node):
    """A part for the class without its tests, and one for each test."""
    tests = [it for it in node.body if isinstance(it, ast.FunctionDef) and it.name.startswith("test")]
    text = text_of(lines, node)
    for test in tests:
        own = text_of(lines, test)
        text = text.replace(own, "", 1)
        title = f"{node.name}.{test.name}"
        yield Part(frozenset([test.name]), f"class {node.name}:\n{own}", title, links_within(test), is_python=True)
    yield Part(frozenset([node.name]), text, "", links_within(node), is_python=True)


def rust_parts(text):
    """The parts of a file of Rust, or None where it is not understood."""
    items = items_of(text, RUST_TOKENS)
    return None if items is None else [part for item, code in items for part in parts_of_rust(item, code)]


def parts_of_rust(item, code):
    """The parts of one item of Rust. One without a name, as a use of a macro, is a part of each case."""
    plain = re.sub(r"#!?\[[^\]]*\]", "", code).strip()
    used = re.fullmatch(r"(?:pub )?use (.*);", plain, re.DOTALL)
    if used:
        for path in paths_of_use(re.sub(r"\s", "", re.sub(r" as ", "~", used[1]))):
            name = re.split("::|~", path)[-1]
            yield Part(frozenset() if name == "*" else frozenset([name]), f"use {path}")
        return
    head = plain.split("{")[0]
    if re.match(r"(?:unsafe )?impl\b", head):
        yield Part(frozenset(WORD.findall(head)) - {"impl", "for", "where", "unsafe"}, item)
        return
    name = RUST_NAME.search(head)
    is_test = name and re.search(r"#\[test\]", code)
    file = ((f"{name[1]}.rs", None),) if name and re.fullmatch(r"(?:pub )?mod \w+;", plain) else ()
    yield Part(frozenset([name[1]] if name else []), item, name[1] if is_test else "", file)


def paths_of_use(text):
    """The paths of a `use`, which nests them in braces."""
    begin = text.find("{")
    if begin < 0:
        return [it for it in text.split(",") if it]
    depth, parts, last = 0, [], begin + 1
    for at in range(begin, len(text)):
        depth += (text[at] == "{") - (text[at] == "}")
        if depth == 1 and text[at] == "," or depth == 0:
            parts.append(text[last:at])
            last = at + 1
        if depth == 0:
            break
    before = text[:begin]
    return [before + path for part in parts if part for path in paths_of_use(part)]


def script_parts(text):
    """The parts of a file of JavaScript, or None where it is not understood."""
    items = items_of(text, SCRIPT_TOKENS)
    return None if items is None else [part for item, code in items for part in parts_of_script(item, code)]


def parts_of_script(item, code):
    """The parts of one item of JavaScript. What is no function, no constant and no test is a part of each case."""
    without = item[len(code) - len(code.lstrip()) :]
    imported, test, named = (SCRIPT_IMPORT.match(without), SCRIPT_TEST.match(without), SCRIPT_NAMES.match(without))
    if imported:
        for each in re.sub(r"[{}]", "", imported["names"]).split(","):
            name = each.split(" as ")[-1].strip()
            if name:
                yield Part(
                    frozenset([name]), f"import {each.strip()} from {imported['module']}", links=((imported["module"], None),)
                )
    elif test:
        yield Part(frozenset([test[1]]), item, ast.literal_eval(test[1]))
    else:
        yield Part(frozenset(WORD.findall(named[1])) if named else frozenset(), item)


class Files:
    """The files of a repository, and their parts, each read once."""

    def __init__(self, root):
        self.root, self.texts, self.parted, self.by_name, self.tables = (root, {}, {}, {}, {})

    def has(self, path):
        return os.path.isfile(os.path.join(self.root, path))

    def read(self, path):
        """The text of a file, where bytes that are no text are kept as they are."""
        if path not in self.texts:
            with open(os.path.join(self.root, path), encoding="utf-8", errors="surrogateescape") as file:
                self.texts[path] = file.read()
        return self.texts[path]

    def is_python(self, path):
        return path.endswith(".py") or bool(re.match(r"#!.*python", self.read(path)))

    def parts(self, path):
        """The parts of a file: all of it is one without a name where it is not understood."""
        if path not in self.parted:
            text = self.read(path)
            reader = {".rs": rust_parts, ".js": script_parts, ".mjs": script_parts}.get(os.path.splitext(path)[1])
            reader = python_parts if self.is_python(path) else reader
            self.parted[path] = (reader(text) if reader else None) or [Part(frozenset(), text)]
        return self.parted[path]

    def file_of_import(self, path, module):
        """The file of a module that a file imports, or None where it is none of the repository."""
        folder = os.path.dirname(path)
        if not self.is_python(path):
            place = os.path.normpath(os.path.join(folder, module))
            return place if self.has(place) else None
        name = module.lstrip(".").replace(".", "/")
        above = [os.path.dirname(folder)] if os.path.basename(os.path.dirname(folder)) == "tests" else []
        for at in (folder, *above, "gate", "make"):
            for place in (f"{name}.py", os.path.join(name, "__init__.py")):
                if name and self.has(os.path.join(at, place)):
                    return os.path.normpath(os.path.join(at, place))
        return None

    def links(self, path, part):
        """The files that a part leads to, each with the name that is taken of it, or None."""
        for module, name in part.links:
            inner = self.file_of_import(path, f"{module}.{name}") if name and self.is_python(path) else None
            found = inner or self.file_of_import(path, module)
            if found and found != path:
                yield found, None if inner else name

    def named(self, path):
        """The parts of a file by each of their names. Those without a name have None."""
        if path not in self.by_name:
            found = self.by_name[path] = collections.defaultdict(list)
            for part in self.parts(path):
                for name in part.names or (None,):
                    found[name].append(part)
        return self.by_name[path]

    def all_from(self, starts):
        """All that the words of some parts lead to: pairs of path and part. `starts` are such pairs."""
        return Reached(self).of(starts)

    def texts_of(self, pairs):
        """The texts of parts, with their paths, in one order."""
        return sorted({(path, part.text) for path, part in pairs})

    def all_of(self, path):
        """All of a file, and what it takes of others."""
        return self.all_from((path, part) for part in self.parts(path))

    def of_case(self, path, case):
        """What a case has, or None where the file has no such case."""
        found = [(path, part) for part in self.parts(path) if part.case == case]
        return self.all_from(found) if found else None

    def of_row(self, path, key):
        """What a case has that is a row of a table, or None."""
        if path not in self.tables:
            self.tables[path] = rows_of(self.read(path))
        part = self.tables[path].get(key)
        return part and self.all_from([(path, part)])


def rows_of(text):
    """A part for each row of the tables of a module in Python, dictionaries of texts: the row, and the statements that name the
    table, since these say what becomes of a row. The rest of the table is left out."""
    tree, lines, found = ast.parse(text), text.splitlines(keepends=True), {}
    uses = collections.defaultdict(list)
    for node in ast.walk(tree):
        if isinstance(node, (ast.Assign, ast.AugAssign, ast.Expr, ast.Return)):
            for name in {it.id for it in ast.walk(node) if isinstance(it, ast.Name) and isinstance(it.ctx, ast.Load)}:
                uses[name].append(text_of(lines, node))
    for node in tree.body:
        if not isinstance(node, ast.Assign) or not isinstance(node.value, ast.Dict) or not isinstance(node.targets[0], ast.Name):
            continue
        name = node.targets[0].id
        for key, value in zip(node.value.keys, node.value.values):
            if isinstance(key, ast.Constant):
                row = f"{{\n{''.join(lines[key.lineno - 1 : value.end_lineno])}}}\n"
                texts = [row, *(re.sub(rf"\b{name}\b", "_", textwrap.dedent(use)) for use in uses[name])]
                found[key.value] = Part(frozenset(), "".join(texts), is_python=True)
    return found


class Reached:
    """What some parts lead to, in their files and in those that these import."""

    def __init__(self, files):
        self.files, self.seen, self.todo = files, set(), []
        self.words, self.taken = {}, collections.defaultdict(set)

    def of(self, starts):
        self.todo = list(starts)
        while self.todo:
            path, part = self.todo.pop()
            if (path, part) not in self.seen:
                self.seen.add((path, part))
                self.follow(path, part)
        return self.seen

    def follow(self, path, part):
        """Takes what a part imports, and what its words name."""
        for other, name in self.files.links(path, part):
            if name is None:
                self.taken[path].add(other)
            self.want(other, {name} if name else self.words.get(path, set()))
        self.want(path, part.words)

    def want(self, path, words):
        """Takes the parts of a file that these words name, and of each module that is imported as a whole there. A file of which
        something is wanted has its parts without a name too."""
        named, is_first = self.files.named(path), path not in self.words
        new = words - self.words.setdefault(path, set())
        self.words[path] |= new
        for name in [*new, None] if is_first else new:
            self.todo += [(path, part) for part in named.get(name, ())]
        for other in self.taken[path] if new else ():
            self.want(other, new)
