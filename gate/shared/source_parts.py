"""The parts of the sources of crates that names lead to: contracts of functions, types, constants, traits, impl blocks, macros and
imports of .rt files, and the declarations of .antt files. Each part has its text, the names that lead to it, and the words in it.

Comments are left out, and no other line is: what is no part of its own, as an attribute of a file or the fixity of an operator,
belongs to each part of the file. Where a name may mean several parts it leads to all: one too many does no harm here, and one too
few does. The sources are read in the layout of `rt fmt`.
"""

import functools
import re
from dataclasses import dataclass, field

from shared.definitions import declarations
from shared.verdicts import sum_of

# Words of a text, also those of operators; names as Rust has them; names that a text calls, as functions, methods or macros, and the
# last names of paths; names that are methods or of a type, which no function of a module is; and names after a module.
WORD = re.compile(r"[^\s(){}\[\],;.:\"λ«»]+")
NAME = re.compile(r"[A-Za-z_]\w*")
CALLED = re.compile(r"\b([A-Za-z_]\w*)(?:!|\(|::<)|::([A-Za-z_]\w*)")
OF_TYPE = re.compile(r"(?:(?<!\.)\.|>::|\b(?:[A-Z]\w*|[iu](?:8|16|32|64|128|size)|f32|f64|bool|char|str)::)[A-Za-z_]\w*")
OF_MODULE = re.compile(r"\b[a-z]\w*::([a-z_]\w*)")

# The traits of operators, each with its sign. Code without the sign applies none of these, but where it names the trait. A sign of
# two values has a blank after it, and one before a number makes no call.
SIGNS = {"Add": r"\+", "Div": "/", "Rem": "%", "BitXor": r"\^", "Shl": "<<"}
SIGNS |= {"Sub": r"-(?=\s)", "Mul": r"\*(?=\s)", "BitAnd": r"(?<!&)&(?=\s)", "BitOr": r"(?<!\|)\|(?=\s)", "Shr": r">>(?=\s)"}
SIGNS |= {f"{trait}Assign": f"{sign.partition('(?=')[0]}=" for trait, sign in SIGNS.items()}
SIGNS |= {"Neg": r"-(?=[^\s=>0-9])", "Not": r"(?<!\w)!(?!=)"}
SIGNS = {trait: re.compile(sign) for trait, sign in SIGNS.items()}

# The lines that begin items, and the names that an item declares.
FUNCTION = re.compile(r"(?:pub(?:\([^)]*\))? |default |const |async |unsafe |extern \"C\" )*fn (?P<name>\w+)")
BLOCK = re.compile(r"(?:pub(?:\([^)]*\))? |unsafe )*(?P<kind>impl|trait)\b")
MODULE = re.compile(r"(?:pub(?:\([^)]*\))? )?mod \w+(?P<end>;| \{)")
USE = re.compile(r"(?:pub(?:\([^)]*\))? )?(?:ghost )?use ")
DECLARED = re.compile(r"\b(?:struct|enum|union|const|static|type|trait|macro_rules!)\s+(?:mut )?(\w+)")
TYPE = re.compile(r"(?:pub(?:\([^)]*\))? )?(?:struct|enum|union)\b")
GOES_ON = (" ", "}", ")", "]", "{", "where")

# Imports of each language.
IMPORTS = {
    ".rt": re.compile(r"^ *(?:pub(?:\([^)]*\))? )?(?:ghost )?use [^;]*;", re.M),
    ".antt": re.compile(r"^(?:pub )?(?:ghost )?use [^{\n]*(?:\{[^}]*\}[^\n]*)?", re.M),
}

# An import of definitions: the crate, the file, and the names, or the name that stands for the file. A path to one in an attribute.
CITED = re.compile(r"use Rattle\.(\w+)\.((?:specs|proofs)[\w.+]*?)(?:\.\{([^}]*)\}| as (\S+?)|);?$", re.M)
TACTIC = re.compile(r"^ *#!?\[tactic\(.*?\)\]$", re.M | re.S)
PATH = re.compile(r"\b(\w+)::((?:specs|proofs)(?:::\w+)*)::([^\s,()]+)")


@dataclass
class Import:
    """A name that a file imports: the name, the words by which a text may name it, its path, and whether it passes the name on."""

    name: str
    words: frozenset
    path: str
    is_public: bool

    @property
    def other(self):
        """The name that the path ends with, also where the import gives it another one."""
        return last_of(self.path.partition(" as ")[0])


@dataclass(eq=False)
class Part:
    """A part of a file: what it is, its crate and file, the names that lead to it, and its text. Then the words in the text, those of
    its code, those of them that it calls and that may be functions of a module, the signs of operators in what runs of it, and the
    files that it imports definitions from: by each name, and those that it may take any name of.
    """

    kind: str
    crate: str
    path: str
    names: frozenset
    text: str
    sum: str = ""
    words: frozenset = frozenset()
    values: frozenset = frozenset()
    called: frozenset = frozenset()
    free: frozenset = frozenset()
    signs: frozenset = frozenset()
    cited: dict = field(default_factory=dict)
    whole: frozenset = frozenset()
    # of an impl block, and of a function in one: the names of its types, and those of its trait and of what that is applied to
    owners: frozenset = frozenset()
    trait: tuple = ()
    # of a function: whether it stands in no block, so that its bare name is the function; and its attributes for the prover
    is_free: bool = False
    tactics: str = ""


def words_of(text):
    """The words of a text, in code and in definitions."""
    return frozenset(WORD.findall(text)) | frozenset(NAME.findall(text))


def last_of(path):
    """The last name of a path, of code or of definitions."""
    return re.split(r"::|\.", path)[-1].strip()


def paths_in(prefix, text):
    """The whole paths of an import: of each name in braces one, with the path before the braces."""
    depth, begin = 0, 0
    for place, letter in enumerate(f"{text},"):
        depth += (letter == "{") - (letter == "}")
        if letter == "," and depth == 0:
            item = text[begin:place].strip()
            begin = place + 1
            head, brace, inner = item.partition("{")
            if brace:
                yield from paths_in(prefix + head.strip(), inner.rpartition("}")[0])
            elif item:
                yield prefix + item


def imports_of(path, text):
    """The names that a file imports."""
    found = []
    for statement in IMPORTS[ending(path)].findall(text):
        begin, _, rest = statement.partition("use ")
        for whole in paths_in("", rest.rstrip(";")):
            own, _, alias = whole.partition(" as ")
            name = alias.strip() or last_of(own.removesuffix("::self"))
            found.append(Import(name, frozenset(words_of_operator(name)) | {name}, whole, begin.lstrip().startswith("pub")))
    return found


def without_imports(path, text):
    """A text of a file without its imports, which name what the rest may not use."""
    return IMPORTS[ending(path)].sub("", text)


def called_in(text):
    """The names that a text calls."""
    return frozenset(name for pair in CALLED.findall(text) for name in pair if name)


def free_in(code, own, imports):
    """The names in code that may be functions of a module: those after a module's name, and those that this file has or imports."""
    left = OF_TYPE.sub(" ", code)
    known = {*own, *(it.name for it in imports)}
    found = words_of(left)
    return found if "*" in known else found & known | frozenset(OF_MODULE.findall(left))


def once_in(text, names):
    """Those of these names that stand in a text once."""
    return {name for name in names if len(re.findall(rf"\b{re.escape(name)}\b", text)) == 1}


def signs_in(code):
    """The traits whose operators code has."""
    return frozenset(trait for trait, sign in SIGNS.items() if sign.search(code))


def functions_of(text):
    """The names of the functions that a file has."""
    return {match["name"] for match in map(FUNCTION.match, map(str.lstrip, text.split("\n"))) if match}


def words_of_operator(name):
    """The words by which a text names a definition: for `◌<<◌` those of the operator."""
    return [part for part in name.split("◌") if part] if "◌" in name else [name]


def without_comments(lines):
    """The text of lines of code, but for those that are blank or a comment."""
    return "\n".join(line for line in lines if line.strip() and not line.lstrip().startswith("//"))


def is_attribute(lines):
    """Whether lines are comments and attributes alone, which belong to the item after them."""
    code = without_comments(lines)
    return not code or code.startswith("#[") and all(line.startswith(("#[", " ", ")")) for line in code.split("\n"))


def items_of(lines):
    """The items of lines, each with its comments and attributes: lists of lines."""
    items = [[]]
    for line in lines:
        if line.strip() and not line.startswith(GOES_ON) and not is_attribute(items[-1]):
            items.append([])
        items[-1].append(line)
    return [item for item in items if without_comments(item)]


def first_line(item):
    """The first line of an item that is no comment and no attribute."""
    return next((line for line in item if line.strip() and not line.startswith(("//", "#[", " ", ")"))), item[0])


def contract_and_body(item):
    """A function's lines up to its body, with its clauses, and those of its body."""
    for number, line in enumerate(item):
        if not line.startswith((" ", "//", "#")) and re.search(r"[{};]$", line):
            return item[: number + 1], item[number + 1 :]
    return item, []


def dedent(lines):
    return [line.removeprefix("    ") for line in lines]


def head_and_members(item):
    """A block's lines up to the one that opens it, and those of its members."""
    for number, line in enumerate(item):
        if not line.startswith((" ", "//", "#")) and line.endswith("{"):
            return item[: number + 1], dedent(item[number + 1 : -1])
    return item, []


def owners_of(header):
    """The names of the types that an impl block is of, and of what its trait is applied to."""
    text = re.sub(r"^.*?\bimpl\b", "", header, flags=re.S).partition("where")[0]
    while text.startswith("<"):
        depth = 0
        for place, letter in enumerate(text):
            depth += (letter == "<") - (letter == ">" and text[place - 1] != "-")
            if depth == 0:
                text = text[place + 1 :]
                break
        else:
            break
    trait, is_of_trait, types = text.partition(" for ")
    return (NAME.findall(types), NAME.findall(trait)) if is_of_trait else (NAME.findall(trait), [])


class Source:
    """What is common to the parts of a .rt file: its path, its imports, and the lines that belong to each part."""

    def __init__(self, crate, path, text):
        self.crate, self.path = crate, path
        self.imports, self.parts, self.functions = imports_of(path, text), [], functions_of(text)
        self.cited, self.whole = cited_files(text, crate)
        # a name may come from any import of all names of a module
        self.rest = "\n".join(it.path for it in self.imports if it.name == "*")

    def add(self, kind, names, text, code="", **more):
        """Adds a part of this text, of which some is code that runs, with the imports of its words."""
        whole = f"{self.rest}\n{text}"
        # the attributes of the prover name lemmas, so that they lead on as answers do
        words = words_of(TACTIC.sub("", whole))
        imports = sorted(it.path for it in self.imports if it.words & words)
        words |= {name for path in imports if not path.startswith("Rattle.") for name in NAME.findall(path)}
        part = Part(kind, self.crate, self.path, frozenset(names), text, sum_of(self.path, kind, whole, imports), words, **more)
        part.cited, part.whole = self.cited, self.whole
        part.values, part.called = words_of(code), called_in(code)
        part.free, part.signs = free_in(code, self.functions, self.imports), signs_in(code)
        self.parts.append(part)
        return part

    def add_function(self, item, header="", **more):
        """Adds a function of a block with this header as two parts: its contract, and the whole of it."""
        name = FUNCTION.match(first_line(item))["name"]
        text, (head, body) = without_comments(item), contract_and_body(item)
        self.add("contract", [name], f"{header}\n{without_comments(head)}", is_free=not header, **more)
        whole = self.add("function", [name], f"{header}\n{text}", text, tactics="\n".join(TACTIC.findall(text)))
        # its clauses say numbers of definitions
        whole.signs = signs_in(without_comments(body))

    def add_block(self, item):
        """Adds an impl block or a trait: its functions, and the block, with the contracts of its functions where they are a trait's."""
        head, members = head_and_members(item)
        header, own, rest = without_comments(head), [], []
        kind = BLOCK.match(first_line(item))["kind"]
        types, trait = owners_of(header) if kind == "impl" else (DECLARED.findall(header)[:1], [])
        of = {"owners": frozenset(types), "trait": tuple(trait)} if kind == "impl" else {}
        for member in items_of(members):
            is_function = FUNCTION.match(first_line(member))
            if is_function:
                self.add_function(member, header, **of)
                own += [without_comments(contract_and_body(member)[0])] if kind == "trait" or trait else []
            else:
                rest.append(without_comments(member))
        # a block of a trait is seen by its types, and any other one by a type or by what it declares; one of functions alone says nothing
        if kind == "impl" and not trait and not rest and not self.rest:
            return
        names = [] if trait else [*types, *DECLARED.findall("\n".join(rest))]
        self.add(kind, names, "\n".join([header, *own, *rest]), "\n".join(rest), **({**of} if trait else {}))

    def add_item(self, item):
        """Adds the parts of an item."""
        first, text = first_line(item), without_comments(item)
        if FUNCTION.match(first):
            self.add_function(item)
        elif BLOCK.match(first):
            self.add_block(item)
        elif MODULE.match(first) and first.endswith("{"):
            for inner in items_of(head_and_members(item)[1]):
                self.add_item(inner)
        elif DECLARED.search(text):
            kind = "macro" if "macro_rules!" in first else "type" if TYPE.match(first) else "declaration"
            part = self.add(kind, DECLARED.findall(text), text, text)
            # the fields of a type are no values
            part.values = part.called if kind == "type" else part.values

    def add_imports(self):
        """Adds the imports that pass names on."""
        for it in self.imports:
            if it.is_public:
                # one of all names may pass on any
                part = self.add("import", ["" if it.name == "*" else it.name], it.path, f"::{it.other}")
                part.words = frozenset() if it.other == it.name else frozenset([it.other])


def is_of_file(item):
    """Whether an item is of no part: an attribute of the file, or what no name leads to, as a macro that writes items."""
    first, text = first_line(item), without_comments(item)
    return not (FUNCTION.match(first) or BLOCK.match(first) or MODULE.match(first) or USE.match(first) or DECLARED.search(text))


@functools.cache
def read_source(crate, path, text):
    """The parts of a .rt file, and the text that belongs to each of them."""
    source = Source(crate, path, text)
    lines = text.split("\n")
    inner = [line for line in lines if line.startswith("#!")]
    items = items_of([line for line in lines if not line.startswith("#!")])
    of_file = [without_comments(item) for item in items if is_of_file(item)]
    source.rest = "\n".join(filter(None, [source.rest, *inner, *of_file]))
    for item in items:
        if not is_of_file(item):
            source.add_item(item)
    source.add_imports()
    return source.parts, source.rest


def cited_files(text, crate=""):
    """The files that a text imports definitions from, by each name, and those that it has a name for as a whole."""
    by_name, whole = {}, set()

    def cite(name, path):
        for word in (name, *words_of_operator(name)):
            by_name.setdefault(word, set()).add(path)

    for of, module, names, alias in CITED.findall(text):
        path = f"crates/{of}/{module.replace('.', '/')}.antt"
        for name in filter(None, re.split(r"[,\s]+", names)):
            cite(name, path)
        if not names:
            whole.add(path)
    for of, module, name in PATH.findall(text):
        cite(name, f"crates/{crate if of == 'crate' else of}/{module.replace('::', '/')}.antt")
    return by_name, frozenset(whole)


@functools.cache
def read_specs(crate, path, text):
    """The parts of an .antt file: its declarations, and the names that it passes on."""
    cited, whole = cited_files(text, crate)
    imports = imports_of(path, text)
    # a declaration has its lines once the next one is read
    found, parts = list(declarations(path, text)), []
    known, code = {line for it in found for line in it.lines}, without_imports(path, text).split("\n")
    rest = "\n".join(line for line in code if line.strip() and line not in known and not line.startswith("-- "))
    for it in found:
        own = "\n".join(line for line in it.lines if not line.lstrip().startswith("-- "))
        names = frozenset(word for name in it.names for word in (name, *words_of_operator(name)))
        kind = "ruleset" if it.lines[0].startswith(("ruleset", "pub ruleset")) else "definition" if it.is_definition else "lemma"
        # a name that is declared there and stands there once, as that of a field, leads to no other of that name
        words = words_of(own) - once_in(own, it.names)
        said = sum_of(path, own, rest, sorted(it.path for it in imports if it.words & words_of(own)))
        parts.append(Part(kind, crate, path, names, own, said, words, cited=cited, whole=whole))
    parts += [passed_on(crate, path, it) for it in imports if it.is_public]
    return parts


def passed_on(crate, path, it):
    """The part of a name that an .antt file passes on: it leads to the name in the file that it comes from."""
    source = re.match(r"Rattle\.(\w+)\.((?:specs|proofs)[\w.+]*)\.", it.path)
    home = f"crates/{source[1]}/{source[2].replace('.', '/')}.antt" if source else ""
    words = frozenset([it.other, *words_of_operator(it.other)])
    part = Part("passed", crate, path, it.words, it.path, sum_of(path, it.path), words)
    part.cited = {word: {home} for word in words if home}
    return part


def ending(path):
    """The ending of a file of sources."""
    return ".rt" if path.endswith(".rt") else ".antt"
