"""Takes the ghost parts out of Rattle's text: what is left is Rust. TAKEN_OUT and PUT_IN list all that differs from the source.

A form that is neither in these lists nor plain Rust ends the tool with its file and line."""

import os
import re
import textwrap

from shared.gate import REPOSITORY, read_text
from shared.rattle_tokens import CLOSING, COMMENTS, Lexer, Refused

# The libraries, each a module of the erased text, the package that has it, and the root of that text and its folder there.
CRATES = (
    "calendar_values",
    "plain_times",
    "utc_times",
    "offset_times",
    "stamp_times",
    "rfc3339",
    "local_texts",
    "duration_texts",
    "format_descriptions",
    "zones",
    "zone_files",
    "zoned_times",
)
FOLDER = os.path.join("packages", "rust")
NAME = "muxandu"
MODULE = "proved"
MADE = os.path.join(FOLDER, "src", MODULE)
ROOT = f"{MADE}.rs"
BY_HAND = (ROOT, os.path.join(MADE, "memory.rs"))
LISTS = os.path.join("make", "erased_lists")

# How far functions that require something can be called, by the words of requires.txt.
NARROWED = {"closed": f"in crate::{MODULE}", "package": "crate"}

# The calls that break what a function requires: each panics.
PANICS = os.path.join(FOLDER, "tests", "requires.rs")

TAKEN_OUT = {
    "ghost use": "imports of names for clauses and proofs",
    "ghost member": "what a trait or a type has for clauses and proofs; that which states something stays as text",
    "clause": "what a function requires and ensures; it stays as text under the heading Contract",
    "tactic": "attributes that tell the prover how to search",
    "impl Model": "the number that contracts see of a type, with its proofs; no code is in it",
    "impl PartialEq": "equality of the types below, which is that of their numbers; its contract stays at `Eq`",
    "use Model": "imports of that trait alone",
    "derive(Drop)": "the mark of types that may be dropped, as all may be in Rust",
    "derive(Debug)": "the text for programmers of a type with a niche, which the package writes by hand without that field",
    "fmt<W>": "the writer that `fmt` is generic in, which Rust's formatter has inside",
    "Formatter<W>": "the same in the type of the formatter",
    "std::alloc": "the path of the allocator and its error, which the module `memory` has",
    "module left out": "modules that state and prove, and compute nothing that another calls",
    "closed name": "in a `pub use` the functions that are closed, which the next line hands on within the module `proved`",
    "comment": "comments of what is taken out",
    "link": "in documentation the links to what is left out, whose text stays",
    "runtime": "in examples and tests the runtime, which Rust's programs have without a name",
}

PUT_IN = {
    "crate": "`crate::proved::` before the name of another library, which is a module there",
    "module": "`proved` and the name of the module after `crate::`",
    "memory": "`crate::proved::memory` before `Vec`, and in place of `std::alloc`: lists whose growth can fail",
    "inline": "`#[inline]` on each function without a hint, since a caller is another crate in Rust",
    "track": "`#[track_caller]` on the functions that panic where what they require is broken, as tests/requires.rs says",
    "panics": "in documentation `# Panics` on these functions, in place of the sentence that the caller proves what they require",
    "const": "`const` on the functions that rustc takes with it: const.txt",
    "closed": "`(in crate::proved)` after the `pub` of functions that requires.txt closes, and of a `pub use` of them",
    "package": "`(crate)` after the `pub` of functions that requires.txt keeps within the package",
    "niche": "the field `niche` of the types below, and its only value in their literals, so that an `Option` of one takes no more room",
    "equality": "`PartialEq` in the `derive` of the types below, so that their constants are patterns",
    "str": "`core::` before `str::from_utf8`, which rustc has as a function of the type since 1.87 alone",
    "inherent": "methods of the traits below as methods of their types too, which need no import and can be const",
    "contract": "the contract as text",
    "example": "the imports and the result that an example of the documentation has in Rust, or that it is text, where no program can call it",
}

# Modules that are left out of the erased text.
LEFT_OUT = ("laws", "length_laws", "constants")

# Traits that are there because the libraries are apart: in one crate a type can have their methods itself.
OF_CRATES_APART = ("AsUtc", "Assume", "Rfc3339", "ToOffset", "ToTimestamp")

# The types that get a field with a niche. Each has room for it between its fields, but for `UtcOffset`.
WITH_NICHE = ("Date", "SignedDuration", "Time", "Timestamp", "UtcOffset")
NICHE = f"crate::{MODULE}::memory::Niche"

# The types that are equal if their numbers are. A Model with an inverse proves that equal numbers have equal fields, so that equality
# by fields, which Rust derives, is the same.
BY_FIELDS = ("Date", "PlainDateTime", "SignedDuration", "Time", "Timestamp", "UtcDateTime", "UtcOffset")
OF_NUMBERS = ("int_eq", "◌==◌")

# What the package writes by hand, and a package of the erased text alone needs.
BY_PACKAGE = f"""\
impl core::fmt::Debug for {MODULE}::calendar_values::SignedDuration {{
    fn fmt(&self, _: &mut core::fmt::Formatter<'_>) -> core::fmt::Result {{
        Ok(())
    }}
}}
"""

# What the sources use of Rust beyond its words: another one may differ from Rattle's, and wants a look.
MODULES_OF_CORE = ("cmp", "error", "fmt", "hash", "iter", "ops", "time")
ATTRIBUTES = ("cfg", "cold", "derive", "inline", "tactic", "test")
DERIVES = ("Clone", "Copy", "Debug", "Drop", "Eq", "Hash", "Ord", "PartialEq", "PartialOrd")
MACROS = ("matches", "unreachable", "write")
RATTLE_WORDS = ("Abort", "HostRuntime", "Net", "Processes", "Threads", "Wait", "also_owns", "final", "prove", "unsafe")

# Ghost members that prove, and state nothing.
PROOF = re.compile(r"\bPrim\.")

# What a comment goes with where it is taken out.
WHOLE = ("ghost use", "ghost member", "clause", "impl Model", "impl PartialEq", "use Model", "module left out")

CONTRACT_END = "[docs/proofs/STATEMENT.md](crate::proved#contracts) explains the words."
PRELUDE = (f"use {NAME}::{MODULE}::*;", "fn main() -> Result<(), Box<dyn std::error::Error>> {")
LINK = re.compile(r"\[(`[^`\]]+`)\](?:\(([\w:]+)\))?")
OF_RUST = ("Err", "None", "Ok", "Option", "Result", "Self", "Some", "bool", "core", "i32", "i64", "std", "str", "u8")


class Lists:
    """What the lists in make/erased_lists say of functions, each by its file and its name."""

    def __init__(self, root):
        self.lines, self.used = {}, set()
        self.const = set(self.read(root, "const.txt"))
        self.asking = {}
        for line in self.read(root, "requires.txt"):
            kind, _, key = line.partition(": ")
            if kind not in ("wraps", *NARROWED):
                raise Refused(*self.lines[line], f"`{kind}` is not wraps, {' or '.join(NARROWED)}")
            self.asking[key] = kind
            self.lines[key] = self.lines[line]
        for key in self.panicking(root):
            self.asking[key] = "panics"

    def read(self, root, name):
        """The lines of a list, each with its place for a message."""
        path = os.path.join(root, LISTS, name)
        if not os.path.exists(path):
            return []
        text = read_text(path)
        found, at = [], 0
        for line in text.split("\n"):
            if line and not line.startswith("#"):
                self.lines[line] = (os.path.join(LISTS, name), text, at)
                found.append(line)
            at += len(line) + 1
        return found

    def panicking(self, root):
        """The functions that panic where what they require is broken, each with its place: those that the tests call so."""
        path = os.path.join(root, PANICS)
        if not os.path.exists(path):
            return
        text = read_text(path)
        for row in re.finditer(r'^    \w+, "(.+)":$', text, re.MULTILINE):
            self.lines[row[1]] = (PANICS, text, row.start(1))
            yield row[1]

    def first_unused(self):
        """The first line of which there is no function, as a refusal, or None."""
        for key in sorted({*self.const, *self.asking} - self.used):
            return Refused(*self.lines[key], f"there is no function {key}")
        return None


class Source:
    """A file of Rattle. Its libraries are modules of the erased text; of std it may name these modules."""

    libraries, modules = CRATES, MODULES_OF_CORE

    def __init__(self, path, text, module, lists=None):
        self.path, self.text, self.module, self.lists = path, text, module, lists
        self.tokens = Lexer(path, text).tokens()
        self.places = {token.at: place for place, token in enumerate(self.tokens)}
        self.code = [token for token in self.tokens if token.is_code]
        self.counts, self.equalities = {}, {}
        self.closes, self.opens = {}, {}
        self.match_brackets()

    def refuse(self, at, what):
        raise Refused(self.path, self.text, at, what)

    def match_brackets(self):
        waiting = []
        for place, token in enumerate(self.code):
            if token.kind == "mark" and token.text in CLOSING:
                waiting.append(place)
            elif token.kind == "mark" and token.text in CLOSING.values():
                if not waiting or CLOSING[self.code[waiting[-1]].text] != token.text:
                    self.refuse(token.at, f"`{token.text}` closes no bracket")
                self.closes[waiting[-1]] = place
                self.opens[place] = waiting.pop()
        if waiting:
            self.refuse(self.code[waiting[-1]].at, "a bracket is not closed")

    def count(self, reason):
        self.counts[reason] = self.counts.get(reason, 0) + 1

    def take_out(self, first, last, reason):
        """Takes out the code from the first to the last of these places, with what lies between."""
        assert reason in TAKEN_OUT
        for token in self.tokens[self.places[self.code[first].at] : self.places[self.code[last].at] + 1]:
            token.reason = token.reason or reason
        self.count(reason)

    def put_in(self, place, text, reason):
        assert reason in PUT_IN
        self.code[place].before += text
        self.count(reason)

    def words(self, place, count):
        return [token.text for token in self.code[place : place + count]]

    def has(self, place, words):
        """Whether these words are here, as code that is left."""
        wanted = words.split()
        return place >= 0 and self.words(place, len(wanted)) == wanted and self.code[place].reason is None

    # What is taken out.

    def take_ghosts(self):
        for place, token in enumerate(self.tokens):
            if token.kind not in ("ghost", "clause"):
                continue
            if token.kind == "ghost":
                before = [it for it in self.tokens[:place] if it.is_code and not it.reason][-2:]
                if self.is_public_member(before):
                    before.pop().reason = "ghost member"
                if before and (before[-1].kind != "mark" or before[-1].text not in "{};,]"):
                    self.refuse(token.at, f"`{before[-1].text} ghost` is no ghost form that is known")
            is_import = re.match(r"ghost\s+use\b", token.text)
            token.reason = "clause" if token.kind == "clause" else "ghost use" if is_import else "ghost member"
            self.count(token.reason)

    @staticmethod
    def is_public_member(before):
        """Whether the two words before a ghost form are the `pub` of a field and what comes before it."""
        return [it.text for it in before[1:]] == ["pub"] and before[0].text in ("{", ",")

    def take_attributes(self):
        for place, token in enumerate(self.code):
            if token.text != "#" or token.kind != "mark":
                continue
            opening = place + 2 if self.has(place + 1, "!") else place + 1
            name = self.code[opening + 1]
            if not self.has(opening, "[") or name.text not in ATTRIBUTES:
                self.refuse(token.at, f"the attribute `{name.text}` is not known")
            if name.text == "tactic":
                self.take_out(place, self.closes[opening], "tactic")
            elif name.text == "derive":
                self.take_drop(place, opening)

    def take_drop(self, place, opening):
        end = self.closes[opening]
        names = [it for it in range(opening + 3, end - 1) if self.code[it].kind == "word"]
        for name in names:
            if self.code[name].text not in DERIVES:
                self.refuse(self.code[name].at, f"`derive({self.code[name].text})` is not known")
        struct = self.code[end + 3].text if self.has(end + 1, "pub struct") else ""
        has_niche = struct in WITH_NICHE
        if struct in BY_FIELDS:
            self.put_equality(end)
        for name in names:
            if self.code[name].text != "Drop" and not (has_niche and self.code[name].text == "Debug"):
                continue
            reason = f"derive({self.code[name].text})"
            if len(names) == 1:
                self.take_out(place, end, reason)
            elif name == names[0]:
                self.take_out(name, name + 1, reason)
            else:
                self.take_out(name - 1, name, reason)

    def put_equality(self, end):
        """Puts `PartialEq` into the `derive` that ends here, above a type whose number has one value."""
        name = self.code[end + 3]
        model = re.search(rf"^impl Model for {name.text} \{{\n(.*?)^\}}", self.text, re.DOTALL | re.MULTILINE)
        if not model or "ghost inverse_ok = " not in model[1]:
            self.refuse(name.at, f"`{name.text}` has no Model with an inverse, so two of its values may have one number")
        self.put_in(end - 1, ", PartialEq", "equality")

    def take_equalities(self):
        """Equality by numbers, in place of which Rust derives that of fields. Its contract goes to the `impl` of Eq."""
        for place, token in enumerate(self.code):
            if not self.has(place, "impl PartialEq for") or self.code[place + 3].text not in BY_FIELDS:
                continue
            name, members = self.code[place + 3].text, self.members(place)
            stated = [re.fullmatch(r"ghost eq = \{ (\S+) \};", member.text) for member in members]
            if len(stated) != 1 or not stated[0] or stated[0][1] not in OF_NUMBERS:
                self.refuse(token.at, f"equality of `{name}` is not that of its numbers")
            self.equalities[name] = members
            self.take_out(place, self.closes[place + 4], "impl PartialEq")

    def take_models(self):
        for place, token in enumerate(self.code):
            if token.text == "impl" and self.starts_item(place):
                opening = self.opening_of_item(place)
                if "Model for" in " ".join(self.words(place, opening - place)):
                    if self.closes[opening] != opening + 1:
                        self.refuse(token.at, "an impl of Model has code")
                    self.take_out(place, opening + 1, "impl Model")
            elif self.has(place, "use std : : marker : : Model ;"):
                self.take_out(place, place + 8, "use Model")

    def take_writers(self):
        for place in range(len(self.code)):
            if self.has(place, "fn fmt < W : fmt : : Write >"):
                self.take_out(place + 2, place + 9, "fmt<W>")
            elif self.has(place, "Formatter < W >"):
                self.take_out(place + 1, place + 3, "Formatter<W>")

    def take_modules(self):
        for place, token in enumerate(self.code):
            if token.text == "mod" and self.code[place + 1].text in LEFT_OUT and self.has(place + 2, ";"):
                self.take_out(place - 1 if self.has(place - 1, "pub") else place, place + 2, "module left out")
            if self.has(place, "pub use") and self.code[place + 2].text in LEFT_OUT:
                self.refuse(token.at, "a module that is left out is handed on")

    def take_comments(self):
        """Comments of what is taken out go with it."""
        for place, token in enumerate(self.tokens):
            if token.kind not in ("comment", "doc"):
                continue
            is_apart = False
            for after in self.tokens[place + 1 :]:
                if after.kind == "space":
                    is_apart = is_apart or after.text.count("\n") > 1
                elif after.kind not in COMMENTS:
                    if after.reason in WHOLE and not (is_apart and after.reason == "ghost use"):
                        token.reason = "comment"
                        self.count("comment")
                    break

    # What is put in.

    def put_paths(self, shim=()):
        """Paths of one crate of many modules."""
        for place, token in enumerate(self.code):
            if token.kind != "word" or token.reason:
                continue
            is_path = self.has(place + 1, ": :")
            follows = self.has(place - 2, ": :")
            if token.text == "Vec" and not follows:
                self.look_up(shim, "Vec", token)
                self.put_in(place, f"crate::{MODULE}::memory::", "memory")
            elif token.text == "crate" and is_path:
                if self.has(place - 1, "$"):
                    self.refuse(token.at, "`$crate` is not known")
                if self.module:
                    self.put_in(place + 3, f"{MODULE}::{self.module}::", "module")
            elif token.text == "std" and is_path and not follows:
                self.put_std(place, shim)
            elif token.text in self.libraries and is_path and not follows:
                self.put_in(place, f"crate::{MODULE}::", "crate")
            elif self.has(place, "str : : from_utf8") and not follows:
                self.put_in(place, "core::", "str")

    def put_std(self, place, shim):
        """A path of std: a module of core, or that of the allocator, whose names the module `memory` has."""
        name = self.code[place + 3]
        if name.text in self.modules:
            return
        if name.text == "simd":
            self.put_in(place, f"crate::{MODULE}::", "crate")
            self.take_out(place, place + 2, "runtime")
            return
        if name.text != "alloc":
            self.refuse(name.at, f"`std::{name.text}` is no module of core that is known, and has no shim")
        rest = place + 6
        names = range(rest + 1, self.closes[rest]) if self.has(rest, "{") else [rest]
        for it in names:
            if self.code[it].kind == "word":
                self.look_up(shim, self.code[it].text, self.code[it])
        self.take_out(place, place + 3, "std::alloc")
        self.put_in(place + 4, f"crate::{MODULE}::memory", "memory")

    def look_up(self, shim, name, token):
        if name not in shim:
            self.refuse(token.at, f"{MADE}/memory.rs has no shim `{name}`")

    def put_niches(self):
        """The field with a niche, and its value in literals. A literal with `..` takes it from the other value."""
        for place, token in enumerate(self.code):
            if token.text not in WITH_NICHE or token.reason or not self.has(place + 1, "{"):
                continue
            before = self.code[place - 1].text
            if before == "struct":
                self.put_in(place + 2, f"niche: {NICHE}, ", "niche")
            elif before not in (">", "impl", "for") and not self.has_base(place + 1):
                self.put_in(place + 2, f"niche: {NICHE}::Here, ", "niche")

    def has_base(self, opening):
        """Whether the literal that opens here takes fields of another value."""
        end = self.closes[opening]
        return any(self.has(it, ". .") and self.code[it - 1].text == "," for it in range(opening + 1, end))

    def see_words(self):
        """Refuses words and macros that are not Rust's, or that have not been looked at."""
        macros = {self.code[it + 2].text for it in range(len(self.code) - 2) if self.has(it, "macro_rules !")}
        for place, token in enumerate(self.code):
            if token.kind != "word" or token.reason:
                continue
            if token.text in RATTLE_WORDS or self.has(place, "fn drop"):
                self.refuse(token.at, f"`{token.text}` is no word that is known")
            is_macro = self.has(place + 1, "!") and self.code[place + 2].text in CLOSING
            if is_macro and token.text not in (*MACROS, *macros):
                self.refuse(token.at, f"the macro `{token.text}!` is not known")

    # Functions.

    def starts_item(self, place):
        return place == 0 or self.code[place - 1].text in ("{", "}", ";", "]", "pub", ")")

    def opening_of_item(self, place):
        """The place of the brace that opens an item."""
        return next(it for it in range(place, len(self.code)) if self.code[it].text in "{;" and not self.code[it].reason)

    def owner(self, place, opening):
        """What an impl or a trait is called."""
        words = self.words(place, opening - place)
        if words[0] == "impl":
            words = words[1:]
            if words[0] == "<":
                depth = 0
                for count, word in enumerate(words):
                    depth += (word == "<") - (word == ">")
                    if depth == 0:
                        words = words[count + 1 :]
                        break
        elif ":" in words:
            words = words[: words.index(":")]
        return re.sub(r" ?([<>:&,]) ?", r"\1", " ".join(words)).replace(">for ", "> for ")

    def functions(self):
        """Each function that is left: the place of its `fn`, the kind and the name of what has it, and the place of that."""
        owners, found = [], []
        for place, token in enumerate(self.code):
            if token.reason:
                continue
            while owners and place > owners[-1][0]:
                owners.pop()
            if token.text in ("impl", "trait") and self.starts_item(place):
                opening = self.opening_of_item(place)
                words = self.words(place, opening - place)
                kind = "trait" if words[0] == "trait" else "impl of a trait" if "for" in words else "own"
                owners.append((self.closes[opening], kind, self.owner(place, opening), place))
            elif token.text == "fn" and self.code[place + 1].kind == "word":
                found.append((place, *(owners[-1][1:] if owners else ("free", "", None))))
        return found

    def parts(self):
        """The words of each function that could be const, by its key, and the words of no function, without imports."""
        found, inside = {}, set()
        for place, kind, owner, _ in self.functions():
            head = self.end_of_head(place)
            words = range(place, self.closes.get(head, head) + 1)
            inside.update(range(self.start_of_attributes(self.start_of_item(place)), place), words)
            if kind in ("own", "free"):
                found[self.key(place, owner)] = self.words_left(words)
        for place, type_name, _ in self.inherent():
            found[self.key(place, type_name)] = self.words_left(range(place, self.closes[self.end_of_head(place)] + 1))
        for place, token in enumerate(self.code):
            if token.text == "use" and place not in inside:
                inside.update(range(place, next(it for it in range(place, len(self.code)) if self.code[it].text == ";")))
        return found, self.words_left(it for it in range(len(self.code)) if it not in inside)

    def words_left(self, places):
        return " ".join(self.code[it].text for it in places if not self.code[it].reason)

    def key(self, place, owner):
        """How lists name a function."""
        file = self.path.removeprefix("crates/").replace("/src/", "/")
        return f"{file} {owner + '::' if owner else ''}{self.code[place + 1].text}"

    def start_of_item(self, place):
        """The place of the first word of an item, after its attributes."""
        while place:
            if self.code[place - 1].text in ("pub", "const"):
                place -= 1
            elif self.has(place - 4, "pub ( crate )") or self.has(place - 4, "pub ( super )"):
                place -= 4
            else:
                break
        return place

    def start_of_attributes(self, place):
        """The place of the first attribute of an item that starts here, or of the item."""
        while place and self.code[place - 1].text == "]" and self.words(self.opens[place - 1] - 1, 1) == ["#"]:
            place = self.opens[place - 1] - 1
        return place

    def end_of_head(self, place):
        """The place of the brace or the semicolon that ends the head of a function."""
        while self.code[place].text not in ("{", ";"):
            place = self.closes.get(place, place) + 1
        return place

    def clauses(self, place):
        first, last = (self.places[self.code[it].at] for it in (place, self.end_of_head(place)))
        return [token for token in self.tokens[first:last] if token.kind == "clause"]

    def members(self, place):
        """The ghost members of an impl, a trait or a struct that starts here, but for those that only prove."""
        opening = self.opening_of_item(place)
        if self.code[opening].text == ";":
            return []
        first, last = (self.places[self.code[it].at] for it in (opening, self.closes[opening]))
        inner, depth = [], 0
        for token in self.tokens[first + 1 : last]:
            if token.kind == "mark":
                depth += (token.text in CLOSING) - (token.text in CLOSING.values())
            elif token.kind == "ghost" and token.reason == "ghost member" and depth == 0 and not PROOF.search(token.text):
                inner.append(token)
        return inner

    def asks(self, place, kind, start):
        """Whether a function asks something of its caller."""
        if any(clause.text.startswith("requires") for clause in self.clauses(place)):
            return True
        return kind == "impl of a trait" and any(re.match(r"ghost\s+can_", it.text) for it in self.members(start))

    def put_on_functions(self):
        closed = set()
        for place, kind, owner, start in self.functions():
            key = self.key(place, owner)
            first = self.start_of_item(place)
            is_public = self.has(first, "pub") and not self.has(first, "pub (")
            self.put_inline(place, first)
            if self.panics(place, owner):
                self.put_in(first, "#[track_caller]\n", "track")
            asks = self.asks(place, kind, start) and (is_public or kind not in ("own", "free"))
            how = self.answer_of(place, key) if asks else None
            if how in NARROWED:
                if not is_public:
                    self.refuse(self.code[place].at, f"{key} cannot be {how}")
                self.put_in(first + 1, f"({NARROWED[how]}) ", how)
                if kind == "free" and how == "closed":
                    closed.add(self.code[place + 1].text)
            if kind in ("own", "free") and key in self.lists.const:
                self.lists.used.add(key)
                if not self.has(place - 1, "const"):
                    self.put_in(place, "const ", "const")
        return closed

    def answer_of(self, place, key):
        """What a safe caller gets that does not keep to what a function asks, by the lists."""
        if key not in self.lists.asking:
            names = f"{os.path.join(LISTS, 'requires.txt')} nor {PANICS}"
            self.refuse(self.code[place].at, f"{key} requires something, and neither {names} says what a safe caller gets")
        self.lists.used.add(key)
        return self.lists.asking[key]

    def panics(self, place, owner):
        """Whether the list says that a function panics, or the method of a trait that it is."""
        trait = owner.partition(" for ")[0]
        keys = self.key(place, owner), self.key(place, f"trait {trait}")
        return any(self.lists.asking.get(key) == "panics" for key in keys)

    def put_inline(self, place, start):
        if self.code[self.end_of_head(place)].text == ";":
            return
        first = self.start_of_attributes(start)
        if not any(token.text == "inline" and self.has(it - 1, "[") for it, token in enumerate(self.code[first:start], first)):
            self.put_in(start, "#[inline]\n", "inline")

    def put_closed_uses(self, closed):
        """Splits a `pub use` of closed functions: it hands on the others, and one within the module those."""
        for place in range(len(self.code)):
            if not self.has(place, "pub use"):
                continue
            end = next(it for it in range(place, len(self.code)) if self.code[it].text == ";")
            opening = next((it for it in range(place, end) if self.code[it].text == "{"), None)
            names = [it for it in range(place, end) if self.code[it].text in closed]
            if not names:
                continue
            if opening is None and names == [end - 1] and self.has(end - 3, ": :"):
                self.put_in(place + 1, f"(in crate::{MODULE}) ", "closed")
                continue
            if opening is None or self.code[names[0] - 1].text not in "{,":
                self.refuse(self.code[place].at, "a `pub use` of a closed function has no braces")
            for it in names:
                if self.has(it + 1, ","):
                    self.take_out(it, it + 1, "closed name")
                else:
                    self.take_out(it - 1, it, "closed name")
            path = "".join(self.words(place + 2, opening - place - 2))
            listed = ", ".join(self.code[it].text for it in names)
            self.put_in(place, f"pub(in crate::{MODULE}) use {path}{{{listed}}};\n", "closed")

    def inherent(self):
        """The functions of impls of the traits of crates apart: the place of each, with the type and the place of the impl."""
        for place, kind, owner, start in self.functions():
            name, _, type_name = owner.partition(" for ")
            if kind == "impl of a trait" and name in OF_CRATES_APART:
                yield place, type_name, start

    def put_inherent(self):
        """Gives types the methods of these traits, each a copy of the function."""
        parts = {}
        for place, type_name, start in self.inherent():
            name, trait = self.code[place + 1].text, self.code[start + 1].text
            key = self.key(place, type_name)
            mark = "const " if key in self.lists.const else ""
            self.lists.used.add(key)
            body = self.render(place, self.closes[self.end_of_head(place)])
            hints = self.hint(place) + "\n#[track_caller]" * self.panics(place, trait)
            method = f"/// As [`{trait}::{name}`], which has the contract.\n{hints}\npub {mark}{body}\n"
            parts.setdefault((start, type_name), []).append(method)
            self.count("inherent")
        for (start, type_name), methods in parts.items():
            last = self.code[self.closes[self.opening_of_item(start)]]
            last.after += f"\n\nimpl {type_name} {{\n" + "\n".join(methods) + "}\n"

    def hint(self, place):
        """The hint of a function for the compiler, which its copy keeps."""
        first = self.start_of_attributes(self.start_of_item(place))
        words = "".join(self.words(first, self.start_of_item(place) - first))
        found = re.search(r"#\[inline(?:\(\w+\))?\]", words)
        return found[0] if found else "#[inline]"

    def render(self, first, last):
        """The code from the first to the last of these places, as it is left, without what is put in before the first."""
        tokens = self.tokens[self.places[self.code[first].at] : self.places[self.code[last].at] + 1]
        return tokens[0].text + "".join(token.before + token.text for token in tokens[1:] if not token.reason)

    # Contracts as text.

    def put_contracts(self):
        for place, _, _, _ in self.functions():
            self.put_contract(place, self.clauses(place))
        for place, token in enumerate(self.code):
            if token.text in ("impl", "trait", "struct") and not token.reason and self.is_item(place):
                equality = self.equalities.get(self.code[place + 3].text, []) if self.has(place, "impl Eq for") else []
                self.put_contract(place, [*equality, *self.members(place)])

    def is_item(self, place):
        return self.starts_item(self.start_of_item(place)) or self.code[self.start_of_item(place) - 1].text == "]"

    def put_contract(self, place, tokens):
        if not tokens:
            return
        start = self.start_of_attributes(self.start_of_item(place))
        while self.code[start].reason:
            start += 1
        lines = [line for token in tokens for line in self.lines_of(token)]
        lines = ["# Contract", "", "```text", *lines, "```", "", CONTRACT_END]
        if self.is_documented(start):
            lines = ["", *lines]
        made = "".join(f"/// {line}".rstrip() + "\n" for line in lines)
        self.code[start].before = made + self.code[start].before
        self.count("contract")

    def lines_of(self, token):
        """The lines of a clause or a ghost member, in line with its first."""
        text = token.text.removesuffix(",") if token.kind == "clause" else token.text
        first, *rest = text.split("\n")
        before = self.text[: token.at].rsplit("\n", 1)[-1]
        indent = len(before) - len(before.lstrip())
        return [first, *(line[indent:] if not line[:indent].strip() else line.lstrip() for line in rest)]

    def is_documented(self, place):
        """Whether a doc comment is above the item that starts here."""
        for token in reversed(self.tokens[: self.places[self.code[place].at]]):
            if token.kind == "doc" and not token.reason:
                return True
            if token.kind not in ("space", "comment", "doc") and token.reason not in ("tactic", "derive(Drop)"):
                return False
        return False

    # The text that is left.

    def put_links(self):
        """Links of the documentation: those to what is left out are plain, and paths are those of one crate."""
        known = {token.text for token in self.code if token.kind == "word"}

        def link(match):
            text, target = match[1], match[2]
            first = re.match(r"`?(?:crate::)?(\w*)", target or text)[1]
            if first in LEFT_OUT or not target and first not in known and first not in OF_RUST:
                self.count("link")
                return text
            if target and target.startswith("crate::") and self.module:
                self.count("module")
                return f"[{text}](crate::{MODULE}::{self.module}::{target.removeprefix('crate::')})"
            return match[0]

        for token in self.tokens:
            if token.kind in ("doc", "inner") and not token.reason:
                token.text = LINK.sub(link, token.text)

    def text_left(self):
        """The text that is left, before it is laid out."""
        out, gap = [], None
        for token in self.tokens:
            if token.reason:
                gap = token.reason if gap is None or token.reason == "clause" else gap
                if token.before:
                    out.append(token.before)
                continue
            if gap is not None and token.kind == "space" and out and out[-1].isspace():
                # of the space on both sides of what is taken out one is left
                lines = min(out[-1].count("\n"), token.text.count("\n"))
                out[-1] = "\n" * lines + (token.text.rsplit("\n", 1)[-1] if lines else " ")
                continue
            if gap == "clause" and token.text in ("{", ";") and out and out[-1].isspace():
                out[-1] = " " if token.text == "{" else ""
            gap = None
            out.append(token.before + token.text + token.after)
        text = "".join(out)
        text = re.sub(r"[ \t]+\n", "\n", text)
        text = re.sub(r"\n{3,}", "\n\n", text)
        return re.sub(r"(\{\n)\n+", r"\1", text).lstrip("\n")

    def erase(self, shim):
        """The text as Rust, before it is laid out."""
        self.take_ghosts()
        self.take_attributes()
        self.take_models()
        self.take_equalities()
        self.take_writers()
        self.take_modules()
        self.see_words()
        self.put_paths(shim)
        self.put_niches()
        self.take_comments()
        closed = self.put_on_functions()
        self.put_links()
        self.put_contracts()
        self.put_inherent()
        return closed


# The documentation of a function that panics, and the sentence of it in Rattle, with the call that is the test.
DOCS_OF_PANIC = re.compile(r"(?:^ *///.*\n)+(?=(?: *#\[.*\]\n)*? *#\[track_caller\]\n)", re.MULTILINE)
PROVES = re.compile(r" The caller proves this(?:, or calls (\[`[^`]+`\]))?; the `time` crate panics\.")


def panics_of_rust(source, text):
    """The heading `# Panics` for each function that panics."""

    def with_heading(found):
        lead = re.match(r" *///", found[0])[0]
        text, contract, rest = found[0].partition("/// # Contract\n")
        first, gap, others = text.removesuffix(f"{lead}\n").partition(f"{lead}\n")
        words = " ".join(line.removeprefix(lead).strip() for line in first.splitlines())
        said = PROVES.search(words)
        if said:
            words = textwrap.wrap(PROVES.sub("", words), 100, initial_indent=f"{lead} ", subsequent_indent=f"{lead} ")
            first = "\n".join([*words, ""])
        test = [f" {said[1]} returns `None` there."] if said and said[1] else []
        heading = ["", " # Panics", "", " The call breaks a `requires` of the contract.", *test, *[""] * bool(contract)]
        source.count("panics")
        return "".join([first, gap, others, *(f"{lead}{line}\n" for line in heading), contract, rest])

    return DOCS_OF_PANIC.sub(with_heading, text)


def shown_libraries(root=REPOSITORY):
    """The libraries that the package shows to its users: the others are within it."""
    path = os.path.join(root, ROOT)
    text = read_text(path) if os.path.exists(path) else ""
    return [name for name in CRATES if f"\npub(crate) mod {name};\n" not in text]


def examples_of_rust(source, text, is_shown=True):
    """Examples of the documentation as Rust has them: with no runtime, and with the imports and the result that it wants. Those of a
    library within the package are text, since no program can call it."""
    lines, is_example, is_other = [], False, False
    for line in text.split("\n"):
        match = re.match(r"(\s*//[/!]) ?(.*)", line)
        if not match:
            lines.append(line)
            continue
        lead, rest = match.groups()
        if rest.startswith("```"):
            if is_other or rest != "```":
                is_other = not is_other
                lines.append(line)
            elif not is_shown:
                is_other = True
                lines.append(f"{line}text")
                source.count("example")
            elif not is_example:
                lines += [line, *(f"{lead} # {part}" for part in PRELUDE)]
                is_example = True
                source.count("example")
            else:
                lines += [f"{lead} # Ok(())", f"{lead} # }}", line]
                is_example = False
            continue
        if is_example:
            rest, count = re.subn(r"(assert\w*!\()rt;\s*", r"\1", rest)
            source.counts["runtime"] = source.counts.get("runtime", 0) + count
            if re.search(r"\brt\b", rest):
                source.refuse(0, f"an example has the runtime in a form that is not known: {rest!r}")
            line = f"{lead} {rest}".rstrip()
        lines.append(line)
    return "\n".join(lines)


def sources(root=REPOSITORY, crates=CRATES, left_out=LEFT_OUT):
    """The files of crates that are erased, by crate and by path within its src."""
    for crate in crates:
        folder = os.path.join(root, "crates", crate, "src")
        for place, below, names in os.walk(folder):
            below.sort()
            for name in sorted(names):
                path = os.path.relpath(os.path.join(place, name), folder)
                if name.endswith(".rt") and path.split(os.sep)[0].removesuffix(".rt") not in left_out:
                    yield crate, path


def erased_name(crate, path):
    """The name of the erased text of a file, below its folder."""
    return f"{crate}.rs" if path == "lib.rt" else os.path.join(crate, path.removesuffix(".rt") + ".rs")


def shim_names(root=REPOSITORY):
    """What the module `memory` has, which is written by hand."""
    path = os.path.join(root, MADE, "memory.rs")
    if not os.path.exists(path):
        return ()
    return re.findall(r"^pub struct (\w+)", read_text(path), re.MULTILINE)


def erase_all(root=REPOSITORY, const=None):
    """The erased text of each file before it is laid out, by its name below its folder, the counts of what differs, the words of
    each function that could be const, by its key, and the words of no function, by their files."""
    lists, shim = Lists(root), shim_names(root)
    if const is not None:
        lists.const = const
    shown = shown_libraries(root)
    made, counts, functions, found, closed, rest = {}, {}, {}, [], {}, []
    for crate, path in sources(root):
        name = os.path.join("crates", crate, "src", path)
        source = Source(name, read_text(os.path.join(root, name)), crate, lists)
        closed.setdefault(crate, set()).update(source.erase(shim))
        found.append((crate, path, source))
    unused = lists.first_unused()
    if unused:
        raise unused
    for crate, path, source in found:
        source.put_closed_uses(closed[crate])
        text = examples_of_rust(source, panics_of_rust(source, source.text_left()), crate in shown)
        head = f"// Made by make/erase of {source.path}. Do not edit.\n"
        made[erased_name(crate, path)] = head + text
        own, others = source.parts()
        functions.update(own)
        rest.append((source.path, others))
        for reason, count in source.counts.items():
            counts[reason] = counts.get(reason, 0) + count
    return made, counts, functions, rest


def made_names(root=REPOSITORY):
    """The names below their folder of the files that are there, but for those that are written by hand."""
    folder = os.path.join(root, MADE)
    for place, below, names in os.walk(folder):
        below.sort()
        for name in sorted(names):
            path = os.path.relpath(os.path.join(place, name), folder)
            if name.endswith(".rs") and os.path.join(MADE, path) not in BY_HAND:
                yield path


def usize_lines(root=REPOSITORY):
    """The lines of the made files that say usize, each by its file."""
    found = []
    for name in made_names(root):
        with open(os.path.join(root, MADE, name), encoding="utf-8") as file:
            code = [line.strip() for line in file if not line.lstrip().startswith("//")]
        found += [f"{name}: {line}" for line in code if re.search(r"\busize\b", line)]
    return found
