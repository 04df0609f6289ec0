"""The public items of a Rust crate as rustdoc describes them in JSON, each as a line: its kind, its path and its signature."""

import json
import re

# The names that the Rust package has for types of `time`.
RENAMED = {"Duration": "SignedDuration", "PrimitiveDateTime": "PlainDateTime", "FormatItem": "BorrowedFormatItem"}


def new_name(path):
    """A path with the names that the package has."""
    return "::".join(RENAMED.get(word, word) for word in path.split("::"))


class Description:
    """What rustdoc says of a crate."""

    def __init__(self, path):
        with open(path, encoding="utf-8") as file:
            found = json.load(file)
        self.index, self.paths, self.root = found["index"], found["paths"], found["root"]
        self.lines, self.seen = set(), set()

    def item(self, number):
        """The item of a number, its kind, and what rustdoc says of one of that kind; or none where it is in another crate."""
        found = self.index.get(str(number))
        return (found, *next(iter(found["inner"].items()))) if found else (None, None, None)

    def arguments(self, found, own):
        """The types between angle brackets."""
        listed = ((found or {}).get("angle_bracketed") or {}).get("args", [])
        types = [self.type_of(it["type"], own) for it in listed if isinstance(it, dict) and "type" in it]
        return f"<{','.join(types)}>" if types else ""

    def name_of(self, found):
        """The name of a type: those of std that `time` has too begin with `Std`."""
        path = self.paths.get(str(found["id"]))
        name = path["path"][-1] if path else found["path"].split("::")[-1]
        is_of_std = path and path["crate_id"] != 0 and name in ("Duration", "Instant")
        return f"Std{name}" if is_of_std else RENAMED.get(name, name)

    def bounds(self, listed, own):
        """The traits of a type that is not named."""
        found = [it["trait_bound"] for it in listed if "trait_bound" in it]
        sized = [it["trait"] for it in found if it["modifier"] == "none"]
        return "+".join(it["path"].split("::")[-1] + self.arguments(it["args"], own) for it in sized)

    def type_of(self, found, own):
        """A type in words; `own` is that of the impl."""
        if found is None:
            return "()"
        kind, inner = next(iter(found.items()))
        if kind == "resolved_path":
            return self.name_of(inner) + self.arguments(inner.get("args"), own)
        if kind == "generic":
            return own if inner == "Self" else inner
        if kind == "primitive":
            return inner
        if kind == "borrowed_ref":
            return f"&{'mut ' if inner['is_mutable'] else ''}{self.type_of(inner['type'], own)}"
        if kind == "tuple":
            return f"({','.join(self.type_of(it, own) for it in inner)})"
        if kind == "slice":
            return f"[{self.type_of(inner, own)}]"
        if kind == "array":
            return f"[{self.type_of(inner['type'], own)};{inner['len']}]"
        if kind == "impl_trait":
            return f"impl {self.bounds(inner, own)}"
        if kind == "qualified_path":
            return f"{self.type_of(inner['self_type'], own)}::{inner['name']}"
        return kind

    def add_function(self, path, found, own):
        """The line of a function."""
        head, signature = found["header"], found["sig"]
        words = ["const "] * head["is_const"] + ["unsafe "] * head["is_unsafe"]
        inputs = ", ".join(self.type_of(it, own) for _, it in signature["inputs"])
        self.lines.add(f"{''.join(words)}fn {path}({inputs}) -> {self.type_of(signature['output'], own)}")

    def add_impls(self, path, impls):
        """What a type has of its own, and the traits that it has."""
        for number in impls:
            _, _, found = self.item(number)
            if not found or found["is_synthetic"] or found["blanket_impl"]:
                continue
            own = self.type_of(found["for"], "Self")
            if found["trait"]:
                self.add_impl(found["trait"], own)
                continue
            for it in map(self.item, found["items"]):
                self.add_member(path, own, *it)

    def add_impl(self, trait, own):
        """A trait that a type has; that of equality by fields makes its constants patterns."""
        name = trait["path"].split("::")[-1]
        self.lines.add(f"impl {name}{self.arguments(trait['args'], own)} for {own}")

    def add_member(self, path, own, item, kind, found):
        """A function or a constant of a type."""
        if item and item["visibility"] == "public":
            place = f"{path}::{item['name']}"
            if kind == "function":
                self.add_function(place, found, own)
            else:
                self.lines.add(f"{kind} {place}")

    def add_module(self, number, path):
        """The items of a module."""
        if (number, path) in self.seen:
            return
        self.seen.add((number, path))
        for it in self.item(number)[2]["items"]:
            item, kind, found = self.item(it)
            if not item or (item["visibility"] != "public" and kind != "macro"):
                continue
            if kind != "use":
                self.add(item["name"], path, it)
            elif found["is_glob"]:
                if self.item(found["id"])[1] == "module":
                    self.add_module(found["id"], path)
            else:
                self.add(found["name"], path, found["id"])

    def add(self, name, path, number):
        """An item under a name that the crate gives it."""
        _, kind, found = self.item(number)
        place = new_name(f"{path}::{name}")
        if kind == "type_alias" and "resolved_path" in found["type"]:
            aliased = found["type"]["resolved_path"]["id"]
            if self.item(aliased)[1] in ("struct", "enum"):
                self.add(name, path, aliased)
                return
        if kind == "function":
            self.add_function(place, found, "Self")
            return
        self.lines.add(f"{kind or 'use'} {place}")
        if kind == "module":
            self.add_module(number, place)
        elif kind in ("struct", "enum"):
            self.add_impls(place, found["impls"])
            self.lines |= {f"variant {place}::{self.item(it)[0]['name']}" for it in found.get("variants", [])}
        elif kind == "trait":
            self.lines |= {f"trait item {place}::{self.item(it)[0]['name']}" for it in found["items"]}
            for _, _, it in map(self.item, found["implementations"]):
                if it:
                    self.add_impl(it["trait"], self.type_of(it["for"], "Self"))


def items_of(path, name):
    """The lines of the crate that a file of rustdoc describes, under a name."""
    found = Description(path)
    found.add_module(found.root, name)
    return found.lines


def place_of(line):
    """The path of an item, or the type of an impl."""
    return line.rpartition(" for ")[2] if line.startswith("impl ") else re.search(r"[\w:]+::\w+", line)[0]


def absent(listed, lines):
    """The listed items that none of these lines is. A function may be `const` here alone, and one of another crate of any kind."""
    places = {place_of(line) for line in lines if not line.startswith("impl ")}
    return [
        line
        for line in listed
        if line not in lines and f"const {line}" not in lines and not (line.startswith("use ") and place_of(line) in places)
    ]


def names(words, line):
    """Whether one of these words is in a line, between its marks."""
    return any(re.search(rf"(?<![\w:]){re.escape(word)}(?!\w)|(?<=::){re.escape(word)}(?!\w)", line) for word in words)
