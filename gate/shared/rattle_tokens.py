"""The text of Rattle as tokens, for tools that take its ghost parts out. A ghost item, a ghost member and a clause are one token
each; what is no token of these forms ends the tool."""

import re

LEXER = re.compile(
    r"""(?P<space>\s+)
    |(?P<inner>//![^\n]*)
    |(?P<doc>///(?!/)[^\n]*)
    |(?P<comment>//[^\n]*)
    |(?P<string>[bc]?"(?:\\.|[^"\\])*")
    |(?P<character>b?'(?:\\(?:x[0-9a-fA-F]{2}|u\{[0-9a-fA-F_]+\}|.)|[^'\\])')
    |(?P<lifetime>'[A-Za-z_]\w*)
    |(?P<number>\d\w*)
    |(?P<word>[A-Za-z_]\w*)
    |(?P<mark>[-+*/%^!&|=<>@.,;:\#$?(){}\[\]])""",
    re.VERBOSE | re.DOTALL | re.ASCII,
)

CLAUSES = ("requires", "ensures")
COMMENTS = ("inner", "doc", "comment")

# The heads of the ghost forms, from after the word that begins them to the first brace.
GHOST_IMPORT = re.compile(r'\s+use\s[^;"]*;')
GHOST_NAME = re.compile(r"\s+[A-Za-z_]\w*\s*")
GHOST_PART = re.compile(r"[:=]\s*(?=\{)")
CLAUSE_HEAD = re.compile(r"\s*\*?\s*(?:[A-Za-z_]\w*\s*)?(?=\{)")
SPACE = re.compile(r"\s*")

CLOSING = {"(": ")", "[": "]", "{": "}"}


class Refused(Exception):
    """A form that a tool does not know, at its file and line."""

    def __init__(self, path, text, at, what):
        super().__init__(f"{path}:{text.count(chr(10), 0, at) + 1}: {what}")


class Token:
    """A token, the reason for which it is taken out, if it is, and what is put in before it and after it."""

    __slots__ = ("kind", "text", "at", "reason", "before", "after")

    def __init__(self, kind, text, at):
        self.kind, self.text, self.at, self.reason, self.before, self.after = kind, text, at, None, "", ""

    @property
    def end(self):
        return self.at + len(self.text)

    @property
    def is_code(self):
        return self.kind not in ("space", "ghost", "clause", *COMMENTS)


class Lexer:
    """Cuts the text of a file into tokens."""

    def __init__(self, path, text):
        self.path, self.text = path, text

    def refuse(self, at, what):
        raise Refused(self.path, self.text, at, what)

    def begins(self, at):
        """The line that begins at a place, for a message."""
        return repr(self.text[at : at + 40].split("\n")[0])

    def end_of_braces(self, at):
        """The place after the braces of a term that begin here."""
        depth, place = 0, at
        while place < len(self.text):
            mark = self.text[place]
            if mark == '"':
                place += 1
                while self.text[place : place + 1] not in ('"', ""):
                    place += 2 if self.text[place] == "\\" else 1
            elif self.text.startswith(("--", "//", "/*", "'{'", "'}'"), place):
                self.refuse(place, f"a term with {self.begins(place)} is no form that is known")
            elif mark == "{":
                depth += 1
            elif mark == "}":
                depth -= 1
                if depth == 0:
                    return place + 1
            place += 1
        return self.refuse(at, "the braces of a term do not end")

    def end_of_ghost(self, at):
        """The place after a ghost item or member, of which the word ends here: `use ..;`, `NAME = {..};`, `NAME: {..},`,
        `NAME: {..} = {..};`."""
        found = GHOST_IMPORT.match(self.text, at)
        if found:
            return found.end()
        found, is_whole = GHOST_NAME.match(self.text, at), False
        place = found.end() if found else at
        while found and (part := GHOST_PART.match(self.text, place)):
            place, is_whole = SPACE.match(self.text, self.end_of_braces(part.end())).end(), True
        if not is_whole or self.text[place : place + 1] not in (";", ","):
            self.refuse(at, f"`ghost{self.begins(at)[1:-1]}` is no ghost form that is known")
        return place + 1

    def end_of_clause(self, at, word):
        found = CLAUSE_HEAD.match(self.text, at)
        if not found:
            self.refuse(at, f"`{word}{self.begins(at)[1:-1]}` is no clause that is known")
        return self.end_of_braces(found.end())

    def tokens(self):
        found, at = [], 0
        while at < len(self.text):
            match = LEXER.match(self.text, at)
            if not match or self.text.startswith("/*", at):
                self.refuse(at, f"{self.begins(at)} is no token that is known")
            kind, text, end = match.lastgroup, match.group(), match.end()
            if kind == "word" and text in ("r", "br", "cr") and self.text[end : end + 1] in ('"', "#"):
                self.refuse(at, f"{self.begins(at)} is no token that is known")
            if kind == "word" and text == "ghost":
                kind, end = "ghost", self.end_of_ghost(end)
            elif kind == "word" and text in CLAUSES:
                kind, end = "clause", self.end_of_clause(end, text)
            found.append(Token(kind, self.text[at:end], at))
            at = end
        return found
