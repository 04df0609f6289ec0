"""The calls over many items as the Python package has them: the overloads of their types, and the calls over moments."""

import ast
import re

import python_methods
from shared import interface

INTERFACE = interface.read()
CALLS = {name.removeprefix("muxandu_"): call for name, call in INTERFACE["calls"].items()}
WIDTH = 130

# The types of the items that a call reads or writes, without the ends of their names: see _types.py.
TYPES = {"u8": "Texts", "i64": "Numbers", "i32": "Numbers"}
TYPES |= {f"Muxandu{name}": f"{name}s" for name in ("DateTime", "Date", "Timestamp", "Moment", "Duration")}

# A function of the package that no call has, and the call that reads and writes the same.
OTHERS = {"moments_from_each_plain_text": "moments_from_each_rfc3339"}

OVERLOADS = re.compile(r"@overload\ndef (?P<name>\w+)(?:[^@](?!\n\n))*:\n    \.\.\.\n\n\n")

# The kinds of the items that a call over moments writes.
KINDS = {"MuxanduMoment": "MomentParts", "MuxanduDuration": "DurationParts", "MuxanduDateTime": "MuxanduDateTime"}
KINDS["i32"] = "ctypes.c_int32"

# The types of the words of such a call after the moments, and the code that makes numbers of them.
WORDS = {
    "offset_seconds": ("SupportsIndex", "offset_number(offset_seconds)"),
    "unit": ("SupportsIndex", "number_of_unit(unit)"),
    "months": ("SupportsIndex", "limit(months, ctypes.c_int32)"),
    "MuxanduDuration": ("Durations", "summands({}, {})"),
    "MuxanduMoment": ("OtherMoments", "two_columns({}, {})"),
}

# The result of such a call, more of it where it is for all rows, and where each row has a status; else it is the comment of the
# header.
DOCS = {
    "date_times_from_moments": ("The date-time of each moment, at its own offset", ": items of DateTimeParts", ""),
    "moments_to_offset": ("The same instants at another offset, in seconds", "", ""),
    "moments_truncate": ("Each moment, rounded down to a Unit by its own clocks", "", ""),
    "moments_add_months": (
        "Each moment a number of months later",
        ", or earlier if it is negative, at the same local time and offset; in a shorter month on its last day",
        ", as moments_add_months has it",
    ),
    "moments_add": ("Each moment plus the duration at its place, or one duration for all", "", ""),
    "moments_subtract": ("Each moment minus the duration at its place, or one duration for all", "", ""),
    "moments_compare": (
        "The order of each moment and the one at its place in `others`, or one for all",
        ": -1 if it comes first, 0 if both are one instant, else 1",
        "",
    ),
    "moments_difference": (
        "The duration to each moment from the one at its place in `earlier`, or from one for all",
        ": items of DurationParts",
        "",
    ),
}


def head(name, words, result, end=""):
    """The lines of the head of a function, as black has them."""
    line, inner = f"def {name}({', '.join(words)}) -> {result}:{end}", f"    {', '.join(words)}"
    if len(line) <= WIDTH:
        return [line]
    lines = [inner] if len(inner) <= WIDTH else [f"    {word}," for word in words]
    return [f"def {name}(", *lines, f") -> {result}:{end}"]


def items_of(call, *roles):
    return [one for one in call["parameters"] if one["role"] in roles]


def overloads(name, words):
    """The overloads of a function with these words: of an array of NumPy, then of other items."""
    call = CALLS[OTHERS.get(name, name)]
    [read, *_], [written, *told] = items_of(call, "text", "items in"), items_of(call, "items out")
    gaps = "WithGaps" if told and read["type"] != "MuxanduMoment" else ""
    (first, _, _), *others = words
    tail = [f"{word}: {kind}{end}" for word, kind, end in others]
    own, spans = [f"{first}: {TYPES[read['type']]}{gaps}", *tail], [f"{first}: SupportsArray", *tail]
    forms = [(spans, "NumPyOr"), (own, TYPES[written["type"]] + "Or")]
    if tail[0].startswith("spans"):
        forms[0] = ([f"{first}: SupportsArray", "spans: None = None", *tail[1:]], "NumPyOr")
        forms.insert(1, ([f"{first}: Any", "spans: SupportsArray", *tail[1:]], "NumPyOr"))
        own[1] = "spans: Optional[Spans] = None"
    made = []
    for taken, kind in forms:
        statuses = "NumPyOr" if kind == "NumPyOr" else "NumbersOr"
        result = f"tuple[{kind}[Out], {statuses}[Told]]" if told else f"{kind}[Out]"
        taken = [
            word.replace("out: Any", "out: Optional[Out]").replace("statuses: Any", "statuses: Optional[Told]") for word in taken
        ]
        made += ["@overload", *head(name, taken, result), "    ...", "", ""]
    return made


def words_of(function):
    """The words of a function, each with its type and its default as code."""
    words, defaults = function.args.args, [f" = {ast.unparse(one)}" for one in function.args.defaults]
    ends = [""] * (len(words) - len(defaults)) + defaults
    return [(word.arg, ast.unparse(word.annotation), end) for word, end in zip(words, ends)]


def has_overloads(name):
    """Whether the overloads of a function are made: it has a call, which writes items."""
    call = CALLS.get(OTHERS.get(name, name))
    return call is not None and items_of(call, "items out") != []


def with_overloads(text):
    """The text of a module with the overloads of its functions over many items. Others stay as they are."""
    text = OVERLOADS.sub(lambda found: "" if has_overloads(found["name"]) else found[0], text)
    lines = text.split("\n")
    for function in reversed(ast.parse(text).body):
        if isinstance(function, ast.FunctionDef) and has_overloads(function.name):
            lines[function.lineno - 1 : function.lineno - 1] = overloads(function.name, words_of(function))
    return "\n".join(lines)


def over_moments(name):
    """The function of a call over moments."""
    call, is_each = CALLS[name], "each_moment" in name
    first, *others = [one for one in call["parameters"] if one["role"] in ("in", "items in")]
    columns, numbers = f"(moments_in({first['name']}),)", []
    words = [f"{first['name']}: Any"]
    for one in others:
        kind, code = WORDS[one["type"] if one["role"] == "items in" else one["name"]]
        words.append(f"{one['name']}: {kind}")
        if one["role"] == "items in":
            columns = code.format(first["name"], one["name"])
        else:
            numbers.append(code)
    outs = ["out", "statuses"] if is_each else ["out"]
    said, of_all, of_each = DOCS.get(name.replace("each_moment", "moments"), (None, None, None))
    told = f"{said}{of_each}, and the status of each." if is_each else f"{said}{of_all}."
    told = python_methods.doc("", "", name, call["doc"]) if said is None else told
    result = "tuple[Any, Any]" if is_each else "Any"
    [written, *_] = items_of(call, "items out")
    given = ", ".join([f"_engine.{name}", columns, KINDS[written["type"]], *outs, *numbers])
    line = f"    return convert_{'each' if is_each else 'all'}({given})"
    body = [line] if len(line) <= WIDTH else [line[: line.index("(") + 1], f"        {given}", "    )"]
    said = interface.wrapped(f'"""{told}"""', "    ", "    ")
    return [*head(name, [*words, *(f"{out}: Any = None" for out in outs)], result), *said, *body]


def all_over_moments():
    """The functions of the calls over moments, each for all rows and with a status of each."""
    made = [form for name in DOCS for form in (name, name.replace("moments", "each_moment"))]
    made += [name for name in CALLS if reads_moments(CALLS[name]) and name not in made]
    return "\n\n\n".join("\n".join(over_moments(name)) for name in made) + "\n"


def reads_moments(call):
    """Whether a call reads moments first, and writes items and no number of gaps, which pandas.py alone asks for."""
    reads = [one["type"] for one in items_of(call, "items in")][:1] == ["MuxanduMoment"]
    return reads and items_of(call, "items out") != [] and items_of(call, "out") == []
