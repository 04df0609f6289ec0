"""packages/c/muxandu.h, of the description of the interface."""

from shared.interface import CONSTANTS, HEAD, LICENCE, WIDTH, duties, quoted, variants_of, wrapped

NUMBERS = {
    "i8": "int8_t",
    "u8": "uint8_t",
    "u16": "uint16_t",
    "u32": "uint32_t",
    "i32": "int32_t",
    "i64": "int64_t",
    "usize": "size_t",
}

# The number of a status, as C calls it.
STATUS = "MuxanduStatus"

# The most bytes of stack that a call takes: packages/c/tests/stacks.c measures them.
STACK = """\
/* The most bytes of stack that a call takes. */
#define MUXANDU_STACK 24576

/* The most bytes of stack that a call takes, but for those with a description or a time zone. */
#define MUXANDU_STACK_WITHOUT_DESCRIPTION 4096
"""

# What stands before the name of a parameter of each role.
POINTERS = {"out": "{kind} {star}", "items in": "const {kind} {star}", "items out": "{kind} {star}"}
POINTERS |= {"text": "const char {star}", "room": "char {star}", "in": "{kind} ", "count": "{kind} "}

# What each language that reads the header calls: a pointer through which alone its items are reached, a function that each file
# has by itself, a number as another type, an enum of 32 bits; a result that a caller must read, pointers that are never NULL, a
# function that throws nothing, and one that a DLL exports. A compiler that does not have one of the last four reads nothing there.
WORDS = """\
#if !defined(__cplusplus) && defined(__STDC_VERSION__) && __STDC_VERSION__ >= 199901L
#define MUXANDU_RESTRICT restrict
#else
#define MUXANDU_RESTRICT __restrict
#endif
#if defined(__cplusplus) || (defined(__STDC_VERSION__) && __STDC_VERSION__ >= 199901L)
#define MUXANDU_INLINE static inline
#elif defined(__GNUC__)
#define MUXANDU_INLINE static __inline__
#else
#define MUXANDU_INLINE static
#endif
#ifdef __cplusplus
#define MUXANDU_CAST(type, value) static_cast<type>(value)
#else
#define MUXANDU_CAST(type, value) ((type)(value))
#endif
#if (defined(__cplusplus) && __cplusplus >= 201103L) || (defined(__STDC_VERSION__) && __STDC_VERSION__ >= 202311L)
#define MUXANDU_ENUM(name) enum name : uint32_t
#else
#define MUXANDU_ENUM(name) enum name
#endif
#if (defined(__cplusplus) && __cplusplus >= 201703L) || (defined(__STDC_VERSION__) && __STDC_VERSION__ >= 202311L)
#define MUXANDU_NODISCARD [[nodiscard]]
#elif defined(__clang__)
#define MUXANDU_NODISCARD __attribute__((warn_unused_result))
#elif defined(__GNUC__) && __GNUC__ >= 10 && !defined(__cplusplus) && !defined(__INTEL_COMPILER) && !defined(__TINYC__)
#define MUXANDU_NODISCARD __extension__ [[nodiscard]]
#else
#define MUXANDU_NODISCARD
#endif
#if defined(__GNUC__)
#define MUXANDU_NONNULL(places) __attribute__((nonnull places))
#else
#define MUXANDU_NONNULL(places)
#endif
#if defined(__cplusplus) && (__cplusplus >= 201103L || defined(_MSC_VER))
#define MUXANDU_NOEXCEPT noexcept
#elif defined(__cplusplus)
#define MUXANDU_NOEXCEPT throw()
#else
#define MUXANDU_NOEXCEPT
#endif
#if defined(_WIN32) && defined(MUXANDU_DLL) && defined(MUXANDU_BUILD)
#define MUXANDU_API __declspec(dllexport)
#elif defined(_WIN32) && defined(MUXANDU_DLL)
#define MUXANDU_API __declspec(dllimport)
#else
#define MUXANDU_API
#endif
"""

# The results that a caller must read: each says whether the call has written its values.
READ = ("MuxanduStatus", "MuxanduBatch", "MuxanduOutcome")

# A text as C has it, of a call that writes one: compiled with the program.
TERMINATED = """\
MUXANDU_NODISCARD
MUXANDU_INLINE {head} {{
    size_t size = 0;
    {status} answer = {name}({given}, {room}_count == 0 ? 0 : {room}_count - 1, &size);
    if (answer == MUXANDU_OK) {room}[size] = '\\0';
    return answer;
}}
"""

REASON = "MuxanduReason"
REASON_STRING = f"""\
/* The text of a reason, for a message: likewise. */
MUXANDU_INLINE const char *muxandu_reason_string({REASON} reason) MUXANDU_NOEXCEPT {{
    switch (reason) {{
    case 0:
        return "No reason.";
"""

STRING = f"""\
/* The text of a status, as muxandu_status_text writes it, for a message. It stays, and ends with a
 * byte 0. Your compiler compiles this call and those that end with _z, and no proof covers them;
 * they answer by the proved calls. */
MUXANDU_INLINE const char *muxandu_status_string({STATUS} status) MUXANDU_NOEXCEPT {{
    switch (status) {{
"""

# A blank at which a line does not end.
HOLDS = "\0"


def comment(doc, indent=""):
    """A doc comment in the words of the header, with no marks of Markdown."""
    text = doc.replace("`", "'")
    if len(indent) + len(text) + 6 <= WIDTH:
        return [f"{indent}/* {text} */"]
    lines = wrapped(text, f"{indent}/* ", f"{indent} * ", WIDTH - 3)
    return lines[:-1] + [lines[-1] + " */"]


def number(constant):
    """A constant, as C writes it."""
    digits = str(abs(constant["number"]))
    if constant["type"] == "i64":
        digits = f"INT64_C({digits})"
    return f"(-{digits})" if constant["number"] < 0 else digits


def c_type(kind):
    """A type, as C calls it."""
    return NUMBERS.get(kind, kind)


def parameter(one, star="*"):
    """A parameter as C declares it."""
    return POINTERS[one["role"]].format(kind=c_type(one["type"]), star=star) + one["name"]


def declaration(name, call):
    """The lines that declare a call, each parameter on one line."""
    pointers = [one for one in call["parameters"] if one["role"] not in ("in", "count")]
    star = "*" if len(pointers) < 2 else "*MUXANDU_RESTRICT "
    words = [parameter(one, star).replace(" ", HOLDS) for one in call["parameters"]]
    line = f"{c_type(call['result'] or 'void')} {name}({', '.join(words) or 'void'}){HOLDS}MUXANDU_NOEXCEPT;"
    return [made.replace(HOLDS, " ") for made in wrapped(line, "", " " * (line.index("(") + 1))]


def attributes(call):
    """The line before the declaration of a call in the header: what its caller must read, and which pointers are never NULL."""
    places = [str(place) for place, one in enumerate(call["parameters"], 1) if one["role"] == "out"]
    words = ["MUXANDU_API"]
    if call["result"] in READ:
        words.insert(0, "MUXANDU_NODISCARD")
    if places:
        words.append(f"MUXANDU_NONNULL(({', '.join(places)}))")
    return " ".join(words)


def terminated_declaration(name, call):
    """The line that declares the call that writes the text of another and a byte 0, if that one writes a text."""
    room = room_of(call)
    if room is None:
        return []
    words = [parameter(one) for one in call["parameters"][: room + 2]]
    return [f"{c_type(call['result'])} {name}_z({', '.join(words)}) MUXANDU_NOEXCEPT;"]


def room_of(call):
    """The place of the parameter for the text that a call writes, or None."""
    return next((place for place, one in enumerate(call["parameters"]) if "most" in one), None)


def terminated_call(name, call):
    """The lines of that call."""
    place = room_of(call)
    if place is None:
        return []
    room, most = call["parameters"][place]["name"], call["parameters"][place]["most"]
    told = f"As {name}, with a byte 0 at the end of the text. Errors: also BUFFER if `{room}` has no room for that byte. "
    told += f"A buffer of {most + 1} bytes is always enough."
    [line] = terminated_declaration(name, call)
    given = ", ".join(one["name"] for one in call["parameters"][: place + 1])
    made = TERMINATED.format(status=c_type(call["result"]), name=name, head=line.rstrip(";"), given=given, room=room)
    return [*comment(told), *made.rstrip("\n").split("\n"), ""]


class Header:
    """The lines of the header."""

    def __init__(self, interface):
        self.interface = interface

    def enums(self):
        made = []
        for numbers, number_type in self.interface["numbers"].items():
            name = f"{numbers}Code"
            made += [*comment(self.interface["enums"][number_type["of"]]["doc"]), f"typedef MUXANDU_ENUM({name}) {{"]
            if numbers == STATUS:
                made += [*comment(self.interface["other statuses"]["OK"]["doc"], "    "), "    MUXANDU_OK = 0,"]
            for variant in variants_of(self.interface, number_type["of"]):
                made += [*comment(variant["doc"], "    "), f"    MUXANDU_{variant['constant']} = {variant['number']},"]
            made[-1] = made[-1].rstrip(",")
            made += [f"}} {name};", "", *comment(number_type["doc"]), f"typedef uint32_t {numbers};", ""]
        return made

    def constants(self):
        version = self.interface["version"]
        made = [*comment(version["doc"]), f"#define MUXANDU_{version['name']} {number(version)}", ""]
        made += ["/* The same as a text. */", f'#define MUXANDU_{version["name"]}_TEXT "{version["text"]}"', ""]
        for group in CONSTANTS:
            for name, constant in self.interface[group].items():
                made += [*comment(constant["doc"]), f"#define MUXANDU_{name} {number(constant)}", ""]
        return [*made, *STACK.split("\n")]

    def structs(self):
        made = []
        for name, struct in self.interface["structs"].items():
            made += [*comment(struct["doc"]), f"typedef struct {name} {{"]
            for field in struct["fields"]:
                made += [*comment(field["doc"], "    "), f"    {c_type(field['type'])} {field['name']};"]
            made += [f"}} {name};", ""]
        return made

    def layout(self):
        """Tests of the layout that each standard of C and C++ has, where pointers have 64 bits."""
        made = [
            "#if defined(__cplusplus) && __cplusplus >= 201103L",
            "#define MUXANDU_LAYOUT(name, holds) static_assert(sizeof(void *) != 8 || (holds), #name)",
        ]
        made += ["#elif defined(__STDC_VERSION__) && __STDC_VERSION__ >= 201112L"]
        made += ["#define MUXANDU_LAYOUT(name, holds) _Static_assert(sizeof(void *) != 8 || (holds), #name)"]
        made += [
            "#else",
            "#define MUXANDU_LAYOUT(name, holds) typedef char muxandu_layout_##name[sizeof(void *) != 8 || (holds) ? 1 : -1]",
        ]
        made.append("#endif")
        for name, struct in self.interface["structs"].items():
            made.append(f"MUXANDU_LAYOUT({name}, sizeof({name}) == {struct['size']});")
            for field in struct["fields"]:
                place = f"offsetof({name}, {field['name']}) == {field['offset']}"
                made.append(f"MUXANDU_LAYOUT({name}_{field['name']}, {place});")
        return [*made, "#undef MUXANDU_LAYOUT", ""]

    def calls(self):
        made = []
        for name, call in self.interface["calls"].items():
            made += [*comment(call["doc"]), attributes(call), *declaration(name, call), ""]
        return made

    def cases(self, numbers, unknown):
        """The rest of a call that gives the text of a number."""
        made = []
        for variant in variants_of(self.interface, self.interface["numbers"][numbers]["of"]):
            made += [f"    case MUXANDU_{variant['constant']}:", f"        return {quoted(variant['doc'])};"]
        return [*made, "    default:", f"        return {quoted(unknown)};", "    }", "}", ""]

    def strings(self):
        """The calls that give texts as C has them."""
        made = STRING.rstrip("\n").split("\n")
        others = self.interface["other statuses"]
        made += ["    case MUXANDU_OK:", f"        return {quoted(others['OK']['doc'])};"]
        made += [*self.cases(STATUS, others["UNKNOWN"]["doc"]), *REASON_STRING.rstrip("\n").split("\n")]
        made += self.cases(REASON, "A reason that this version does not know.")
        for name, call in self.interface["calls"].items():
            made += terminated_call(name, call)
        return made


def write_c(interface):
    header = Header(interface)
    made = [f"/* SPDX-License-Identifier: {LICENCE}", " *", *(f" * {line}" for line in HEAD), " *"]
    made += [f" * {line.replace('`', chr(39))}".rstrip() for line in duties()]
    made += [" */", "#ifndef MUXANDU_H", "#define MUXANDU_H", "", "#include <stddef.h>", "#include <stdint.h>"]
    made += ["", "#ifdef __cplusplus", 'extern "C" {', "#endif", "", *WORDS.split("\n")]
    made += [*header.enums(), *header.constants(), *header.structs(), *header.layout(), *header.calls(), *header.strings()]
    made += ["#ifdef __cplusplus", "}", "#endif", "", "#endif", ""]
    return "\n".join(made)
