"""A module of WebAssembly with addresses of 64 bits, as functions in C that work on the memory of the program that calls them.

`Module` reads the bytes, `functions_in_c` writes what the exports reach. A value of the stack of the module becomes an expression.
What it reads is kept in a variable where something could change it before it is used. Three things differ from an engine:

- An address is a pointer, and each load and store goes where it points.
- The stack pointer of the module is no variable: the frame of a function is an array of that function.
- A constant between the begin and the end of the module's data is an address of these data. `make/module` proves that by a second
  module, whose data are elsewhere.

A form that no compiler of the module writes ends the work: nothing is guessed.
"""

import re
from collections import Counter
from dataclasses import dataclass, field, replace

I32, I64, V128 = 0x7F, 0x7E, 0x7B
C_TYPES = {I32: "u32", I64: "u64", V128: "Lanes"}
SIGNED = {I32: "s32", I64: "s64"}
BITS = {I32: 32, I64: 64}
# What a local has that nothing is put into.
BEGINS = {I32: "0", I64: "0", V128: "pair(0, 0)"}
STACK_POINTER = 0
# The alignment of the stack pointer, and the most bytes that a test of the stack asks for.
ALIGNED, LEAST_STACK = 16, 65_536

PAGE = 65_536

# A name in C.
WORD = re.compile(r"\b[a-z]\w*")
# An address of the frame, before the size of the frame is known; a line that sets a variable; the call of a function.
OF_FRAME = re.compile(r"<(\d+)>")
SETS = re.compile(r" *([lt]\d+) = (.*);$")
JUMP, JUMPS = re.compile(r" *goto (L\d+);$"), re.compile(r"goto (L\d+);")
CALLED = re.compile(r"f\d+\(")
# A byte of lanes that is stored; a number that is loaded; four of them as lanes; and what could change a number between two loads.
BYTE_STORED = re.compile(r" *store8\(GIVES (.+?)(?: \+ (\d+)u(?:ll)?)?, lane8\((\w+), (\d+)\)\);$")
MADE = re.compile(r"t\d+$")
LOADED_NUMBER = re.compile(r" *(t\d+) = (load32|\(u32\)load8)\(GIVES (\w+)(?: \+ (\d+)u(?:ll)?)?\);$")
BYTES_ALONE = "pair(0xff000000ff, 0xff000000ff)"
FOUR = re.compile(r"four\((t\d+), (t\d+), (t\d+), (t\d+)\)")
CHANGES = re.compile(r"store|copy\(|fill\(|\bf\d+\(|goto|TRAP|return|^L|[{}]")


class Failed(Exception):
    """A reason why a module is not read, or not written in C."""


# The instructions over numbers: the type of what they take, and how C has them. A name of a macro begins with a capital letter.
COMPARE = {"eq": "==", "ne": "!=", "lt": "<", "gt": ">", "le": "<=", "ge": ">="}
COMPARES = ("eq", "ne", "lt_s", "lt_u", "gt_s", "gt_u", "le_s", "le_u", "ge_s", "ge_u")
COUNTS = ("CLZ", "CTZ", "POPCNT")
BINARY = ("add", "sub", "mul", "div_s", "div_u", "rem_s", "rem_u", "and", "or", "xor", "shl", "shr_s", "shr_u", "ROTL", "ROTR")
OPERATORS = {
    "add": "+",
    "sub": "-",
    "mul": "*",
    "div": "/",
    "rem": "%",
    "and": "&",
    "or": "|",
    "xor": "^",
    "shl": "<<",
    "shr": ">>",
}


def numeric_instructions():
    """Each instruction over numbers by its byte: (arity, type of operands, type of result, name)."""
    found = {0x45: (1, I32, I32, "eqz"), 0x50: (1, I64, I32, "eqz")}
    for first, kind in ((0x46, I32), (0x51, I64)):
        found |= {first + n: (2, kind, I32, name) for n, name in enumerate(COMPARES)}
    for first, kind in ((0x67, I32), (0x79, I64)):
        found |= {first + n: (1, kind, kind, name) for n, name in enumerate(COUNTS)}
        found |= {first + len(COUNTS) + n: (2, kind, kind, name) for n, name in enumerate(BINARY)}
    casts = {
        0xA7: (I64, I32, "(u32){}"),
        0xAC: (I32, I64, "(u64)(s64)(s32){}"),
        0xAD: (I32, I64, "(u64){}"),
        0xC0: (I32, I32, "(u32)(s32)(s8){}"),
        0xC1: (I32, I32, "(u32)(s32)(s16){}"),
        0xC2: (I64, I64, "(u64)(s64)(s8){}"),
        0xC3: (I64, I64, "(u64)(s64)(s16){}"),
        0xC4: (I64, I64, "(u64)(s64)(s32){}"),
    }
    return found | {byte: (1, given, made, text) for byte, (given, made, text) in casts.items()}


NUMERIC = numeric_instructions()
LOADS = {
    0x28: (I32, "load32"),
    0x29: (I64, "load64"),
    0x2C: (I32, "(u32)(s32)(s8)load8"),
    0x2D: (I32, "(u32)load8"),
    0x2E: (I32, "(u32)(s32)(s16)load16"),
    0x2F: (I32, "(u32)load16"),
    0x30: (I64, "(u64)(s64)(s8)load8"),
    0x31: (I64, "(u64)load8"),
    0x32: (I64, "(u64)(s64)(s16)load16"),
    0x33: (I64, "(u64)load16"),
    0x34: (I64, "(u64)(s64)(s32)load32"),
    0x35: (I64, "(u64)load32"),
}
STORES = {0x36: "32", 0x37: "64", 0x3A: "8", 0x3B: "16", 0x3C: "8", 0x3D: "16", 0x3E: "32"}


def vector_instructions():
    """The instructions over sixteen bytes by their number: (types of operands, type of result, text in C), where {n} is a lane.
    A function of one_file_head.c has the name of the operation, and the bits of a lane at its end."""
    two, one, found = (V128, V128), (V128,), {}
    for first, bits in ((35, 8), (45, 16), (55, 32)):
        found |= {first + n: (two, V128, f"{name}{bits}") for n, name in enumerate(COMPARES)}
    found |= {214 + n: (two, V128, f"{name}64") for n, name in enumerate(("eq", "ne", "lt_s", "gt_s", "le_s", "ge_s"))}
    found |= {77: (one, V128, "not_64"), 82: ((V128,) * 3, V128, "choice_64"), 83: (one, I32, "any_true")}
    found |= {78 + n: (two, V128, f"{name}_64") for n, name in enumerate(("and", "andnot", "or", "xor"))}
    for first, bits in ((96, 8), (128, 16), (160, 32), (192, 64)):
        found |= {
            first + 1: (one, V128, f"neg{bits}"),
            first + 3: (one, I32, f"all_true{bits}"),
            first + 4: (one, I32, f"bitmask{bits}"),
        }
        found |= {first + 14: (two, V128, f"add{bits}"), first + 17: (two, V128, f"sub{bits}")}
        found |= {first + 11 + n: ((V128, I32), V128, f"{name}{bits}") for n, name in enumerate(("shl", "shr_s", "shr_u"))}
        if bits > 8:
            found[first + 21] = (two, V128, f"mul{bits}")
            halves = [f"{half}_{sign}{bits}" for sign in "su" for half in ("low", "high")]
            found |= {first + 7 + n: (one, V128, f"extend_{half}") for n, half in enumerate(halves)}
            found |= {first + 28 + n: (two, V128, f"extmul_{half}") for n, half in enumerate(halves)}
        if bits < 64:
            ends = ("min_s", "min_u", "max_s", "max_u")
            found |= {first + 22 + n: (two, V128, f"{name}{bits}") for n, name in enumerate(ends)}
    texts = {code: (given, made, f"{name}({', '.join('{}' for _ in given)})") for code, (given, made, name) in found.items()}
    for n, (bits, kind) in enumerate(((8, I32), (16, I32), (32, I32), (64, I64))):
        texts[15 + n] = ((kind,), V128, f"splat{bits}((u{bits}){{}})")
    for first, bits, kind in ((21, 8, I32), (24, 16, I32), (27, 32, I32), (29, 64, I64)):
        if bits < 32:
            texts[first] = (one, I32, f"(u32)(s32)(s{bits})lane{bits}({{}}, {{n}})")
        last = first + (bits < 32)
        texts[last] = (one, kind, f"({C_TYPES[kind]})lane{bits}({{}}, {{n}})")
        texts[last + 1] = ((V128, kind), V128, f"with_lane{bits}({{}}, {{n}}, (u{bits}){{}})")
    return {0xFD00 | code: row for code, row in texts.items()}


LANES = vector_instructions()
# The lane of an operand, and those that load or store; the last ones go by a lane.
OF_LANE = [code for code, (_, _, text) in LANES.items() if "{n}" in text]
VECTOR_LOADS = {0xFD00: "{}", 0xFD5C: "pair((u64){}, 0)", 0xFD5D: "pair({}, 0)"}
VECTOR_LOADS |= {0xFD07 + n: f"splat{bits}({{}})" for n, bits in enumerate((8, 16, 32, 64))}
VECTOR_LOADS |= {
    0xFD01 + 2 * n + (sign == "u"): f"extend_low_{sign}{bits}(pair({{}}, 0))"
    for n, bits in enumerate((16, 32, 64))
    for sign in "su"
}
LOADED = {code: "load64" for code in VECTOR_LOADS} | {0xFD00: "load128", 0xFD5C: "load32"}
LOADED |= {0xFD07 + n: f"load{bits}" for n, bits in enumerate((8, 16, 32))}
LANE_LOADS = {0xFD54 + n: bits for n, bits in enumerate((8, 16, 32, 64))}
LANE_STORES = {0xFD58 + n: bits for n, bits in enumerate((8, 16, 32, 64))}
WIDE_LANE = re.compile(r"\((u32|u64)\)lane(16|32|64)\(")
# How a byte of an operation is made: which bytes of the operands, and of these a text in C.
LONGEST_BYTE = 160
BYTE_RULES = {
    name: (lambda n: (n, n), lambda n, a, b, sign=sign: f"(u32)(u8)({a} {sign} {b})")
    for name, sign in {"add8": "+", "sub8": "-", "and_64": "&", "or_64": "|", "xor_64": "^"}.items()
}
for half, begin in {"low": 0, "high": 8}.items():
    BYTE_RULES[f"extmul_{half}_u16"] = (
        lambda n, begin=begin: (begin + n // 2, begin + n // 2),
        lambda n, a, b: f"(u32)(u8)({a} * {b} >> {n % 2 * 8})",
    )
    BYTE_RULES[f"extend_{half}_u16"] = (lambda n, begin=begin: (begin + n // 2,), lambda n, a: "0u" if n % 2 else a)
LOAD_32_ZERO, VECTOR_STORE, VECTOR_CONST, SHUFFLE = 0xFD5C, 0xFD0B, 0xFD0C, 0xFD0D
MEMORY = {**LOADS, **STORES, **VECTOR_LOADS, VECTOR_STORE: "128"}
BLOCK, LOOP, IF, ELSE, END, BR, BR_IF, BR_TABLE, RETURN = 0x02, 0x03, 0x04, 0x05, 0x0B, 0x0C, 0x0D, 0x0E, 0x0F
CALL, DROP, SELECT, GET, SET, TEE, GLOBAL_GET, GLOBAL_SET = 0x10, 0x1A, 0x1B, 0x20, 0x21, 0x22, 0x23, 0x24
UNREACHABLE, NOP, CONST_32, CONST_64, COPY, FILL = 0x00, 0x01, 0x41, 0x42, 0xFC0A, 0xFC0B
# What the module does as a call of its host begins and ends: it refuses a call while another is under way. Calls in C share nothing.
UNDER_WAY = 1
ENTER = [
    (GLOBAL_GET, UNDER_WAY),
    (SET, 0),
    (CONST_32, 1),
    (GLOBAL_SET, UNDER_WAY),
    (GET, 0),
    (CONST_32, 0),
    (0x47, None),
    (END, None),
]
LEAVE = [(CONST_32, 0), (GLOBAL_SET, UNDER_WAY), (END, None)]
ONE_INDEX = (BR, BR_IF, CALL, GET, SET, TEE, GLOBAL_GET, GLOBAL_SET)
NO_OPERAND = (UNREACHABLE, NOP, ELSE, END, RETURN, DROP, SELECT, *NUMERIC)


class Bytes:
    """The bytes of a module, read from their begin."""

    def __init__(self, data):
        self.data, self.at = data, 0

    def byte(self):
        self.at += 1
        return self.data[self.at - 1]

    def take(self, count):
        self.at += count
        return self.data[self.at - count : self.at]

    def number(self, signed=False):
        """A number of LEB128."""
        value = shift = 0
        while True:
            byte = self.byte()
            value |= (byte & 0x7F) << shift
            shift += 7
            if byte < 0x80:
                return value - (1 << shift) if signed and byte & 0x40 else value

    def list(self, read):
        return [read() for _ in range(self.number())]

    def name(self):
        return self.take(self.number()).decode()

    def instruction(self):
        """An instruction: its number, and its operands."""
        code = self.byte()
        if code in (0xFC, 0xFD):
            number = self.number()
            if number > 0xFF:
                raise Failed(f"the instruction {code:#x} {number:#x} is not known")
            code = code << 8 | number
        if code in NO_OPERAND:
            return code, None
        if code in ONE_INDEX:
            return code, self.number()
        if code in (BLOCK, LOOP, IF):
            kind = self.byte()
            if kind not in (0x40, I32, I64, V128):
                raise Failed(f"a block has the type {kind:#x}")
            return code, None if kind == 0x40 else kind
        if code in (CONST_32, CONST_64):
            return code, self.number(signed=True)
        if code in MEMORY:
            self.number()
            return code, self.number()
        if code in (*LANE_LOADS, *LANE_STORES):
            self.number()
            return code, (self.number(), self.byte())
        if code in (VECTOR_CONST, SHUFFLE):
            return code, self.take(16)
        if code in LANES:
            return code, self.byte() if code in OF_LANE else None
        if code == BR_TABLE:
            return code, [*self.list(self.number), self.number()]
        if code in (COPY, FILL):
            self.take(2 if code == COPY else 1)
            return code, None
        raise Failed(f"the instruction {code:#x} is not known")

    def expression(self):
        """The number of an expression that is constant."""
        (_, value), (end, _) = self.instruction(), self.instruction()
        if end != END:
            raise Failed("a global has no constant for its begin")
        return value


@dataclass
class Function:
    """A function: its types, and the locals and instructions of its body."""

    parameters: list
    results: list
    locals: list = field(default_factory=list)
    body: list = field(default_factory=list)


class Module:
    """What a module has of functions, exports and data. It has one memory, and takes nothing from its host."""

    def __init__(self, data):
        reader = Bytes(data)
        if reader.take(8) != b"\0asm\1\0\0\0":
            raise Failed("this is no module of WebAssembly")
        self.functions, self.exports, self.globals, self.base, self.data = [], {}, [], 0, b""
        while reader.at < len(data):
            kind, size = reader.byte(), reader.number()
            self.section(kind, Bytes(reader.take(size)))

    def section(self, kind, part):
        if kind == 1:
            self.types = part.list(lambda: (part.byte(), part.list(part.byte), part.list(part.byte))[1:])
        elif kind == 3:
            self.functions = [Function(*self.types[number]) for number in part.list(part.number)]
        elif kind == 5:
            [(limits, *pages)] = part.list(lambda: (part.byte(), part.number(), part.number()))
            if not limits & 4:
                raise Failed("the memory has addresses of 32 bits")
            self.pages = pages[0]
        elif kind == 6:
            self.globals = part.list(lambda: (part.byte(), part.byte(), part.expression())[2])
        elif kind == 7:
            self.exports = {
                name: at for name, is_what, at in part.list(lambda: (part.name(), part.byte(), part.number())) if is_what == 0
            }
        elif kind == 10:
            for function, size in zip(self.functions, range(part.number() or 0, -1, -1)):
                self.code(function, Bytes(part.take(part.number())))
        elif kind == 11:
            [(flags, self.base, self.data)] = part.list(lambda: (part.number(), part.expression(), part.take(part.number())))
            if flags:
                raise Failed("the data are not where the module says")
        elif kind not in (0, 12):
            raise Failed(f"a section {kind} is not known: the module takes something from its host, or calls by a table")

    @staticmethod
    def code(function, part):
        function.locals = list(function.parameters)
        for count, kind in part.list(lambda: (part.number(), part.byte())):
            function.locals += [kind] * count
        while part.at < len(part.data):
            function.body.append(part.instruction())

    def is_of_data(self, number):
        return self.base <= number < self.base + len(self.data)

    def pointers(self):
        """The places of the data that have an address of the data."""
        words = range(0, len(self.data) - 7, 8)
        return [at for at in words if self.is_of_data(int.from_bytes(self.data[at : at + 8], "little"))]


# What an address may be of beside parameters.
FRAME, ANY = "frame", "any"


@dataclass
class Made:
    """How each of sixteen bytes that are computed from bytes of the memory is computed alone: a text in C by its number. It holds
    while none of the locals that it reads changes, and nothing is stored: `stores` is how often something was, in other places and
    in the frame, each None if that does not count. A processor reads few bytes faster so. `kept` are those that a variable has.
    """

    byte: object
    reads: frozenset
    stores: tuple
    kept: dict = field(default_factory=dict)

    def text_of(self, n):
        return self.kept.get(n) or self.byte(n)

    def texts(self):
        """How a byte is made with the variables that are there now: others may be set on one way alone."""
        return replace(self, kept=dict(self.kept)).text_of

    def is_same(self, other):
        return other is not None and all(self.byte(n) == other.byte(n) for n in range(16))


@dataclass
class Value:
    """A value on the stack of the module: its type, its text in C, and the locals that the text reads. `frame` is its distance to the
    stack pointer if it is an address of the frame; `is_one` says that the text stands as it is in a longer one, and `is_test` that C
    has an int for it. `tests` are those of which the value has the bits: lanes that a module without vectors tests one by one.
    `made` says how each of its sixteen bytes is made alone, and `is_half` that each lane of 64 bits is below 2^32. `four` are its
    lanes of 32 bits, if they are values; `part` is the value, the lane of it and the divisor of which a number is the quotient.
    `bases` are what an address may be of: parameters by their numbers, the FRAME, or ANY."""

    kind: int
    text: str
    reads: frozenset = frozenset()
    frame: int = None
    number: int = None
    is_one: bool = True
    is_test: bool = False
    tests: tuple = ()
    made: Made = None
    is_half: bool = False
    four: tuple = ()
    part: tuple = ()
    bases: frozenset = frozenset()

    def operand(self):
        if self.is_test:
            return f"(u32)({self.text})"
        return self.text if self.is_one else f"({self.text})"

    def condition(self):
        return " || ".join(text for _, text in self.tests) if len(self.tests) > 1 else self.text

    def text_of_number(self):
        return f"(u32)({self.text})" if self.is_test else self.text


@dataclass
class Block:
    """A block that is open: its label, the variable of its result, and what is known of its locals where branches to it end."""

    code: int
    kind: int
    label: int
    height: int
    result: str = None
    is_used: bool = False
    frames: dict = None
    is_dead: bool = False
    else_frames: dict = None
    # what is known of lanes on each way to its end, and where its `else` begins
    ways: list = field(default_factory=list)
    else_way: tuple = ()


class InC:
    """One function in C."""

    def __init__(self, module, number, name, stores_of):
        self.module, self.function, self.name, self.stores_of = module, module.functions[number], name, stores_of
        self.stack, self.blocks, self.lines, self.called = [], [], [], set()
        self.made, self.frames, self.frame_size, self.labels = [], {}, 0, 0
        # how the bytes of locals are made, those whose lanes of 64 bits are below 2^32, and how often something was stored
        self.made_of, self.halves, self.stores = {}, set(), [0, 0]
        # what each local may be an address of, and what something is stored to
        self.bases = {local: frozenset([local]) for local in range(len(self.function.parameters))}
        self.bases |= {local: frozenset() for local in range(len(self.function.parameters), len(self.function.locals))}
        self.stored_to = frozenset()
        self.is_dead = False

    def fail(self, what):
        raise Failed(f"function {self.name}: {what}")

    def line(self, text):
        self.lines.append("    " * (1 + sum(block.code == IF for block in self.blocks)) + text)

    def push(self, *words, **named):
        self.stack.append(Value(*words, **named))

    def pop(self):
        return self.stack.pop()

    def variable(self, kind):
        self.made.append(kind)
        return f"t{len(self.made) - 1}"

    def keep(self, value):
        """The value in a variable, so that nothing changes it."""
        if value.number is not None or value.frame is not None:
            return value
        name = self.variable(value.kind)
        self.line(f"{name} = {value.text_of_number()};")
        return replace(value, text=name, reads=frozenset(), is_one=True, is_test=False, tests=(), four=())

    def keep_all(self):
        self.stack = [self.keep(value) if value.reads else value for value in self.stack]

    # The frame

    def at_frame(self, distance):
        """A value that is an address of the frame."""
        if distance > 0:
            self.fail("an address above its frame")
        self.frame_size = max(self.frame_size, -distance)
        return Value(I64, f"ADDRESS(<{-distance}>)", frame=distance, bases=frozenset([FRAME]))

    def merge(self, block):
        """What is known of the frame where a branch to the end of a block comes from here."""
        block.is_used = True
        known = self.frames if block.frames is None else {at: it for at, it in block.frames.items() if self.frames.get(at) == it}
        block.frames = dict(known)
        block.ways.append(self.way())

    def way(self):
        """What is known here of lanes: how bytes of locals are made, which have halves, and what locals may be addresses of."""
        made = {at: replace(it, kept=dict(it.kept)) for at, it in self.made_of.items() if self.is_known(it)}
        return made, self.halves, dict(self.bases)

    def meet(self, ways):
        """What is known where these ways meet is what is known on each of them."""
        self.stores = [count + 1 for count in self.stores]
        self.made_of, self.halves = {}, set.intersection(*(way[1] for way in ways))
        self.bases = {local: frozenset().union(*(way[2][local] for way in ways)) for local in self.bases}
        for at, it in ways[0][0].items():
            others = [way[0].get(at) for way in ways]
            if all(it.is_same(other) for other in others):
                kept = {n: text for n, text in it.kept.items() if all(other.kept.get(n) == text for other in others)}
                self.made_of[at] = replace(it, stores=self.stamp(it.stores), kept=kept)

    def stamp(self, stores):
        """How often something was stored, of that which counts for these bytes."""
        return tuple(None if own is None else now for own, now in zip(stores, self.stores))

    # Control

    def branch(self, depth):
        """The statements of a branch."""
        if depth == len(self.blocks):
            return self.return_line()
        block = self.blocks[-1 - depth]
        if block.code == LOOP:
            block.is_used = True
            return f"goto L{block.label};"
        self.merge(block)
        return f"{self.result_line(block)}goto L{block.label};"

    def result_line(self, block):
        return f"{block.result} = {self.stack[-1].text_of_number()}; " if block.kind else ""

    def return_line(self):
        return f"return {self.stack[-1].text_of_number()};" if self.function.results else "return;"

    def open(self, code, kind, condition, body_at):
        self.keep_all()
        if code == LOOP:
            changed = self.locals_set_in(body_at)
            self.meet([({}, set(), self.bases | {local: frozenset([ANY]) for local in changed})])
            self.frames = {at: it for at, it in self.frames.items() if at not in changed}
        self.labels += 1
        block = Block(code, kind, self.labels, len(self.stack), self.variable(kind) if kind else None)
        if code == LOOP:
            self.lines.append(f"L{block.label}:;")
        if code == IF:
            self.line(f"if ({condition}) {{")
            block.else_frames = dict(self.frames)
            block.else_way = self.way()
        self.blocks.append(block)

    def locals_set_in(self, at):
        """The locals that a loop sets, whose body begins there."""
        depth, found = 1, set()
        while depth:
            code, operand = self.function.body[at]
            depth += (code in (BLOCK, LOOP, IF)) - (code == END)
            if code in (SET, TEE):
                found.add(operand)
            at += 1
        return found

    def to_else(self):
        block = self.blocks[-1]
        if not self.is_dead:
            if block.kind:
                self.line(f"{block.result} = {self.stack[-1].text_of_number()};")
            self.merge_end(block)
        del self.stack[block.height :]
        self.blocks.pop()
        self.line("} else {")
        self.blocks.append(block)
        self.frames, block.else_frames, self.is_dead = block.else_frames, None, False
        self.meet([block.else_way])

    def merge_end(self, block):
        was_used = block.is_used
        self.merge(block)
        block.is_used, block.is_dead = was_used, True

    def close(self):
        block = self.blocks[-1]
        if not self.is_dead and block.kind:
            self.line(f"{block.result} = {self.stack[-1].text_of_number()};")
        # the end is reached from here, from branches, and from an `if` whose condition is false
        ways = [] if self.is_dead else [self.frames]
        ways += [block.frames] if block.frames is not None else []
        ways += [block.else_frames] if block.code == IF and block.else_frames is not None else []
        del self.stack[block.height :]
        self.blocks.pop()
        if block.code == IF:
            self.line("}")
        if block.code != LOOP and block.is_used:
            self.lines.append(f"L{block.label}:;")
        if block.code == IF and block.else_frames is not None:
            block.ways.append(block.else_way)
        if block.ways:
            self.meet(block.ways if self.is_dead else [*block.ways, self.way()])
        self.is_dead = not ways
        if ways:
            self.frames = {at: it for at, it in ways[0].items() if all(way.get(at) == it for way in ways)}
        if block.kind:
            self.push(block.kind, block.result, bases=frozenset([ANY]))

    def skip(self, at):
        """The place after what no way leads to."""
        depth = 0
        while True:
            code = self.function.body[at][0]
            if depth == 0 and (code == END or code == ELSE):
                return at
            depth += (code in (BLOCK, LOOP, IF)) - (code == END)
            at += 1

    # Instructions

    def text(self):
        """The function in C."""
        at = 0
        while at < len(self.function.body):
            if self.is_dead:
                at = self.skip(at)
            code, operand = self.function.body[at]
            at += 1
            if code == END and not self.blocks:
                if not self.is_dead and self.function.results:
                    self.line(self.return_line())
                break
            self.step(code, operand, at)
        self.place_frame()
        self.join_stores()
        self.load_rows()
        self.drop_unread()
        self.drop_gotos()
        return self.head() + " {\n" + "".join(f"{line}\n" for line in [*self.declarations(), *self.lines]) + "}\n"

    def frame_room(self):
        return (self.frame_size + ALIGNED - 1) // ALIGNED * ALIGNED

    def place_frame(self):
        """Writes each address of the frame by its distance from the begin of the array."""
        begin = self.frame_room()
        self.lines = [OF_FRAME.sub(lambda found: f"frame + {begin - int(found[1])}", line) for line in self.lines]

    def join_stores(self):
        """Writes four stores of bytes of one lane, one after the other, as one store of that lane."""
        joined, at = [], 0
        while at < len(self.lines):
            found = [BYTE_STORED.match(line) for line in self.lines[at : at + 4]]
            places = sorted((int(one[2] or 0), int(one[4])) for one in found if one)
            if len(places) == 4 and len({(one[1], one[3]) for one in found}) == 1 and places[0][1] % 4 == 0:
                offset, lane = places[0]
                if places == [(offset + n, lane + n) for n in range(4)]:
                    joined.append(f"    store32(GIVES {found[0][1]} + {offset}u, lane32({found[0][3]}, {lane // 4}));")
                    at += 4
                    continue
            joined.append(self.lines[at])
            at += 1
        self.lines = joined

    def load_rows(self):
        """Loads fields of four structs in a row, of 16 bytes that lie between two of them, by one load for each struct."""
        found = {at: LOADED_NUMBER.match(line) for at, line in enumerate(self.lines)}
        loads = {one[1]: (at, one[2], one[3], int(one[4] or 0)) for at, one in found.items() if one}
        columns, are_bytes = {}, set()
        for names in sorted(set(FOUR.findall("\n".join(self.lines)))):
            four = [loads.get(name) for name in names]
            if None in four or len({load[1:3] for load in four}) > 1:
                continue
            offset, step = four[0][3], four[1][3] - four[0][3]
            if step >= 16 and [load[3] for load in four] == [offset + n * step for n in range(4)]:
                columns.setdefault((four[0][2], step), {})[offset] = names, [load[0] for load in four]
                are_bytes |= {names} if four[0][1] != "load32" else set()
        rows = {}
        for (base, step), fields in columns.items():
            for first in sorted(fields):
                used = [first + n for n in (0, 4, 8, 12) if first + n in fields]
                lines = [at for offset in used for at in fields[offset][1]]
                between = self.lines[min(lines) : max(lines)]
                is_same = not any(CHANGES.search(line) or line.strip().startswith(f"{base} =") for line in between)
                ends = [fields[offset][0] for offset in (first, first + 12) if offset in fields]
                if len(ends) == 2 and not are_bytes & {*ends} and len(used) > 2 and is_same:
                    names = [self.variable(V128) for _ in range(4)]
                    rows[min(lines)] = [
                        f"    {name} = load128(GIVES {base} + {first + n * step}u);" for n, name in enumerate(names)
                    ]
                    fours = {}
                    for offset in used:
                        text, own = f"column{(offset - first) // 4}({', '.join(names)})", fields[offset][0]
                        fours[f"four({', '.join(own)})"] = f"and_64({text}, {BYTES_ALONE})" if own in are_bytes else text
                    self.lines = [FOUR.sub(lambda found: fours.get(found[0], found[0]), line) for line in self.lines]
                    break
        self.lines = [line for at, own in enumerate(self.lines) for line in [*rows.get(at, []), own]]

    def drop_unread(self):
        """Leaves out what sets a variable that nothing reads."""
        while True:
            counts = Counter(word for line in self.lines for word in WORD.findall(line))
            sets = Counter(found[1] for line in self.lines if (found := SETS.match(line)))
            unread = {name for name, count in sets.items() if counts[name] == count}
            if not unread:
                return
            kept = []
            for line in self.lines:
                found = SETS.match(line)
                if not found or found[1] not in unread:
                    kept.append(line)
                elif CALLED.match(found[2]):
                    kept.append(line.replace(f"{found[1]} = ", "", 1))
            self.lines = kept

    def drop_gotos(self):
        """Leaves out jumps to the next line, and labels to which nothing jumps."""
        nexts = [*self.lines[1:], ""]
        self.lines = [
            line for line, after in zip(self.lines, nexts) if not (JUMP.match(line) and JUMP.match(line)[1] == after[:-2])
        ]
        used = {word for line in self.lines for word in JUMPS.findall(line)}
        self.lines = [line for line in self.lines if not line.startswith("L") or line[:-2] in used]

    def head(self):
        result = C_TYPES[self.function.results[0]] if self.function.results else "void"
        parameters = "".join(
            f"{'' if at == 0 else ', '}{C_TYPES[kind]} l{at}" for at, kind in enumerate(self.function.parameters)
        )
        return f"static {result} {self.name}({'GIVEN_AND ' if parameters else 'GIVEN'}{parameters})"

    def declarations(self):
        first = len(self.function.parameters)
        used = "\n".join(self.lines)
        lines = [f"FRAME({self.frame_room()});"] if "frame" in used else []
        names = [(kind, f"l{first + at}", f" = {BEGINS[kind]}") for at, kind in enumerate(self.function.locals[first:])]
        names += [(kind, f"t{at}", "") for at, kind in enumerate(self.made)]
        words = set(WORD.findall(used))
        for kind, c in C_TYPES.items():
            own = [f"{name}{begin}" for of, name, begin in names if of == kind and name in words]
            lines += [f"{c} {', '.join(own)};"] if own else []
        lines += [f"(void)l{at};" for at in range(first) if f"l{at}" not in words]
        return [f"    {line}" for line in [*([] if "GIVES" in used else ["UNUSED"]), *lines]]

    def step(self, code, operand, at):
        if code in NUMERIC:
            self.number(code)
        elif code == GET:
            self.get(operand)
        elif code in (SET, TEE):
            self.set(operand, code == TEE)
        elif code == CONST_32:
            self.push(I32, f"{operand & 0xFFFFFFFF}u", number=operand & 0xFFFFFFFF)
        elif code == CONST_64:
            self.constant(operand)
        elif code in LOADS:
            self.load(code, operand)
        elif code in STORES:
            self.store(code, operand)
        elif code in (BLOCK, LOOP):
            self.open(code, operand, None, at)
        elif code == IF:
            self.open(code, operand, self.pop().condition(), at)
        elif code == ELSE:
            self.to_else()
        elif code == END:
            self.close()
        elif code == BR:
            self.line(self.branch(operand))
            self.is_dead = True
        elif code == BR_IF:
            self.branch_if(operand)
        elif code == BR_TABLE:
            self.branch_by_table(operand)
        elif code == RETURN:
            self.line(self.return_line())
            self.is_dead = True
        elif code == UNREACHABLE:
            self.line("TRAP;")
            self.is_dead = True
        elif code == CALL:
            self.call(operand)
        elif code == DROP:
            self.pop()
        elif code == SELECT:
            self.select()
        elif code == GLOBAL_GET:
            if operand != STACK_POINTER:
                self.fail(f"it reads the global {operand}")
            self.stack.append(self.at_frame(0))
        elif code == GLOBAL_SET:
            if operand != STACK_POINTER or self.pop().frame is None:
                self.fail("the stack pointer is set to something else than an address of the frame")
        elif code in (COPY, FILL):
            self.copy_or_fill(code)
        elif code in LANES:
            self.lanes(code, operand)
        elif code == VECTOR_CONST:
            self.lanes_of_number(operand)
        elif code == SHUFFLE:
            self.shuffle(operand)
        elif code in VECTOR_LOADS:
            self.load_lanes(code, operand)
        elif code == VECTOR_STORE:
            self.store_text("128", self.pop().text, operand)
        elif code in LANE_LOADS:
            self.load_lane(code, *operand)
        elif code in LANE_STORES:
            self.store_lane(code, *operand, at)
        elif code != NOP:
            self.fail(f"the instruction {code:#x} is not known")

    def number(self, code):
        arity, kind, made, name = NUMERIC[code]
        bases = frozenset().union(*(value.bases for value in self.stack[-arity:]))
        if arity == 2:
            self.binary(kind, made, name)
        else:
            self.unary(kind, made, name)
        self.stack[-1].bases |= bases

    def unary(self, kind, made, name):
        value = self.pop()
        if name == "eqz" and value.number is not None:
            self.push(I32, f"{int(value.number == 0)}u", number=int(value.number == 0))
        elif name == "eqz":
            is_not = value.is_test or len(value.tests) > 1
            text = f"!({value.condition()})" if is_not else f"{value.operand()} == 0"
            self.push(I32, text, value.reads, is_one=False, is_test=True)
        elif name in COUNTS:
            self.push(made, f"{name}{BITS[kind]}({value.text_of_number()})", value.reads)
        else:
            self.push(made, name.format(value.operand()), value.reads, is_one=False)

    def binary(self, kind, made, name):
        two, one = self.pop(), self.pop()
        reads = one.reads | two.reads
        if one.frame is not None and two.number is not None and self.of_frame(one, two, name):
            return
        base, _, sign = name.partition("_")
        texts = [one.operand(), two.operand()]
        if sign == "s":
            texts = [f"({SIGNED[kind]}){one.operand()}", f"({SIGNED[kind]}){two.operand()}"]
        if base in COMPARE:
            text = f"{texts[0]} {COMPARE[base]} {texts[1]}"
            self.push(I32, text, reads, is_one=False, is_test=True, tests=((0, text),))
        elif base in ("ROTL", "ROTR"):
            self.push(made, f"{base}{BITS[kind]}({one.operand()}, {two.operand()})", reads)
        elif base in ("shl", "shr"):
            by = f"{two.number % BITS[kind]}" if two.number is not None else f"({two.operand()} & {BITS[kind] - 1})"
            text = f"{texts[0]} {OPERATORS[base]} {by}"
            tests = ()
            if base == "shl" and two.number is not None:
                tests = tuple((bit + two.number, test) for bit, test in one.tests if bit + two.number < BITS[kind])
            self.push(made, f"({C_TYPES[kind]})({text})" if sign == "s" else text, reads, is_one=False, tests=tests)
        else:
            text, tests = f"{texts[0]} {OPERATORS[base]} {texts[1]}", ()
            if base == "or" and one.tests and two.tests:
                tests = one.tests + two.tests
            elif base == "and" and two.number is not None:
                tests = tuple((bit, test) for bit, test in one.tests if two.number >> bit & 1)
            self.push(made, f"({C_TYPES[kind]})({text})" if sign == "s" else text, reads, is_one=False, tests=tests)
            if name == "div_u" and one.part and one.part[2] == 1 and two.number:
                self.stack[-1].part = (*one.part[:2], two.number)

    def of_frame(self, one, two, name):
        """Puts what a number makes of an address of the frame; whether it does."""
        number = two.number - (1 << 64) if two.number >> 63 else two.number
        if name in ("add", "sub"):
            distance = one.frame + (number if name == "add" else -number)
        elif name == "or" and 0 <= number < ALIGNED and one.frame % ALIGNED & number == 0:
            distance = one.frame + number
        elif name in ("lt_s", "le_s", "gt_s", "ge_s") and 0 <= number <= LEAST_STACK:
            # the test that the stack has room: here the program's own stack has it
            has_room = int(name[0] == "g")
            self.push(I32, f"{has_room}u", number=has_room)
            return True
        else:
            return False
        self.stack.append(self.at_frame(distance))
        return True

    def get(self, local):
        if local in self.frames:
            self.stack.append(self.at_frame(self.frames[local]))
        else:
            kind, made, bases = self.function.locals[local], self.made_of.get(local), self.bases[local]
            self.push(kind, f"l{local}", frozenset([local]), made=made, is_half=local in self.halves, bases=bases)

    def set(self, local, is_kept):
        value = self.pop()
        self.stack = [self.keep(it) if local in it.reads else it for it in self.stack]
        if value.text != f"l{local}":
            self.line(f"l{local} = {value.text_of_number()};")
        self.stack = [replace(it, made=None) if it.made and local in it.made.reads else it for it in self.stack]
        self.made_of = {at: it for at, it in self.made_of.items() if at != local and local not in it.reads}
        if value.made and local not in value.made.reads:
            self.made_of[local] = value.made
        self.halves = self.halves - {local} | ({local} if value.is_half else set())
        self.bases[local] = value.bases
        if value.frame is None:
            self.frames.pop(local, None)
        else:
            self.frames[local] = value.frame
        if is_kept:
            self.get(local)

    def constant(self, number):
        if self.module.is_of_data(number):
            self.push(I64, f"DATA({number - self.module.base})")
        else:
            number &= (1 << 64) - 1
            self.push(I64, f"{number}ull", number=number)

    def address(self, value, offset):
        """The text of an address, and how a function that takes it ends: `_here` where it is in the frame."""
        if value.frame is not None and offset < self.module.base:
            return "_here", f"<{-self.at_frame(value.frame + offset).frame}>"
        if self.module.is_of_data(offset):
            offset = f"DATA({offset - self.module.base})"
        elif offset:
            offset = f"{offset}u"
        if not offset:
            return "", value.text_of_number()
        return "", f"{value.operand()} + {offset}"

    def load(self, code, offset):
        kind, name = LOADS[code]
        where, text = self.address(self.pop(), offset)
        self.push(
            kind,
            f"{name}{where}({'' if where else 'GIVES '}{text})",
            reads=frozenset(["memory"]),
            is_one=not name.startswith("("),
            bases=frozenset([ANY]),
        )
        # a store that follows could change it
        self.stack[-1] = self.keep(self.stack[-1])

    def store(self, code, offset):
        bits = STORES[code]
        self.store_text(bits, f"(u{bits}){self.pop().operand()}", offset)

    def store_text(self, bits, number, offset):
        address = self.pop()
        where, text = self.address(address, offset)
        self.line(f"store{bits}{where}({'' if where else 'GIVES '}{text}, {number});")
        self.store_to(address.bases)

    def store_to(self, bases):
        """Something is stored to an address of these. What a caller passes lies in no frame of this function."""
        bases = bases or frozenset([ANY])
        self.stored_to |= bases
        self.stores[0] += bases != {FRAME}
        self.stores[1] += ANY in bases or FRAME in bases

    # Lanes

    def is_known(self, made):
        """Whether it is known how a byte is made: what was loaded has not changed since."""
        return made is not None and made.stores == self.stamp(made.stores)

    def byte_of(self, value, n):
        """A byte of a value, in a variable, if it is known how that byte is made."""
        made = value.made
        if self.is_known(made) and n not in made.kept and (text := made.byte(n)):
            made.kept[n] = self.keep(Value(I32, text)).text
        return made and made.kept.get(n)

    def lanes_of_number(self, number):
        low, high = (int.from_bytes(number[at : at + 8], "little") for at in (0, 8))
        made = Made(lambda n: f"{number[n]}u", frozenset(), (None, None))
        self.push(V128, f"pair({low:#x}, {high:#x})", made=made, is_half=max(low, high) < 1 << 32)

    def lanes(self, code, lane):
        given, made, text = LANES[code]
        values = [self.pop() for _ in given][::-1]
        name = text.partition("(")[0]
        if "lane8(" in text and made == I32 and (byte := self.byte_of(values[0], lane)):
            self.push(I32, byte if "(s8)" not in text else f"(u32)(s32)(s8){byte}", is_one="(s8)" not in text)
            return
        if made != V128 and (number := self.of_bytes(values[0], text, lane)):
            self.push(made, number, is_one=False)
            return
        if name in ("splat32", "with_lane32"):
            self.put_lanes(name, values, lane)
            return
        if name == "mul64" and all(value.is_half for value in values):
            text = text.replace("mul64", "mul_halves64")
        reads = frozenset().union(*(value.reads for value in values))
        texts = [value.text if value.kind == V128 else value.operand() for value in values]
        is_half = (
            name in ("extend_low_u64", "extend_high_u64")
            or name == "and_64"
            and any(value.is_half for value in values)
            or name == "shr_u64"
            and (values[1].number or 0) % 64 >= 32
        )
        is_one, bases = not text.startswith("("), frozenset([ANY])
        self.push(made, text.format(*texts, n=lane), reads, is_one=is_one, is_half=is_half, bases=bases)
        if made == V128:
            self.stack[-1].made = self.made_by(name, values)
        if "lane32(" in text and made == I32:
            self.stack[-1].part = (values[0].text, lane, 1)

    def of_bytes(self, value, text, lane):
        """A lane by its bytes, if it is known how they are made, and all but two are zeros."""
        found = WIDE_LANE.match(text)
        if not found or not self.is_known(value.made):
            return None
        size = int(found[2]) // 8
        texts = [value.made.text_of(lane * size + n) for n in range(size)]
        wanted = [n for n, byte in enumerate(texts) if byte != "0u"]
        if not all(texts) or len(wanted) > 2:
            return None
        numbers = [f"({found[1]}){self.byte_of(value, lane * size + n)} << {8 * n}" for n in wanted]
        return " | ".join(numbers) or f"({found[1]})0"

    def put_lanes(self, name, values, lane):
        """Four lanes, or one in place of another, as values by themselves where they are."""
        number = self.keep(values[-1]) if name == "splat32" and not MADE.match(values[-1].text) else values[-1]
        if name == "splat32":
            four = (number,) * 4
        elif values[0].four:
            four = (*values[0].four[:lane], number, *values[0].four[lane + 1 :])
        else:
            text = f"with_lane32({values[0].text}, {lane}, {number.text_of_number()})"
            self.push(V128, text, values[0].reads | number.reads)
            return
        parts = {(part := value.part)[:1] + part[2:] for value in four if value.part}
        if len(parts) == 1 and [value.part[1] for value in four if value.part] == [0, 1, 2, 3]:
            [(text, divisor)] = parts
            text = f"DIVIDED32({text}, {divisor}u)"
        else:
            text = f"four({', '.join(value.text_of_number() for value in four)})"
        self.push(V128, text, frozenset().union(*(value.reads for value in four)), four=four)

    def made_by(self, name, values):
        """How the bytes of an operation are made, if those of its operands are known."""
        rule = BYTE_RULES.get(name)
        if rule is None or not all(self.is_known(value.made) for value in values):
            return None
        operands = [value.made.texts() for value in values]

        def byte(n):
            used = [operand(at) for operand, at in zip(operands, rule[0](n))]
            text = None if None in used else rule[1](n, *used)
            return text if text and len(text) < LONGEST_BYTE else None

        return self.made_of_all(byte, [value.made for value in values])

    def made_of_all(self, byte, made):
        """How bytes are made of those of others."""
        reads = frozenset().union(*(it.reads for it in made))
        stores = tuple(None if all(it.stores[n] is None for it in made) else 0 for n in (0, 1))
        return Made(byte, reads, self.stamp(stores))

    def shuffle(self, order):
        """Lanes of two values, as wide ones as have one place."""
        two, one = self.pop(), self.pop()
        for bits in (64, 32, 16, 8):
            size = bits // 8
            firsts = [order[at] for at in range(0, 16, size)]
            if all(first % size == 0 for first in firsts) and bytes(n + k for n in firsts for k in range(size)) == order:
                break
        low, high = (int.from_bytes(order[at : at + 8], "little") for at in (0, 8))
        numbers = ", ".join(str(first // size) for first in firsts)
        self.push(V128, f"SHUFFLE({bits}, {one.text}, {two.text}, {low:#x}, {high:#x}, {numbers})", one.reads | two.reads)
        if self.is_known(one.made) and self.is_known(two.made):
            texts = one.made.texts(), two.made.texts()
            made = [one.made, two.made]
            self.stack[-1].made = self.made_of_all(lambda n: texts[order[n] // 16](order[n] % 16), made)

    def load_lanes(self, code, offset):
        address = self.pop()
        where, text = self.address(address, offset)
        loaded = f"{LOADED[code]}{where}({'' if where else 'GIVES '}{text})"
        if code == LOAD_32_ZERO:
            number = self.keep(Value(I32, loaded))
            self.push(V128, f"four({number.text}, 0, 0, 0)", four=(number, *[Value(I32, "0u", number=0)] * 3))
            return
        self.push(V128, VECTOR_LOADS[code].format(loaded), frozenset(["memory"]))
        if VECTOR_LOADS[code] == "{}":
            at = int(text[1:-1]) if where else 0
            byte = (lambda n: f"load8_here(<{at - n}>)") if where else (lambda n: f"load8(GIVES {text} + {n}u)")
            # what a caller passes lies in no frame of this function
            is_any = ANY in address.bases or not address.bases
            stores = (None if address.bases == {FRAME} else 0, 0 if is_any or FRAME in address.bases else None)
            self.stack[-1].made = Made(lambda n: f"(u32){byte(n)}", address.reads, self.stamp(stores))
        self.stack[-1] = self.keep(self.stack[-1])

    def load_lane(self, code, offset, lane):
        bits, value = LANE_LOADS[code], self.pop()
        where, text = self.address(self.pop(), offset)
        loaded = self.keep(Value(I64 if bits == 64 else I32, f"load{bits}{where}({'' if where else 'GIVES '}{text})"))
        if bits == 32:
            self.put_lanes("with_lane32", [value, loaded], lane)
        else:
            self.push(V128, f"with_lane{bits}({value.text}, {lane}, (u{bits}){loaded.text})", value.reads)

    def store_lane(self, code, offset, lane, at):
        bits, value = LANE_STORES[code], self.pop()
        if bits == 8:
            # what is stored by the instructions that follow, before a store changes what it is made of
            for next_lane in self.lanes_stored(at):
                self.byte_of(value, next_lane)
        byte = self.byte_of(value, lane) if bits == 8 else None
        self.store_text(bits, f"(u8){byte}" if byte else f"lane{bits}({value.text}, {lane})", offset)

    def lanes_stored(self, at):
        """The lanes that instructions store from there on."""
        found = []
        while (code := self.function.body[at][0]) in (GET, CONST_64, *LANE_STORES):
            found += [self.function.body[at][1][1]] if code in LANE_STORES else []
            at += 1
        return found

    def branch_if(self, depth):
        value = self.pop()
        if value.number == 0:
            return
        statements = self.branch(depth)
        if value.number is not None:
            self.line(statements)
            self.is_dead = True
            return
        self.line(
            f"if ({value.condition()}) {{ {statements} }}" if "; " in statements else f"if ({value.condition()}) {statements}"
        )

    def branch_by_table(self, depths):
        value = self.pop()
        self.line(f"switch ({value.text_of_number()}) {{")
        for number, depth in enumerate(depths[:-1]):
            self.line(f"    case {number}: {self.branch(depth)}")
        self.line(f"    default: {self.branch(depths[-1])}")
        self.line("}")
        self.is_dead = True

    def call(self, number):
        function = self.module.functions[number]
        if function.body == ENTER:
            self.push(I32, "0u", number=0)
            return
        if function.body == LEAVE:
            return
        self.called.add(number)
        given = [self.pop() for _ in function.parameters][::-1]
        for base in self.stores_of(number):
            self.store_to(frozenset([ANY]) if base == ANY else given[base].bases)
        words = ", ".join(value.text_of_number() for value in given)
        text = f"f{number}({'GIVES ' if words else 'GIVES0'}{words})"
        if not function.results:
            self.line(f"{text};")
            return
        name = self.variable(function.results[0])
        self.line(f"{name} = {text};")
        self.push(function.results[0], name, bases=frozenset([ANY]))

    def select(self):
        test, other, one = self.pop(), self.pop(), self.pop()
        reads = test.reads | other.reads | one.reads
        if test.is_test or len(test.tests) > 1:
            condition = f"({test.condition()})"
        else:
            condition = test.operand()
        bases = one.bases | other.bases
        self.push(one.kind, f"{condition} ? {one.operand()} : {other.operand()}", reads, is_one=False, bases=bases)

    def copy_or_fill(self, code):
        count, source, to = self.pop(), self.pop(), self.pop()
        self.store_to(to.bases)
        if code == FILL:
            self.line(f"fill(GIVES {to.text_of_number()}, (int){source.operand()}, {count.text_of_number()});")
        else:
            self.line(f"copy(GIVES {to.text_of_number()}, {source.text_of_number()}, {count.text_of_number()});")


def functions_in_c(module):
    """The functions that the exports reach, in C: their declarations and their texts."""
    done, begun = {}, set()

    def write(number):
        begun.add(number)
        function = InC(module, number, f"f{number}", stores_of)
        done[number] = function, function.text()

    def stores_of(number):
        """The parameters of a function to which it stores, or ANY. One that calls itself may store to each place."""
        if number not in begun:
            write(number)
        return done[number][0].stored_to - {FRAME} if number in done else frozenset([ANY])

    for number in module.exports.values():
        stores_of(number)
    # The stack of what calls itself is there many times: it has nothing of what it calls.
    apart = {number for number, (function, _) in done.items() if number in function.called}
    apart |= {number for caller in apart for number in done[caller][0].called}
    order = sorted(done)
    heads = [f"{'APART ' if number in apart else ''}{done[number][0].head()};" for number in order]
    return heads, [done[number][1] for number in order]
