"""The library in one file of C: the functions of packages/c/muxandu.wasm by `wasm_in_c`, and the calls of the header over them."""

import hashlib
import os
import shutil
from pathlib import Path

from declare_c import declaration
from shared import interface
from shared.interface import ROOT, type_of
from wasm_in_c import Failed, Module, functions_in_c

MODULE = ROOT / "packages" / "c" / "muxandu.wasm"
HEAD = Path(__file__).with_name("one_file_head.c")
HEADERS = ("muxandu.h", "muxandu_time.h", "muxandu_arrow.h")

# How C has a number of the interface, and how `one_file_head.c` has its bytes.
NUMBERS = {
    "i8": ("int8_t", "1"),
    "u8": ("uint8_t", "1"),
    "u16": ("uint16_t", "2"),
    "i32": ("int32_t", "4"),
    "u32": ("uint32_t", "4"),
    "i64": ("int64_t", "8"),
    "usize": ("size_t", "SIZE"),
}
WIDE = ("i64", "usize")
LONGEST_LINE = 120

BANNER = """\
/* SPDX-License-Identifier: MIT OR Apache-2.0
 *
 * The library in one file of C99 or C++11: compile it, and include muxandu.h. Version {version}.
 * Made by make/one_c_file of packages/c/muxandu.wasm, whose SHA-256 is
 * {proved}.
 * `rt` built that module of the proved sources. In a clone of the repository, `make/module check` compares its sum with theirs, and
 * make/one_c_file writes this file again, byte by byte. No proof covers how the module became C: tests compare the two.
 * A call takes no memory but its stack, shares nothing with other calls, and works on the memory that you pass.
 */
"""


def array(values, before="    "):
    """Numbers with commas, in lines."""
    lines, line = [], before
    for value in values:
        if len(line) + len(value) + 2 > LONGEST_LINE:
            lines.append(line.rstrip())
            line = before
        line += f"{value}, "
    return "\n".join([*lines, line.rstrip()])


def data_in_c(module):
    """The data of the module: runs of bytes, and pointers to other places of the data."""
    runs, begin = [], 0
    for at in [*module.pointers(), len(module.data)]:
        if at > begin:
            runs.append(("bytes", begin, at))
        if at < len(module.data):
            runs.append(("pointer", at, int.from_bytes(module.data[at : at + 8], "little") - module.base))
        begin = at + 8
    fields, values = [], []
    for kind, at, end in runs:
        if kind == "bytes":
            fields.append(f"    u8 bytes_{at}[{end - at}];")
            values.append(f"    RUN(\n{array((str(byte) for byte in module.data[at:end]), ' ' * 8).rstrip(',')})")
        else:
            fields.append(f"    const u8 *to_{at};")
            values.append(f"    TO({end})")
    size = (len(module.data) + 7) // 8 * 8
    return f"""\
#if !MUXANDU_BY_BYTES
#define RUN(...) {{__VA_ARGS__}},
#define TO(place) (const u8 *)&data + place,
typedef struct {{
{chr(10).join(fields)}
}} Data;
typedef char data_have_no_gaps[sizeof(Data) == {size} ? 1 : -1];
static const Data data = {{
#else
#define RUN(...) __VA_ARGS__,
#define TO(place) (place) & 255, (place) >> 8, 0, 0, 0, 0, 0, 15,
static const u8 data[] = {{
#endif
{chr(10).join(values)}
}};
"""


class Calls:
    """The calls of the header over the functions of the module."""

    def __init__(self, described, module):
        self.described, self.module = described, module
        self.kinds, self.parts = {}, 0

    def kind_of(self, kind):
        return type_of(self.described, kind)

    def part(self, kind, at):
        """An address of numbers or structs, which is a part of what the caller passes."""
        self.kinds[kind] = None
        self.parts += 1
        return f"PART({self.parts}, {kind}, {at})"

    def argument(self, one):
        """What the function of the module takes for a parameter."""
        own, role, kind = one["name"], one["role"], self.kind_of(one["type"])
        if role in ("in", "count") and kind in NUMBERS:
            return f"({'u64' if kind in WIDE else 'u32'}){own}"
        if role in ("text", "room"):
            return f"ADDRESS({own})"
        return self.part(kind, f"&{own}" if role == "in" else own)

    def call(self, name, call):
        result = self.kind_of(call["result"])
        own = call["result"] if call["result"] in self.described["numbers"] or result not in NUMBERS else NUMBERS[result][0]
        self.parts = 0
        given = [] if result in NUMBERS else [self.part(result, "&own_result")]
        given += [self.argument(one) for one in call["parameters"]]
        if name not in self.module.exports:
            raise Failed(f"the module has no {name}: make/module write")
        inner = f"f{self.module.exports[name]}({'GIVES ' if given else 'GIVES0'}{', '.join(given)})"
        lines = ["PARTS"]
        if result in NUMBERS:
            lines.append(f"return ({own}){inner};")
        else:
            lines += [f"{own} own_result;", f"{inner};", "return own_result;"]
        head = "\n".join(declaration(name, call)).rstrip(";")
        return head + " {\n" + "".join(f"    {line}\n" for line in lines) + "}\n"

    def kind_in_c(self, kind):
        """Where the bytes of an item are, for processors that need it."""
        if kind in NUMBERS:
            c, size = NUMBERS[kind]
            return f"static const u8 kind_{kind}[] = {{{8 if size == 'SIZE' else size}, sizeof({c}), BYTES_{size}(0)}};"
        struct, at, words = self.described["structs"][kind], 0, []
        for one in struct["fields"]:
            size = NUMBERS[self.kind_of(one["type"])][1]
            words += ["255"] * (one["offset"] - at) + [f"BYTES_{size}(offsetof({kind}, {one['name']}))"]
            at = one["offset"] + (8 if size == "SIZE" else int(size))
        words += ["255"] * (struct["size"] - at)
        return f"static const u8 kind_{kind}[] = {{\n{array([str(struct['size']), f'sizeof({kind})', *words])}\n}};"

    def text(self):
        calls = [self.call(name, call) for name, call in self.described["calls"].items()]
        kinds = "\n".join(self.kind_in_c(kind) for kind in sorted(self.kinds))
        return "\n".join(["#if MUXANDU_BY_BYTES", kinds, "#endif", "", *calls])


def text_of_file():
    """The text of muxandu.c."""
    if not MODULE.exists():
        raise Failed(f"{MODULE} is not there: make/module write")
    proved = MODULE.read_bytes()
    described, module = interface.read(), Module(proved)
    banner = BANNER.format(version=described["version"]["text"], proved=hashlib.sha256(proved).hexdigest())
    head = HEAD.read_text(encoding="utf-8")
    # the data come after the types that they are of, and before what reads them
    types, found, rest = head.partition("#if !MUXANDU_BY_BYTES\n\n#define GIVEN void")
    if not found:
        raise Failed("one_file_head.c has another form")
    declarations, functions = functions_in_c(module)
    parts = [
        banner + types,
        data_in_c(module),
        found + rest,
        "\n".join(declarations) + "\n",
        *functions,
        Calls(described, module).text(),
    ]
    return "\n".join(parts)


def write_all(folder):
    """Writes muxandu.c and the headers into a folder, each whole."""
    text = text_of_file()
    folder.mkdir(parents=True, exist_ok=True)
    for name in HEADERS:
        shutil.copy(ROOT / "packages" / "c" / name, folder)
    (folder / "muxandu.c.new").write_text(text, encoding="utf-8")
    os.replace(folder / "muxandu.c.new", folder / "muxandu.c")
