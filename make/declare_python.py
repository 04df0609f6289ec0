"""The structures of the Python package, and the calls that its tests make of the shared library, of the description."""

from declare_c import NUMBERS
from shared.interface import CONSTANTS, HEAD, WIDTH, quoted, type_of, wrapped

# The type of ctypes whose name is not that of C without its end.
SHORT = {"usize": "size_t"}

# How the layout is compared when the module is read.
LAID_OUT = '''
def laid_out(structure, size, /, **places):
    """Stops if the size of a structure or the place of a field is not that of the library."""
    found = {name: getattr(structure, name).offset for name in places}
    if (ctypes.sizeof(structure), found) != (size, places):
        raise ImportError(f"{structure.__name__} is not laid out as the library has it: {found}")
'''

DECLARE = '''\
def declare(library):
    """Gives each call of the loaded library its types, and what it says."""
    for name, (parameters, result, doc) in CALLS.items():
        call = getattr(library, name)
        call.argtypes = parameters
        call.restype = result
        call.__doc__ = doc
    return library
'''


def docstring(text, indent):
    if len(indent) + len(text) + 6 <= WIDTH:
        return [f'{indent}"""{text}"""']
    lines = wrapped(text, f'{indent}"""', indent, WIDTH - 3)
    return lines[:-1] + [lines[-1] + '"""']


class Module:
    """The lines of the module."""

    def __init__(self, interface):
        self.interface = interface

    def type_of(self, kind):
        """A type, as ctypes calls it."""
        kind = type_of(self.interface, kind)
        return f"ctypes.c_{SHORT.get(kind) or NUMBERS[kind][:-2]}" if kind in NUMBERS else str(kind)

    def constants(self):
        version = self.interface["version"]
        groups = [{version["name"]: version}, *(self.interface[group] for group in CONSTANTS)]
        made = []
        for name, one in [pair for group in groups for pair in group.items()]:
            made += [*wrapped(one["doc"], "# ", "# "), f"{name} = {one['number']}", ""]
        return made

    def structs(self):
        made = []
        for name, struct in self.interface["structs"].items():
            made += ["", f"class {name}(ctypes.Structure):", *docstring(struct["doc"], "    "), "", "    _fields_ = ["]
            for field in struct["fields"]:
                made += wrapped(field["doc"], "        # ", "        # ")
                made.append(f'        ("{field["name"]}", {self.type_of(field["type"])}),')
            places = "".join(f", {field['name']}={field['offset']}" for field in struct["fields"])
            made += ["    ]", "", "", f"laid_out({name}, {struct['size']}{places})", ""]
        return made

    def parameter(self, one):
        if one["role"] in ("in", "count"):
            return self.type_of(one["type"])
        return f"ctypes.POINTER({self.type_of(one['type'])})" if one["role"] == "out" else "ctypes.c_void_p"

    def calls(self):
        made = ["", "# The calls: what each takes, what it returns, and what it says. Items go as an address and their count."]
        made.append("CALLS = {")
        for name, call in self.interface["calls"].items():
            words = ", ".join(self.parameter(one) for one in call["parameters"])
            made += [f'    "{name}": (', f"        [{words}],", f"        {self.type_of(call['result'])},"]
            made += [f"        {quoted(call['doc'])},", "    ),"]
        return [*made, "}", "", ""]


def write_structures(interface):
    """The structures, which the package has."""
    made = [
        '"""The structures of the library, as ctypes has them.',
        "",
        HEAD[1],
        '"""',
        "",
        "import ctypes",
        "",
        *LAID_OUT.split("\n"),
    ]
    return "\n".join([*made, *Module(interface).structs()])


def write_calls(interface):
    """The calls and the constants, which tests have."""
    module = Module(interface)
    made = ['"""The calls of the shared library for tests, through ctypes.', "", HEAD[1], '"""', "", "import ctypes", ""]
    made += ["from muxandu._structures import (", *(f"    {name}," for name in sorted(interface["structs"])), ")", ""]
    return "\n".join([*made, *module.constants(), *module.calls(), DECLARE])
