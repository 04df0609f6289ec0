"""The declarations for Rust, which tests have as their module muxandu_sys, of the description of the interface."""

from shared.interface import CONSTANTS, HEAD, duties, type_of, variants_of, wrapped

# How a parameter of each role is declared. A call with one whose role is not here is unsafe.
SAFE = {"in": "{kind}", "out": "&mut {kind}"}
UNSAFE = {
    "items in": "*const {kind}",
    "text": "*const {kind}",
    "items out": "*mut {kind}",
    "room": "*mut {kind}",
    "count": "usize",
}

# The calls that the crate has as a table; its tests compare the two.
UNUSED = ("muxandu_status_name", "muxandu_status_text")


def doc_comment(doc, indent=""):
    return wrapped(doc, f"{indent}/// ", f"{indent}/// ")


def numbers(interface):
    made = ["/// Nothing is refused.", "pub const OK: u32 = 0;"]
    for name in interface["enums"]:
        for one in variants_of(interface, name):
            made += [*doc_comment(one["doc"]), f"pub const {one['constant']}: u32 = {one['number']};"]
        made.append("")
    groups = [{interface["version"]["name"]: interface["version"]}, *(interface[group] for group in CONSTANTS)]
    for name, one in [pair for group in groups for pair in group.items()]:
        made += [*doc_comment(one["doc"]), "#[allow(dead_code)]", f"pub const {name}: {one['type']} = {one['number']};", ""]
    return made


def structs(interface):
    made = []
    for name, struct in interface["structs"].items():
        made += [*doc_comment(struct["doc"]), "#[repr(C)]", "#[derive(Clone, Copy, Debug, Default, PartialEq, Eq)]"]
        made.append(f"pub struct {name} {{")
        for field in struct["fields"]:
            made += [*doc_comment(field["doc"], "    "), f"    pub {field['name']}: {type_of(interface, field['type'])},"]
        made += ["}", "", f"const _: () = assert!(size_of::<{name}>() == {struct['size']});"]
        for field in struct["fields"]:
            place = f"core::mem::offset_of!({name}, {field['name']})"
            made.append(f"const _: () = assert!({place} == {field['offset']});")
        made.append("")
    return made


def calls(interface):
    made = ['unsafe extern "C" {']
    for name, call in interface["calls"].items():
        forms = {**SAFE, **UNSAFE}
        words = [
            f"{one['name']}: {forms[one['role']].format(kind=type_of(interface, one['type']))}" for one in call["parameters"]
        ]
        safety = "safe" if all(one["role"] in SAFE for one in call["parameters"]) else "unsafe"
        result = f" -> {type_of(interface, call['result'])}" if call["result"] else ""
        made += [*doc_comment(call["doc"], "    "), *(["    #[allow(dead_code)]"] if name in UNUSED else [])]
        made.append(f"    pub {safety} fn {name}({', '.join(words)}){result};")
    return [*made, "}", ""]


def write_rust(interface):
    told = "\n".join(duties()).replace("\nA field", "\n\nA field").split("\n")
    made = [*(f"//! {line}" for line in HEAD), "//!", *(f"//! {line}".rstrip() for line in told), ""]
    return "\n".join([*made, *numbers(interface), *structs(interface), *calls(interface)])
