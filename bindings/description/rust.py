"""The crate's declarations of the header."""

from sources.text import Refused

BASES = {"uint8_t": "u8", "uint64_t": "u64", "size_t": "usize", "int": "c_int", "bool": "bool", "void": "c_void"}
HEAD = """\
//! The declarations of `cukvashe_des.h`: made of it by `bindings/describe`.
// All are here, also those that no call of this crate takes.
#![allow(dead_code)]

use super::Context;
use core::ffi::{c_char, c_int, c_void};
"""


def camel(name):
    return "".join(word.capitalize() for word in name.split("_"))


def base(kind):
    """The name of a type without pointers. A text is characters if its length stands beside it, and bytes if it has a size."""
    if kind.struct:
        return camel(kind.struct)
    if kind.base == "char":
        return "c_char" if kind.is_pointer and not kind.sizes else "u8"
    if kind.base not in BASES:
        raise Refused(f"the crate has no type for '{kind.base}'")
    return BASES[kind.base]


def array(kind):
    shown = base(kind)
    for size in reversed(kind.sizes):
        shown = f"[{shown}; {size}]"
    return shown


def argument(kind):
    return f"*{'const' if kind.is_const else 'mut'} {array(kind)}" if kind.is_pointer else base(kind)


def declared(struct, is_secret):
    """A struct, or the name of a context. What is wiped is no copy of bytes."""
    name = camel(struct.name)
    if struct.words:
        return f"pub type {name} = Context<{struct.words}>;\n"
    fields = "".join(f"    pub {it.name}: {array(it.type) if it.type.sizes else argument(it.type)},\n" for it in struct.fields)
    copied = "" if is_secret else "#[derive(Clone, Copy)]\n"
    return f"\n#[repr(C)]\n{copied}pub struct {name} {{\n{fields}}}\n"


def call(it):
    arguments = [f"{one.name}: {argument(one.type)}" for one in it.parameters]
    result = "" if it.result.base == "void" else f" -> {argument(it.result)}"
    line = f"    pub fn cukvashe_{it.name}({', '.join(arguments)}){result};\n"
    if len(line) <= 121:
        return line
    return f"    pub fn cukvashe_{it.name}(\n" + "".join(f"        {one},\n" for one in arguments) + f"    ){result};\n"


def declarations(header, stack):
    methods = [it for it in header.constants if it not in header.statuses and not it.name.endswith("_SIZE")]
    numbers = "".join(f"pub const {it.name}: c_int = {it.number};\n" for it in methods)
    secret = {one.type.struct for it in header.calls.values() for one in it.parameters if one.name in stack.secrets}
    structs = sorted(header.structs.values(), key=lambda it: it.words is None)
    types = "".join(declared(it, it.name in secret) for it in structs)
    return f'{HEAD}\n{numbers}\n{types}\nextern "C" {{\n{"".join(map(call, header.calls.values()))}}}\n'
