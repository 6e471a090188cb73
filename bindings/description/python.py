"""The package's declarations of the header, for ctypes."""

import ast
import math
import textwrap

from sources.text import Refused

from .rust import camel

BASES = {"size_t": "SIZE", "uint64_t": "UINT64", "int": "INT", "bool": "BOOL", "void": "None"}
HEAD = '''\
"""What each call of cukvashe_des.h returns and takes, how many words its contexts have, and its structs: made of it by bindings/describe."""

import ctypes
from typing import Any, Dict, Tuple

POINTER, SIZE, UINT64 = ctypes.c_void_p, ctypes.c_size_t, ctypes.c_uint64
INT, BOOL, TEXT = ctypes.c_int, ctypes.c_bool, ctypes.c_char_p
'''


def shown(kind, is_result=False):
    if kind.is_pointer:
        return "TEXT" if is_result else "POINTER"
    if kind.base not in BASES:
        raise Refused(f"the package has no type for '{kind.base}'")
    return BASES[kind.base]


def field(header, kind):
    """The type of a field. A struct of characters within another struct is an array of bytes."""
    if not kind.struct:
        return shown(kind)
    inner = header.structs[kind.struct].fields
    if any(it.type.base not in ("char", "uint8_t") or it.type.is_pointer and not it.type.sizes for it in inner):
        raise Refused(f"the package has no type for a struct like '{kind.base}' within another")
    return f"ctypes.c_uint8 * {sum(math.prod(it.type.sizes) for it in inner)}"


def structs(header):
    """The structs that have pointers, which a call takes."""
    for it in header.structs.values():
        if any(one.type.is_pointer and not one.type.sizes for one in it.fields):
            yield from ["", "", f"class {camel(it.name)}(ctypes.Structure):", "    _fields_ = ["]
            yield from (f'        ("{one.name}", {field(header, one.type)}),' for one in it.fields)
            yield "    ]"


def declarations(header):
    yield HEAD
    yield "CALLS: Dict[str, Tuple[Any, ...]] = {"
    for it in header.calls.values():
        words = [shown(it.result, is_result=True), *(shown(one.type) for one in it.parameters)]
        yield f'    "{it.name}": ({", ".join(words)}{"," if len(words) == 1 else ""}),'
    yield "}"
    yield ""
    yield "WORDS = {"
    yield from (f'    "{name}": {struct.words},' for name, struct in header.structs.items() if struct.words)
    yield "}"
    yield from structs(header)


def imports_of_errors(text):
    """The import of all classes of a text, the errors."""
    yield "from ._faults import ("
    yield from (f"    {name}," for name in sorted(node.name for node in ast.parse(text).body if isinstance(node, ast.ClassDef)))
    yield ")"


def names(text):
    """The names that the package shows: those that its text imports from its own modules."""
    imported = [it.name for node in ast.parse(text).body if isinstance(node, ast.ImportFrom) and node.level == 1 for it in node.names]
    quoted = ", ".join(f'"{name}"' for name in sorted(imported))
    yield "__all__ = ["
    yield from textwrap.wrap(f"{quoted},", 130, initial_indent="    ", subsequent_indent="    ")
    yield "]"
