"""The proved exports of crates/des_c, as its sources declare them and as C passes what they take."""

import re

from sources.rattle import Crate
from sources.text import Refused

# How C passes what the exports take: a slice is a pointer and a number of elements, and a slice of slices is a pointer to such pairs.
NUMBERS = {"u8": "uint8_t", "u32": "uint32_t", "u64": "uint64_t", "i32": "int", "usize": "size_t", "bool": "bool"}
STRUCTS = {
    "HeaderText": "cukvashe_key_block_fields *{}",
    "TableText": "cukvashe_decimal_table *{}",
    "Terminal": "cukvashe_dukpt_terminal *{}",
    "MessageState": "uint64_t {}[4]",
    "Stream": "cukvashe_stream *{}",
}


def passed(name, kind):
    """The arguments of C for one of an export's."""
    if kind in NUMBERS:
        return [f"{NUMBERS[kind]} {name}"]
    found = re.fullmatch(r"&(mut )?(.+)", kind)
    if not found:
        raise Refused(f"crates/des_c: how C passes '{kind}' is not known")
    const, inner = "" if found[1] else "const ", found[2]
    if inner in STRUCTS:
        return [const + STRUCTS[inner].format(name)]
    if inner in NUMBERS:
        return [f"{const}{NUMBERS[inner]} *{name}"]
    if sized := re.fullmatch(r"\[(\w+); (\d+)\]", inner):
        return [f"{const}{NUMBERS[sized[1]]} {name}[{sized[2]}]"]
    element = inner[1:-1]
    if element == "&[u8]":
        return [f"{const}cukvashe_message *{name}", f"size_t {name}_count"]
    element = re.sub(r"\[(\w+); \d+\]", r"\1", element)
    if inner[:1] != "[" or element not in NUMBERS:
        raise Refused(f"crates/des_c: how C passes '{kind}' is not known")
    return [f"{const}{NUMBERS[element]} *{name}", f"size_t {name}_count"]


def shape(argument):
    """What a caller has to know of an argument of C, without its name: int and uint32_t are passed alike, and char and uint8_t."""
    const, kind, pointer, size = re.fullmatch(r"(const )?(\w+) (\*?)\w+(\[\d+\])?", argument).groups()
    return bool(const), {"int": "uint32_t", "char": "uint8_t"}.get(kind, kind), pointer, size


def written(kind, name):
    """A type and a name as C declares them."""
    const = "const " if kind.is_const else ""
    sizes = "".join(f"[{size}]" for size in kind.sizes)
    return f"{const}{kind.base} {'*' if kind.is_pointer and not sizes else ''}{name}{sizes}".strip()


class Export:
    """A proved export: its name without `cukvashe_`, what it returns, its arguments by name and kind, and as C passes them, what it requires,
    and whether it is made for both widths of vectors."""

    def __init__(self, item, module):
        found = re.fullmatch(r"\((.*?),? ?\)(?: -> (\w+))?", item.head)
        self.pairs = [it.split(": ", 1) for it in re.split(r", (?=\w+: )", found[1].strip())]
        self.name = item.name.removeprefix("cukvashe_")
        self.result = NUMBERS[found[2]] if found[2] else "void"
        self.arguments = [it for name, kind in self.pairs for it in passed(name, kind)]
        self.required = {it for clause in item.clauses if clause.kind == "requires" for it in clause.said.split(" × ")}
        self.is_wide = module.split("::")[0] == "lists"


def exports():
    """The exports of des_c by their names."""
    crate = Crate("des_c")
    found = [Export(it, path) for path, module in crate.modules.items() for it in module.items if it.kind == "fn" and it.is_public]
    return {it.name: it for it in found}
