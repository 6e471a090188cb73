"""The header read by a parser of C (pycparser): its comments, constants, statuses, structs and calls. What it does not know, it refuses."""

import re
from dataclasses import dataclass, field
from functools import cached_property

from pycparser import c_ast, c_parser
from sources.text import Refused

PLACE = "bindings/c/cukvashe_des.h"

# What the headers that this one includes declare, as far as it is taken from them.
PRELUDE = (
    "typedef _Bool bool; typedef unsigned long size_t; typedef unsigned char uint8_t; typedef unsigned uint32_t; typedef unsigned long uint64_t;"
    "typedef unsigned long uintptr_t;"
)

# A conditional of these is for the compiler, and so is what stands within it; of the others only the directives are passed over.
OF_COMPILER = ("#ifdef __cplusplus", "#ifndef CUKVASHE_CHECK")
DIRECTIVE = re.compile(r"#(if|ifdef|ifndef|endif|else|include|pragma GCC visibility)\b")
OF_NOBODY = re.compile(r"#define CUKVASHE_(DES_H|CHECK|VERSION\w*)\b")


@dataclass(frozen=True)
class Type:
    """A type: the name of its base, whether it is a pointer or an array, whether what it points to is constant, and the array's sizes."""

    base: str
    is_pointer: bool = False
    is_const: bool = False
    sizes: tuple = ()

    @property
    def struct(self):
        """The name of a struct of the header's without its prefix, or None."""
        return self.base.removeprefix("cukvashe_") if self.base.startswith("cukvashe_") else None


@dataclass(frozen=True)
class Variable:
    """A parameter of a call, or a field of a struct."""

    name: str
    type: Type


@dataclass(frozen=True)
class Struct:
    name: str
    fields: tuple
    line: int

    @property
    def words(self):
        """The number of words of a context, or None of another struct."""
        is_context = [(it.name, it.type.base) for it in self.fields] == [("words", "uint64_t")]
        return self.fields[0].type.sizes[0] if is_context else None


@dataclass(frozen=True)
class Call:
    """A call by its name without `cukvashe_`: what it returns, its parameters, and whether the compiler warns if its answer is left."""

    name: str
    result: Type
    parameters: tuple
    is_checked: bool
    line: int


@dataclass(frozen=True)
class Constant:
    """A constant by its name without `CUKVASHE_`; `text` is the comment beside it."""

    name: str
    number: int
    text: str
    line: int


@dataclass(frozen=True)
class Piece:
    """A comment, or the code up to the next one: its text as it stands, and its first line."""

    is_comment: bool
    text: str
    line: int

    @property
    def code(self):
        """The lines of code that a reader of the interface looks at."""
        lines = list(without_compiler(self.text, lambda number, line: None))
        return "\n".join(lines).strip("\n").split("\n") if any(lines) else []


@dataclass
class Header:
    text: str
    version: str = ""
    pieces: list = field(default_factory=list)
    constants: list = field(default_factory=list)
    structs: dict = field(default_factory=dict)
    calls: dict = field(default_factory=dict)

    # What follows is asked for once the header is read, and often.
    @cached_property
    def statuses(self):
        """The statuses in the order of their numbers: name without `CUKVASHE_`, number and sentence."""
        return [it for it in self.constants if it.name == "OK" or it.name.startswith("ERR_")]

    @cached_property
    def numbers(self):
        """What each call gives that takes nothing but a number: the size of each struct, and each constant, as C writes it."""
        sizes = {f"{name}_size": ("size_t", f"sizeof(cukvashe_{name})") for name in self.structs}
        constants = [it for it in self.constants if it not in self.statuses]
        named = {it.name.lower(): ("size_t" if it.name.endswith("_SIZE") else "int", f"CUKVASHE_{it.name}") for it in constants}
        return {**sizes, **named}

    @cached_property
    def kinds(self):
        """The names of ciphers and MACs: those of contexts of words that an init makes of a key."""
        return [name for name, struct in self.structs.items() if struct.words and f"{name}_init" in self.calls]

    def number(self, name):
        """The number of a constant."""
        found = [it.number for it in self.constants if it.name == name]
        if len(found) != 1:
            raise Refused(f"{PLACE}: it has {len(found)} constants CUKVASHE_{name}, and not one")
        return found[0]


def pieces_of(text):
    """The pieces of the header. A comment that stands beside code belongs to the code."""
    at, line = 0, 1
    while at < len(text):
        found = re.compile(r"/\*(.*?)\*/[ \t]*\n", re.DOTALL).match(text, at)
        if found:
            lines = found[1].strip("\n").split("\n")
            said = "\n".join(re.sub(r"^ ?\* ?", "", it).rstrip() for it in lines) if len(lines) > 1 else lines[0].strip()
            yield Piece(True, said.strip("\n"), line)
            end = found.end()
        else:
            end = re.compile(r"^/\*", re.MULTILINE).search(text, at)
            end = end.start() if end else len(text)
            yield Piece(False, text[at:end], line)
        line += text.count("\n", at, end)
        at = end


# A line in capitals begins a section. One that is indented stays as it is, and so does one that declares a call, with what follows it.
HEADING = re.compile(r"[A-Z][A-Z0-9 ,()-]+")
DECLARES = re.compile(r"(int|void|bool|const char \*) ?cukvashe_")


def parts_of(comment):
    """The parts of a comment, each with its lines: a heading, a paragraph, or what stays as it is, where empty lines may stand within."""
    parts = []
    for block in comment.split("\n\n"):
        for at, line in enumerate(block.split("\n")):
            kind = "heading" if HEADING.fullmatch(line) else "verbatim" if line[0] == " " or DECLARES.match(line) else "paragraph"
            if parts and parts[-1][0] == kind and (at > 0 or kind == "verbatim"):
                parts[-1][1].extend([""] * (at == 0) + [line])
            else:
                parts.append((kind, [line]))
    return parts


def constants_of(text):
    """The constants of the header, which are macros, and of statuses enumerators, each with the comment beside it, which may go over lines."""
    pattern = re.compile(r"^(?:#define |  )CUKVASHE_(\w+)(?: =)?[ \t]+([^\s,]+),?[ \t]*(?:/\*(.*?)\*/)?[ \t]*$", re.DOTALL | re.MULTILINE)
    for found in pattern.finditer(text):
        name, value, said = found.groups()
        line = text.count("\n", 0, found.start()) + 1
        if name in ("CHECK", "VERSION"):
            continue
        if not value.isdecimal():
            raise Refused(f"{PLACE}:{line}: CUKVASHE_{name} is no number")
        yield Constant(name, int(value), " ".join((said or "").split()), line)


def without_compiler(text, refuse):
    """The lines of code without directives other than constants, and without what is for the compiler alone: empty ones are in their
    places. `refuse` is called for a directive that is not known."""
    hidden = depth = 0
    for number, line in enumerate(text.split("\n"), 1):
        is_kept = not line.startswith("#") or line.startswith("#define CUKVASHE_")
        if not is_kept and not DIRECTIVE.match(line):
            refuse(number, line)
        depth += line.startswith("#if") - line.startswith("#endif")
        if line in OF_COMPILER:
            hidden = depth
        elif depth < hidden:
            hidden = 0
        yield line if is_kept and not hidden and not OF_NOBODY.match(line) else ""


def code_of(text):
    """The header as the parser takes it, each line at its place: without comments and directives, and what is for the compiler alone. The
    macro of the warning is a word of C's that the header does not use."""

    def refuse(number, line):
        raise Refused(f"{PLACE}:{number}: a directive that is not known: {line}")

    text = re.sub(r"/\*.*?\*/", lambda found: "\n" * found[0].count("\n"), text, flags=re.DOTALL)
    kept = ("" if line.startswith("#") else line.replace("CUKVASHE_CHECK", "inline") for line in without_compiler(text, refuse))
    return f'{PRELUDE}\n# 1 "{PLACE}"\n' + "\n".join(kept)


def type_of(node):
    """The type of a declaration."""
    sizes, is_pointer = [], False
    while isinstance(node, (c_ast.ArrayDecl, c_ast.PtrDecl)):
        if is_pointer and not sizes:
            raise Refused(f"{node.coord}: a pointer to a pointer or an array, which no language takes")
        if isinstance(node, c_ast.ArrayDecl):
            if not isinstance(node.dim, c_ast.Constant):
                raise Refused(f"{node.coord}: the size of an array is no number")
            sizes.append(int(node.dim.value))
        is_pointer, node = True, node.type
    if not isinstance(node, c_ast.TypeDecl) or not isinstance(node.type, c_ast.IdentifierType):
        raise Refused(f"{node.coord}: a type that no language takes")
    return Type(" ".join(node.type.names), is_pointer, "const" in node.quals, tuple(sizes))


def call_of(node):
    parameters = node.type.args.params if node.type.args else []
    taken = [Variable(it.name, type_of(it.type)) for it in parameters if not (it.name is None and type_of(it.type) == Type("void"))]
    if not node.name.startswith("cukvashe_") or None in [it.name for it in taken]:
        raise Refused(f"{node.coord}: a call, or an argument, has no name of the library's")
    return Call(node.name.removeprefix("cukvashe_"), type_of(node.type.type), tuple(taken), "inline" in node.funcspec, node.coord.line)


def read(text):
    """The header of a text."""
    found = Header(text)
    version = re.findall(r'^#define CUKVASHE_VERSION "(.*)"$', text, re.MULTILINE)
    if len(version) != 1:
        raise Refused(f"{PLACE}: it does not have its version once")
    found.version = version[0]
    found.pieces = list(pieces_of(text))
    found.constants = list(constants_of(text))
    statuses = []
    try:
        tree = c_parser.CParser().parse(code_of(text), "prelude")
    except c_parser.ParseError as it:
        raise Refused(str(it)) from None
    for node in tree.ext:
        if isinstance(node, c_ast.Typedef) and isinstance(node.type.type, c_ast.Struct):
            fields = tuple(Variable(it.name, type_of(it.type)) for it in node.type.type.decls)
            name = node.name.removeprefix("cukvashe_")
            found.structs[name] = Struct(name, fields, node.type.type.coord.line)
        elif isinstance(node, c_ast.Decl) and isinstance(node.type, c_ast.FuncDecl):
            call = call_of(node)
            if call.name in found.calls:
                raise Refused(f"{node.coord}: {node.name} is declared twice")
            found.calls[call.name] = call
        elif isinstance(node, c_ast.Decl) and isinstance(node.type, c_ast.Enum) and node.type.name == "cukvashe_status":
            statuses = [it.name.removeprefix("CUKVASHE_") for it in node.type.values]
        elif not isinstance(node, c_ast.Typedef) or node.coord.file == PLACE:
            raise Refused(f"{node.coord}: neither a call nor a struct")
    if statuses != [it.name for it in found.statuses]:
        raise Refused(f"{PLACE}: enum cukvashe_status does not have the statuses, each in a line of its own")
    check_statuses(found.statuses)
    check_numbers(found)
    return found


def check_numbers(header):
    """Each struct has a call that gives its size, and each constant one that gives it; the version is that of its three numbers."""
    for name, (kind, number) in header.numbers.items():
        call = header.calls.get(name)
        if call is None or call.parameters or call.result != Type(kind) or call.is_checked:
            raise Refused(f"{PLACE}: it does not have the call '{kind} cukvashe_{name}(void)', which gives {number}")
    numbers = [header.number(f"VERSION_{part}") for part in ("MAJOR", "MINOR", "PATCH")]
    if header.version != ".".join(map(str, numbers)):
        raise Refused(f"{PLACE}: CUKVASHE_VERSION_MAJOR, _MINOR and _PATCH are not those of CUKVASHE_VERSION")


def check_statuses(statuses):
    """Statuses have the numbers from 0 on, and each a sentence that any language can quote."""
    said = set()
    for number, it in enumerate(statuses):
        name = f"{PLACE}:{it.line}: CUKVASHE_{it.name}"
        if it.number != number:
            raise Refused(f"{name} does not have the number after that of the status before it")
        if not re.match(r"[a-z]", it.text) or it.text.endswith("."):
            raise Refused(f"{name} has no sentence, or one with a capital or a full stop")
        if re.search(r'["\\]', it.text):
            raise Refused(f"{name} has a sentence with a quotation mark or a backslash")
        if it.text in said:
            raise Refused(f"{name} has the sentence of another status")
        said.add(it.text)
    if not statuses:
        raise Refused(f"{PLACE}: it has no statuses")


# ---- what the header says of the stack


def listed(text):
    """The names in a list."""
    return [it for it in re.split(r",\s*", " ".join(text.split())) if it]


class Stack:
    """What the section SECRETS ON THE STACK says: which calls wipe, and how much of the stack each uses. Every call has its place there."""

    HEADING = "SECRETS ON THE STACK"

    def __init__(self, header):
        texts = [it.text for it in header.pieces if it.is_comment and f"\n{self.HEADING}\n" in it.text]
        if len(texts) != 1:
            raise Refused(f"{PLACE}: it has {len(texts)} sections {self.HEADING}, and not one")
        section = re.split(r"\n\n(?=[A-Z ]+\n\n)", texts[0].split(f"\n{self.HEADING}\n")[1])[0]
        lists = [it for it in section.split("\n\n") if it.lstrip("\n").startswith("    ")]
        if len(lists) != 3:
            raise Refused(f"{PLACE}: {self.HEADING} has {len(lists)} lists, and not one of arguments, one of calls, and one of sizes")
        self.secrets, others = listed(lists[0]), listed(lists[1])
        row = re.compile(r"^ +([\d,]+)   +(.*(?:\n {12,}.*)*)\n?", re.MULTILINE)
        self.sizes = [(int(size.replace(",", "")), listed(names)) for size, names in row.findall(lists[2])]
        if row.sub("", lists[2]).strip():
            raise Refused(f"{PLACE}: {self.HEADING} has sizes that can't be read")
        self.header = header
        self._check(others)

    def _check(self, others):
        calls = self.header.calls.values()
        names = {it.name for call in calls for it in call.parameters}
        for name in self.secrets:
            if name not in names:
                raise Refused(f"{PLACE}: {self.HEADING} has '{name}', which is no argument of a call")
        without = [it.name for it in calls if it.parameters and not self.wipes(it) and not self._takes_context(it)]
        if differing := set(without) ^ set(others):
            raise Refused(f"{PLACE}: {self.HEADING} and the calls differ in who is given no secret: {', '.join(sorted(differing))}")
        named = [name for _, names in self.sizes[1:] for name in names]
        for name in named:
            if name not in map(self._named, calls):
                raise Refused(f"{PLACE}: {self.HEADING} has a size of '{name}', which is that of no call")

    def _takes_context(self, call):
        return any(self.header.structs[it.type.struct].words for it in call.parameters if it.type.struct)

    def _named(self, call):
        """By which name, or end or beginning of one, the call has its size: the longest one that fits, or None."""
        named = [it for _, names in self.sizes[1:] for it in names]
        fitting = [
            it
            for it in named
            if it == call.name or it[0] == "_" and call.name.endswith(it) or it[-1] == "_" and call.name.startswith(it)
        ]
        return max(fitting, key=len, default=None)

    def wipes(self, call):
        return any(it.name in self.secrets for it in call.parameters)

    def limit(self, call):
        """The bytes of the stack that a call uses at most."""
        name = self._named(call)
        return next((size for size, names in self.sizes[1:] if name in names), self.sizes[0][0])
