"""The calls of Python, Rust and JavaScript that are made of the header: each has there a comment of its own, takes keys, texts, bytes and the
word for a response, and writes one array. The first sentences of its comment, before its errors, say in each language what it gives."""

import re
import textwrap
from dataclasses import dataclass

from sources.text import Refused

from .header import PLACE
from .javascript import camel
from .statuses import NO_ERRORS, capitalized, errors, short

# What arguments are called in texts of errors, if that is not `the NAME`.
WHAT = {
    "account": "an account number", "block": "the block of a session", "code": "a response code", "counter": "a transaction counter",
    "cryptogram": "an application cryptogram", "data": "data", "expiry": "an expiry date", "sequence": "a sequence number",
    "serial": "a key serial number", "service": "a service code", "status": "a card status update",
}  # fmt: skip
# Bytes that may be left out.
OPTIONAL = {"emv_response_2.data"}
# What is said of a call in one language alone.
NOTES = {
    "emv_application_cryptogram": {
        "python": "To check one that a card sent call RetailMacDes(session, 2, data).verify(cryptogram), and do not compare by ==.",
        "javascript": "To check one that a card sent call new RetailMacDes(session, 2, data).verify(cryptogram).",
        "rust": "To check one that a card sent, call `verify` of [`RetailMacDes`](crate::mac::RetailMacDes), and do not compare by `==`.",
        "java": "To check one that a card sent, compare them by MessageDigest.isEqual.",
    }
}
# The sizes of a key that goes with its length.
KEY_SIZES = (8, 16, 24)
# Modules of Rust by the beginning of their calls' names: the file, the name of the error, and what their errors say that have a sentence
# for several modules. Calls of no other module stand in the last, whose one error is that of a key's length.
ACCOUNT = "the account number does not have {} to 19 digits"
MODULES = {
    "emv_": ("bindings/rust/src/payment/emv.rs", "EmvError", {"ACCOUNT_LENGTH": ACCOUNT.format(8)}),
    "cvv": ("bindings/rust/src/payment/card_verification.rs", "CvvError", {"ACCOUNT_LENGTH": ACCOUNT.format(12)}),
    "": ("bindings/rust/src/payment.rs", None, {}),
}


@dataclass(frozen=True)
class Argument:
    """What a caller gives: its name, its kind, `key`, `array`, `text`, `bytes` or `response`, and the size of an array or of a key that has
    one, else 0."""

    name: str
    kind: str
    size: int

    @property
    def sizes(self):
        return ", ".join(map(str, [self.size] if self.size else KEY_SIZES))

    @property
    def what(self):
        return WHAT.get(self.name, f"the {self.name}")

    @property
    def fault(self):
        """The error of another length."""
        of_array = "SerialLength" if self.name == "serial" else "BlockLength" if self.size == 8 else "DataLength"
        return {"key": "KeyLength", "array": of_array}.get(self.kind)


class Wrapped:
    """A call that is made: its arguments, what it writes, what is said of it, and its errors in the order of the header."""

    def __init__(self, call, said, stack, statuses):
        self.name, self.said, self.statuses = call.name, said, statuses
        *given, self.written = call.parameters
        self.size, self.is_text = self.written.type.sizes[0], self.written.type.base == "char"
        self.is_secret = self.is_text or self.written.name in stack.secrets
        self.returns_status = call.result.base == "int"
        lengths = {f"{it.name}_length" for it in given} | {"length"}
        self.arguments = [self._argument(it, stack, statuses) for it in given if not (it.type.base == "size_t" and it.name in lengths)]
        by_hand = "no comment of its own, and wrappers by hand"
        if set(statuses) & NO_ERRORS or (not MODULES[rust_module(call.name)[0]][1] and set(statuses) - {"KEY_LENGTH"}):
            raise Refused(f"{PLACE}: cukvashe_{call.name} has an error that wrappers.py has no name for, or none in its module of Rust: {by_hand}")
        for it in self.arguments:
            # What is made wipes its copies of keys and texts, and none of bytes.
            if it.kind == "bytes" and it.name in stack.secrets:
                raise Refused(f"{PLACE}: cukvashe_{call.name} takes the secret '{it.name}' without a size: {by_hand}")

    @staticmethod
    def _argument(it, stack, statuses):
        if it.type.sizes:
            return Argument(it.name, "key" if it.name in stack.secrets else "array", it.type.sizes[0])
        if it.name == "key" and "KEY_LENGTH" in statuses:
            return Argument(it.name, "key", 0)
        return Argument(it.name, {"char": "text", "bool": "response"}.get(it.type.base, "bytes"), 0)

    def is_optional(self, argument):
        return f"{self.name}.{argument.name}" in OPTIONAL

    def sentence(self, language, names):
        """What is said of the call, with its errors by the names of a language, those of lengths that are fixed first."""
        known = {short(it): name for it, name in names}
        found = [it.fault for it in self.arguments if it.fault] + [known[it] for it in self.statuses]
        listed = ", ".join(dict.fromkeys(f"{it}{'Error' * (language == 'python')}" for it in found))
        return " ".join(filter(None, [self.said, self.note(language), f"{listed}." if listed else ""]))

    def note(self, language):
        return NOTES.get(self.name, {}).get(language, "")


def is_plain(call):
    """Whether a call takes bytes and texts, and writes one array at the end."""
    *given, last = call.parameters or [None]
    if last is None or call.result.base not in ("int", "void") or not last.type.sizes or last.type.is_const:
        return False
    are_read = all(it.type.is_const if it.type.is_pointer else it.type.base == "size_t" or it.name == "is_response" for it in given)
    return are_read and all(it.type.base in ("uint8_t", "char", "size_t", "bool") for it in call.parameters)


def wrapped(header, stack, read_errors):
    """The calls that are made, in the order of the header."""
    for comment, code in zip(header.pieces, header.pieces[1:]):
        within = range(code.line, code.line + code.text.count("\n") + 1)
        calls = [it for it in header.calls.values() if it.line in within]
        if comment.is_comment and not code.is_comment and len(calls) == 1 and is_plain(calls[0]):
            texts = [it for it in comment.text.split("\n\n") if not re.fullmatch(r"[A-Z0-9 ,()-]+", it)]
            said = re.split(r"\s*Errors(?: of [\w ,]+)?: ", " ".join(texts[0].split()))[0]
            yield Wrapped(calls[0], said, stack, [it.status for it in read_errors.by_name.get(calls[0].name, [])])


# ---- Python


def python_with(managers, body):
    """Lines that hold what is wiped, and the body within them."""
    lines, indent = [], "    "
    for it in managers:
        if lines and len(lines[-1]) + len(it) < 120:
            lines[-1] = f"{lines[-1][:-1]}, {it}:"
        else:
            lines.append(f"{indent}with {it}:")
            indent += "    "
    return [*lines, *(f"{indent}{it}" for it in body)]


def python_call(it, names):
    types = {"text": "Text", "response": "bool = False"}
    ends = [' = b""' if it.is_optional(one) else "" for one in it.arguments]
    given = ", ".join(f"{one.name}: {types.get(one.kind, 'ReadableBuffer')}{end}" for one, end in zip(it.arguments, ends))
    yield from ["", "", f"def {it.name}({given}) -> {'str' if it.is_text else 'bytes'}:"]
    yield from (f"    {line}" for line in textwrap.wrap(f'"""{it.sentence("python", names)}"""', 126, break_on_hyphens=False))
    managers, words = [], []
    for one in it.arguments:
        if one.kind in ("key", "text"):
            copied = f"key_of({one.name}, {one.sizes})" if one.kind == "key" else f"text_of({one.name})"
            managers.append(f"{copied} as copied_{one.name}")
            words.append(f"copied_{one.name}" if one.kind == "key" else f"*copied_{one.name}")
            words += [f"len(copied_{one.name})"] * (one.kind == "key" and not one.size)
        elif one.kind == "array":
            yield f'    taken_{one.name} = data_of({one.name}, {one.size}, "{one.what} has", {one.fault}Error)'
            words.append(f"taken_{one.name}")
        elif one.kind == "response":
            yield f"    taken_{one.name} = response_of({one.name})"
            words.append(f"taken_{one.name}")
        else:
            yield f"    taken_{one.name} = bytes_of({one.name})"
            words += [f"taken_{one.name}", f"len(taken_{one.name})"]
    yield f"    made = buffer_of({it.size})"
    made = f"_{it.name}({', '.join([*words, 'made'])})"
    yield from python_with(managers, [f"check({made})" if it.returns_status else made])
    yield f"    return {'text_from(made)' if it.is_text else 'bytes_from(made)' if it.is_secret else 'bytes(made)'}"


def of_python(header, stack, read_errors):
    calls, names = list(wrapped(header, stack, read_errors)), list(errors(header))
    faults = sorted({f"{one.fault}Error" for it in calls for one in it.arguments if one.fault and one.kind == "array"})
    yield '"""Check values, keys of a transaction (DUKPT), values and cryptograms of cards (EMV): made of the header by bindings/describe."""'
    yield ""
    yield "from __future__ import annotations"
    yield ""
    yield "from ._data import buffer_of, bytes_from, bytes_of, data_of, key_of, text_from, text_of"
    yield f"from ._faults import {', '.join([*faults, 'check'])}"
    yield "from ._keys import response_of"
    yield "from ._library import function"
    yield "from ._types import ReadableBuffer, Text"
    yield ""
    yield from (f'_{it.name} = function("{it.name}")' for it in calls)
    for it in calls:
        yield from python_call(it, names)


def imports(header, stack, read_errors):
    """The import of the calls that are made."""
    yield "from ._made import ("
    yield from (f"    {name}," for name in sorted(it.name for it in wrapped(header, stack, read_errors)))
    yield ")"


# ---- JavaScript


def of_javascript(header, stack, read_errors, exports):
    for it in wrapped(header, stack, read_errors):
        ends = [" = new Uint8Array()" if it.is_optional(one) else " = false" if one.kind == "response" else "" for one in it.arguments]
        taken = [f"{camel(one.name)}{end}" for one, end in zip(it.arguments, ends)]
        yield from ["", f"export function {camel(it.name)}({', '.join([*taken, '...more'])}) {{", "  refuseMore(more);", "  const given = {"]
        # Of two faults the same one is found as in Python, which looks at keys and texts last, since it wipes their copies.
        pairs = sorted(zip(it.arguments, exports[it.name].pairs), key=lambda pair: pair[0].kind in ("key", "text"))
        for one, (name, _) in pairs:
            how = {
                "key": f"keyOf({one.name}, {one.sizes})",
                "array": f'dataOf({one.name}, {one.size}, "{one.what}", "has", {one.fault})',
                "text": f'textOf({one.name}, "{one.what}")',
                "bytes": f'bytesOf({one.name}, "{one.what}")',
                "response": f"responseOf({camel(one.name)})",
            }
            yield f"    {camel(name)}: {how[one.kind]},"
        yield from ["  };", f'  return {"writtenText" if it.is_text else "written"}("{it.name}", given);', "}"]


def of_types(header, stack, read_errors):
    names = list(errors(header))
    for it in wrapped(header, stack, read_errors):
        lines = textwrap.wrap(it.sentence("javascript", names), 113, break_on_hyphens=False)
        yield from [f"/** {lines[0]} */"] if len(lines) == 1 else ["/**", *(f" * {line}" for line in lines), " */"]
        types = {"text": ": Digits", "response": "?: boolean"}
        ends = ["?: Uint8Array" if it.is_optional(one) else types.get(one.kind, ": Uint8Array") for one in it.arguments]
        taken = [f"{camel(one.name)}{end}" for one, end in zip(it.arguments, ends)]
        result = "string" if it.is_text else "Uint8Array"
        line = f"export function {camel(it.name)}({', '.join(taken)}): {result};"
        yield from [line] if len(line) <= 120 else [f"export function {camel(it.name)}(", f"  {', '.join(taken)},", f"): {result};"]


# ---- Rust


def rust_broken(head, words, end, indent):
    """A list of words as rustfmt breaks it."""
    line = f"{indent}{head}{', '.join(words)}{end}"
    return [line] if len(line) <= 120 else [f"{indent}{head}", *(f"{indent}    {it}," for it in words), f"{indent}{end}"]


def rust_errors(header, error, calls, own):
    """The error of a module, with what it says and the statuses that it is made of."""
    statuses = [it for it in header.statuses if any(short(it) in call.statuses for call in calls)]
    order = list(dict.fromkeys(it for call in calls for it in call.statuses))
    statuses.sort(key=lambda it: order.index(short(it)))
    variants = {short(it): "".join(word.capitalize() for word in short(it).split("_")) for it in statuses}
    yield "/// Why a call of this module refuses what it is given. The first of them is reported, in this order."
    yield from ["#[non_exhaustive]", "#[derive(Clone, Copy, Debug, PartialEq, Eq)]", f"pub enum {error} {{"]
    for it in statuses:
        yield f"    /// {capitalized(own.get(short(it), it.text))}."
        yield f"    {variants[short(it)]},"
    yield from ["}", "", f"sentences!({error}:"]
    for name, variant in variants.items():
        yield f"    {error}::{variant} => {chr(34) + own[name] + chr(34) if name in own else f'sentence({name})'},"
    yield from [");", "", "/// What a call made, or the fault that its status says."]
    yield from [f"fn checked<T>(status: i32, made: T) -> Result<T, {error}> {{", "    match status {", "        OK => Ok(made),"]
    *first, last = variants
    yield from (f"        {name} => Err({error}::{variants[name]})," for name in first)
    yield from [f"        _ => Err({error}::{variants[last]}),", "    }", "}"]


def rust_module(name):
    """The beginning of the name of a call, and its name in Rust."""
    beginning = next(it for it in MODULES if name.startswith(it))
    return beginning, name.removeprefix("dukpt_" if not beginning else beginning if beginning.endswith("_") else "")


def rust_call(it, error):
    name = rust_module(it.name)[1]
    size = it.size - it.is_text
    result = f"Result<[u8; {size}], {error or 'InvalidLength'}>" if it.returns_status else f"[u8; {size}]"
    yield ""
    yield from textwrap.wrap(f"{it.said} {it.note('rust')}".strip(), 126, initial_indent="/// ", subsequent_indent="/// ", break_on_hyphens=False)
    yield from [] if it.returns_status else ["#[must_use]"]
    types = {"response": "message: MessageDirection"}
    taken = [types.get(one.kind) or f"{one.name}: &[u8{f'; {one.size}' * bool(one.size)}]" for one in it.arguments]
    yield from rust_broken(f"pub fn {name}(", taken, f") -> {result} {{", "")
    yield f"    let mut made = [0; {it.size}];"
    pointer = {"text": ".as_ptr().cast()", "bytes": ".as_ptr()", "key": ".as_ptr()"}
    given = []
    for one in it.arguments:
        if one.kind == "response":
            given.append("message == MessageDirection::Response")
        else:
            given += [one.name] if one.size else [one.name + pointer[one.kind], f"{one.name}.len()"]
    call = f"ffi::cukvashe_{it.name}({', '.join([*given, '&mut made'])})"
    begin, line = "let status = " * it.returns_status, f"unsafe {{ {call} }};"
    if len(begin) + len(line) <= 116:
        yield f"    {begin}{line}"
    elif len(line) <= 112:
        yield from ["    let status =", f"        {line}"]
    else:
        yield f"    {begin}unsafe {{"
        yield from rust_broken(f"ffi::cukvashe_{it.name}(", [*given, "&mut made"], ")", "        ")
        yield "    };"
    if it.is_text:
        yield "    let [text @ .., _] = made;"
    made = "text" if it.is_text else "made"
    yield from [f"    checked(status, {made})" if it.returns_status else f"    {made}", "}"]


def rust_uses(header, error, calls, own):
    """What stands before the calls of a module whose calls have errors."""
    used = ", ".join(sorted({name for it in calls for name in it.statuses} | {"OK"}))
    listed = f"use crate::statuses::{{sentence, {used}}};"
    lines = textwrap.wrap(f"sentence, {used},", 120, initial_indent="    ", subsequent_indent="    ")
    lines = [listed] if len(listed) <= 120 else ["use crate::statuses::{", *lines, "};"]
    return ["use crate::error::sentences;", "use crate::ffi;", *lines, "", *rust_errors(header, error, calls, own), ""]


def of_rust(header, stack, read_errors):
    """By its place, what is made of each module."""
    calls = list(wrapped(header, stack, read_errors))
    for beginning, (place, error, own) in MODULES.items():
        found = [it for it in calls if rust_module(it.name)[0] == beginning]
        lines = rust_uses(header, error, found, own) if error else []
        lines += ["// SAFETY of each call below: the pointers are of references, those of texts and data good for their lengths, and don't"]
        lines += ["// overlap what is written."]
        yield place, [*lines, *(line for it in found for line in rust_call(it, error))]


def of_rust_tests(header, stack, read_errors):
    """Each call with arguments of a known call, if they have a place in Rust."""
    for it in wrapped(header, stack, read_errors):
        places = {"response": "given.message()", "bytes": "given.last({at})"}
        taken = [places.get(one.kind, "given.at({at})?").format(at=at) for at, one in enumerate(it.arguments)]
        yield f'        "{it.name}" => {rust_module(it.name)[1]}({", ".join(taken)}).made(),'
