"""The library's C that follows a rule: the declarations of the proved exports, and the calls over them."""

import re
import textwrap

from sources.text import Refused

from .exports import exports, shape, written
from .over_export import OverExport

WIDTH = 120
# What calls of the header and the wiping take of the stack themselves. tests/stack.c sees whether it is enough.
FRAMES = 350


def name_of(argument):
    """The name of an argument of C."""
    return re.search(r"(\w+)(?:\[\d+\])?$", argument)[1]


def arguments_of(call):
    return [written(it.type, it.name) for it in call.parameters] or ["void"]


def filled(text, end):
    """A declaration in lines; what a comma ends stays whole."""
    text = re.sub(r"(?<!,) ", "\0", text + end)
    return "\n".join(textwrap.wrap(text, WIDTH, subsequent_indent="    ", break_long_words=False, break_on_hyphens=False)).replace("\0", " ")


def declared(result, name, arguments, end=";"):
    return filled(f"{result} {name}({', '.join(arguments)})", end)


class Library:
    """The calls of the header and the exports: `renamed` are the calls that wipe after the export of their name, which has another name in the
    library, of these `alike` those that have its arguments, and of those `handed` the ones that go on to it whatever they are given. An export
    with the name of another call is that call itself. The others are `by_hand`, in a text of C, or made."""

    def __init__(self, header, stack, errors, code):
        self.header, self.stack, self.errors, self.exports = header, stack, errors, exports()
        named = [it for it in header.calls.values() if it.name in self.exports]
        self.renamed = [it for it in named if stack.wipes(it)]
        self.alike = [it for it in self.renamed if self._is_alike(it)]
        self.by_hand = set(re.findall(r"^\w.*?\bcukvashe_(\w+)\(.*\{", code, re.MULTILINE))
        self.handed = [it for it in self.alike if it.name not in self.by_hand]
        for it in named:
            if not self._is_alike(it) and it not in self.renamed:
                raise Refused(f"the export cukvashe_{it.name} of crates/des_c does not take and return what the header says")

    def _is_alike(self, call):
        """Whether the export takes and returns the same. A name that both have then stands at one place: of two texts that nothing but their
        names tells apart, one would be taken for the other."""
        export = self.exports[call.name]
        if any("[[" in kind for _, kind in export.pairs):  # its numbers are of elements, the header's of bytes
            return False
        names = [name_of(it) for it in export.arguments]
        shapes = [shape(it) for it in arguments_of(call)], [shape(it) for it in export.arguments]
        if shapes[0] != shapes[1] or call.result.base != export.result:
            return False
        if export.required:
            raise Refused(f"the export cukvashe_{call.name} of crates/des_c requires '{export.required.pop()}', which no C sees to")
        if any(names.index(it.name) != at for at, it in enumerate(call.parameters) if it.name in names):
            raise Refused(f"the export cukvashe_{call.name} of crates/des_c has the names of the header's arguments at other places")
        return True

    def internal(self):
        """The exports that serve several calls."""
        return [it for it in self.exports.values() if it.name not in self.header.calls]

    def table(self):
        """A line for each call: its name, and that of its export in the library, if the call wipes after it."""
        names = {it.name for it in self.renamed}
        for name in sorted(self.header.calls):
            yield f"cukvashe_{name} cukvashe_unwiped_{name}" if name in names else f"cukvashe_{name}"

    def declarations(self):
        yield "/* The proved exports (crates/des_c) that the library's C calls, and the bytes of the stack over which each call writes zeros that"
        yield "   wipes. Made by bindings/describe of the header and the exports. */"
        yield from ["#ifndef EXPORTS_H", "#define EXPORTS_H", "", "#include <cukvashe_des.h>", ""]
        for it in self.internal():
            yield declared(it.result, f"cukvashe_{it.name}", it.arguments)
        yield ""
        yield "/* Those of lists for x86-64-v3, which take 256 at a time: what bindings/widen and bindings/generate make of the same source. */"
        for it in self.internal():
            if it.is_wide:
                yield declared(it.result, f"cukvashe_{it.name}".replace("_internal_", "_wide_"), it.arguments)
        yield from ["", "/* Those that have the name of a call of the header, which wipes after them: bindings/generate gives them these names. */"]
        for it in self.renamed:
            export = self.exports[it.name]
            yield declared(export.result, f"cukvashe_unwiped_{it.name}", arguments_of(it) if it in self.alike else export.arguments)
        yield from ["", "enum {"]
        for it in self.header.calls.values():
            if self.stack.wipes(it):
                yield f"  STACK_{it.name} = {self.stack.limit(it) - FRAMES},"
        yield from ["};", "", "#endif"]

    def definitions(self):
        yield "/* Calls of the header over the proved exports, those that say in a bool what another says in a status, and those that give a number."
        yield "   Made by bindings/describe of the header and the exports. */"
        yield '#include "internal.h"'
        absent = {}
        made = [line for it in self.header.calls.values() for line in self._definition(it, absent)]
        for name, size in absent.items():
            yield from ["", f"/* Stands in for a `{name}` that a struct leaves out. */", f"static const uint8_t no_{name}[{size}];"]
        yield from made

    def _definition(self, it, absent):
        """The C of a call, if it is made; what structs may leave out is put into `absent`, with its size."""
        given = ", ".join(one.name for one in it.parameters)
        if it.name in self.by_hand:
            return
        if it.name in self.header.numbers:
            yield from self._defined(it, self.header.numbers[it.name][1])
        elif it in self.handed:
            yield from self._defined(it, f"cukvashe_unwiped_{it.name}({given})")
        elif verify := self._verified(it):
            yield from self._defined(it, f"cukvashe_{verify}({given}) == CUKVASHE_OK", wipes=False)
        elif it in self.renamed or it.name not in self.exports:
            over = OverExport(self.header, self.errors, it, self.exports)
            yield from self._defined(it, over.made(), over.before())
            absent.update(over.absent)

    def _verified(self, call):
        """The name of the call that says in a status what a call named is_tag or is_pin says in a bool, or None."""
        name = re.sub("_is_(tag|pin)$", "_verify", call.name)
        return name if name != call.name and call.result.base == "bool" and name in self.header.calls else None

    def _defined(self, call, made, before=(), wipes=True):
        """A call that goes on to what it makes, after some lines, and wipes after it if it must."""
        yield from ["", declared(call.result.base, f"cukvashe_{call.name}", arguments_of(call), " {")]
        yield from (filled(f"  {it}", "") for it in before)
        if wipes and self.stack.wipes(call):
            result = "" if call.result.base == "void" else f"const {call.result.base} result = "
            yield filled(f"  {result}{made}", ";")
            yield f"  cukvashe_internal_wipe_stack(STACK_{call.name});"
            yield from ["  return result;"] * bool(result)
        else:
            yield filled(f"  return {made}", ";")
        yield "}"
