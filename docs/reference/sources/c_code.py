"""What the C of the library calls, read by a parser of C after a preprocessor for x86-64 with Linux."""

import os
import subprocess
import tempfile

from description.header import code_of
from pycparser import c_ast, c_parser

from .text import ROOT, Refused

PLACES = tuple(f"bindings/c/src/{name}.c" for name in ("cukvashe_des", "calls", "stack", "processor"))

# What no parser of plain C knows, and the processor that is meant.
WORDS = ["-D__attribute__(x)=", "-D__typeof__(x)=int", "-D__asm__=", "-D__volatile__(...)=", "-D__x86_64__=1", "-U_WIN32"]


class Calls(c_ast.NodeVisitor):
    """The names that a function calls, and the statuses that it names, in their order; and whether it compares one with CUKVASHE_OK."""

    def __init__(self):
        self.called, self.statuses, self.is_truth = {}, {}, False

    def visit_FuncCall(self, node):
        if isinstance(node.name, c_ast.ID):
            self.called[node.name.name] = None
        self.generic_visit(node)

    def visit_ID(self, node):
        if node.name.startswith("CUKVASHE_ERR_"):
            self.statuses[node.name.removeprefix("CUKVASHE_")] = None

    def visit_BinaryOp(self, node):
        self.is_truth |= isinstance(node.right, c_ast.ID) and node.right.name == "CUKVASHE_OK"
        self.generic_visit(node)


class Code:
    """The functions of the library's C. The header stands there without its constants, so that statuses keep their names."""

    def __init__(self, header):
        with tempfile.TemporaryDirectory() as folder:
            for name in ("string", "cpuid", "stdint", "stddef", "stdbool", "cukvashe_des"):
                with open(f"{folder}/{name}.h", "w", encoding="utf-8") as file:
                    file.write(code_of(header.text) if name == "cukvashe_des" else "")
            self.functions = {name: body for place in PLACES for name, body in self._functions(place, folder)}

    @staticmethod
    def _functions(place, folder):
        compiler = os.environ.get("CC", "cc").split()
        words = [*compiler, "-E", "-P", "-nostdinc", "-undef", *WORDS, f"-I{folder}", str(ROOT / place)]
        text = subprocess.run(words, check=True, capture_output=True, text=True).stdout
        try:
            tree = c_parser.CParser().parse(text, place)
        except c_parser.ParseError as it:
            raise Refused(str(it)) from None
        for node in tree.ext:
            if isinstance(node, c_ast.FuncDef):
                found = Calls()
                found.visit(node.body)
                yield node.decl.name, found

    def calls(self, name):
        """The library's functions that one calls, itself or by others in C, in order; and the statuses that it names itself."""
        body = self.functions[name]
        found, statuses = {}, dict(body.statuses)
        for called in body.called:
            if called.startswith("cukvashe_"):
                found[called] = None
            if called in self.functions and called != name:
                below, named = self.calls(called)
                found.update(dict.fromkeys(below))
                statuses.update(dict.fromkeys(named))
        return list(found), list(statuses)
