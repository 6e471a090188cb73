"""python.md: what the package for Python has, by its signatures and docstrings, which are read and not run."""

import ast
import inspect
import re

from .text import Refused, filled, first_sentence, read, table

FOLDER = "bindings/python/cukvashe_des"


class Package:
    """The package's modules as trees, the names that it shows, and where each is defined."""

    def __init__(self):
        self.init = ast.parse(read(f"{FOLDER}/__init__.py"))
        self.modules, self.names, self.definitions, self.aliases = {}, [], {}, {}
        for node in self.init.body:
            if isinstance(node, ast.ImportFrom) and node.level == 1:
                self._read(node.module)
            if isinstance(node, ast.Assign) and ast.unparse(node.targets[0]) == "__all__":
                self.names = ast.literal_eval(node.value)
        missing = [name for name in self.names if name not in self.definitions]
        if missing:
            raise Refused(f"{FOLDER}: __all__ names {missing[0]}, which is not defined")

    def _read(self, module):
        if module in self.modules:
            return
        tree = self.modules[module] = ast.parse(read(f"{FOLDER}/{module}.py"))
        for node in tree.body:
            if isinstance(node, ast.ImportFrom) and node.level == 1 and node.module:
                self._read(node.module)
            if isinstance(node, (ast.FunctionDef, ast.ClassDef)):
                self.definitions.setdefault(node.name, node)
            elif isinstance(node, ast.Assign) and isinstance(node.targets[0], ast.Name):
                self.definitions.setdefault(node.targets[0].id, node)
                if module == "_types":
                    self.aliases[node.targets[0].id] = ast.unparse(node.value)

    def bases(self, node):
        """The classes of the package that a class is derived from, the next first."""
        for base in node.bases:
            found = self.definitions.get(ast.unparse(base))
            if isinstance(found, ast.ClassDef):
                yield found
                yield from self.bases(found)

    def method(self, node, name):
        """A method of a class, or of the next of its bases that has it."""
        for each in [node, *self.bases(node)]:
            for inner in each.body:
                if isinstance(inner, ast.FunctionDef) and inner.name == name:
                    return inner
        return None

    def written(self, text):
        """A type or a signature with the package's own names of types written out."""
        return re.sub(r"\b\w+\b", lambda found: self.aliases.get(found[0], found[0]), text)

    def signature(self, node, name, is_method=False):
        """A call as it is written, without `self`."""
        given = node.args
        if is_method:
            without_self = (given.posonlyargs, given.args[1:], given.vararg, given.kwonlyargs, given.kw_defaults, given.kwarg, given.defaults)
            given = ast.arguments(*without_self)
        returns = f" -> {ast.unparse(node.returns)}" if node.returns and not name[0].isupper() else ""
        return re.sub(r"(?<=[\w\]])=", " = ", self.written(f"{name}({ast.unparse(given)}){returns}").replace("_Self", "Self"))

    def is_fault(self, node):
        return isinstance(node, ast.ClassDef) and any(each.name == "Error" for each in [node, *self.bases(node)])

    # ---- what is shown

    def marked(self, text):
        """A text in which names of the package stand as code."""
        names = [name for name in self.names if "_" in name or re.match(r"[A-Z]\w*[A-Z]", name)]
        name = re.compile(r"(?<![\w.`-])(?:" + "|".join(sorted(map(re.escape, names), key=len, reverse=True)) + r")(?![\w(])")
        parts = re.split(r"(`[^`]*`)", text)
        return "".join(part if part.startswith("`") else name.sub(lambda found: f"`{found[0]}`", part.replace("*", "\\*")) for part in parts)

    def said(self, node, name):
        """The lines of a docstring: paragraphs, and code that is indented."""
        text = ast.get_docstring(node, clean=False)
        if text is None:
            raise Refused(f"{FOLDER}: {name} has no docstring")
        for paragraph in re.split(r"\n\s*\n", inspect.cleandoc(text)):
            yield ""
            if paragraph.startswith("    "):
                yield from paragraph.split("\n")
            else:
                yield from filled(self.marked(" ".join(paragraph.split()))).split("\n")

    def call_lines(self, node, name):
        yield from ["", f"### `{name}`", "", "```python", self.signature(node, name), "```"]
        yield from self.said(node, name)

    def class_lines(self, node, name, is_shown):
        """A class: how it is made, what it says, its numbers and its methods."""
        yield from ["", f"### `{name}`"]
        made = self.method(node, "__init__")
        fields = [f"{inner.target.id}: {ast.unparse(inner.annotation)}" for inner in node.body if isinstance(inner, ast.AnnAssign)]
        if node.decorator_list and ast.unparse(node.decorator_list[0]).startswith("dataclass"):
            yield from ["", "```python", f"{name}({', '.join(fields)})", "```"]
        elif made and is_shown:
            yield from ["", "```python", self.signature(made, name, is_method=True), "```"]
        yield from self.said(node, name)
        values = list(self.values(node))
        bases = [base.name for base in self.bases(node)]
        if bases:
            links = ", ".join(f"[`{base}`](#{base.lower()})" for base in bases)
            yield from ["", f"It has the methods of {links}."]
        if values:
            yield from ["", f"Its numbers and names: {', '.join(values)}."]
        rows = list(self.method_rows(node, name))
        if rows:
            yield ""
            yield from table(["Method", "What it does"], rows)

    def values(self, node):
        """The class's own values that callers may read."""
        for inner in node.body:
            if isinstance(inner, ast.Assign):
                target = inner.targets[0]
                pairs = zip(target.elts, inner.value.elts) if isinstance(target, ast.Tuple) else [(target, inner.value)]
                for name, value in pairs:
                    if not ast.unparse(name).startswith("_"):
                        yield f"`{ast.unparse(name)}` = `{ast.unparse(value)}`"
            elif isinstance(inner, ast.AnnAssign) and inner.value and ast.unparse(inner.value) not in ("''", "0"):
                value = self.definitions.get(ast.unparse(inner.value))
                yield f"`{inner.target.id}` = `{ast.unparse(value.value if value else inner.value)}`"

    def method_rows(self, node, name):
        for inner in node.body:
            if isinstance(inner, ast.FunctionDef) and not inner.name.startswith("_"):
                text = ast.get_docstring(inner)
                if text is None:
                    raise Refused(f"{FOLDER}: {name}.{inner.name} has no docstring")
                yield f"`{self.signature(inner, inner.name, is_method=True)}`", self.marked(" ".join(text.split()))


def made():
    """The lines of python.md."""
    package = Package()
    nodes = {name: package.definitions[name] for name in package.names}
    faults = {name: node for name, node in nodes.items() if package.is_fault(node)}
    classes = {name: node for name, node in nodes.items() if isinstance(node, ast.ClassDef) and name not in faults}
    bases = {base.name: base for node in classes.values() for base in package.bases(node)}
    yield "# The package for Python"
    yield ""
    yield filled(
        f"Made of `{FOLDER}` by `docs/reference/fill`. [Python](../PYTHON.md) shows how to use it. In a signature `ReadableBuffer` is anything with a "
        "buffer of bytes, as `bytes`, `bytearray`, `memoryview` and arrays of numpy, and `WriteableBuffer` one that can be written."
    )
    yield ""
    for heading in ("The module", "Classes", "Bases of the classes", "Calls", "Errors", "Numbers"):
        yield f"- [{heading}](#{heading.lower().replace(' ', '-')})"
    yield from ["", "## The module"]
    yield from package.said(package.init, "the module")
    yield from ["", "## Classes"]
    for name, node in classes.items():
        yield from package.class_lines(node, name, is_shown=name not in bases)
    yield from ["", "## Bases of the classes", ""]
    yield "The module does not have these names. What they have, each class above has that is derived from them."
    for name, node in bases.items():
        if name not in classes:
            yield from package.class_lines(node, name, is_shown=False)
    yield from ["", "## Calls"]
    for name, node in nodes.items():
        if isinstance(node, ast.FunctionDef):
            yield from package.call_lines(node, name)
    yield from ["", "## Errors", ""]
    yield from table(
        ["Error", "Bases", "What it says"],
        (
            (f"`{name}`", ", ".join(f"`{ast.unparse(base)}`" for base in node.bases), first_sentence(ast.get_docstring(node)))
            for name, node in sorted(faults.items(), key=lambda each: [ast.unparse(base) for base in each[1].bases] != ["Exception"])
        ),
    )
    yield from ["", "## Numbers", ""]
    values = {name: ast.unparse(node.value) for name, node in nodes.items() if isinstance(node, ast.Assign)}
    yield from table(["Name", "Value"], ((f"`{name}`", f"`{value}`") for name, value in values.items()))
