"""proved.md: the clauses of public calls, the laws of public traits, and what impls declare, of the crates' sources."""

import re

from .rattle import Crate, base, split_impl
from .text import Refused, first_sentence, listed, table

LIBRARIES = ["des", "des_fast", "des_mac", "des_modes", "des_key_wraps", "des_payment", "des_key_blocks", "des_io", "des_passwords", "des_columns"]
CRATES = [*LIBRARIES, "des_context", "des_c", "des_lines", "des_requests", "des_arguments", "des_commands", "des_tool"]

# Crates whose modules no caller names, and what they have instead.
CLOSED = {
    "des_c": "The exports, which C calls.",
    "des_lines": "The lines of `cukvashe`. `des_commands` alone calls these.",
    "des_requests": "What `cukvashe` may be asked for. `des_arguments` and `des_commands` alone call these.",
    "des_arguments": "What the words of a command line of `cukvashe` ask for. The program alone calls these.",
    "des_commands": "What `cukvashe` does. The program calls `run` and two calls beside it.",
    "des_tool": "What the program `des_tool` does.",
}

# Traits of the standard library, and whether what an impl declares of them is a clause.
OF_OTHERS = {"Clone": True, "Debug": True, "Display": True, "From": True, "Read": True, "Write": True, "Model": False}


def clauses_of(function, kind):
    """The names of a function's clauses of a kind, in a cell."""
    names = [clause.name for clause in function.clauses if clause.kind == kind]
    if "" in names and len(names) > 1:
        raise Refused(f"{function.name}: one of several clauses has no name")
    return "unnamed" if names == [""] else listed(names)


def row_of(name, function, otherwise=""):
    """The row of a call."""
    return name, clauses_of(function, "requires"), clauses_of(function, "ensures") or "none", said_of(function, otherwise)


def said_of(item, otherwise=""):
    """What a cell says of an item: the first sentence of its comment, and the comments on its clauses."""
    sentences = [first_sentence(item.comment or otherwise)]
    sentences += [f"`{clause.name}`: {first_sentence(clause.comment)}" for clause in item.clauses if clause.comment and clause.name]
    return " ".join(filter(None, sentences))


class Clauses:
    """The crates, their traits that others can name, and the impls of these."""

    def __init__(self):
        self.crates = [Crate(name) for name in CRATES]
        self.traits, self.impls = {}, {}
        for crate in self.crates:
            for path, module in crate.modules.items():
                for item in module.items:
                    if item.kind == "trait":
                        if item.name in self.traits:
                            raise Refused(f"{module.place}: there is another trait {item.name}")
                        self.traits[item.name] = (crate, item, self.shows(crate, path, item))
        for crate in self.crates:
            hidden = self.hidden_of(crate)
            for module in crate.modules.values():
                for item in module.items:
                    of, kind = split_impl(item.head) if item.kind == "impl" else ("", "")
                    if of and base(of) in self.traits and base(kind) not in hidden:
                        self.impls.setdefault(base(of), []).append((crate, item, kind))

    def shows(self, crate, path, item):
        """Whether an item has a row."""
        return item.is_public if crate.name in CLOSED else crate.is_shown(path, item)

    def hidden_of(self, crate):
        """The names of the types whose impls have no rows."""
        return set() if crate.name in CLOSED else crate.types()[1]

    def types_with(self, crate, trait):
        """The types that have a trait, in a sentence."""
        found = {}
        for other, impl, kind in self.impls.get(trait.name, []):
            bound = re.search(rf"\b{kind}: (\w+)", impl.head) if re.fullmatch("[A-Z]", kind) else None
            name = f"every type with `{bound[1]}`" if bound else f"`{kind}`"
            found.setdefault(other.name, []).append(name if other is crate else f"{name} of `{other.name}`")
        names = [name for each in found.values() for name in each]
        return f"Types with it: {', '.join(names)}." if names else "No type here has it: it is for those of callers."

    def rows(self, crate, path, module):
        """The rows of a module, in the order of its file."""
        hidden = self.hidden_of(crate)
        for item in module.items:
            if item.kind == "fn" and self.shows(crate, path, item):
                yield row_of(f"`{item.name}`", item)
            elif item.kind == "trait" and self.shows(crate, path, item):
                yield f"trait `{item.name}`", "", "", f"{first_sentence(item.comment)} {self.types_with(crate, item)}"
                yield from self.rows_of_trait(item)
            elif item.kind == "impl":
                of, kind = split_impl(item.head)
                if base(kind) not in hidden:
                    yield from self.rows_of_impl(module, item, of, kind)

    def rows_of_trait(self, trait):
        for inner in trait.inner:
            if inner.kind == "fn":
                yield row_of(f"`{trait.name}::{inner.name}`", inner)
            elif inner.kind == "law":
                yield f"`{trait.name}`", "", f"law `{inner.name}`", first_sentence(inner.comment) or f"`{inner.head}`"

    def rows_of_impl(self, module, impl, of, kind):
        name = base(kind)
        if not of:
            for inner in impl.inner:
                if inner.kind == "fn" and inner.is_public:
                    yield row_of(f"`{name}::{inner.name}`", inner)
            return
        trait = self.traits.get(base(of))
        if trait and not trait[2]:
            return
        own = [inner for inner in impl.inner if inner.kind == "fn" and any(clause.kind == "ensures" for clause in inner.clauses)]
        if trait:
            docs = {inner.name: inner.comment for inner in trait[1].inner}
            for inner in own:
                yield row_of(f"`{name}::{inner.name}` of `{base(of)}`", inner, docs[inner.name])
            return
        declared = [inner.name for inner in impl.inner if inner.kind == "ghost"]
        if not declared and not own:
            return
        if base(of) not in OF_OTHERS:
            raise Refused(f"{module.place}: what an impl of {of} declares is not known")
        if OF_OTHERS[base(of)]:
            names = declared + [clause.name for inner in own for clause in inner.clauses]
            shown = f"{base(of)}<{re.fullmatch('.*?<(.*)>', of)[1]}>" if "<" in of else base(of)
            yield f"`{shown}` of `{name}`", "", listed(names), first_sentence(impl.comment)


def made():
    """The lines of proved.md."""
    clauses = Clauses()
    yield "# The clauses of public calls"
    yield ""
    yield "Made of the sources by `docs/reference/fill`. [What is proved](../PROVED.md) says how a clause is read and what each product rests on."
    yield ""
    yield "- A call's clauses are its `ensures`, each by its name, or `unnamed`; `none` is said where it has none. They are proved for all arguments"
    yield "  that meet what the call requires."
    yield "- A trait's clauses and laws are proved for each type that has the trait. `TYPE::CALL of TRAIT` is what a type promises beyond them."
    yield "- `TRAIT of TYPE` is a trait of the standard library: what its impl declares of the result."
    yield "- What it says is the first sentence of the comment in the source, or the law itself. The clause stands in the file above the table."
    yield ""
    yield from (f"- [`{name}`](#{name})" for name in CRATES)
    for crate in clauses.crates:
        yield from ["", f"## `{crate.name}`"]
        if crate.name in CLOSED:
            yield from ["", CLOSED[crate.name]]
        for path, module in crate.modules.items():
            rows = list(clauses.rows(crate, path, module))
            if rows:
                yield from ["", f"### `{'::'.join(filter(None, [crate.name, path]))}`", "", f"`{module.place}`", ""]
                yield from table(["Call", "Requires", "Clauses", "What it says"], rows)
