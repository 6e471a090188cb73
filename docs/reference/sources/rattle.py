"""A reader of Rattle's sources, strict and small: items, their comments and their clauses. What it does not understand, it refuses."""

import re

from .text import Refused, files, read

LEXEME = re.compile(
    r"""(?P<space>\s+)|(?P<comment>//[^\n]*)|(?P<text>b?"(?:\\.|[^"\\])*"|b?'(?:\\x..|\\u\{\w+\}|\\.|[^'\\])')"""
    r"""|(?P<word>'?\w+)|(?P<sign>->|=>|::|.)""",
    re.DOTALL,
)
CLOSING = {"(": ")", "[": "]", "{": "}"}


class Clause:
    """A clause of a function: `ensures` or `requires`, its name, or "", the comment on it, and what it says."""

    def __init__(self, kind, name, comment, said):
        self.kind, self.name, self.comment, self.said = kind, name, comment, said


class Item:
    """An item: its kind, name, visibility ("pub", "pub(crate)" or ""), its comment, its place in the text, and what its kind has:
    `clauses` of a function, `inner` of a trait and an impl, `head` of these and of a function: what stands before its braces or clauses."""

    def __init__(self, kind, name, visibility="", comment="", span=(0, 0), clauses=(), inner=(), head=""):
        self.kind, self.name, self.visibility, self.comment, self.span = kind, name, visibility, comment, span
        self.clauses, self.inner, self.head = clauses, inner, head

    @property
    def is_public(self):
        return self.visibility == "pub"


class Reader:
    """The lexemes of a file, without blanks; at each place whether an empty line stands before it."""

    def __init__(self, place):
        self.place, self.source = place, read(place)
        self.lexemes, self.at = [], 0
        is_apart = False
        for found in LEXEME.finditer(self.source):
            if found.lastgroup == "space":
                is_apart = found[0].count("\n") > 1
            else:
                self.lexemes.append((found.lastgroup, found[0], found.span(), is_apart))
                is_apart = False

    def refuse(self, what):
        start = self.lexemes[self.at][2][0] if self.at < len(self.lexemes) else len(self.source)
        raise Refused(f"{self.place}:{self.source.count(chr(10), 0, start) + 1}: {what}")

    def peek(self, ahead=0):
        """A lexeme, comments left out; "" at the end."""
        for kind, text, _, _ in self.lexemes[self.at :]:
            if kind != "comment":
                if ahead == 0:
                    return text
                ahead -= 1
        return ""

    def take(self, wanted=None):
        """The next lexeme that is no comment."""
        while self.at < len(self.lexemes) and self.lexemes[self.at][0] == "comment":
            self.at += 1
        if self.at == len(self.lexemes):
            self.refuse("the file ends within an item")
        text = self.lexemes[self.at][1]
        if wanted is not None and text != wanted:
            self.refuse(f"'{wanted}' was expected, not '{text}'")
        self.at += 1
        return text

    def start(self):
        return self.lexemes[self.at][2][0]

    def end(self):
        """Where the lexeme that was taken last ends."""
        return self.lexemes[self.at - 1][2][1]

    def comment(self):
        """The comment that stands right before what comes next."""
        lines = []
        while self.at < len(self.lexemes):
            kind, text, _, is_apart = self.lexemes[self.at]
            if is_apart:
                lines = []
            if kind != "comment":
                break
            lines.append(text)
            self.at += 1
        docs = [line for line in lines if line.startswith("///")] or [line for line in lines if not line.startswith("//!")]
        return "\n".join(re.sub(r"^///? ?", "", line) for line in docs)

    def group(self):
        """Passes over what stands in brackets, and gives it as it stands, without them."""
        opens = self.take()
        if opens not in CLOSING:
            self.refuse(f"a bracket was expected, not '{opens}'")
        begin, depth = self.end(), 1
        closes = [CLOSING[opens]]
        while closes:
            text = self.take()
            if text in CLOSING:
                closes.append(CLOSING[text])
            elif text in CLOSING.values() and text != closes.pop():
                self.refuse(f"'{text}' closes nothing")
        return self.source[begin : self.end() - 1]

    def until(self, *ends):
        """Passes over lexemes, brackets as a whole, up to one of these, which stays."""
        first = self.start() if self.at < len(self.lexemes) else len(self.source)
        while (text := self.peek()) not in ends:
            if text == "":
                self.refuse("the file ends within an item")
            if text in CLOSING:
                self.group()
            else:
                self.take()
        return " ".join(self.source[first : self.end()].split())

    # ---- items

    def items(self, is_last=lambda text: text == ""):
        """The items up to the end of the file, or of the braces."""
        found = []
        while True:
            comment = self.comment()
            if is_last(self.peek()):
                return found
            start = self.start()
            while self.peek() == "#":
                self.take()
                if self.peek() == "!":
                    self.take()
                self.group()
            visibility = ""
            if self.peek() == "pub":
                visibility = self.take()
                if self.peek() == "(":
                    visibility += f"({self.group()})"
            for item in self.item():
                item.visibility, item.comment, item.span = visibility, comment, (start, self.end())
                found.append(item)

    def item(self):
        word = self.take()
        if word == "ghost":
            return self.ghost()
        if word == "use":
            tree = self.until(";")
            self.take(";")
            return [Item("use", tree)]
        if word in ("extern", "final", "unsafe"):
            if word == "extern":
                self.take('"C"')
            return self.item()
        if word == "const" and self.peek() == "fn":
            return self.item()
        if word == "macro_rules":
            self.take("!")
            name = self.take()
            self.group()
            return [Item("macro", name)]
        if word in ("mod", "type", "const", "static"):
            name = self.take()
            self.until(";")
            self.take(";")
            return [Item(word, name)]
        if word in ("struct", "enum"):
            name = self.take()
            self.until(";", "{")
            if self.peek() == "{":
                self.group()
            else:
                self.take(";")
            return [Item(word, name)]
        if word in ("trait", "impl"):
            head = self.until("{")
            self.take("{")
            inner = self.items(lambda text: text == "}")
            self.take("}")
            name = re.match(r"\w+", head)
            return [Item(word, name[0] if word == "trait" and name else "", head=head, inner=inner)]
        if word == "fn":
            return [self.function()]
        self.at -= 1
        return self.refuse(f"'{word}' begins no item that is known")

    def ghost(self):
        """A definition, `ghost NAME = {..};`, or a law or a member of a trait, `ghost NAME: {..};`."""
        name = self.take()
        if name == "use":
            self.until(";")
            self.take(";")
            return []
        sign = self.take()
        if sign not in (":", "="):
            self.refuse(f"after 'ghost {name}' ':' or '=' was expected")
        head = self.group()
        self.take(";")
        if sign == "=":
            return [Item("ghost", name)]
        return [Item("member" if is_sort(head) else "law", name, head=" ".join(head.split()))]

    def function(self):
        name = self.take()
        clauses = []
        head = self.until("requires", "ensures", "{", ";")
        while True:
            comment = self.comment()
            if self.peek() not in ("requires", "ensures"):
                break
            kind = self.take()
            label = self.take() if self.peek() != "{" else ""
            clauses.append(Clause(kind, label, comment, " ".join(self.group().split())))
        if self.peek() == ";":
            self.take()
        else:
            self.group()
        return Item("fn", name, clauses=clauses, head=head)


def is_sort(text):
    """Whether the type of a trait's member is one of values, and not a law: what it ends with is sorts alone."""
    depth, begin = 0, 0
    for at, sign in enumerate(text):
        depth += (sign in "({[") - (sign in ")}]")
        if sign == "→" and depth == 0:
            begin = at + 1
    return re.fullmatch(r"\s*((ℕ|Bool|List ℕ|Type 0|Self(\.\w+)*|[A-Z]\w+)(\s*×\s*|\s*$))+", text[begin:]) is not None


# ---- headers of impls


def split_impl(head):
    """The trait, or "", and the type of the head of an impl."""
    if head.startswith("<"):
        depth = 0
        for at, sign in enumerate(head):
            depth += (sign == "<") - (sign == ">" and head[at - 1] != "-")
            if depth == 0:
                break
        head = head[at + 1 :].strip()
    of, is_for, kind = head.partition(" for ")
    return (of, kind) if is_for else ("", head)


def base(path):
    """The name of a type or a trait, without its module and its arguments."""
    return re.sub(r"<.*", "", re.sub(r"^&", "", path)).split("::")[-1]


# ---- crates


class Module:
    """A module: its path below the crate, its file, its first comment, and its items."""

    def __init__(self, path, place):
        reader = Reader(place)
        self.path, self.place, self.source, self.items = path, place, reader.source, reader.items()
        lines = re.match(r"(?://!.*\n)*", self.source)[0]
        self.comment = re.sub(r"(?m)^//! ?", "", lines)


class Crate:
    """A library or a program: its modules by their paths, and which of their items others can name."""

    def __init__(self, name):
        self.name, self.modules = name, {}
        root = f"crates/{name}/src/"
        for place in files(f"{root}**/*.rt"):
            path = place[len(root) : -len(".rt")].replace("/", "::")
            path = "" if path in ("lib", "main") else path
            self.modules[path] = Module(path, place)
        self.open = {path for path in self.modules if self._is_open(path)}
        self.shown = {shown for path in self.open for shown in self._shown_by(path)}

    def _declared(self, path):
        parent, _, name = path.rpartition("::")
        if parent not in self.modules:
            raise Refused(f"crates/{self.name}: module {path} is below none")
        found = [item for item in self.modules[parent].items if item.kind == "mod" and item.name == name]
        if len(found) != 1:
            raise Refused(f"{self.modules[parent].place}: it does not declare the module {name}")
        return parent, found[0]

    def _is_open(self, path):
        if path == "":
            return True
        parent, item = self._declared(path)
        return item.is_public and self._is_open(parent)

    def _shown_by(self, path):
        """What a module shows of others by `pub use`: pairs of the module and the name."""
        for item in self.modules[path].items:
            if item.kind == "use" and item.is_public:
                source, _, names = item.name.rpartition("::")
                steps = source.split("::")
                if steps[0] == "crate":
                    steps = steps[1:]
                elif path:
                    steps = [*path.split("::"), *steps]
                for name in re.findall(r"\w+", names):
                    yield "::".join(steps), name

    def is_shown(self, path, item):
        """Whether others can name an item of a module."""
        return item.is_public and (path in self.open or (path, item.name) in self.shown)

    def types(self):
        """The names of types that others can name, and those that they can't."""
        shown, hidden = set(), set()
        for path, module in self.modules.items():
            for item in module.items:
                if item.kind in ("struct", "enum", "type"):
                    (shown if self.is_shown(path, item) else hidden).add(item.name)
        return shown, hidden - shown
