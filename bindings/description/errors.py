"""The errors of each call, in the order in which the header's comments name them: of two that apply, the first is returned.

A sentence `Errors: CUKVASHE_ERR_ONE, _OTHER; _THIRD if ..` is of the calls declared after the comment that return a status, and
`Errors of pin_offset: ..` of those with this name, or whose name ends with it, or else has it between its words. What stands after an
error says when it is returned, and `of NAME alone` by which calls. An error is of no call that lacks the argument that it is about.
`Statuses of values: CUKVASHE_ERR_ONE` are what a call says of the values of a list, and not what it returns."""

import re
from dataclasses import dataclass

from sources.text import Refused

from .header import PLACE

SENTENCE = re.compile(r"\bErrors(?: of ([\w ,]+))?: (.+?)\.(?=\s|$)")
OF_VALUES = re.compile(r"\bStatuses of values: (.+?)\.(?=\s|$)")
ERROR = re.compile(r"(?<!\w)(?:CUKVASHE_ERR)?_([A-Z][A-Z0-9_]+)\b")

# The argument that an error is about, which not all calls of its section have. A field of a struct is an argument, too.
ARGUMENTS = {
    "ACCOUNT_DIGIT": "account", "ACCOUNT_LENGTH": "account", "PADDING_METHOD": "method",
}  # fmt: skip


@dataclass(frozen=True)
class Error:
    """A status by its name without `CUKVASHE_ERR_`, and what the header says after it."""

    status: str
    said: str


def endings(text):
    """The names in a list of words."""
    return [it.removeprefix("cukvashe_") for it in re.split(r",\s*|\s+and\s+", text)]


def named(calls, ending):
    """Those of a section's calls that a name stands for."""
    whole = [it for it in calls if it.name == ending or it.name.endswith(f"_{ending.lstrip('_')}")]
    found = whole or [it for it in calls if f"_{ending}_" in f"_{it.name}_"]
    if not found:
        raise Refused(f"{PLACE}: a comment says which errors '{ending}' has, which is no call that is declared after it")
    return found


def errors_in(text):
    """The errors in a sentence, each with what is said after it."""
    found = list(ERROR.finditer(text))
    ends = [it.start() for it in found[1:]] + [len(text)]
    return [Error(it[1], re.sub(r"[ ,;]*(then)? *$", "", text[it.end() : end]).strip(" ,")) for it, end in zip(found, ends)]


class Errors:
    """The errors of the header's calls."""

    def __init__(self, header):
        self.header, self.by_name = header, {}
        known = {it.name.removeprefix("ERR_") for it in header.statuses[1:]}
        for comment, calls in self._sections():
            for of, listed in sorted(SENTENCE.findall(comment), key=lambda it: it[0] == ""):
                left = [it for it in calls if it.name not in self.by_name]
                chosen = [call for it in endings(of) for call in named(calls, it)] if of else left
                if not chosen or not all(it in left for it in chosen):
                    raise Refused(f"{PLACE}: '{listed}' is the errors of no call, or of one whose errors another sentence says")
                self.by_name.update({it.name: [one for one in errors_in(listed) if self._applies(it, calls, one)] for it in chosen})
        said = {it.status for errors in self.by_name.values() for it in errors}
        said |= {it.status for comment, _ in self._sections() for listed in OF_VALUES.findall(comment) for it in errors_in(listed)}
        if said ^ known:
            raise Refused(f"{PLACE}: these are statuses or errors of calls, and not both: {', '.join(sorted(said ^ known))}")
        for call in header.calls.values():
            if call.result.base == "int" and call.parameters and not self.by_name.get(call.name):
                raise Refused(f"{PLACE}: no comment says which errors cukvashe_{call.name} has")

    def _sections(self):
        """Each comment with the calls that are declared after it and return a status."""
        pieces = self.header.pieces
        for comment, code in zip(pieces, pieces[1:]):
            within = range(code.line, code.line + code.text.count("\n") + 1)
            calls = [it for it in self.header.calls.values() if it.line in within and it.result.base == "int"]
            if comment.is_comment and not code.is_comment:
                yield " ".join(comment.text.split()), calls

    def arguments(self, call):
        """The names of a call's arguments, and of the fields of structs that it takes."""
        for it in call.parameters:
            yield it.name
            if it.type.struct and not self.header.structs[it.type.struct].words:
                yield from (field.name for field in self.header.structs[it.type.struct].fields)

    def _applies(self, call, calls, error):
        alone = re.search(r"\bof ([\w ,]+) alone\b", error.said)
        if alone and not any(call in named(calls, it) for it in endings(alone[1])):
            return False
        return ARGUMENTS.get(error.status) in (None, *self.arguments(call))
