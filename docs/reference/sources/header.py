"""c.md: the header's sections, with each call's declaration, its statuses and constants, and the proved export behind each call."""

import re

from description.c import Library
from description.errors import Errors
from description.header import DECLARES, PLACE, Stack, parts_of
from description.header import read as read_header

from .c_code import Code
from .documents import contents
from .rattle import Crate
from .text import Refused, filled, listed, read, table

KEPT_WORDS = {"C", "ECB", "CBC", "MAC", "MACs", "DES", "DUKPT", "PIN", "EMV", "ISO"}


def declarations(piece):
    """What a piece of code declares: types as they stand, and each call in a line, which is broken after a comma, and within no parameter."""
    statement = ""
    for line in piece.code:
        statement += f"{line}\n" if not DECLARES.match(statement) else f" {line.strip()}"
        if line.endswith(";") and statement.count("{") == statement.count("}"):
            call = statement.strip().removeprefix("CUKVASHE_CHECK ")
            if DECLARES.match(call):
                call = filled(re.sub("(?<!,) ", "\0", " ".join(call.split())), "    ", 120).replace("\0", " ")
            yield from call.split("\n")
            statement = ""


def heading_of(line):
    """The text of a heading, which stands in capitals in the header."""
    words = re.sub(r"\w+", lambda word: word[0] if word[0] in KEPT_WORDS else word[0].lower(), line)
    return words[0].upper() + words[1:]


def marked(text):
    """A text in which names of the library's stand as code."""
    parts = re.split(r"(`[^`]*`)", text)
    name = re.compile(r"\b(?:cukvashe|CUKVASHE)_\w+(?:\.\.\.)?|(?<![\w`])_[A-Z][A-Z0-9_]*|\bSIZE_MAX\b")
    section = re.compile(r"(?<=see )[A-Z][A-Z ]+[A-Z]")

    def shown(part):
        part = name.sub(lambda found: f"`{found[0]}`", part.replace("*", "\\*").replace("<", "\\<"))
        return section.sub(lambda found: f"[{heading_of(found[0])}](#{heading_of(found[0]).lower().replace(' ', '-')})", part)

    return "".join(part if part.startswith("`") else shown(part) for part in parts)


def comment_lines(comment):
    """The lines of a comment: headings, paragraphs, and what stands as it is."""
    for kind, lines in parts_of(comment):
        if kind == "heading":
            yield f"## {heading_of(lines[0])}"
        elif kind == "paragraph":
            yield from filled(marked(" ".join(lines))).split("\n")
        elif DECLARES.match(lines[0]):
            yield from ["```c", *lines, "```"]
        else:
            yield from ["```", *(re.sub("^    ", "", line) for line in lines), "```"]
        yield ""


def sections(header):
    """The lines of the header's sections."""
    after = ""
    for piece in header.pieces:
        if piece.is_comment:
            after = piece.text
            if "\n" in after:
                yield from comment_lines(after)
            continue
        within = range(piece.line, piece.line + piece.text.count("\n"))
        found = [it for it in header.constants if it.line in within and not it.name.startswith("VERSION_")]
        if any(it in header.statuses for it in found):
            yield from ["## Statuses by their numbers", "", marked(after), ""]
            yield from table(["Number", "Status", "What it says"], ((str(it.number), f"`CUKVASHE_{it.name}`", it.text) for it in found))
            yield ""
        elif found:
            if after.startswith("Sizes"):
                yield from ["## Sizes and other numbers", ""]
            yield from [filled(marked(after)), ""]
            yield from table(["Name", "Value", "What it is"], ((f"`CUKVASHE_{it.name}`", str(it.number), it.text) for it in found))
            yield ""
        elif piece.code:
            yield from ["```c", *declarations(piece), "```", ""]


# ---- which export carries each call


def exports():
    """The proved exports of des_c: of each the names of its clauses."""
    crate = Crate("des_c")
    found = {}
    for module in crate.modules.values():
        for item in module.items:
            if item.kind == "fn" and item.is_public:
                found[item.name] = [clause.name for clause in item.clauses if clause.kind == "ensures"]
    return found


def carriers(header):
    """For each call of the header but those that give a number, which are C alone: the proved exports behind it, and what C adds to them."""
    proved = exports()
    code = Code(header)
    library = Library(header, Stack(header), Errors(header), read("bindings/c/src/cukvashe_des.c"))
    alike = {f"cukvashe_unwiped_{it.name}" for it in library.alike}
    for name in (f"cukvashe_{call}" for call in header.calls if call not in header.numbers):
        if name not in code.functions:
            if name not in proved:
                raise Refused(f"{PLACE}: no export and no C is {name}")
            yield name, [name], []
            continue
        called, statuses = code.calls(name)
        behind, adds = {}, []
        for it in called:
            export = it.replace("cukvashe_wide_", "cukvashe_internal_").replace("cukvashe_unwiped_", "cukvashe_")
            if export in proved and it not in code.functions:
                behind[export] = None
            elif it.startswith(("cukvashe_internal_", "cukvashe_wide_", "cukvashe_unwiped_")) and it not in code.functions:
                raise Refused(f"{PLACE}: {name} calls {it}, which is no proved export")
        if behind and alike.isdisjoint(called):
            adds.append("arguments")
        if any(it.startswith("cukvashe_wide_") for it in called):
            adds.append("width")
        adds += [f"`{status}`" for status in statuses if behind]
        if code.functions[name].is_truth:
            adds.append("truth")
        if "cukvashe_internal_wipe_stack" in called:
            adds.append("wiping")
        yield name, list(behind), adds


def carrier_rows(header):
    proved, rows = exports(), {}
    for name, behind, adds in carriers(header):
        rows.setdefault((tuple(behind), tuple(adds)), []).append(name)
    for (behind, adds), calls in rows.items():
        clauses = {it: tuple(proved[it]) for it in behind}
        said = {listed(filter(None, each)) or "unnamed" for each in clauses.values()}
        if len(said) > 1:
            raise Refused(f"{PLACE}: {calls[0]} goes on to exports with different clauses")
        own = list(behind) == calls
        carried = "" if not behind else "the export of this name" if own or behind[0] in calls else f"C over {listed(behind)}"
        yield listed(calls), carried or "**C alone, not proved**", "".join(said), ", ".join(adds)


def made():
    """The lines of c.md."""
    header = read_header(read(PLACE))
    body = list(sections(header))
    ending = [
        "## Which export carries each call",
        "",
        filled(
            "A proved export is a call of the crate `des_c`, with clauses that stand in [the list of clauses](proved.md#des_c). `C over` names the "
            "exports that a few lines of C hand on to; those lines are not proved. An export with `internal` in its name is hidden: it serves "
            "several calls, or takes other arguments. Where C adds the width, there is a second one, made and proved of the same source, for batches "
            "of 256 blocks. Calls that give a number are C alone."
        ),
        "",
        "What C adds to the export:",
        "",
        "- arguments: their order, the cipher or the MAC, and numbers that follow from others, as of blocks from bytes",
        "- width: which of two exports is taken, by the length of the list and the processor",
        "- a status: C refuses by it before the export is called",
        "- truth: whether the export's status is `CUKVASHE_OK`",
        "- wiping: zeros over the part of the stack that the export took",
        "",
    ]
    rows = list(table(["Call", "Carried by", "Clauses", "C adds"], carrier_rows(header)))
    body = [*body, *ending, *rows]
    yield "# The calls of C"
    yield ""
    yield "Made of `bindings/c/cukvashe_des.h`, the library's C and `crates/des_c` by `docs/reference/fill`. [C](../C.md) shows how to use them."
    yield ""
    yield from contents("c.md", "\n".join(body))
    yield ""
    yield from body
