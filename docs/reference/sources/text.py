"""What the makers of references share: refusals, sentences, and tables of Markdown."""

import re
import textwrap
from pathlib import Path

ROOT = Path(__file__).resolve().parents[3]
WIDTH = 150


class Refused(Exception):
    """A source that is not understood: which place, and why."""


def read(place):
    """The text of a file of the repository."""
    try:
        return (ROOT / place).read_text(encoding="utf-8")
    except OSError as it:
        raise Refused(f"{place}: {it.strerror}") from None


def files(*patterns):
    """The files that match, by their places, in order."""
    found = {path for pattern in patterns for path in ROOT.glob(pattern) if path.is_file()}
    return sorted(str(path.relative_to(ROOT)) for path in found)


def first_sentence(text):
    """The first sentence of a text, in one line."""
    paragraph = " ".join(re.split(r"\n\s*\n", text.strip())[0].split())
    return re.split(r"(?<=[.?!])\s+(?=[A-Z`(\"])", paragraph)[0]


def filled(text, indent="", width=WIDTH):
    """A text in lines. What begins a line by chance is no item of a list and no heading."""
    lines = textwrap.wrap(text, width, subsequent_indent=indent, break_long_words=False, break_on_hyphens=False)
    return "\n".join(re.sub(r"^(\d*)([-+*#>.)])(?=\s)", r"\1\\\2", line) for line in lines)


def table(head, rows):
    """The lines of a table. A bar within a cell is escaped."""
    yield f"| {' | '.join(head)} |"
    yield "|" + "---|" * len(head)
    for row in rows:
        assert len(row) == len(head)
        escaped = (cell.replace("|", "\\|") for cell in row)
        yield "|" + "".join(f" {cell} |" if cell else " |" for cell in escaped)


def listed(names):
    """Names in backticks, one after the other."""
    return ", ".join(f"`{name}`" for name in names)
