"""The documents: which there are, their marks, their headings, and the anchors that links lead to."""

import re

from .text import Refused, files, read

BEGIN = re.compile(r"<!-- put: (.*) -->")
END = "<!-- end -->"
FENCE = re.compile(r"\s*(```+|~~~+)")


def pages():
    """The documents that are written by hand, by their places."""
    return [place for place in ["README.md", "SECURITY.md", "CONTRIBUTING.md"] if files(place)] + files("docs/*.md")


def references():
    """The documents that scripts write."""
    return files("docs/reference/*.md")


def lines_of(place, text):
    """Each line of a document with its number, the mark that it stands between, or None, and whether it stands in a fence. A line that is
    a mark stands between the two."""
    mark, fence = None, None
    for number, line in enumerate(text.removesuffix("\n").split("\n"), 1):
        begins, found = BEGIN.fullmatch(line), FENCE.match(line)
        if fence is None and (begins if mark is None else line == END):
            yield number, line, begins[1] if begins else mark, False
            mark = begins[1] if begins else None
            continue
        if fence is None and re.match(r" {0,3}<!-- *(put|end)\b", line):
            raise Refused(f"{place}:{number}: marks are two lines, '<!-- put: WHAT -->' and '{END}', and do not stand within each other")
        yield number, line, mark, bool(found) or fence is not None
        if found and fence is None:
            fence = found[1]
        elif line.strip() == fence:
            fence = None
    if mark is not None:
        raise Refused(f"{place}: the mark 'put: {mark}' has no end")


def put(place, text, maker):
    """The text of a document with what `maker` makes of each mark between its two lines."""
    made, current = [], None
    for _, line, mark, _ in lines_of(place, text):
        if mark is None:
            made.append(line)
        elif current is None:
            current = mark
            made += [line, *maker(mark)]
        elif line == END:
            current = None
            made.append(line)
    return "".join(f"{line}\n" for line in made)


def marks(place):
    """What the marks of a document put."""
    return {mark for _, _, mark, _ in lines_of(place, read(place)) if mark is not None}


def words(place):
    """How many words a document has, without what stands between marks."""
    return sum(len(line.split()) for _, line, mark, _ in lines_of(place, read(place)) if mark is None)


def headings(place, text):
    """Each heading of a document: how deep it is, its text and its anchor, as GitHub makes it."""
    seen = {}
    for _, line, _, is_fenced in lines_of(place, text):
        found = not is_fenced and re.fullmatch(r"(#{1,6}) +(.*?)(?: +#+)?", line)
        if found:
            shown = re.sub(r"\[([^\]]*)\]\([^)]*\)", r"\1", found[2])
            name = re.sub(r"[^\w\- ]", "", shown.lower()).replace(" ", "-")
            count = seen[name] = seen.get(name, -1) + 1
            yield len(found[1]), found[2], f"{name}-{count}" if count else name


def contents(place, text):
    """The contents of a document: a link to each heading of the second level."""
    return [f"- [{title}](#{anchor})" for depth, title, anchor in headings(place, text) if depth == 2]


def is_code(line):
    """Whether a line that stands in no fence is code that is indented, and no part of a list."""
    return re.match(r"    +(?![-*] |\d+\. )", line) is not None


def links(place):
    """Where the links of a document lead, each with the number of its line."""
    for number, line, _, is_fenced in lines_of(place, read(place)):
        if not is_fenced and not is_code(line):
            for target in re.findall(r"\]\(([^)\s]+)\)", re.sub(r"`[^`]*`", "", line)):
                yield number, target
