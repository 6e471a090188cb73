"""The tables of figures.txt, rounded for readers."""

import re

from .text import Refused, read, table

PLACE = "docs/reference/figures.txt"


class Part:
    """What one script measured: on what, and its tables, each a list of rows of cells, the heads first."""

    def __init__(self):
        self.machine, self.tables = {}, {}


def parts():
    """The parts of figures.txt, by the scripts that write them."""
    found, rows = {}, None
    for number, line in enumerate(read(PLACE).splitlines(), 1):
        if line.startswith("= "):
            part = found[line[2:]] = Part()
            rows = None
        elif not found or not line:
            continue
        elif named := re.fullmatch(r"\[([a-z0-9-]+)\]", line):
            rows = part.tables[named[1]] = []
        elif rows is not None:
            rows.append([cell.strip() for cell in line.split("|")])
            if len(rows[-1]) != len(rows[0]):
                raise Refused(f"{PLACE}:{number}: the row does not have as many cells as the heads")
        elif said := re.fullmatch(r"(\w+): (.+)", line):
            part.machine[said[1]] = said[2]
        else:
            raise Refused(f"{PLACE}:{number}: this line is not understood")
    return found


def rounded(text, is_times):
    """A number for readers, with no more places than it has: ratios with two up to 2, all with one up to 20."""
    if not re.fullmatch(r"\d+(\.\d+)?", text):
        return re.sub(r"\d{4,}", lambda found: f"{int(found[0]):,}", text)
    number, known = float(text), len(text.partition(".")[2])
    wanted = 2 if is_times and number < 2 else 1 if number < (10 if is_times else 20) else 0
    return f"{number:,.{min(wanted, known)}f}"


def shown(rows):
    """The lines of a table. A label that stands in the row before is left out."""
    heads, *rest = rows
    is_times = re.search("times as fast|of the time", " ".join(heads)) is not None
    made, before = [], ""
    for label, *cells in rest:
        made.append([label if label != before else "", *(rounded(cell, is_times) for cell in cells)])
        before = label
    return list(table([rounded(head, False) for head in heads], made))


def lists(lengths):
    """The longest messages of the table of lengths, with a column for each library."""
    heads, *rest = lengths
    libraries = list(dict.fromkeys(row[1] for row in rest))
    found = {}
    for row in rest:
        found.setdefault(row[0], {})[row[1]] = row[-1]
    return [[f"{heads[0]}, {heads[-1]} bytes", *libraries], *([label, *(cells[it] for it in libraries)] for label, cells in found.items())]


def machine(part):
    """On what a part was measured, in a sentence."""
    said = part.machine
    libraries = [f"{name} {said[name]}" for name in ("OpenSSL", "libgcrypt", "Java", "Go") if name in said]
    return ["; ".join(filter(None, [said["processor"], *libraries, said.get("compiler"), said["date"]])) + "."]


def made(name):
    """The lines that `put: figures NAME` puts."""
    found = parts()
    tables = {name: rows for part in found.values() for name, rows in part.tables.items()}
    if name == "lists":
        return shown(lists(tables["lengths"]))
    if name == "machine":
        return machine(found["bindings/benchmark"])
    if name == "openssl-machine":
        return machine(found["bindings/openssl/benchmark"])
    if name == "java-machine":
        return machine(found["bindings/java/benchmark"])
    if name == "go-machine":
        return machine(found["bindings/go/benchmark"])
    if name not in tables:
        raise Refused(f"{PLACE}: it has no table {name}: {', '.join(['lists', 'machine', 'openssl-machine', 'java-machine', 'go-machine', *tables])}")
    return shown(tables[name])
