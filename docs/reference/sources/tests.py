"""tests.md: each file of tests with the first sentence of its first comment."""

import re
from pathlib import Path

from .text import Refused, files, first_sentence, read, table

# Where tests stand, and under which heading.
PLACES = {
    "The libraries and the programs": (
        "crates/*/tests/**/*",
        "crates/des_tests/src/**/*.rt",
        "crates/des_rows/src/tests.rt",
        "crates/des_rows/src/tests/**/*.rt",
    ),
    "C": ("bindings/test", "bindings/testing", "bindings/c/test", "bindings/c/tests/**/*"),
    "Python": ("bindings/python/tests/**/*",),
    "Rust": ("bindings/rust/tests/**/*",),
    "Java": ("bindings/java/test", "bindings/java/tests/**/*"),
    "Go": ("bindings/go/test", "bindings/go/*_test.go"),
    "JavaScript and the page": ("bindings/wasm/test", "bindings/wasm/tests/**/*"),
    "The provider for OpenSSL": ("bindings/openssl/test", "bindings/openssl/tests/**/*"),
    "Old records": ("bindings/records/test", "bindings/records/tests/**/*"),
    "Programs of `make`": ("bindings/programs/test", "bindings/programs/stored", "bindings/programs/tests/**/*"),
    "Examples": ("examples/test",),
}
SKIPPED = re.compile(r"(^|/)(__pycache__|out|target|node_modules)/|\.(txt|pyc)$")

# How a file's first comment begins and what stands before its text, by the suffix.
COMMENTS = {
    ".c": r"/\*(.*?)\*/|((?://[^\n]*\n)+)",
    ".h": r"/\*(.*?)\*/|((?://[^\n]*\n)+)",
    ".py": r'(?:#![^\n]*\n)?"""(.*?)"""',
    ".go": r"((?://[^\n]*\n)+)",
    ".rs": r"((?://![^\n]*\n)+)",
    ".rt": r"((?://![^\n]*\n)+)",
    ".mjs": r"((?://[^\n]*\n)+)",
    ".java": r"(?:import [^\n]*\n|\n)*/\*\*(.*?)\*/",
    "": r"(?:#![^\n]*\n)?((?:#[^\n]*\n)+)",
}


def comment_of(place):
    """The first sentence of a file's first comment, "" where it has none."""
    suffix = Path(place).suffix
    if suffix not in COMMENTS:
        raise Refused(f"{place}: how a file of this kind begins is not known")
    found = re.match(COMMENTS[suffix], read(place), re.DOTALL)
    text = next(filter(None, found.groups()), "") if found else ""
    lines = [re.sub(r"^\s*(//!|//|#|\*)? ?", "", line) for line in text.split("\n")]
    said = first_sentence("\n".join(lines)).rstrip(":")
    # Without how the file is called.
    called = rf"(?:\S*/)?{re.escape(Path(place).stem)}\S*(?: (?:\[--[a-z-]+\]|\[?[A-Z][^a-z]*))*"
    said = re.sub(rf"^{called}: ", "", said)
    said = re.sub(rf"[:.] {called}(: .*|\.?)$", ".", said)
    return said[:1].upper() + said[1:] if said[1:2].islower() else said


def made():
    """The lines of tests.md."""
    yield "# The files of tests"
    yield ""
    yield "Made of the first comment of each file by `docs/reference/fill`. [What is tested](../TESTED.md) says what they show."
    missing = []
    for heading, patterns in PLACES.items():
        places = [place for pattern in patterns for place in files(pattern) if not SKIPPED.search(place)]
        rows = [(f"`{place}`", comment_of(place)) for place in places]
        missing += [place for place, said in zip(places, rows) if not said[1]]
        if rows:
            yield from ["", f"## {heading}", ""]
            yield from table(["File", "What it is"], rows)
    if missing:
        raise Refused("these files of tests begin with no comment that says what they are: " + ", ".join(missing))
