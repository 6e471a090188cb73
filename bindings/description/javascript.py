"""What the exports of the module take, for JavaScript: those that read bytes and numbers, and write to buffers whose size is known."""

import re

NUMBERS = {"u32": "NUMBER", "i32": "NUMBER", "bool": "NUMBER", "usize": "SIZE", "&[u8]": "LIST"}
READ = {"&TableText": "BYTES", "&HeaderText": "BYTES"}
WRITTEN = {"&mut TableText": "16", "&mut HeaderText": "10", "&mut usize": "8", "&mut u8": "1"}


def taken(kind):
    """How an argument of a kind is laid down, or how many bytes are written there; None of others."""
    if sized := re.fullmatch(r"&(mut )?\[u8; (\d+)\]", kind):
        return sized[2] if sized[1] else "BYTES"
    return {**NUMBERS, **READ, **WRITTEN}.get(kind)


def camel(name):
    return re.sub(r"_(\w)", lambda found: found[1].upper(), name)


def calls(exports):
    yield "const CALLS = {"
    for it in exports.values():
        words = [(camel(name), taken(kind)) for name, kind in it.pairs]
        if None not in [word for _, word in words]:
            line = f"  {it.name}: [{', '.join(f'[{chr(34)}{name}{chr(34)}, {word}]' for name, word in words)}],"
            if len(line) <= 120:
                yield line
            else:
                yield f"  {it.name}: ["
                yield from (f'    ["{name}", {word}],' for name, word in words)
                yield "  ],"
    yield "};"
