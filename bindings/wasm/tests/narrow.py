#!/usr/bin/env python3
"""narrow.py NARROW: modules that it takes, and those of another memory or with an instruction that it does not know, which it refuses."""

import pathlib
import subprocess
import sys
import tempfile

count = 0


def module(body, memory="0104 01", local="00"):
    """A module of a memory and one function without parameters."""
    code = bytes.fromhex(f"{local} {body} 0b")
    parts = ["0061736d01000000 0104 01600000 0302 0100 0503", memory, f"0a{len(code) + 2:02x} 01{len(code):02x}"]
    return bytes.fromhex("".join(parts)) + code


def made(given):
    """What narrow writes of a module, or the line that it says and nothing written."""
    global count
    count += 1
    with tempfile.TemporaryDirectory() as folder:
        files = [pathlib.Path(folder, name) for name in ("module", "made")]
        files[0].write_bytes(given)
        done = subprocess.run([sys.argv[1], *files], capture_output=True, text=True)
        if done.returncode == 0:
            return files[1].read_bytes()
        assert not files[1].exists()
        return done.stderr


# By hand: a local of 64 bits and one of 32, and before each access its addresses cut.
for body, narrowed in {
    "": "",
    "4200 2900 08 1a": "4200 a7 2900 08 1a",
    "4200 29 00 888000 1a": "4200 a7 2900 08 1a",
    "4200 4201 3703 00": "4200 4201 2100 a7 2000 3703 00",
    "4200 4101 3a00 00": "4200 4101 2101 a7 2001 3a00 00",
    "4200 4101 4202 fc0b 00": "4200 4101 4202 2100 2101 a7 2001 2000 a7 fc0b 00",
    "4200 4201 4202 fc0a 0000": "4200 4201 4202 2100 a7 2101 a7 2001 2000 a7 fc0a 0000",
}.items():
    assert made(module(body)) == module(narrowed, "0100 01", "02 017e 017f"), body
for body, memory, words in [
    ("", "0100 01", "another memory"), ("", "0001 01", "another memory"), ("3f00 1a", "0104 01", "the instruction 3f"),
    ("4200 4000 1a", "0104 01", "the instruction 40"), ("4200 2b00 00 1a", "0104 01", "the instruction 2b"),
    ("4200 2900 8080808010 1a", "0104 01", "an offset of more than 32 bits"), ("fc09 00", "0104 01", "the instruction fc 09"),
    ("fd0c", "0104 01", "the instruction fd"), ("027d 0b", "0104 01", "a block of a type"),
]:
    said = made(module(body, memory))
    assert isinstance(said, str) and said.startswith(f"narrow: the module has {words}"), (body, said)
print(f"narrow: {count} modules")
