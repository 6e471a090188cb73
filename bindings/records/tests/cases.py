"""What the tests compare: texts, passwords and keys, at random but for their lengths. SEED=NUMBER repeats them."""

import os
import random
import sys

SEED = int(os.environ.get("SEED") or random.SystemRandom().randrange(2**32))
chance = random.Random(SEED)


def some(least, most):
    """Random bytes, of a random length."""
    return chance.randbytes(chance.randint(least, most))


def texts():
    """A text of each length from 0 to 40, texts that end as paddings do, and some of up to 300 bytes."""
    for length in range(41):
        yield chance.randbytes(length)
    for count in range(9):
        yield bytes([count]) * count
        yield b"*" * 8 + bytes([count])
    for _ in range(40):
        yield some(0, 300)


def words(least, most):
    """A password of printable characters of ASCII."""
    return "".join(chr(chance.randint(0x20, 0x7E)) for _ in range(chance.randint(least, most)))


def same(what, ours, theirs):
    """Ends the tests with the first place where two columns differ."""
    if len(ours) != len(theirs):
        sys.exit(f"{what}: {len(ours)} values and {len(theirs)} (SEED={SEED})")
    for place, (one, other) in enumerate(zip(ours, theirs)):
        if one != other:
            sys.exit(f"{what}: value {place} is {one!r} here and {other!r} there (SEED={SEED})")
    return len(ours)
