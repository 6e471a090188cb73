"""Nanoseconds for a value of 24 encrypted bytes, of a million under one key: by the call of C for a column, by that of Python, as
many blocks by `decrypt_cbc_records`, and in a loop over Python's `cryptography`. The least processor time of a few runs counts:
benchmark.py [RUNS], of a hundred runs five."""

import ctypes
import sys
import time
from functools import partial
from pathlib import Path

from cryptography.hazmat.primitives import padding
from cryptography.hazmat.primitives.ciphers import Cipher, modes

try:
    from cryptography.hazmat.decrepit.ciphers.algorithms import TripleDES
except ImportError:
    from cryptography.hazmat.primitives.ciphers.algorithms import TripleDES

sys.dont_write_bytecode = True
sys.path.insert(0, str(Path(__file__).resolve().parents[1] / "python"))

from cukvashe_des import bytes_to_key, mysql_decrypt_values, mysql_encrypt_values, pgcrypto_decrypt_values, pgcrypto_encrypt_values
from cukvashe_des._calls import WORDS
from cukvashe_des._library import function

COUNT, LOOPED, SIZE = 1_000_000, 20_000, 24
TEXT, KEY, ZEROS = b"4111111111111111", b"0123456789abcdef01234567", bytes(8)


def checked(name, *arguments):
    if function(name)(*arguments) != 0:
        sys.exit(f"benchmark.py: {name} does not take all values")


def numbers(number):
    return (ctypes.c_size_t * COUNT)(*[number] * COUNT)


def by_c(name, secret, column):
    """The call of C for all values."""
    values, sizes, texts = b"".join(column), numbers(len(column[0])), ctypes.create_string_buffer(len(column[0]) * COUNT)
    lengths, statuses = numbers(0), (ctypes.c_int * COUNT)()
    return lambda: checked(name, *secret, values, len(values), sizes, COUNT, texts, lengths, statuses)


def by_records(key):
    """One call for as many blocks, of which none is a padding, in place."""
    context, vectors = (ctypes.c_uint64 * WORDS["tdes_ede3"])(), ctypes.create_string_buffer(8 * COUNT)
    blocks, counts = ctypes.create_string_buffer(SIZE * COUNT), numbers(SIZE // 8)
    checked("tdes_ede3_init", context, key, len(key))
    return lambda: checked("tdes_ede3_decrypt_cbc_records", context, vectors, len(vectors), counts, COUNT, blocks, len(blocks))


def by_loop(key, column, unpadded):
    """A call of `cryptography` for each of the first values."""

    def loop():
        for value in column[:LOOPED]:
            cipher = Cipher(TripleDES(key), modes.CBC(ZEROS)).decryptor()
            if unpadded(cipher.update(value[-SIZE:]) + cipher.finalize()) != TEXT:
                sys.exit("benchmark.py: cryptography reads another text")

    return loop


def by_pkcs7(text):
    unpadder = padding.PKCS7(64).unpadder()
    return unpadder.update(text) + unpadder.finalize()


def least(runs, count, call):
    """The least time of a call for a value, of `count` values."""
    times = []
    for _ in range(runs):
        start = time.process_time_ns()
        call()
        times.append(time.process_time_ns() - start)
    return f"{min(times) / count:.2f}"


def row(what, runs, calls):
    print(" | ".join([what, *(least(runs, count, call) for call, count in zip(calls, (COUNT, COUNT, COUNT, LOOPED)))]), flush=True)


def main():
    runs = max(1, int(sys.argv[1]) // 20) if len(sys.argv) > 1 else 5
    print("\n[columns]\nns per value of 24 bytes, of a million | in one call of C | of Python | as records | a loop over cryptography")
    column = pgcrypto_encrypt_values("3des", KEY, [TEXT] * COUNT)
    by_python = partial(pgcrypto_decrypt_values, "3des", KEY, column)
    secret = b"3des", 4, KEY, len(KEY), ZEROS, len(ZEROS)
    calls = by_c("pgcrypto_decrypt_values", secret, column), by_python, by_records(KEY), by_loop(KEY, column, by_pkcs7)
    row("pgcrypto, 3des", runs, calls)
    column = mysql_encrypt_values(KEY, [TEXT] * COUNT)
    by_python = partial(mysql_decrypt_values, KEY, column)
    key = bytes_to_key("md5", KEY, b"", 24)
    loop = by_loop(key, column, lambda text: text[: -text[-1]])
    row("MySQL, DES_ENCRYPT", runs, (by_c("mysql_decrypt_values", (KEY, len(KEY)), column), by_python, by_records(key), loop))


main()
