"""Keys from passwords, and what `openssl enc` encrypted under them."""

from __future__ import annotations

import ctypes
from typing import Optional, Type

from ._calls import SIZE
from ._ciphers import Cipher, class_of
from ._data import buffer_of, bytes_from, bytes_of, secret_of
from ._faults import BlockLengthError, HashNameError, KeyLengthError, SaltLengthError, check, fault_of
from ._library import function
from ._statuses import BLOCKS, HASH, ITERATIONS, SALT_LENGTH
from ._types import ReadableBuffer

MD5 = 21

_HASHES = {"md5": MD5, "sha1": 22, "sha256": 23}

# One more than the most iterations or bytes, which the library refuses.
TOO_MANY = 2**32

_pbkdf2 = function("pbkdf2")
_bytes_to_key = function("bytes_to_key")


def _hash_of(name: str, is_pbkdf2: bool) -> int:
    """The number of a hash function: PBKDF2 takes no MD5. What is given in its place may be a secret, so no text tells it."""
    if not isinstance(name, str):
        raise TypeError("a hash function is named by a text, as \"sha256\"")
    number = _HASHES.get(name)
    if number is None or (is_pbkdf2 and name == "md5"):
        raise fault_of(HASH) if is_pbkdf2 else HashNameError('a hash function is "md5", "sha1" or "sha256"')
    return number


def _count_of(number: int, what: str) -> int:
    """A number that is one at least, or the next that is refused."""
    if not isinstance(number, int) or isinstance(number, bool):
        raise TypeError(what)
    return max(0, min(int(number), TOO_MANY))


def iterations_of(number: int) -> int:
    count = _count_of(number, "iterations are a number")
    if count == 0:
        raise fault_of(ITERATIONS)
    return count


def length_of(number: int) -> int:
    count = _count_of(number, "the length of a key is a number")
    if count in (0, TOO_MANY):
        raise KeyLengthError("a key that is derived has at least one byte, and less than 2^32")
    return count


def pbkdf2(hash_name: str, password: ReadableBuffer, salt: ReadableBuffer, iterations: int, length: int) -> bytes:
    """The key, `length` bytes, that PBKDF2 with HMAC over "sha1" or "sha256" makes of a password and a salt. HashNameError,
    IterationCountError, KeyLengthError."""
    number, count, key, grains = _hash_of(hash_name, True), iterations_of(iterations), buffer_of(length_of(length)), bytes_of(salt)
    with secret_of(password) as secret:
        check(_pbkdf2(number, count, *secret, grains, len(grains), key, len(key)))
    return bytes_from(key)


def bytes_to_key(hash_name: str, password: ReadableBuffer, salt: ReadableBuffer, length: int) -> bytes:
    """The key, and after it the vector, together `length` bytes, that OpenSSL's EVP_BytesToKey makes of a password and a salt with
    one iteration over "md5", "sha1" or "sha256". A password is quick to guess by it: take it to read what others wrote.

    The password stands before the salt, unlike in EVP_BytesToKey. The salt has 8 bytes, without Salted__, or none (-nosalt).
    HashNameError, KeyLengthError, SaltLengthError."""
    number, key, grains = _hash_of(hash_name, False), buffer_of(length_of(length)), bytes_of(salt)
    with secret_of(password) as secret:
        status = _bytes_to_key(number, *secret, grains, len(grains), key, len(key))
    if status == SALT_LENGTH:
        raise SaltLengthError(f"the salt of bytes_to_key has 0 or 8 bytes, not {len(grains)}")
    check(status)
    return bytes_from(key)


def open_salted(
    cipher: Type[Cipher],
    password: ReadableBuffer,
    data: ReadableBuffer,
    *,
    hash_name: str = "sha256",
    iterations: Optional[int] = None,
) -> bytes:
    """The plaintext of a file that `openssl enc` encrypted under a password: by -des-cbc, -des-ede-cbc or -des3, as `cipher` is the
    class Des, TdesEde2 or TdesEde3. The data are the whole file, not Base64 (-a). The hash function is that of -md, "sha256" by
    default, "md5" before OpenSSL 1.1.0. The iterations are those of -iter; 10000 if only -pbkdf2 was given; None, not 1, if neither
    was. HashNameError, NotSaltedError, SaltLengthError, IterationCountError, BlockLengthError, PaddingMismatchError. A wrong
    password, hash function or number of iterations is PaddingMismatchError, but for one in 256, which returns wrong bytes: nothing
    here authenticates."""
    call, number = class_of(cipher).calls["open_salted"], _hash_of(hash_name, iterations is not None)
    count = 0 if iterations is None else iterations_of(iterations)
    given, length = bytes_of(data), SIZE()
    plain = buffer_of(len(given))
    with secret_of(password) as secret:
        status = call(number, count, *secret, given, len(given), plain, len(plain), ctypes.byref(length))
    if status == BLOCKS:
        raise BlockLengthError(f"{len(given)} bytes are not whole blocks of 8")
    check(status)
    return bytes_from(plain, length.value)
