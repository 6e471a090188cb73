"""Keys: the weak key test, parity, check values by class, components, and key serial numbers."""

from __future__ import annotations

import ctypes
from typing import Optional, Type

from ._ciphers import Cipher, class_of
from ._data import buffer_of, bytes_from, bytes_of, key_of, wiped_buffer
from ._faults import SerialLengthError, WeakKeyError, check
from ._library import function
from ._statuses import NO_SERIAL, WEAK_KEY
from ._types import ReadableBuffer

KEY_SIZES = (8, 16, 24)

_weak_key_test = function("weak_key_test")
_set_odd_parity = function("set_odd_parity")
_equal_but_parity = function("equal_but_parity")
_combine = {size: function(f"combine_{size}") for size in KEY_SIZES}
_next_serial = function("dukpt_next_serial")
_is_usable = function("dukpt_is_usable")


def is_weak_key(key: ReadableBuffer) -> bool:
    """Whether a key of 8, 16 or 24 bytes is weak: a part has few different round keys, or two parts are one key. KeyLengthError."""
    with key_of(key, *KEY_SIZES) as secret:
        status = _weak_key_test(secret, len(secret))
    if status != WEAK_KEY:
        check(status)
    return bool(status == WEAK_KEY)


def with_odd_parity(key: ReadableBuffer) -> bytes:
    """The key of 8, 16 or 24 bytes with its parity bits, the lowest of each byte, set to odd parity. KeyLengthError."""
    with key_of(key, *KEY_SIZES) as secret:
        _set_odd_parity(secret, len(secret))
        return bytes(secret)


def equal_but_parity(first: ReadableBuffer, second: ReadableBuffer) -> bool:
    """Whether two keys of one length, 8, 16 or 24 bytes, agree in all but their parity bits, and so are one key. KeyLengthError."""
    with key_of(first, *KEY_SIZES) as one, key_of(second, len(one)) as other:
        return bool(_equal_but_parity(one, other, len(one)))


def check_value(cipher: Type[Cipher], key: ReadableBuffer) -> bytes:
    """The check value (KCV) of a key: three bytes, the first of the encrypted block of zeros. `cipher` is a class, as Des.
    KeyLengthError."""
    value, kind = buffer_of(3), class_of(cipher)
    with key_of(key, kind.key_size) as secret:
        check(kind.calls["check_value"](secret, len(secret), value))
    return bytes(value)


def combine(first: ReadableBuffer, second: ReadableBuffer, *others: ReadableBuffer) -> bytes:
    """The key that two or more components of 8, 16 or 24 bytes make: their xor, with odd parity. KeyLengthError, WeakKeyError."""
    with key_of(first, *KEY_SIZES) as one, key_of(second, len(one)) as other:
        size = len(one)
        key = buffer_of(size)
        with wiped_buffer(size * len(others)) as more:
            for at, component in enumerate(others):
                with key_of(component, size) as secret:
                    ctypes.memmove(ctypes.byref(more, at * size), secret, size)
            status = _combine[size](one, other, more, len(more), len(others), key)
    if status == WEAK_KEY:
        raise WeakKeyError("the weak key test refuses the key that the components make")
    check(status)
    return bytes_from(key)


def serial_of(serial: ReadableBuffer) -> bytes:
    """The bytes of a key serial number."""
    taken = bytes_of(serial)
    if len(taken) != 10:
        raise SerialLengthError(f"a key serial number has 10 bytes, not {len(taken)}")
    return taken


def response_of(is_response: bool) -> bool:
    """The word for the message. Any other type would stand for the response, whatever it says."""
    if not isinstance(is_response, bool):
        raise TypeError("is_response is True or False")
    return is_response


def dukpt_next_serial(serial: ReadableBuffer) -> Optional[bytes]:
    """The next key serial number (KSN) whose counter is usable, or None if there is none. SerialLengthError."""
    following = buffer_of(10)
    status = _next_serial(serial_of(serial), following)
    if status == NO_SERIAL:
        return None
    check(status)
    return bytes(following)


def dukpt_is_usable(serial: ReadableBuffer) -> bool:
    """Whether the counter of a key serial number (KSN) is usable: it is not 0, and has at most ten one bits. SerialLengthError."""
    return bool(_is_usable(serial_of(serial)))
