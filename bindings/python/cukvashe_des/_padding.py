"""Padding of data to whole blocks, and back."""

from __future__ import annotations

import ctypes

from ._calls import SIZE
from ._data import BLOCK_SIZE, bytes_of, pointer_to
from ._faults import BlockLengthError, PaddingMethodError, check
from ._library import function
from ._statuses import BLOCKS
from ._types import ReadableBuffer

_METHODS = {"pkcs7": 11, "iso7816": 12}

_pad = function("pad")
_unpad = function("unpad")


def _method_of(method: str) -> int:
    """The number of a method. What is given in its place may be a secret, so no text tells it."""
    if not isinstance(method, str):
        raise TypeError('the padding method, the second argument, is "pkcs7" or "iso7816"')
    number = _METHODS.get(method)
    if number is None:
        raise PaddingMethodError('padding is by "pkcs7" or "iso7816"')
    return number


def pad(data: ReadableBuffer, method: str) -> bytes:
    """The data with 1 to 8 bytes after them that make whole blocks: by "pkcs7" (RFC 5652, section 6.3) each the number of
    these bytes, by "iso7816" (ISO/IEC 7816-4) 80 in hexadecimal digits and then zeros. PaddingMethodError for another name."""
    number, given, length = _method_of(method), bytes_of(data), SIZE()
    buffer = bytearray(given) + bytes(BLOCK_SIZE)
    check(_pad(pointer_to(buffer), len(given), len(buffer), number, ctypes.byref(length)))
    return bytes(buffer[: length.value])


def unpad(data: ReadableBuffer, method: str) -> bytes:
    """The data before the padding. PaddingMethodError, BlockLengthError; PaddingMismatchError if they do not end with it. An
    attacker who sends you data and learns which raise it, by a message or by the time taken, can decrypt: verify a MAC first."""
    number, given, length = _method_of(method), bytes_of(data), SIZE()
    status = _unpad(given, len(given), number, ctypes.byref(length))
    if status == BLOCKS:
        raise BlockLengthError(f"{len(given)} bytes are not whole blocks of {BLOCK_SIZE}")
    check(status)
    return given[: length.value]
