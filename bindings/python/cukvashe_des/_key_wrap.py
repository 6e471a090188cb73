"""Key wraps: a key encrypted under another, by the key wrap of CMS (RFC 3217), and by TKW (NIST SP 800-38F)."""

from __future__ import annotations

import ctypes
import secrets
from typing import Any, Callable, Optional

from ._calls import SIZE
from ._data import A_KEY, BLOCK_SIZE, buffer_of, bytes_from, hint_of, secret_of, vector_of
from ._faults import check
from ._library import function
from ._statuses import KEY_LENGTH, PROTECTION_KEY_LENGTH
from ._types import ReadableBuffer

# How many bytes a wrapped key has more than the key.
_CMS_MORE, _TKW_MORE = 16, 4

# The lengths of a key that TKW takes: CMS has another status for its own.
_TAKEN = {KEY_LENGTH: ": a multiple of 4 bytes, at least 8"}

_cms_wrap = function("cms_wrap_key")
_cms_unwrap = function("cms_unwrap_key")
_tkw_wrap = function("tkw_wrap_key")
_tkw_unwrap = function("tkw_unwrap_key")


def _through(call: Callable[..., int], protection: ReadableBuffer, given: ReadableBuffer, more: int, *vector: Any) -> bytes:
    """What a call makes of bytes under a protection key: `more` bytes more than were given."""
    with secret_of(protection, A_KEY) as kek, secret_of(given, A_KEY) as bare:
        made, length = buffer_of(max(bare[1] + more, 0)), SIZE()
        status = call(*kek, *vector, *bare, made, len(made), ctypes.byref(length))
        check(status, hint_of(kek[0], 16, 24) if status == PROTECTION_KEY_LENGTH else "", _TAKEN)
    return bytes_from(made, length.value)


def cms_wrap_key(protection: ReadableBuffer, key: ReadableBuffer, *, iv: Optional[ReadableBuffer] = None) -> bytes:
    """A key of 8 bytes or a multiple, wrapped under a protection key (KEK) of 16 or 24 bytes by the key wrap of CMS (RFC 3217), which makes
    it 16 bytes longer. The initialization vector is random, or the one that is given. VectorLengthError,
    ProtectionKeyLengthError, BlockLengthError."""
    vector = vector_of(secrets.token_bytes(BLOCK_SIZE) if iv is None else iv)
    return _through(_cms_wrap, protection, key, _CMS_MORE, vector)


def cms_unwrap_key(protection: ReadableBuffer, wrapped: ReadableBuffer) -> bytes:
    """The key that the key wrap of CMS wrapped. Its parity is not tested. ProtectionKeyLengthError, WrappedLengthError; WrappedKeyError if
    it was changed, or is under another key."""
    return _through(_cms_unwrap, protection, wrapped, -_CMS_MORE)


def tkw_wrap_key(protection: ReadableBuffer, key: ReadableBuffer) -> bytes:
    """A key of 8 bytes or more, a multiple of 4, wrapped under a protection key (KEK) of 16 or 24 bytes by TKW (NIST SP 800-38F), which
    makes it 4 bytes longer. ProtectionKeyLengthError, KeyLengthError."""
    return _through(_tkw_wrap, protection, key, _TKW_MORE)


def tkw_unwrap_key(protection: ReadableBuffer, wrapped: ReadableBuffer) -> bytes:
    """The key that TKW wrapped. ProtectionKeyLengthError, WrappedLengthError; WrappedKeyError if it was changed, or is under another
    key."""
    return _through(_tkw_unwrap, protection, wrapped, -_TKW_MORE)
