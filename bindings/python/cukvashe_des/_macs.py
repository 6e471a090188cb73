"""The message authentication codes."""

# Annotations are evaluated here, as in _ciphers.py.

import threading
from typing import Any, ClassVar, Tuple, Type, TypeVar

from ._data import BLOCK_SIZE, KINDS, Keyed, Kind, buffer_of, bytes_of, kind_of
from ._faults import check, fault_of
from ._statuses import OK, TAG
from ._types import ReadableBuffer

TAG_SIZE = 8
LEAST_TAG_SIZE = 4

_Self = TypeVar("_Self", bound="Mac")


class Mac(Keyed):
    """A message authentication code of a message that comes in pieces: what all MACs have in common, for annotations. Threads may
    share one: its calls take turns. One without tables reads none at addresses that depend on the key or the message, and takes two
    to two and a half times as long."""

    __slots__ = ("_lock",)

    name: ClassVar[str] = ""
    key_size: ClassVar[int] = 0
    digest_size: ClassVar[int] = TAG_SIZE
    block_size: ClassVar[int] = BLOCK_SIZE

    def __init__(self, *arguments: Any, **words: Any) -> None:
        mac_class_of(type(self))  # This class itself is no MAC's, and each MAC's has its own arguments.

    def _begin(self, no_tables: bool, key: ReadableBuffer, *padding: int) -> None:
        self._context, self._lock = mac_class_of(type(self)).context_of(key, no_tables, *padding), threading.Lock()

    def update(self, data: ReadableBuffer) -> None:
        """Adds bytes to the message."""
        given = bytes_of(data)
        with self._lock:
            context = self._open()
            check(context.kind.calls["update"](context, given, len(given)))

    def digest(self) -> bytes:
        """The tag of the message so far, 8 bytes; the message may go on. To check a tag call verify, not ==."""
        tag = buffer_of(TAG_SIZE)
        with self._lock:
            context = self._open()
            check(context.kind.calls["final"](context, tag))
        return bytes(tag)

    def hexdigest(self) -> str:
        """The tag in hexadecimal digits."""
        return self.digest().hex()

    def verify(self, tag: ReadableBuffer) -> None:
        """Accepts the whole tag of the message so far, 8 bytes; TagMismatchError for anything else. verify_truncated_left takes cut
        tags; the call for C of this name takes both."""
        self._accept(tag, TAG_SIZE)

    def verify_truncated_left(self, tag: ReadableBuffer) -> None:
        """Accepts the first 4 to 8 bytes of the tag; TagMismatchError for anything else. Of 4 bytes one guess in 2^32 is right:
        test len(tag) too if somebody else chose it."""
        self._accept(tag, LEAST_TAG_SIZE)

    def _accept(self, tag: ReadableBuffer, least: int) -> None:
        given = bytes_of(tag)
        with self._lock:
            context = self._open()
            status = context.kind.calls["verify"](context, given, len(given))
        if status != OK or len(given) < least:
            raise fault_of(TAG)

    def copy(self: _Self) -> _Self:
        """A MAC that goes on from here by itself."""
        other = object.__new__(type(self))
        with self._lock:
            context = self._open()
            other._context = type(context).from_buffer_copy(context)
        other._lock = threading.Lock()
        return other

    def close(self) -> None:
        """Forgets the key and the message: the context is wiped. Every later call raises ClosedError."""
        with self._lock:
            super().close()


def mac_class_of(mac: Type[Mac]) -> Kind:
    """What a class of MACs stands for. A class that a caller derives from one is as that one."""
    kind = kind_of(mac, Mac)
    if kind is None:
        raise TypeError("a class of MACs is one such as CmacTdesEde2, or one that is derived from such a one")
    return kind


class PaddedMac(Mac):
    """A MAC with a padding method of ISO/IEC 9797-1: 1, zeros, or 2, a one bit and zeros."""

    __slots__ = ()

    def __init__(self, key: ReadableBuffer, padding: int, data: ReadableBuffer = b"", *, no_tables: bool = False) -> None:
        if not isinstance(padding, int) or isinstance(padding, bool):
            raise TypeError("the padding method, the second argument, is the number 1 or 2")
        # A number too large for C's type would lose bits.
        self._begin(no_tables, key, padding if padding in (1, 2) else 0)
        self.update(data)


class Cmac(Mac):
    """CMAC, which needs no padding method."""

    __slots__ = ()

    def __init__(self, key: ReadableBuffer, data: ReadableBuffer = b"", *, no_tables: bool = False) -> None:
        self._begin(no_tables, key)
        self.update(data)


class CbcMacDes(PaddedMac):
    """CBC-MAC over DES, under a key of 8 bytes, by padding method 1 or 2. It is safe only if every message has one length.
    KeyLengthError, PaddingMethodError."""

    __slots__ = ()
    name, key_size = "cbc_mac_des", 8


class CbcMacTdesEde2(PaddedMac):
    """CBC-MAC over triple DES, under a key of 16 bytes, by padding method 1 or 2. It is safe only if every message has one
    length. KeyLengthError, PaddingMethodError."""

    __slots__ = ()
    name, key_size = "cbc_mac_tdes_ede2", 16


class CbcMacTdesEde3(PaddedMac):
    """CBC-MAC over triple DES, under a key of 24 bytes, by padding method 1 or 2. It is safe only if every message has one
    length. KeyLengthError, PaddingMethodError."""

    __slots__ = ()
    name, key_size = "cbc_mac_tdes_ede3", 24


class RetailMacDes(PaddedMac):
    """The retail MAC over DES, under a key of 16 bytes, two keys, by padding method 1 or 2. KeyLengthError, PaddingMethodError."""

    __slots__ = ()
    name, key_size = "retail_mac_des", 16


class CmacTdesEde2(Cmac):
    """CMAC over triple DES, under a key of 16 bytes. KeyLengthError."""

    __slots__ = ()
    name, key_size = "cmac_tdes_ede2", 16


class CmacTdesEde3(Cmac):
    """CMAC over triple DES, under a key of 24 bytes. KeyLengthError."""

    __slots__ = ()
    name, key_size = "cmac_tdes_ede3", 24


_CLASSES: Tuple[Type[Mac], ...] = (CbcMacDes, CbcMacTdesEde2, CbcMacTdesEde3, RetailMacDes, CmacTdesEde2, CmacTdesEde3)
for _mac in _CLASSES:
    KINDS[_mac] = Kind(_mac.name, _mac.key_size)
