"""The ciphers."""

# Annotations are evaluated here: as texts `typing.get_type_hints` would look them up in the package, which classes name as their module.

import functools
from typing import Any, Callable, ClassVar, Type, TypeVar, cast

from ._data import BLOCK_SIZE, KINDS, Keyed, Kind, bytes_of, copy_of, counter_of, kind_of, pointer_to
from ._data import vector_of, writable
from ._faults import BlockLengthError, SegmentSizeError, check
from ._statuses import OK
from ._types import ReadableBuffer, WriteableBuffer

CTR, OFB, CFB1 = 31, 32, 40

_Call = TypeVar("_Call", bound=Callable[..., Any])


def vectors_by_name(call: _Call) -> _Call:
    """A call that takes vectors by name alone, since they and data are bytes alike. In another order it is a TypeError that says
    what to write."""
    code = call.__code__
    places, end = code.co_argcount, code.co_argcount + code.co_kwonlyargcount
    words = [name for name in code.co_varnames[:places] if name != "self"]
    words += [f"{name}={name}" for name in code.co_varnames[places:end]]
    first, name = "the data come", code.co_name
    if name == "__init__":
        first, name = "the cipher comes", call.__qualname__.split(".")[0]
    form = f"{name}({', '.join(words)})"
    has_segments = "segment_size" in code.co_varnames[places:end]

    @functools.wraps(call)
    def checked(*given: Any, **named: Any) -> Any:
        if len(given) > places:
            raise TypeError(f"{first} first, and vectors go by name: {form}")
        if has_segments and "segment_size" not in named:
            raise TypeError(f"write {form}, with the bits of a segment: by CFB alone PyCryptodome means 8, OpenSSL and cryptography 64")
        return call(*given, **named)

    return cast(_Call, checked)


def cfb_of(segment_size: int) -> int:
    """The number of the mode CFB with segments of `segment_size` bits."""
    if not isinstance(segment_size, int) or isinstance(segment_size, bool):
        raise TypeError("segment_size is a number of bits")
    if segment_size != 1 and segment_size not in range(8, 65, 8):
        raise SegmentSizeError("a segment has 1 bit, or 8, 16, 24, 32, 40, 48, 56 or 64")
    return CFB1 + int(segment_size) // 8


class Cipher(Keyed):
    """A block cipher under one key, which threads may share: what Des, TdesEde2 and TdesEde3 have in common, for annotations. One without
    tables reads none at addresses that depend on the key or the data, and takes up to four times as long. KeyLengthError."""

    __slots__ = ()

    name: ClassVar[str] = ""
    key_size: ClassVar[int] = 0
    block_size: ClassVar[int] = BLOCK_SIZE

    def __init__(self, key: ReadableBuffer, *, no_tables: bool = False) -> None:
        self._context = class_of(type(self)).context_of(key, no_tables)

    def encrypt_ecb(self, data: ReadableBuffer) -> bytes:
        """The data, each block of 8 bytes encrypted by itself. BlockLengthError if they are not whole blocks."""
        return self._apply("encrypt_ecb_to", data)

    def decrypt_ecb(self, data: ReadableBuffer) -> bytes:
        """The data, each block of 8 bytes decrypted by itself. BlockLengthError."""
        return self._apply("decrypt_ecb_to", data)

    @vectors_by_name
    def encrypt_cbc(self, data: ReadableBuffer, *, iv: ReadableBuffer) -> bytes:
        """The data, encrypted by cipher block chaining from an initialization vector of 8 bytes. VectorLengthError,
        BlockLengthError."""
        return self._apply("encrypt_cbc_to", data, vector_of(iv))

    @vectors_by_name
    def decrypt_cbc(self, data: ReadableBuffer, *, iv: ReadableBuffer) -> bytes:
        """The data, decrypted by cipher block chaining from an initialization vector. Padding is not removed. VectorLengthError,
        BlockLengthError."""
        return self._apply("decrypt_cbc_to", data, vector_of(iv))

    @vectors_by_name
    def encrypt_ctr(self, data: ReadableBuffer, *, counter: ReadableBuffer) -> bytes:
        """The data, of any length, encrypted by the counter mode from a first counter block of 8 bytes, of which the next ones
        are counted up as one number. Two texts whose counters meet give their xor away. VectorLengthError."""
        return self._streamed("encrypt_mode", CTR, data, counter_of(counter))

    @vectors_by_name
    def decrypt_ctr(self, data: ReadableBuffer, *, counter: ReadableBuffer) -> bytes:
        """The data, decrypted by the counter mode. VectorLengthError."""
        return self._streamed("decrypt_mode", CTR, data, counter_of(counter))

    @vectors_by_name
    def encrypt_ofb(self, data: ReadableBuffer, *, iv: ReadableBuffer) -> bytes:
        """The data, of any length, encrypted by output feedback from an initialization vector of 8 bytes. Two texts from one
        vector give their xor away. VectorLengthError."""
        return self._streamed("encrypt_mode", OFB, data, vector_of(iv))

    @vectors_by_name
    def decrypt_ofb(self, data: ReadableBuffer, *, iv: ReadableBuffer) -> bytes:
        """The data, decrypted by output feedback. VectorLengthError."""
        return self._streamed("decrypt_mode", OFB, data, vector_of(iv))

    @vectors_by_name
    def encrypt_cfb(self, data: ReadableBuffer, *, iv: ReadableBuffer, segment_size: int) -> bytes:
        """The data, of any length, encrypted by cipher feedback from an initialization vector of 8 bytes, with segments of 1, 8,
        16, 24 .. or 64 bits: by CFB alone PyCryptodome means 8, OpenSSL and `cryptography` 64. VectorLengthError,
        SegmentSizeError."""
        return self._streamed("encrypt_mode", cfb_of(segment_size), data, vector_of(iv))

    @vectors_by_name
    def decrypt_cfb(self, data: ReadableBuffer, *, iv: ReadableBuffer, segment_size: int) -> bytes:
        """The data, decrypted by cipher feedback with segments of `segment_size` bits. VectorLengthError, SegmentSizeError."""
        return self._streamed("decrypt_mode", cfb_of(segment_size), data, vector_of(iv))

    def encrypt_ecb_into(self, data: WriteableBuffer) -> None:
        """Encrypts in place, in a bytearray or the like. BlockLengthError; TypeError if the data are not writable in one
        piece."""
        self._change("encrypt_ecb", data)

    def decrypt_ecb_into(self, data: WriteableBuffer) -> None:
        """Decrypts in place. Errors as of encrypt_ecb_into."""
        self._change("decrypt_ecb", data)

    @vectors_by_name
    def encrypt_cbc_into(self, data: WriteableBuffer, *, iv: ReadableBuffer) -> bytes:
        """Encrypts in place by cipher block chaining; returns the vector of the next piece. VectorLengthError, and the errors of
        encrypt_ecb_into."""
        vector = vector_of(iv)
        self._change("encrypt_cbc", data, vector)
        return bytes(vector)

    @vectors_by_name
    def decrypt_cbc_into(self, data: WriteableBuffer, *, iv: ReadableBuffer) -> bytes:
        """Decrypts in place by cipher block chaining; returns the vector of the next piece. Errors as of encrypt_cbc_into."""
        vector = vector_of(iv)
        self._change("decrypt_cbc", data, vector)
        return bytes(vector)

    def _apply(self, call: str, data: ReadableBuffer, *vector: Any) -> bytes:
        context, given = self._open(), bytes_of(data)
        result = bytearray(len(given))
        output = pointer_to(result) if given else None
        _whole(context.kind.calls[call](context, *vector, given, output, len(given)), len(given))
        return bytes(result)

    def _change(self, call: str, data: WriteableBuffer, *vector: Any) -> None:
        context = self._open()
        with writable(data) as (place, length):
            _whole(context.kind.calls[call](context, *vector, place, length), length)

    def _streamed(self, call: str, mode: int, data: ReadableBuffer, vector: Any) -> bytes:
        context, result = self._open(), copy_of(data)
        check(context.kind.calls[call](context, mode, vector, pointer_to(result) if result else None, len(result)))
        return bytes(result)


def _whole(status: int, length: int) -> None:
    """Raises BlockLengthError if a call refused the length."""
    if status != OK:
        raise BlockLengthError(f"{length} bytes are not whole blocks of {BLOCK_SIZE}")


def class_of(cipher: Type[Cipher]) -> Kind:
    """What a class of ciphers stands for. A class that a caller derives from one is as that one."""
    kind = kind_of(cipher, Cipher)
    if kind is None:
        raise TypeError("a class of ciphers is Des, TdesEde2, TdesEde3, or one that is derived from these")
    return kind


class Des(Cipher):
    """DES, under a key of 8 bytes. KeyLengthError."""

    __slots__ = ()
    name, key_size = "des", 8


class TdesEde2(Cipher):
    """Triple DES (encrypt, decrypt, encrypt), under the two parts of a key of 16 bytes and the first again. KeyLengthError."""

    __slots__ = ()
    name, key_size = "tdes_ede2", 16


class TdesEde3(Cipher):
    """Triple DES (encrypt, decrypt, encrypt), under the three parts of a key of 24 bytes. KeyLengthError."""

    __slots__ = ()
    name, key_size = "tdes_ede3", 24


for _cipher in (Des, TdesEde2, TdesEde3):
    KINDS[_cipher] = Kind(_cipher.name, _cipher.key_size)
