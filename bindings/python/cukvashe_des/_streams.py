"""Streams: CTR, OFB and CFB of data that come in pieces of any length."""

# Annotations are evaluated here, as in _ciphers.py.

import threading
from typing import Any, Optional, TypeVar

from ._calls import WORDS
from ._ciphers import CFB1, CTR, OFB, Cipher, cfb_of, vectors_by_name
from ._data import Keyed, context_type, copy_of, counter_of, pointer_to, vector_of, wiped_buffer, writable
from ._faults import DataLengthError, DirectionError, PositionError, SegmentSizeError, check
from ._library import function
from ._types import ReadableBuffer, WriteableBuffer

_State = context_type(WORDS["stream"])

_begin = function("stream_begin")
_begin_ctr_at = function("stream_begin_ctr_at")

_Self = TypeVar("_Self", bound="Stream")


def _number_of(number: int, what: str) -> int:
    if not isinstance(number, int) or isinstance(number, bool):
        raise TypeError(f"{what} is a number")
    return int(number)


class Stream(Keyed):
    """Data that come in pieces of any length, under a cipher: what Ctr, Ofb and Cfb have in common, for annotations. Wherever data are cut,
    they become what they become as a whole. A stream that has encrypted does not decrypt, nor the other way round: DirectionError. It goes
    on as long as its cipher is not closed. Threads may share one: its calls take turns."""

    __slots__ = ("_cipher", "_mode", "_vector", "_turns", "_direction")

    _direction: Optional[str]

    def __init__(self, *arguments: Any, **words: Any) -> None:
        raise TypeError("a stream is a Ctr, an Ofb or a Cfb")

    def _start(self, cipher: Cipher, mode: int, vector: Any) -> None:
        if not isinstance(cipher, Cipher):
            raise TypeError("the first argument is a cipher, such as TdesEde3(key)")
        cipher._open()
        state = _State()
        check(_begin(state, mode, vector))
        self._cipher, self._mode, self._vector, self._context, self._turns = cipher, mode, vector, state, threading.Lock()
        self._direction = None

    def encrypt(self, data: ReadableBuffer) -> bytes:
        """The bytes that come next, encrypted."""
        return self._apply("encrypt_stream", copy_of(data))

    def decrypt(self, data: ReadableBuffer) -> bytes:
        """The bytes that come next, decrypted."""
        return self._apply("decrypt_stream", copy_of(data))

    def encrypt_into(self, data: WriteableBuffer) -> None:
        """Encrypts the bytes that come next in place, in a bytearray or the like. TypeError if they are not writable in one
        piece."""
        with writable(data) as (place, length):
            self._change("encrypt_stream", place, length)

    def decrypt_into(self, data: WriteableBuffer) -> None:
        """Decrypts the bytes that come next in place. TypeError as of encrypt_into."""
        with writable(data) as (place, length):
            self._change("decrypt_stream", place, length)

    def _apply(self, call: str, data: bytearray, *bits: int) -> bytes:
        self._change(call, pointer_to(data) if data else None, *(bits or (len(data),)))
        return bytes(data)

    def _change(self, call: str, place: Any, size: int) -> None:
        with self._turns:
            self._call(call, self._open(), place, size)

    def _call(self, call: str, state: Any, place: Any, size: int) -> None:
        direction = call.partition("_")[0]
        if self._direction not in (None, direction):
            raise DirectionError(f"this stream {self._direction}s: begin another to {direction}")
        context = self._cipher._open()
        check(context.kind.calls[call](context, state, place, size))
        if size:
            self._direction = direction

    def copy(self: _Self) -> _Self:
        """A stream that goes on from here by itself."""
        other = object.__new__(type(self))
        with self._turns:
            other._context, other._direction = _State.from_buffer_copy(self._open()), self._direction
        other._cipher, other._mode, other._vector, other._turns = self._cipher, self._mode, self._vector, threading.Lock()
        return other

    def close(self) -> None:
        """Forgets where the stream is, but not the cipher's key. Every later call raises ClosedError."""
        with self._turns:
            super().close()


class Ctr(Stream):
    """The counter mode from a first counter block of 8 bytes, of which the next ones are counted up as one number. Two texts whose
    counters meet give their xor away. VectorLengthError."""

    __slots__ = ()

    @vectors_by_name
    def __init__(self, cipher: Cipher, *, counter: ReadableBuffer) -> None:
        self._start(cipher, CTR, counter_of(counter))

    def seek(self, position: int) -> None:
        """Goes on at a byte of the text, from 0 on, of which no byte before it is needed, in either direction. PositionError."""
        blocks, rest = divmod(_number_of(position, "a position"), 8)
        if not 0 <= blocks < 2**64:
            raise PositionError("a position in a stream is 0 to 2^67 - 1")
        state = _State()
        _begin_ctr_at(state, self._vector, blocks)
        with self._turns, wiped_buffer(rest) as skipped:
            self._open()
            context = self._cipher._open()
            check(context.kind.calls["encrypt_stream"](context, state, skipped, rest))
            self._context, self._direction = state, None


class Ofb(Stream):
    """Output feedback from an initialization vector of 8 bytes. Two texts from one vector give their xor away. VectorLengthError."""

    __slots__ = ()

    @vectors_by_name
    def __init__(self, cipher: Cipher, *, iv: ReadableBuffer) -> None:
        self._start(cipher, OFB, vector_of(iv))


class Cfb(Stream):
    """Cipher feedback from an initialization vector of 8 bytes, with segments of 1, 8, 16, 24 .. or 64 bits: by CFB alone PyCryptodome means
    8, OpenSSL and `cryptography` 64. VectorLengthError, SegmentSizeError."""

    __slots__ = ()

    @vectors_by_name
    def __init__(self, cipher: Cipher, *, iv: ReadableBuffer, segment_size: int) -> None:
        self._start(cipher, cfb_of(segment_size), vector_of(iv))

    def encrypt_bits(self, data: ReadableBuffer, bits: int) -> bytes:
        """The data with the first `bits` bits encrypted, in segments of 1 bit. Bit 1 is the highest of the first byte; later bits are
        unchanged. SegmentSizeError, DataLengthError."""
        return self._apply_bits("encrypt_stream_bits", copy_of(data), bits)

    def decrypt_bits(self, data: ReadableBuffer, bits: int) -> bytes:
        """The data with the first `bits` bits decrypted, as `encrypt_bits` encrypts. SegmentSizeError, DataLengthError."""
        return self._apply_bits("decrypt_stream_bits", copy_of(data), bits)

    def _apply_bits(self, call: str, given: bytearray, bits: int) -> bytes:
        if self._mode != CFB1:
            raise SegmentSizeError("bits are taken with segments of 1 bit alone")
        if not 0 <= _number_of(bits, "the number of bits") <= 8 * len(given):
            raise DataLengthError(f"the number of bits is from 0 to {8 * len(given)}")
        return self._apply(call, given, int(bits))
