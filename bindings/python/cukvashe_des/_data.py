"""How bytes come in and go out, and how what holds a key is wiped."""

from __future__ import annotations

import contextlib
import ctypes
import re
from itertools import takewhile
from typing import Any, Dict, Iterator, NoReturn, Optional, Tuple, Type, TypeVar

from ._calls import CALLS, INT, POINTER, WORDS
from ._faults import BlockLengthError, ClosedError, Error, KeyLengthError, VectorLengthError, check
from ._library import function, wipe
from ._types import ReadableBuffer, Text, WriteableBuffer

BLOCK_SIZE = 8

# Bytes, and words whose most significant byte comes first, as a memoryview names them.
_IN_ORDER = re.compile("[@=<>!]?[Bbc]|[>!][HhIiLlQq]")


def in_order(view: memoryview) -> memoryview:
    """The view of an object whose items are bytes, or words whose most significant byte comes first. A TypeError if they are
    others, since the bytes of each item would then be out of order."""
    if not _IN_ORDER.fullmatch(view.format):
        raise TypeError("data have items of one byte, or words with the most significant byte first (uint8 or >u8)")
    return view


# What an error says that a call needs, and how it is made of a text.
_Needed = Tuple[str, str]
BYTES = "bytes are needed", "encode makes them of a text, and bytes.fromhex of hexadecimal digits"
A_KEY = "a key is bytes", "bytes.fromhex makes it of hexadecimal digits"
_DIGITS = "digits are needed as str or bytes", ""


def refuse_masked(data: Any) -> None:
    """A masked array of NumPy, which no other object has this attribute of, has bytes where it says that it has none."""
    if hasattr(data, "hardmask"):
        raise TypeError("a masked array has bytes behind its mask: its filled() has them all, and a list may have None")


def view_of(data: ReadableBuffer, needed: _Needed = BYTES) -> memoryview:
    """A view of an object, which `with` lets go. Python's own error for what has no bytes would name a memoryview that nobody
    wrote."""
    refuse_masked(data)
    try:
        return memoryview(data)
    except TypeError:
        told = f" and not a text: {needed[1]}" if isinstance(data, str) else f", not {type(data).__name__}"
        raise TypeError(needed[0] + told) from None


def bytes_of(data: ReadableBuffer, needed: _Needed = BYTES) -> bytes:
    """The bytes of an object that has some. They are taken once, and what is given is not asked again, since another thread
    may change it meanwhile, and a class of the caller's may say another length."""
    if type(data) is bytes:
        return data
    with view_of(data, needed) as view:
        return in_order(view).tobytes()


def copy_of(data: ReadableBuffer, needed: _Needed = BYTES) -> bytearray:
    """A copy of the bytes, taken once, which can be wiped."""
    with view_of(data, needed) as view:
        return bytearray(in_order(view))


@contextlib.contextmanager
def _wiping(copied: bytearray) -> Iterator[Any]:
    """A copy of a secret for one call, wiped after it."""
    secret = (ctypes.c_uint8 * len(copied)).from_buffer(copied)
    try:
        yield secret
    finally:
        wipe(secret, len(secret))


def hint_of(key: Any, *sizes: int) -> str:
    """What an error says more of bytes that are the hexadecimal digits of a key of one of the sizes."""
    is_digits = len(key) in [2 * size for size in sizes] and all(byte in b"0123456789ABCDEFabcdef" for byte in key)
    return ": bytes.fromhex makes a key of hexadecimal digits" if is_digits else ""


@contextlib.contextmanager
def key_of(key: ReadableBuffer, *sizes: int) -> Iterator[Any]:
    """A copy of a key for one call, wiped after it. KeyLengthError if its length is none of the sizes."""
    with _wiping(copy_of(key, A_KEY)) as copied:
        if len(copied) not in sizes:
            listed = " or ".join(map(str, sizes))
            raise KeyLengthError(f"a key has {listed} bytes, not {len(copied)}{hint_of(copied, *sizes)}")
        yield copied


@contextlib.contextmanager
def secret_of(secret: ReadableBuffer, needed: _Needed = BYTES) -> Iterator[Tuple[Any, int]]:
    """A copy of secret bytes of any length for one call, and their length, wiped after it."""
    with _wiping(copy_of(secret, needed)) as copied:
        yield copied, len(copied)


def vector_of(iv: ReadableBuffer, what: str = "an initialization vector") -> Any:
    """A copy of an initialization vector, which a call may change."""
    taken = bytes_of(iv, (f"{what} is bytes", BYTES[1]))
    if len(taken) != BLOCK_SIZE:
        raise VectorLengthError(f"{what} has {BLOCK_SIZE} bytes, not {len(taken)}")
    return (ctypes.c_uint8 * BLOCK_SIZE).from_buffer_copy(taken)


def counter_of(counter: ReadableBuffer) -> Any:
    """A copy of a counter block."""
    return vector_of(counter, "a counter block")


@contextlib.contextmanager
def block_of(block: ReadableBuffer) -> Iterator[Any]:
    """A copy of a PIN block for one call, wiped after it."""
    with _wiping(copy_of(block)) as copied:
        if len(copied) != BLOCK_SIZE:
            raise BlockLengthError(f"a PIN block has {BLOCK_SIZE} bytes, not {len(copied)}")
        yield copied


def data_of(data: ReadableBuffer, size: int, what: str, fault: Type[Error]) -> bytes:
    """The bytes of data that have one length, and no other."""
    taken = bytes_of(data)
    if len(taken) != size:
        raise fault(f"{what} {size} bytes, not {len(taken)}")
    return taken


def number_of(number: int, least: int, most: int) -> int:
    """A number that a call takes, or 2 ** 31 - 1, which it refuses: C would cut off the bits that do not fit."""
    if not isinstance(number, int) or isinstance(number, bool):
        raise TypeError("a format, an index and a length of a PIN are numbers")
    return int(number) if least <= number <= most else 2**31 - 1


@contextlib.contextmanager
def text_of(digits: Text) -> Iterator[Tuple[Any, int]]:
    """A copy of a text, of str or of bytes, and its length, wiped after a call. A character beyond ASCII becomes one that is no
    digit either."""
    with _wiping(bytearray(digits, "ascii", "replace") if isinstance(digits, str) else copy_of(digits, _DIGITS)) as copied:
        yield copied, len(copied)


def buffer_of(size: int) -> Any:
    """A buffer of `size` bytes, for a call to write."""
    return (ctypes.c_uint8 * size)()


@contextlib.contextmanager
def wiped_buffer(size: int) -> Iterator[Any]:
    """A buffer for one call, wiped after it."""
    made = buffer_of(size)
    try:
        yield made
    finally:
        wipe(made, size)


def _first_of(made: Any, length: int) -> Any:
    """The first bytes of memory, where they stand: a copy of all of it could not be wiped."""
    return (ctypes.c_uint8 * length).from_buffer(made)


def bytes_from(made: Any, length: Optional[int] = None) -> bytes:
    """The bytes that a call wrote, all or the first ones; the memory that it wrote is wiped."""
    answer = bytes(_first_of(made, len(made) if length is None else length))
    wipe(made, len(made))
    return answer


def text_from(made: Any) -> str:
    """The text that a call wrote, up to its zero byte; the memory that it wrote is wiped."""
    answer = str(_first_of(made, sum(1 for _ in takewhile(bool, made))), "ascii")
    wipe(made, len(made))
    return answer


class _Buffer(ctypes.Structure):
    """The Py_buffer of Python's own interface for C, where the bytes of an object stand."""

    _fields_ = [
        ("start", ctypes.c_void_p),
        ("object", ctypes.c_void_p),
        ("length", ctypes.c_ssize_t),
        ("itemsize", ctypes.c_ssize_t),
        ("readonly", ctypes.c_int),
        ("dimensions", ctypes.c_int),
        *((name, ctypes.c_void_p) for name in ("format", "shape", "strides", "suboffsets", "internal")),
    ]


_take_buffer = ctypes.pythonapi.PyObject_GetBuffer
_take_buffer.argtypes, _take_buffer.restype = (ctypes.py_object, ctypes.POINTER(_Buffer), ctypes.c_int), ctypes.c_int
_give_back = ctypes.pythonapi.PyBuffer_Release
_give_back.argtypes, _give_back.restype = (ctypes.POINTER(_Buffer),), None


@contextlib.contextmanager
def lent(data: ReadableBuffer) -> Iterator[Tuple[Any, int]]:
    """Where the bytes of an object begin, and how many there are. Where they do not lie in one piece they are copied, and
    the copy is wiped after the call. Until the call ends nobody can change their number; if the bytes themselves change
    meanwhile, the answer is to some of both."""
    with view_of(data) as view:
        if view.c_contiguous:
            buffer = _Buffer()
            _take_buffer(view, ctypes.byref(buffer), 0)
            try:
                yield buffer.start, buffer.length
            finally:
                _give_back(ctypes.byref(buffer))
        else:
            with _wiping(bytearray(view)) as copied:
                yield ctypes.addressof(copied), len(copied)


@contextlib.contextmanager
def kept_apart(data: ReadableBuffer, written: memoryview) -> Iterator[Tuple[Any, int]]:
    """The buffer of data of which none may be written by the call: if what it writes overlaps them they are copied, and
    the copy is wiped after it."""
    with lent(data) as (start, length), lent(written) as (place, size):
        if not length or not size or start + length <= place or place + size <= start:
            yield start, length
        else:
            with _wiping(bytearray((ctypes.c_uint8 * length).from_address(start))) as copied:
                yield ctypes.addressof(copied), length


def row_size(view: memoryview) -> Optional[int]:
    """The bytes of a row, which is the last dimension of more than one, else None."""
    shape = view.shape or ()
    return view.itemsize * shape[-1] if len(shape) > 1 else None


def pointer_to(data: WriteableBuffer) -> Any:
    """Where data begin that a call may write. As long as the call has this pointer, nobody changes their length."""
    return ctypes.byref(ctypes.c_uint8.from_buffer(data))


@contextlib.contextmanager
def writable(data: WriteableBuffer) -> Iterator[Tuple[Any, int]]:
    """Where data begin that a call changes in place, null if there are none, and how many bytes they have."""
    with view_of(data) as view:
        if not is_writable(in_order(view)):
            raise TypeError("a call in place needs writable data in one piece, such as a bytearray")
        yield pointer_to(view) if view.nbytes else None, view.nbytes


def place_of(data: Any) -> Any:
    """Where data begin, for a field of a struct, which does not keep them; null of None."""
    return ctypes.cast(data, POINTER)


def is_writable(view: memoryview) -> bool:
    """Whether a call can work on the data in place."""
    return not view.readonly and view.c_contiguous


def _wipe_context(context: Any) -> None:
    wipe(context, ctypes.sizeof(context))


def context_type(count: int, element: Any = ctypes.c_uint64) -> Any:
    """A type of contexts, of words or else of bytes. A context is wiped when the last that uses it lets it go, be it an object
    or a call that still runs in another thread."""
    return type("Context", (element * count,), {"__del__": _wipe_context})


class Kind:
    """What a class of ciphers or MACs stands for in the library: the name of its calls, the size of its keys, whether they take a
    padding method, the type of its contexts, and its calls by their names without that. A context says of which kind it is."""

    __slots__ = ("name", "key_size", "is_padded", "context", "calls")

    def __init__(self, name: str, key_size: int) -> None:
        self.name, self.key_size, self.is_padded = name, key_size, CALLS[name + "_init"][-1] is INT
        self.context = context_type(WORDS[name])
        self.context.kind = self
        self.calls = {call[len(name) + 1 :]: function(call) for call in CALLS if call.startswith(name + "_")}

    def context_of(self, key: ReadableBuffer, no_tables: bool, *padding: int) -> Any:
        """The context of a key."""
        context = self.context()
        with key_of(key, self.key_size) as copied:
            check(self.calls["init_no_tables" if no_tables else "init"](context, copied, len(copied), *padding))
        return context


# The kinds of the package's own classes. No attribute of a class is asked: a caller may change it, and the library, which knows
# nothing of that, would read and write as much memory as before.
KINDS: Dict[type, Kind] = {}


def kind_of(given: type, base: type) -> Optional[Kind]:
    """The kind of a class that is derived from a base: that of the package's class that it is, or is derived from."""
    classes = given.__mro__ if isinstance(given, type) else ()
    return next((KINDS[one] for one in classes if one in KINDS and issubclass(one, base)), None)


_Self = TypeVar("_Self", bound="Keyed")


class Keyed:
    """What holds a context, and so a key."""

    __slots__ = ("_context",)

    _context: Optional[Any]

    def _open(self) -> Any:
        """The context. The caller keeps it in use until its call has ended, which keeps it from being wiped."""
        context = self._context
        if context is None:
            raise ClosedError("the cipher, MAC or terminal was closed")
        return context

    def close(self) -> None:
        """Forgets the key: the context is wiped, once no call uses it. Every later call raises ClosedError."""
        self._context = None

    def __enter__(self: _Self) -> _Self:
        return self

    def __exit__(self, *_: object) -> None:
        self.close()

    def __repr__(self) -> str:
        return f"{type(self).__name__} {{ ... }}"

    def __reduce__(self) -> NoReturn:
        raise TypeError("what holds a key is neither pickled nor copied by the module copy")
