"""Key blocks (ANSI X9.143, ASC X9 TR-31): a key with what it is for, encrypted and authenticated under a protection key (KBPK)."""

from __future__ import annotations

import ctypes
import os
from dataclasses import dataclass
from typing import Any, List, Mapping, Optional, Tuple

from ._calls import KeyBlockParts, SIZE
from ._data import A_KEY, buffer_of, bytes_from, bytes_of, hint_of, place_of, secret_of
from ._keys import KEY_SIZES
from ._faults import KeyBlockDigitError, KeyBlockFieldError, KeyBlockLengthError, KeyBlockVersionError, OptionalBlockError, check
from ._library import function
from ._statuses import KEY_LENGTH, NO_OPTIONAL_BLOCK, PROTECTION_KEY_LENGTH
from ._types import OptionalBlocks, ReadableBuffer, Text

_KEY_SIZE = 24
_KEY_DATA_SIZE = 32
_FIELDS_SIZE = 10

# More characters than a block has besides its optional blocks, and a zero byte.
_MORE = 128

# More characters than a block can have.
_TOO_MANY = 10000

_unwrap = function("key_block_unwrap")
_wrap = function("key_block_wrap")
_header = function("key_block_header")
_context = function("key_block_context")
_optional_block = function("key_block_optional_block")


@dataclass(frozen=True)
class KeyBlockHeader:
    """What a key is for, and who may have it, in the characters of the standard. KeyBlockHeader(version="B", usage="P0",
    algorithm="T", mode="E", key_version="00", exportability="E") is that of a key of triple DES that encrypts PIN blocks, and does
    nothing else, in a block of version B. A key version "00" means that there are no versions, "c" and a character that the value
    is a component of a key and not the key; else it is the version. Exportability "E": exportable under a KEK in a form that
    complies with X9.24; "N": not exportable; "S": sensitive, exportable in other forms too. No call compares a header with the
    key's length.

    A header has no optional blocks. To wrap the key of a block b again pass
    `optional=[x for x in key_block_optional_blocks(b) if x[0] != "PB"]`, and for version A also
    `dataclasses.replace(header, version="B")`."""

    version: str
    usage: str
    algorithm: str
    mode: str
    key_version: str
    exportability: str


def _header_from(fields: Any) -> KeyBlockHeader:
    """The header of the fields that a call wrote."""
    text = bytes(fields).decode("latin-1")
    return KeyBlockHeader(text[0], text[1:3], text[4], text[5], text[6:8], text[9])


def _fields_of(header: KeyBlockHeader) -> bytes:
    """The fields of a header, as a call takes them."""
    if not isinstance(header, KeyBlockHeader):
        raise TypeError("a header is a KeyBlockHeader")
    given = (header.version, header.usage, header.algorithm, header.mode, header.key_version, header.exportability)
    if not all(isinstance(field, str) for field in given):
        raise TypeError("the fields of a header are texts")
    # The characters alone: the member of an enumeration that is a text too is formatted by its name.
    version, usage, algorithm, mode, key_version, exportability = (str.__str__(field) for field in given)
    if len(version) != 1:
        raise KeyBlockVersionError("a key block is made of version B or C")
    if [len(field) for field in (usage, algorithm, mode, key_version, exportability)] != [2, 1, 1, 2, 1]:
        raise KeyBlockFieldError("the usage and the key's version have two characters, the other fields one")
    return f"{version}{usage}\0{algorithm}{mode}{key_version}\0{exportability}".encode("ascii", "replace")


def _block_of(block: Text) -> bytes:
    """The characters of a key block."""
    if isinstance(block, str):
        text = str.__str__(block)
        if not text.isascii():
            raise KeyBlockDigitError("a key block has ASCII characters alone")
        return text.encode("ascii")
    return bytes_of(block, ("a key block is str or bytes", ""))


def _optional_bytes(pair: Tuple[str, str]) -> bytes:
    """An optional block. The library tests its characters, and writes it in its shortest form."""
    if not isinstance(pair, (tuple, list)) or [type(part) for part in pair] != [str, str]:
        raise TypeError("an optional block is a pair of its name and its content, two texts")
    # A character that is not ASCII becomes bytes that the library refuses.
    name, content = (part.encode("utf-8", "surrogatepass") for part in pair)
    if len(name) != 2:
        raise OptionalBlockError("the name of an optional block has two characters, letters or digits")
    if len(content) > _TOO_MANY:
        raise KeyBlockLengthError("a key block has at most 9999 characters")
    return name + f"0002{len(content) + 10:04X}".encode("ascii") + content


def _optional_of(optional: OptionalBlocks) -> bytes:
    """Optional blocks, one after the other."""
    if isinstance(optional, (str, bytes, bytearray, memoryview)):
        raise TypeError("optional blocks are pairs of a name and its content")
    pairs = optional.items() if isinstance(optional, Mapping) else optional
    return b"".join(map(_optional_bytes, pairs))


def _checked(status: int, protection: Any, key: Any = ()) -> None:
    """Raises the fault of a status."""
    lengths = {PROTECTION_KEY_LENGTH: (protection, 16, 24), KEY_LENGTH: (key, *KEY_SIZES)}
    check(status, hint_of(*lengths[status]) if status in lengths else "")


def unwrap_key_block(protection: ReadableBuffer, block: Text) -> Tuple[KeyBlockHeader, bytes]:
    """The header and the key, 8, 16 or 24 bytes, of a key block of version A, B or C, as str or bytes, under a protection key (KBPK) of 16
    or 24 bytes. Look at the header before you use the key. ProtectionKeyLengthError, KeyBlockLengthError, KeyBlockVersionError,
    KeyBlockFieldError, OptionalBlockError, KeyDataLengthError, KeyBlockDigitError, KeyLengthError; KeyBlockMacError if the block was
    changed, or is under another key."""
    text, fields, key, length = _block_of(block), buffer_of(_FIELDS_SIZE), buffer_of(_KEY_SIZE), SIZE()
    with secret_of(protection, A_KEY) as kbpk:
        _checked(_unwrap(*kbpk, text, len(text), fields, key, ctypes.byref(length)), kbpk[0])
    return _header_from(fields), bytes_from(key, length.value)


def wrap_key_block(
    protection: ReadableBuffer,
    header: KeyBlockHeader,
    key: ReadableBuffer,
    *,
    optional: OptionalBlocks = (),
    padding: Optional[ReadableBuffer] = None,
) -> str:
    """The key block of a key of 8, 16 or 24 bytes under a protection key (KBPK) of 16 or 24 bytes, of version B or C. Optional blocks are
    pairs of a name of two letters or digits and its content, printable ASCII without a length. A block PB is added if they do
    not end at a multiple of eight characters; one of yours is taken only as the last, if with it they do. The padding is random
    bytes that hide how long the key is, or those that are given: 6, 14 or 22, with the key at most 30. KeyBlockVersionError,
    OptionalBlockError, ProtectionKeyLengthError, KeyBlockFieldError, KeyLengthError, PaddingLengthError, KeyBlockLengthError."""
    fields, more = _fields_of(header), _optional_of(optional)
    block, length = buffer_of(len(more) + _MORE), SIZE()
    with secret_of(protection, A_KEY) as kbpk, secret_of(key, A_KEY) as bare:
        hiding = os.urandom(max(0, _KEY_DATA_SIZE - 2 - bare[1])) if padding is None else bytes_of(padding)
        parts = KeyBlockParts(
            protection=place_of(kbpk[0]),
            protection_length=kbpk[1],
            header=(ctypes.c_uint8 * _FIELDS_SIZE).from_buffer_copy(fields),
            optional=place_of(more),
            optional_length=len(more),
            key=place_of(bare[0]),
            key_length=bare[1],
            padding=place_of(hiding),
            padding_length=len(hiding),
        )
        _checked(_wrap(ctypes.byref(parts), block, len(block), ctypes.byref(length)), kbpk[0], bare[0])
    return bytes(block)[: length.value].decode("ascii")


def key_block_header(block: Text) -> KeyBlockHeader:
    """The header of a key block, read with no key. Nothing of it is authenticated. KeyBlockLengthError, KeyBlockVersionError,
    KeyBlockFieldError, OptionalBlockError, KeyDataLengthError; KeyBlockDigitError for characters that are not ASCII."""
    text, fields = _block_of(block), buffer_of(_FIELDS_SIZE)
    check(_header(text, len(text), fields))
    return _header_from(fields)


def key_block_context(block: Text) -> str:
    """Where the key of a key block may be, read with no key: "0" in storage and exchange, as wrap_key_block writes it, "1" in
    storage only, "2" in exchange only. Nothing of it is authenticated. Errors as of key_block_header."""
    text, context = _block_of(block), buffer_of(1)
    check(_context(text, len(text), context))
    return bytes(context).decode("ascii")


def key_block_optional_blocks(block: Text) -> List[Tuple[str, str]]:
    """The optional blocks of a key block, pairs of a name and its content, read with no key. Nothing of them is authenticated.
    Errors as of key_block_header."""
    text = _block_of(block)
    found: List[Tuple[str, str]] = []
    name, offset, length = buffer_of(3), SIZE(), SIZE()
    while True:
        status = _optional_block(text, len(text), len(found), name, ctypes.byref(offset), ctypes.byref(length))
        if status == NO_OPTIONAL_BLOCK:
            return found
        check(status)
        content = text[offset.value : offset.value + length.value]
        found.append((bytes(name)[:2].decode("latin-1"), content.decode("latin-1")))
