"""Lists: blocks under keys of their own, records, MACs, check values of many keys, keys of many transactions. What is
read of a list is lent to the library where it stands, and other threads run meanwhile."""

from __future__ import annotations

import contextlib
from array import array
from itertools import accumulate
from typing import AbstractSet, Any, Callable, Iterable, Iterator, List, Mapping, Optional, Tuple, Type

from ._ciphers import Cipher, class_of, vectors_by_name
from ._data import A_KEY, BLOCK_SIZE, BYTES, Kind, buffer_of, bytes_from, in_order, is_writable, kept_apart, key_of, lent, pointer_to
from ._data import row_size, view_of
from ._faults import BlockLengthError, CountMismatchError, Error, KeyLengthError, SerialLengthError, VectorLengthError
from ._faults import check, fault_of
from ._library import function
from ._macs import TAG_SIZE, Mac, mac_class_of
from ._statuses import OK, PADDING_METHOD
from ._types import ReadableBuffer, WriteableBuffer

_CHECK_VALUE_SIZE, _SERIAL_SIZE, _TRANSACTION_KEY_SIZE = 3, 10, 16

_compare_tags = function("compare_tags")
_transaction_keys = function("dukpt_transaction_keys_from_base")


def _count_of(length: int, size: int, fault: Type[Error], elements: str) -> int:
    """How many elements of a size bytes are."""
    if length % size != 0:
        raise fault(f"{length} bytes are not whole {elements} of {size}")
    return length // size


def _elements_of(view: memoryview, size: int, fault: Type[Error], elements: str) -> int:
    """How many elements of a size an object has. Of an array of more than one dimension each row is an element."""
    row = row_size(in_order(view))
    if row not in (size, None):
        # Of keys it says nothing: rows of two could be keys of another cipher.
        is_of_blocks = fault is BlockLengthError and row and row % size == 0
        hint = f": reshape(-1, {size // view.itemsize}) makes them of it" if is_of_blocks else ""
        raise fault(f"rows of {row} bytes are not {elements} of {size}{hint}")
    return _count_of(view.nbytes, size, fault, elements)


@contextlib.contextmanager
def _list_of(
    data: ReadableBuffer, size: int, fault: Type[Error], elements: str, written: Optional[memoryview] = None
) -> Iterator[Tuple[Any, int]]:
    """Where the elements of a list begin, and how many there are, kept apart from what a call writes."""
    with view_of(data, A_KEY if fault is KeyLengthError else BYTES) as view:
        count = _elements_of(view, size, fault, elements)
        with lent(view) if written is None else kept_apart(view, written) as (start, _):
            yield start, count


def _apply_each(call: str, kind: Kind, keys: Any, count: int, blocks: Any, length: int) -> None:
    """Takes each block of a length through a call in place, under the key at its place."""
    if kind.calls[call](keys, count, pointer_to(blocks) if length else None, length) != OK:
        raise CountMismatchError("the numbers of keys and blocks differ")


def _applied_each(call: str, cipher: Type[Cipher], keys: ReadableBuffer, blocks: ReadableBuffer) -> bytes:
    with view_of(blocks) as given:
        _elements_of(given, BLOCK_SIZE, BlockLengthError, "blocks")
        result = bytearray(given)
    kind = class_of(cipher)
    with _list_of(keys, kind.key_size, KeyLengthError, "keys") as (start, count):
        _apply_each(call, kind, start, count, result, len(result))
    return bytes(result)


def _change_each(call: str, cipher: Type[Cipher], keys: ReadableBuffer, blocks: WriteableBuffer) -> None:
    with view_of(blocks) as view:
        if not is_writable(view):
            raise TypeError("a call in place needs writable blocks in one piece, as of a bytearray")
        _elements_of(view, BLOCK_SIZE, BlockLengthError, "blocks")
        kind = class_of(cipher)
        with _list_of(keys, kind.key_size, KeyLengthError, "keys", view) as (start, count):
            _apply_each(call, kind, start, count, view, view.nbytes)


def encrypt_each(cipher: Type[Cipher], keys: ReadableBuffer, blocks: ReadableBuffer) -> bytes:
    """The blocks, each of 8 bytes encrypted under the key at its place. `cipher` is a class, as TdesEde2, and the keys
    stand one after the other, as in `bytes` or in an array of shape (n, 16), the blocks as in one of shape (n, 8).

    KeyLengthError and BlockLengthError if there are no whole keys or blocks, or rows of another size; CountMismatchError if
    the numbers of keys and blocks differ; TypeError for arrays of words whose most significant byte is not the first, as of uint64.
    A long list is much faster than its blocks one by one."""
    return _applied_each("encrypt_each", cipher, keys, blocks)


def decrypt_each(cipher: Type[Cipher], keys: ReadableBuffer, blocks: ReadableBuffer) -> bytes:
    """The blocks, each decrypted under the key at its place. Errors as of `encrypt_each`."""
    return _applied_each("decrypt_each", cipher, keys, blocks)


def encrypt_each_into(cipher: Type[Cipher], keys: ReadableBuffer, blocks: WriteableBuffer) -> None:
    """Encrypts each block in place, in a bytearray or the like, under the key at its place. Errors as of `encrypt_each`, after
    which the blocks are unchanged; TypeError if they are not writable in one piece."""
    _change_each("encrypt_each", cipher, keys, blocks)


def decrypt_each_into(cipher: Type[Cipher], keys: ReadableBuffer, blocks: WriteableBuffer) -> None:
    """Decrypts each block in place under the key at its place. Errors as of `encrypt_each_into`."""
    _change_each("decrypt_each", cipher, keys, blocks)


def check_values(cipher: Type[Cipher], keys: ReadableBuffer) -> bytes:
    """The check values of keys that stand one after the other, as for `encrypt_each`, three bytes for each, as
    `check_value` makes them. KeyLengthError if there are no whole keys, or rows of another size."""
    kind = class_of(cipher)
    with _list_of(keys, kind.key_size, KeyLengthError, "keys") as (start, count):
        values = buffer_of(_CHECK_VALUE_SIZE * count)
        check(kind.calls["check_values"](start, kind.key_size * count, values, len(values), count))
    return bytes(values)


def dukpt_transaction_keys_from_base(base: ReadableBuffer, serials: ReadableBuffer) -> bytes:
    """The keys of transactions, of 16 bytes each, from the base derivation key and key serial numbers of ten bytes, one
    after the other, as in an array of shape (n, 10): what dukpt_transaction_key makes of dukpt_initial_key, for each.
    The terminals may be different ones. Every counter is taken: ask dukpt_is_usable of each serial number that was sent.
    Such a key encrypts nothing itself: take dukpt_pin_key, dukpt_mac_key or dukpt_data_key of it.

    KeyLengthError if the base key does not have 16 bytes; SerialLengthError if there are no whole key serial numbers, or
    rows of another size."""
    numbers = _list_of(serials, _SERIAL_SIZE, SerialLengthError, "key serial numbers")
    with key_of(base, _TRANSACTION_KEY_SIZE) as secret, numbers as (start, count):
        keys = buffer_of(_TRANSACTION_KEY_SIZE * count)
        check(_transaction_keys(secret, start, _SERIAL_SIZE * count, keys, len(keys), count))
    return bytes_from(keys)


def _numbers_of(numbers: Iterable[int]) -> array[int]:
    """Numbers, of anything that gives them one by one, copied into words that the library reads. A set has no order, and a number
    once alone."""
    if isinstance(numbers, (str, bytes, bytearray, AbstractSet, Mapping)):
        raise TypeError("counts and lengths are numbers, in the order of the records or messages")
    try:
        return array("Q", numbers)
    except OverflowError:
        raise CountMismatchError("a count or a length is no number of 64 bits") from None


def _recorded(
    call: str, cipher: Cipher, blocks: ReadableBuffer, vectors: ReadableBuffer, counts: Iterable[int]
) -> bytes:
    """What a call makes of records, from a copy of the vectors, which it changes."""
    if not isinstance(cipher, Cipher):
        raise TypeError("the first argument is a cipher, such as TdesEde3(key)")
    context, numbers = cipher._open(), _numbers_of(counts)
    with view_of(vectors) as given:
        records = _elements_of(given, BLOCK_SIZE, VectorLengthError, "vectors")
        starts = bytearray(given)
    with view_of(blocks) as given:
        _elements_of(given, BLOCK_SIZE, BlockLengthError, "blocks")
        result = bytearray(given)
    if records != len(numbers):
        raise CountMismatchError("the numbers of vectors and counts differ")
    first, sizes = (pointer_to(starts), pointer_to(numbers)) if records else (None, None)
    output = pointer_to(result) if result else None
    if context.kind.calls[call](context, first, len(starts), sizes, records, output, len(result)) != OK:
        raise CountMismatchError("the counts do not add up to the number of blocks")
    return bytes(result)


@vectors_by_name
def encrypt_cbc_records(
    cipher: Cipher, blocks: ReadableBuffer, *, vectors: ReadableBuffer, counts: Iterable[int]
) -> bytes:
    """Records, each encrypted by cipher block chaining from a vector of its own: record k has counts[k] of the blocks,
    one record after the other, and the k-th 8 bytes of `vectors`. `cipher` is one that has a key, as TdesEde3(key).
    Vectors and blocks stand one after the other, as in `bytes` or in arrays of shape (n, 8).

    VectorLengthError and BlockLengthError if there are no whole vectors or blocks, or rows of another size; CountMismatchError
    if the numbers of vectors and counts differ, or the counts, which are of blocks and not of bytes, do not add up to
    the number of blocks; TypeError as by `encrypt_each`."""
    return _recorded("encrypt_cbc_records", cipher, blocks, vectors, counts)


@vectors_by_name
def decrypt_cbc_records(
    cipher: Cipher, blocks: ReadableBuffer, *, vectors: ReadableBuffer, counts: Iterable[int]
) -> bytes:
    """Records, each decrypted by cipher block chaining. Padding is not removed. Arguments and errors as of `encrypt_cbc_records`."""
    return _recorded("decrypt_cbc_records", cipher, blocks, vectors, counts)


@contextlib.contextmanager
def _lent_bytes(messages: ReadableBuffer) -> Iterator[Tuple[Any, int]]:
    """Where messages begin, and how many bytes they have. Words that are not in the order of their bytes are refused."""
    with view_of(messages) as view:
        with lent(in_order(view)) as bytes_and_length:
            yield bytes_and_length


def _messages_of(start: int, length: int, lengths: Iterable[int]) -> array[int]:
    """Where each message begins, and its length, by turns."""
    numbers = _numbers_of(lengths)
    if sum(numbers) != length:
        raise CountMismatchError("the lengths do not add up to the messages")
    pairs = array("Q", bytes(16 * len(numbers)))
    pairs[0::2] = array("Q", accumulate(numbers[:-1], initial=start)) if numbers else numbers
    pairs[1::2] = numbers
    return pairs


def _mac_of(mac: Type[Mac], padding: Optional[int]) -> Kind:
    """What a class of MACs that takes many messages stands for, with a padding method, or with None."""
    kind = mac_class_of(mac)
    if not kind.is_padded:
        if padding is not None:
            raise TypeError("CMAC takes no padding method: the third argument is None")
        return kind
    if not isinstance(padding, int) or isinstance(padding, bool):
        raise TypeError("the padding method, the third argument, is the number 1 or 2")
    if padding not in (1, 2):
        raise fault_of(PADDING_METHOD)
    return kind


def _write_tags(call: Callable[..., Any], keys: Any, length: int, padding: Optional[int], pairs: array[int], tags: Any) -> None:
    """Takes keys of a length, a padding method or None, messages and the buffer of their tags to a call."""
    of_tags = pointer_to(pairs) if pairs else None, tags, len(tags), len(pairs) // 2
    if padding is None:
        check(call(keys, length, *of_tags))
    else:
        check(call(keys, length, padding, *of_tags))


def macs(
    kind: Type[Mac], key: ReadableBuffer, padding: Optional[int], lengths: Iterable[int], messages: ReadableBuffer
) -> bytes:
    """The tags, of 8 bytes each, of messages under one key: message k has lengths[k] of the bytes, one after the other.
    `kind` is a class, as RetailMacDes; the padding method is 1 or 2, of CMAC None.

    For speed, sort messages of very different lengths. KeyLengthError, PaddingMethodError; CountMismatchError if the lengths do
    not add up to the bytes."""
    made = _mac_of(kind, padding)
    with key_of(key, made.key_size) as secret, _lent_bytes(messages) as (start, length):
        pairs = _messages_of(start or 0, length, lengths)
        tags = buffer_of(len(pairs) // 2 * TAG_SIZE)
        _write_tags(made.calls["macs"], secret, len(secret), padding, pairs, tags)
    return bytes(tags)


def macs_each(
    kind: Type[Mac], keys: ReadableBuffer, padding: Optional[int], lengths: Iterable[int], messages: ReadableBuffer
) -> bytes:
    """The tags of messages, each under the key at its place, as `macs` makes them under one. The keys stand one after the
    other, as those of `encrypt_each` do. KeyLengthError if there are no whole keys, or rows of another size; CountMismatchError
    if the numbers of keys and messages differ, too."""
    made = _mac_of(kind, padding)
    with _list_of(keys, made.key_size, KeyLengthError, "keys") as (first, count), _lent_bytes(messages) as (start, length):
        pairs = _messages_of(start or 0, length, lengths)
        if count != len(pairs) // 2:
            raise CountMismatchError("the numbers of keys and messages differ")
        tags = buffer_of(count * TAG_SIZE)
        _write_tags(made.calls["macs_each"], first, made.key_size * count, padding, pairs, tags)
    return bytes(tags)


def wrong_tags(tags: ReadableBuffer, expected: ReadableBuffer) -> List[int]:
    """The places of the tags, of 8 bytes each, that are not the one at their place in `expected`, the tags that `macs` or
    `macs_each` made: an empty list, which is false in an `if`, if all are right. Every byte is compared.

    CountMismatchError if there are no whole tags, rows of another size, or the numbers of tags differ."""
    with _list_of(tags, TAG_SIZE, CountMismatchError, "tags") as (start, count):
        with _list_of(expected, TAG_SIZE, CountMismatchError, "tags") as (other, expected_count):
            if count != expected_count:
                raise CountMismatchError("the numbers of tags and expected tags differ")
            right = buffer_of(count)
            length = TAG_SIZE * count
            check(_compare_tags(start, length, other, length, right, count))
    return [place for place, answer in enumerate(right) if not answer]
