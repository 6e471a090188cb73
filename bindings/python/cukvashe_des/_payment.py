"""PIN blocks (ISO 9564-1), and their translation."""

from __future__ import annotations

import ctypes
from typing import Any, Callable, Optional, Tuple

from ._calls import PinTranslation
from ._data import BLOCK_SIZE, block_of, buffer_of, bytes_from, bytes_of, key_of, number_of, place_of, text_from, text_of
from ._faults import FillLengthError, check
from ._keys import KEY_SIZES
from ._library import function
from ._types import ReadableBuffer, Text

_PIN_SIZE = 13

_encode_0 = function("pin_encode_0")
_encode_1 = function("pin_encode_1")
_encode_2 = function("pin_encode_2")
_encode_3 = function("pin_encode_3")
_decode_0 = function("pin_decode_0")
_decode_1 = function("pin_decode_1")
_decode_2 = function("pin_decode_2")
_decode_3 = function("pin_decode_3")
_to_0 = function("pin_translate_to_0")
_to_1 = function("pin_translate_to_1")
_to_3 = function("pin_translate_to_3")


def _translation(
    incoming: Any, incoming_format: int, outgoing: Any, account: Tuple[Any, int] = (None, 0), fill: Optional[bytes] = None
) -> Any:
    """A translation, as a call takes it."""
    fields = PinTranslation(
        incoming_key=place_of(incoming),
        incoming_key_length=len(incoming),
        incoming_format=incoming_format,
        outgoing_key=place_of(outgoing),
        outgoing_key_length=len(outgoing),
        account=place_of(account[0]),
        account_length=account[1],
        fill=place_of(fill),
    )
    return ctypes.byref(fields)


def _fill_of(digits: ReadableBuffer) -> bytes:
    """Ten digits of four bits, one in a byte."""
    taken = bytes_of(digits)
    if len(taken) != 10:
        raise FillLengthError(f"there are ten fill digits, not {len(taken)}")
    return taken


def _encoded(call: Callable[..., Any], *arguments: Any) -> bytes:
    """The PIN block that a call makes."""
    block = buffer_of(BLOCK_SIZE)
    check(call(*arguments, block))
    return bytes_from(block)


def _decoded(call: Callable[..., Any], block: ReadableBuffer, *account: Any) -> str:
    """The PIN that a call reads from a block."""
    pin = buffer_of(_PIN_SIZE)
    with block_of(block) as given:
        check(call(given, *account, pin))
    return text_from(pin)


def pin_encode_0(pin: Text, account: Text) -> bytes:
    """The PIN block of format 0, 8 bytes, of a PIN of 4 to 12 digits and an account number (PAN) of 8 to 19 with the check digit,
    as str or bytes of digits. It is not encrypted. PinLengthError, PinDigitError, AccountLengthError, AccountDigitError."""
    with text_of(pin) as digits, text_of(account) as number:
        return _encoded(_encode_0, *digits, *number)


def pin_encode_1(pin: Text, transaction: ReadableBuffer) -> bytes:
    """The PIN block of format 1 of a PIN and ten transaction digits, bytes from 0 to 15, of which it uses the first ones
    that fit. PinLengthError, PinDigitError, FillLengthError, FillError."""
    with text_of(pin) as digits:
        return _encoded(_encode_1, *digits, _fill_of(transaction))


def pin_encode_2(pin: Text) -> bytes:
    """The PIN block of format 2 of a PIN, which goes to a card in clear. PinLengthError, PinDigitError."""
    with text_of(pin) as digits:
        return _encoded(_encode_2, *digits)


def pin_encode_3(pin: Text, account: Text, fill: ReadableBuffer) -> bytes:
    """The PIN block of format 3 of a PIN, an account number, and ten fill digits, random bytes from 10 to 15, of which it uses
    the first ones that fit. Errors as of pin_encode_0; FillLengthError, FillError."""
    with text_of(pin) as digits, text_of(account) as number:
        return _encoded(_encode_3, *digits, *number, _fill_of(fill))


def pin_decode_0(block: ReadableBuffer, account: Text) -> str:
    """The PIN of a block of format 0 and an account number. BlockLengthError, AccountLengthError, AccountDigitError, FormatError,
    PinLengthError, PinDigitError, FillError. Which of these is raised reveals something of the PIN: show it to nobody."""
    with text_of(account) as number:
        return _decoded(_decode_0, block, *number)


def pin_decode_1(block: ReadableBuffer) -> str:
    """The PIN of a block of format 1. BlockLengthError, FormatError, PinLengthError, PinDigitError."""
    return _decoded(_decode_1, block)


def pin_decode_2(block: ReadableBuffer) -> str:
    """The PIN of a block of format 2. BlockLengthError, FormatError, PinLengthError, PinDigitError, FillError."""
    return _decoded(_decode_2, block)


def pin_decode_3(block: ReadableBuffer, account: Text) -> str:
    """The PIN of a block of format 3 and an account number. Errors as of pin_decode_0."""
    with text_of(account) as number:
        return _decoded(_decode_3, block, *number)


def pin_translate_to_0(
    incoming_format: int, account: Text, block: ReadableBuffer, *, incoming_key: ReadableBuffer, outgoing_key: ReadableBuffer
) -> bytes:
    """Translates a block of format 0, 1 or 3 under the incoming key into the block of format 0 of its PIN under the outgoing key.
    The PIN does not come out. Keys have 8, 16 or 24 bytes, and are given by name; the account number, of 8 to 19 digits, is that of
    both blocks. KeyLengthError, FormatsError, AccountLengthError, AccountDigitError, BlockLengthError; PinBlockError, whatever is
    wrong with the block."""
    number = number_of(incoming_format, 0, 3)
    with key_of(incoming_key, *KEY_SIZES) as incoming, key_of(outgoing_key, *KEY_SIZES) as outgoing:
        with text_of(account) as of, block_of(block) as given:
            return _encoded(_to_0, _translation(incoming, number, outgoing, of), given)


def pin_translate_to_1(block: ReadableBuffer, *, incoming_key: ReadableBuffer, outgoing_key: ReadableBuffer) -> bytes:
    """A block of format 1 under another key; its transaction digits are unchanged. KeyLengthError, BlockLengthError, PinBlockError."""
    with key_of(incoming_key, *KEY_SIZES) as incoming, key_of(outgoing_key, *KEY_SIZES) as outgoing, block_of(block) as given:
        return _encoded(_to_1, _translation(incoming, 1, outgoing), given)


def pin_translate_to_3(
    incoming_format: int,
    account: Text,
    fill: ReadableBuffer,
    block: ReadableBuffer,
    *,
    incoming_key: ReadableBuffer,
    outgoing_key: ReadableBuffer,
) -> bytes:
    """As pin_translate_to_0, to a block of format 3, with ten fill digits as of pin_encode_3. Its errors; FillLengthError,
    FillError."""
    number, digits = number_of(incoming_format, 0, 3), _fill_of(fill)
    with key_of(incoming_key, *KEY_SIZES) as incoming, key_of(outgoing_key, *KEY_SIZES) as outgoing:
        with text_of(account) as of, block_of(block) as given:
            return _encoded(_to_3, _translation(incoming, number, outgoing, of, digits), given)
