"""PIN verification: the PIN verification value (PVV), and natural PINs and offsets by the method of the IBM 3624."""

from __future__ import annotations

from typing import Any

from ._data import BLOCK_SIZE, buffer_of, data_of, key_of, number_of, text_from, text_of
from ._faults import BlockLengthError, check
from ._keys import KEY_SIZES
from ._library import function
from ._types import ReadableBuffer, Text

_PIN_SIZE = 13
_PVV_SIZE = 5
_TABLE_SIZE = 16

_pvv = function("pvv")
_pvv_verify = function("pvv_verify")
_init = function("decimal_table_init")
_init_any = function("decimal_table_init_any")
_natural_pin = function("natural_pin")
_pin_offset = function("pin_offset")
_verify = function("pin_offset_verify")


def pvv(key: ReadableBuffer, account: Text, index: int, pin: Text) -> str:
    """The PIN verification value, four digits, under a key pair of 16 bytes with an index from 1 to 6, of an account number of 12
    to 19 digits and the first four digits of a PIN, as str or bytes of digits. KeyLengthError, PinLengthError, PinDigitError,
    AccountLengthError, AccountDigitError, KeyIndexError."""
    value, place = buffer_of(_PVV_SIZE), number_of(index, 1, 6)
    with key_of(key, 16) as secret, text_of(account) as number, text_of(pin) as digits:
        check(_pvv(secret, *number, place, *digits, value))
    return text_from(value)


def pvv_verify(key: ReadableBuffer, account: Text, index: int, pin: Text, value: Text) -> None:
    """Accepts the PIN whose PIN verification value, four digits, this is; the errors of pvv, and WrongPinError for any other PIN.
    Count these: unlimited guesses find the PIN."""
    place = number_of(index, 1, 6)
    with key_of(key, 16) as secret, text_of(account) as number, text_of(pin) as digits, text_of(value) as kept:
        check(_pvv_verify(secret, *number, place, *digits, *kept))


class DecimalTable:
    """A decimalization table of sixteen decimal digits, as str or bytes, those that stand for 0 to 15 in this order.
    TableLengthError, TableDigitError; TableVarietyError for fewer than eight different ones. An attacker who chooses the table
    finds PINs out."""

    __slots__ = ("_table",)

    def __init__(self, digits: Text) -> None:
        table = buffer_of(_TABLE_SIZE)
        with text_of(digits) as text:
            check(_init(table, *text))
        self._table = table

    @classmethod
    def of_any_variety(cls, digits: Text) -> DecimalTable:
        """A table of any variety, for old systems that have one. TableLengthError, TableDigitError."""
        made, table = cls.__new__(cls), buffer_of(_TABLE_SIZE)
        with text_of(digits) as text:
            check(_init_any(table, *text))
        made._table = table
        return made

    def __repr__(self) -> str:
        return f"{type(self).__name__} {{ ... }}"


def _table_of(table: DecimalTable) -> Any:
    """The table, as a call takes it."""
    if not isinstance(table, DecimalTable):
        raise TypeError("a decimalization table is a DecimalTable")
    return table._table


def _validation_of(validation: ReadableBuffer) -> bytes:
    """Validation data, sixteen digits in 8 bytes."""
    return data_of(validation, BLOCK_SIZE, "validation data have", BlockLengthError)


def natural_pin(key: ReadableBuffer, table: DecimalTable, validation: ReadableBuffer, length: int) -> str:
    """The natural PIN of 4 to 12 digits: the first digits of the validation data, 8 bytes, encrypted under a key of 8, 16 or 24
    bytes, each by the decimalization table. KeyLengthError, PinLengthError; BlockLengthError for other validation data."""
    pin, data, count = buffer_of(_PIN_SIZE), _validation_of(validation), number_of(length, 4, 12)
    with key_of(key, *KEY_SIZES) as secret:
        check(_natural_pin(secret, len(secret), _table_of(table), data, count, pin))
    return text_from(pin)


def pin_offset(key: ReadableBuffer, table: DecimalTable, validation: ReadableBuffer, pin: Text) -> str:
    """The offset of a PIN: digit by digit, modulo ten, the PIN less the natural PIN. PinDigitError, and the errors of
    natural_pin."""
    offset, data = buffer_of(_PIN_SIZE), _validation_of(validation)
    with key_of(key, *KEY_SIZES) as secret, text_of(pin) as digits:
        check(_pin_offset(secret, len(secret), _table_of(table), data, *digits, offset))
    return text_from(offset)


def pin_offset_verify(
    key: ReadableBuffer, table: DecimalTable, validation: ReadableBuffer, pin: Text, offset: Text
) -> None:
    """Accepts the PIN whose offset this is; the errors of pin_offset, and WrongPinError for any other PIN. Count these."""
    data = _validation_of(validation)
    with key_of(key, *KEY_SIZES) as secret, text_of(pin) as digits, text_of(offset) as kept:
        check(_verify(secret, len(secret), _table_of(table), data, *digits, *kept))
