"""The errors. No text of one tells a value that was given, only lengths."""

from __future__ import annotations

from typing import Dict, List, Optional, Type

from . import _statuses


class Error(Exception):
    """What a call of this package refuses or does not find: the base of the errors of this package. A wrong type is a TypeError."""


class VerificationError(Error):
    """What was to be verified is not right. It is no ValueError, so that no `except ValueError`, as one around `decode`, catches
    it."""


class VectorLengthError(Error, ValueError):
    """An initialization vector, or a counter block, does not have 8 bytes."""


class SegmentSizeError(Error, ValueError):
    """A segment of CFB does not have 1 bit, or 8, 16, 24, 32, 40, 48, 56 or 64."""


class PositionError(Error, ValueError):
    """A position in a stream is negative, or not less than 2^67."""


class DirectionError(Error, ValueError):
    """A stream has encrypted, and is to decrypt, or the other way round."""


class SerialLengthError(Error, ValueError):
    """A key serial number does not have ten bytes."""


class NoSerialError(Error, ValueError):
    """A terminal has no key for a next transaction."""


class StateLengthError(Error, ValueError):
    """The state of a terminal does not have 346 bytes."""


class WeakKeyError(Error, ValueError):
    """The weak key test refuses a key."""


class ClosedError(Error, ValueError):
    """The cipher, MAC or terminal was closed, so that its key is gone."""


class FillLengthError(Error, ValueError):
    """There are not ten fill digits."""


class UnreadableValuesError(Error, ValueError):
    """Some values of a column can't be read: `faults` has the error of each by its place, from 0, and `texts` the texts of the others,
    with None in the places of those."""

    def __init__(self, text: str, faults: Optional[Dict[int, Error]] = None, texts: Optional[List[Optional[bytes]]] = None) -> None:
        super().__init__(text)
        self.faults, self.texts = faults or {}, texts or []


# The errors of the statuses of cukvashe_des.h, with the sentence of each: made of it by bindings/describe.
class KeyLengthError(Error, ValueError):
    """The key does not have a length that the call takes."""


class BlockLengthError(Error, ValueError):
    """The length is not a multiple of 8 bytes."""


class PaddingMethodError(Error, ValueError):
    """The padding method is not one that the call takes."""


class TagMismatchError(VerificationError):
    """The tag is not that of the message."""


class FormatError(Error, ValueError):
    """The first digit of the PIN block is not that of the format."""


class PinLengthError(Error, ValueError):
    """The PIN does not have 4 to 12 digits."""


class PinDigitError(Error, ValueError):
    """A character of the PIN is not a digit."""


class AccountLengthError(Error, ValueError):
    """The account number does not have 8 to 19 digits, for a PVV or a CVV 12 to 19."""


class AccountDigitError(Error, ValueError):
    """A character of the account number is not a digit."""


class FillError(Error, ValueError):
    """A fill digit is not one that the format allows."""


class ExpiryLengthError(Error, ValueError):
    """The expiry date does not have four digits."""


class ExpiryDigitError(Error, ValueError):
    """A character of the expiry date is not a digit."""


class ServiceLengthError(Error, ValueError):
    """The service code does not have three digits."""


class ServiceDigitError(Error, ValueError):
    """A character of the service code is not a digit."""


class PaddingMismatchError(Error, ValueError):
    """The data do not end with the padding."""


class CountMismatchError(Error, ValueError):
    """The numbers of elements do not agree: a count, or a sum of counts, and a length."""


class KeyIndexError(Error, ValueError):
    """The index of the key pair is not 1 to 6."""


class TableLengthError(Error, ValueError):
    """The decimalization table does not have sixteen digits."""


class TableDigitError(Error, ValueError):
    """A character of the decimalization table is not a digit."""


class TableVarietyError(Error, ValueError):
    """The decimalization table has fewer than eight different digits."""


class WrongPinError(VerificationError):
    """The PIN is wrong."""


class FormatsError(Error, ValueError):
    """There is no translation of PIN blocks from this format, only from 0, 1 and 3."""


class PinBlockError(Error, ValueError):
    """Decrypted, the PIN block is not one of its format and account number."""


class SequenceLengthError(Error, ValueError):
    """The sequence number does not have two digits."""


class SequenceDigitError(Error, ValueError):
    """A character of the sequence number is not a digit."""


class DataLengthError(Error, ValueError):
    """The issuer's data have more than 8 bytes."""


class ProtectionKeyLengthError(Error, ValueError):
    """The protection key does not have 16 or 24 bytes."""


class KeyBlockLengthError(Error, ValueError):
    """The key block is not as long as its header says, longer than 9999 characters, or too long for its buffer."""


class KeyBlockVersionError(Error, ValueError):
    """The version of the key block is not one that the call takes."""


class KeyBlockFieldError(Error, ValueError):
    """The header does not end with two digits, 0, 1 or 2, and 0, or a field to be written is not letters and digits."""


class OptionalBlockError(Error, ValueError):
    """The optional blocks can't be read or written: a wrong length, name, content or PB, an end off a multiple of eight, or more
    than 99."""


class KeyDataLengthError(Error, ValueError):
    """The encrypted key data do not have a length that they can have."""


class KeyBlockDigitError(Error, ValueError):
    """A character of the encrypted key data or the MAC is not 0 to 9 or A to F."""


class KeyBlockMacError(VerificationError):
    """The MAC is not that of the key block."""


class PaddingLengthError(Error, ValueError):
    """The padding of the key does not have 6, 14 or 22 bytes, or has more than 30 with the key."""


class HashNameError(Error, ValueError):
    """The hash function is not one that the call takes."""


class IterationCountError(Error, ValueError):
    """The number of iterations is not 1 to 2^32 - 1."""


class NotSaltedError(Error, ValueError):
    """The bytes do not begin with Salted__."""


class SaltLengthError(Error, ValueError):
    """The bytes end within the salt, or it does not have 0 or 8 bytes."""


class WrappedLengthError(Error, ValueError):
    """The wrapped key does not have 24 bytes or more, a multiple of 8 (CMS), or 12 or more, a multiple of 4 (TKW)."""


class WrappedKeyError(VerificationError):
    """The bytes are no key wrapped under the protection key, or were changed."""


class NotEncryptedError(Error, ValueError):
    """The value is none that MySQL encrypted."""


class AlgorithmNameError(Error, ValueError):
    """The algorithm is not one that the call takes."""


class Base64Error(Error, ValueError):
    """The value is not Base64."""


class KeyNumberError(Error, ValueError):
    """The number is not 0 to 9, or the file has no key of that number."""


# This ends what bindings/describe made.

_FAULTS: Dict[int, Type[Error]] = {status: globals()[name] for status, name in _statuses.ERRORS.items()}

# What stands after a sentence that leaves it to the call, if the call does not say another.
_TAKEN = {
    _statuses.KEY_LENGTH: ": 8, 16 or 24 bytes",
    _statuses.PADDING_METHOD: ": 1 or 2",
    _statuses.VERSION: ": A, B or C to read, B or C to make",
    _statuses.HASH: ': for PBKDF2 "sha1" or "sha256"',
}


def fault_of(status: int, hint: str = "", taken: Dict[int, str] = _TAKEN) -> Error:
    """The fault of a status, with its sentence, and what the call takes, if the sentence leaves it to the call."""
    return _FAULTS[status](_statuses.SENTENCES[status] + taken.get(status, "") + hint)


def check(status: int, hint: str = "", taken: Dict[int, str] = _TAKEN) -> None:
    """Raises the fault of a status. One that none of the calls here can return is a RuntimeError: the library is another one."""
    if status == _statuses.OK:
        return
    if status not in _FAULTS:
        raise RuntimeError(f"the library returned the status {status}, which this call has not")
    raise fault_of(status, hint, taken)
