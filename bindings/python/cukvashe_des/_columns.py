"""Columns of old records: what MySQL, MariaDB, pgcrypto and Jasypt encrypted, many values in one call; and keys by their passwords."""

from __future__ import annotations

import ctypes
import re
import secrets
from array import array
from itertools import accumulate
from typing import AbstractSet, Any, Callable, Dict, Iterable, List, Mapping, NamedTuple, Optional, Tuple, TypeVar

from ._ciphers import Cipher, Des, TdesEde3
from ._data import BLOCK_SIZE, buffer_of, bytes_of, in_order, pointer_to, refuse_masked, row_size, secret_of, wiped_buffer
from ._faults import AlgorithmNameError, BlockLengthError, Error, KeyNumberError, SaltLengthError, UnreadableValuesError, check, fault_of
from ._library import function
from ._lists import encrypt_cbc_records
from ._padding import pad
from ._passwords import MD5, TOO_MANY, iterations_of, length_of
from ._statuses import ALGORITHM, BLOCKS, ITERATIONS, KEY_LENGTH, KEY_NUMBER, OK, SALT_LENGTH, SENTENCES, VALUES
from ._types import Column, ReadableBuffer

# The key number of a value that was encrypted under a key string.
_KEY_STRING = 127

# What pgcrypto is given: the cipher, its mode, and its padding, of which the last counts.
_SCHEME = re.compile(r"(3des|des3(?=-)|des)(-cbc|-ecb)?((?:/(?:pad:pkcs|pad:none)?)*)", re.IGNORECASE)

# The algorithms of Jasypt, in small letters.
_JASYPT = ("pbewithmd5anddes", "pbewithmd5andtripledes", "pbewithsha1anddesede")

# The lengths of key and vector together.
_LENGTHS = {KEY_LENGTH: ": 16, 24 or 32 bytes, as the algorithm has it"}

# The sentences of values, if those of the statuses are of other bytes too.
_OF_A_FILE = {KEY_NUMBER: "the file has no key of the value's number"}
_OF_A_STRING = {SALT_LENGTH: "the value ends within the salt", BLOCKS: "what is encrypted is not whole blocks of 8 bytes"}

_Texts = List[Optional[bytes]]
_Answer = TypeVar("_Answer", bytes, str)

_bytes_to_key = function("bytes_to_key")
_mysql_decrypt_values = function("mysql_decrypt_values")
_mysql_decrypt_values_by_file = function("mysql_decrypt_values_by_file")
_pgcrypto_decrypt_values = function("pgcrypto_decrypt_values")
_jasypt_decrypt_values = function("jasypt_decrypt_values")
_jasypt_encrypt_values = function("jasypt_encrypt_values")
_pbe_key = function("pbe_key")


def _is_missing(value: Any) -> bool:
    """Whether a value is none, as the null of a database: None, or what pandas has in its place."""
    return value is None or type(value).__name__ in ("NAType", "NaTType") or (isinstance(value, float) and value != value)


def _bytes_of(value: Any, is_text: bool) -> bytes:
    """The bytes of a value. A character beyond ASCII becomes one that is not of Base64 either."""
    if not isinstance(value, str):
        return bytes_of(value)
    if is_text:
        return value.encode("ascii", "replace")
    raise TypeError("a column has bytes and no texts: bytes.fromhex makes them of hexadecimal digits, and encode of a text")


def _rows_of(column: Any) -> Optional[List[Any]]:
    """The rows of an array of bytes, each of which is a value, or None if it is no array."""
    refuse_masked(column)
    try:
        view = memoryview(column)
    except TypeError:
        return None
    with view:
        # Objects, and texts, which are no bytes here.
        if view.format == "O" or view.format.endswith("w"):
            return None
        if view.format.endswith("s"):
            raise TypeError("an array of fixed width has lost the zeros at the end of its values: take objects or rows of uint8")
        if view.ndim > 2 or row_size(in_order(view)) is None:
            raise TypeError("a column is a list of bytes, or an array with a row for each value")
        size, joined = row_size(view) or 1, view.tobytes()
        return [joined[at : at + size] for at in range(0, len(joined), size)]


class _Taken(NamedTuple):
    """The values of a column that are there, how many rows the column has, and in which of them they stand, or None if all are
    there."""

    values: List[bytes]
    rows: int
    places: Optional[List[int]]

    def spread(self, answers: List[Optional[_Answer]]) -> List[Optional[_Answer]]:
        """The answers in the rows of their values, and None elsewhere."""
        if self.places is None:
            return answers
        spread: List[Optional[_Answer]] = [None] * self.rows
        for place, answer in zip(self.places, answers):
            spread[place] = answer
        return spread

    def told(self, texts: _Texts, faults: Dict[int, Error], errors: str) -> _Texts:
        """The texts in the rows of their values. If some could not be read, that is an error, or None in their rows."""
        for at in faults:
            texts[at] = None
        answer = self.spread(texts)
        if not faults or errors == "none":
            return answer
        of_rows = {at if self.places is None else self.places[at]: fault for at, fault in sorted(faults.items())}
        place, why = next(iter(of_rows.items()))
        text = f"{len(of_rows)} of {self.rows} values can't be read, the first at place {place}: {why}"
        raise UnreadableValuesError(text, of_rows, answer)


def _taken(column: Column, is_text: bool = False) -> _Taken:
    if isinstance(column, (str, bytes, bytearray, AbstractSet, Mapping)):
        raise TypeError("a column is a list of bytes, in the order of its rows")
    values, places = _rows_of(column) or list(column), None
    if set(map(type, values)) - {bytes}:
        places = [place for place, value in enumerate(values) if not _is_missing(value)]
        there = [_bytes_of(values[place], is_text) for place in places]
    else:
        there = values
    return _Taken(there, len(values), None if len(there) == len(values) else places)


def _tested(errors: str) -> str:
    if errors not in ("raise", "none"):
        raise ValueError('errors is "raise" or "none"')
    return errors


def _pointer(numbers: array[int]) -> Any:
    return pointer_to(numbers) if numbers else None


def _cut(joined: bytes, starts: Iterable[int], lengths: Iterable[int]) -> _Texts:
    return [joined[start : start + length] for start, length in zip(starts, lengths)]


def _fault_of(status: int, sentences: Mapping[int, str]) -> Error:
    """The fault of a value's status, with its own sentence if it has one."""
    fault = fault_of(status)
    return type(fault)(sentences[status]) if status in sentences else fault


def _read(
    call: Callable[..., int], first: Tuple[Any, ...], values: List[bytes], sentences: Mapping[int, str] = {}
) -> Tuple[_Texts, Dict[int, Error]]:
    """The texts of values, by a call that takes other arguments first, and the errors of those that can't be read, by their places."""
    joined, lengths, count = b"".join(values), array("Q", map(len, values)), len(values)
    texts, sizes, statuses = buffer_of(len(joined)), array("Q", bytes(8 * count)), array("i", bytes(4 * count))
    status = call(*first, joined, len(joined), _pointer(lengths), count, texts, _pointer(sizes), _pointer(statuses))
    if status != VALUES:
        check(status)
    faults = {} if status == OK else {at: _fault_of(reason, sentences) for at, reason in enumerate(statuses) if reason != OK}
    return _cut(bytes(texts), accumulate(lengths, initial=0), sizes), faults


def _named(name: str, what: str) -> Tuple[bytes, int]:
    """A name, as a call takes it."""
    if not isinstance(name, str):
        raise TypeError(f"{what} is a text")
    taken = name.encode("ascii", "replace")
    return taken, len(taken)


def mysql_decrypt_values(password: ReadableBuffer, values: Column, *, errors: str = "raise") -> _Texts:
    """The texts of a column that DES_ENCRYPT of MySQL or MariaDB encrypted under a key string, which is the password here. Values of
    every key number are taken for its, as the server does.

    A column is a list of bytes, an array of NumPy with a row for each value, or of objects, or a Series of pandas: its bytes, and not
    their hexadecimal digits. Of None, and what pandas has in its place, comes None.

    UnreadableValuesError if a value can't be read: its `faults` has the error of each by its place, NotEncryptedError or
    PaddingMismatchError, and its `texts` all others. With errors="none" None stands in the place of such a value. Nothing here
    authenticates: under a wrong password most values are faults, and the others wrong."""
    wanted, taken = _tested(errors), _taken(values)
    with secret_of(password) as secret:
        return taken.told(*_read(_mysql_decrypt_values, secret, taken.values), wanted)


def mysql_decrypt_values_by_file(keys: ReadableBuffer, values: Column, *, errors: str = "raise") -> _Texts:
    """The texts of a column that DES_ENCRYPT encrypted under keys of the server's file, by the number that each value has. `keys` are the
    bytes of the file (des-key-file), which is read as the server does: a line that is no key is passed over.

    Arguments and errors as of `mysql_decrypt_values`; among the faults KeyNumberError of a value whose key the file has not."""
    wanted, taken = _tested(errors), _taken(values)
    with secret_of(keys) as file:
        return taken.told(*_read(_mysql_decrypt_values_by_file, file, taken.values, _OF_A_FILE), wanted)


def mysql_encrypt_values(password: ReadableBuffer, texts: Column, *, number: int = _KEY_STRING) -> _Texts:
    """The values that DES_ENCRYPT makes of a column of texts under a key string, or under the key of the server's file that has a number,
    0 to 9, and this string. Take it for what reads nothing else: nothing authenticates the values. KeyNumberError."""
    if not isinstance(number, int) or isinstance(number, bool):
        raise TypeError("the number of a key is a number")
    if not (0 <= number <= 9 or number == _KEY_STRING):
        raise KeyNumberError("the number of a key is 0 to 9, or 127 of a key string")
    taken = _taken(texts)
    padded = [text + b"*" * (7 - len(text) % 8) + bytes([8 - len(text) % 8]) if text else b"" for text in taken.values]
    with secret_of(password) as secret, wiped_buffer(TdesEde3.key_size) as key:
        check(_bytes_to_key(MD5, *secret, None, 0, key, len(key)))
        with TdesEde3(key) as cipher:
            values = _chained(cipher, bytes(BLOCK_SIZE), padded)
    return taken.spread([value and bytes([128 + number]) + value for value in values])


def _chained(cipher: Cipher, vector: bytes, texts: List[bytes]) -> List[bytes]:
    """Texts of whole blocks, each encrypted by CBC from one vector."""
    counts = [len(text) // BLOCK_SIZE for text in texts]
    joined = encrypt_cbc_records(cipher, b"".join(texts), vectors=vector * len(texts), counts=counts)
    ends = list(accumulate(map(len, texts)))
    return [joined[end - len(text) : end] for text, end in zip(texts, ends)]


def pgcrypto_decrypt_values(
    cipher: str, key: ReadableBuffer, values: Column, *, iv: ReadableBuffer = b"", errors: str = "raise"
) -> _Texts:
    """The texts of a column that `encrypt` or `encrypt_iv` of pgcrypto encrypted. `cipher` is what they were given: "des" or "3des", which
    are CBC, "des-ecb" or "3des-ecb", and "/pad:none" behind it. As there, a key or vector that is shorter than the cipher's is filled
    with zeros and a longer one cut, so a key of 16 bytes is no two-key triple DES. Without a vector it is zeros.

    Values and errors as of `mysql_decrypt_values`: the faults are BlockLengthError and PaddingMismatchError. AlgorithmNameError."""
    name, vector, wanted, taken = _named(cipher, "a cipher of pgcrypto"), bytes_of(iv), _tested(errors), _taken(values)
    with secret_of(key) as secret:
        return taken.told(*_read(_pgcrypto_decrypt_values, (*name, *secret, vector, len(vector)), taken.values), wanted)


def pgcrypto_encrypt_values(cipher: str, key: ReadableBuffer, texts: Column, *, iv: ReadableBuffer = b"") -> _Texts:
    """The values that `encrypt` or `encrypt_iv` of pgcrypto makes of a column of texts. Arguments as of `pgcrypto_decrypt_values`. Nothing
    authenticates them. AlgorithmNameError; BlockLengthError with "/pad:none", if a text is not whole blocks."""
    _named(cipher, "a cipher of pgcrypto")
    scheme = _SCHEME.fullmatch(cipher)
    if scheme is None:
        raise AlgorithmNameError(SENTENCES[ALGORITHM])
    kind = Des if scheme[1].lower() == "des" else TdesEde3
    is_padded = re.findall("none|pkcs", scheme[3].lower())[-1:] != ["none"]
    taken = _taken(texts)
    padded = [pad(text, "pkcs7") for text in taken.values] if is_padded else taken.values
    if any(len(text) % BLOCK_SIZE for text in padded):
        raise BlockLengthError("a text without padding is not whole blocks of 8 bytes")
    with secret_of(key) as (secret, length), wiped_buffer(kind.key_size) as filled:
        ctypes.memmove(filled, secret, min(length, len(filled)))
        with kind(filled) as made:
            if (scheme[2] or "").lower() == "-ecb":
                joined, lengths = made.encrypt_ecb(b"".join(padded)), list(map(len, padded))
                return taken.spread(_cut(joined, accumulate(lengths, initial=0), lengths))
            return taken.spread([*_chained(made, bytes_of(iv)[:BLOCK_SIZE].ljust(BLOCK_SIZE, b"\0"), padded)])


def _of_jasypt(algorithm: str) -> Tuple[bytes, int]:
    """The name of an algorithm of Jasypt, as a call takes it."""
    name = _named(algorithm, "an algorithm")
    if algorithm.lower() not in _JASYPT:
        raise AlgorithmNameError(SENTENCES[ALGORITHM])
    return name


def jasypt_decrypt_values(
    password: ReadableBuffer,
    values: Column,
    *,
    algorithm: str = "PBEWithMD5AndDES",
    iterations: int = 1000,
    errors: str = "raise",
) -> _Texts:
    """The texts of strings that Jasypt encrypted under a password, with or without ENC(..) around: texts, or their bytes. White space
    around and within a string does not count; one whose pad bits (RFC 4648, 3.5) are not zeros is not Base64. The algorithm is
    "PBEWithMD5AndDES", its default before version 3, "PBEWithMD5AndTripleDES" or "PBEWithSHA1AndDESede". The key of each is derived by
    itself, from its salt.

    Values and errors as of `mysql_decrypt_values`: the faults are Base64Error, SaltLengthError, BlockLengthError and
    PaddingMismatchError. AlgorithmNameError, IterationCountError."""
    name, count, wanted, taken = _of_jasypt(algorithm), iterations_of(iterations), _tested(errors), _taken(values, is_text=True)
    if count == TOO_MANY:
        raise fault_of(ITERATIONS)
    with secret_of(password) as secret:
        return taken.told(*_read(_jasypt_decrypt_values, (*name, count, *secret), taken.values, _OF_A_STRING), wanted)


def _strings(password: ReadableBuffer, texts: List[bytes], salts: Optional[ReadableBuffer], algorithm: str, iterations: int) -> List[str]:
    """The strings of texts, each from its salt."""
    name, count, joined, lengths = _of_jasypt(algorithm), iterations_of(iterations), b"".join(texts), array("Q", map(len, texts))
    if count == TOO_MANY:
        raise fault_of(ITERATIONS)
    total = BLOCK_SIZE * len(texts)
    grains = secrets.token_bytes(total) if salts is None else bytes_of(salts)
    if len(grains) != total:
        raise SaltLengthError(f"salts of Jasypt have {BLOCK_SIZE} bytes for each text, {total} together, not {len(grains)}")
    sizes = [((length // BLOCK_SIZE + 2) * BLOCK_SIZE + 2) // 3 * 4 for length in lengths]
    values = buffer_of(sum(sizes))
    with secret_of(password) as secret:
        laid = (grains, len(grains), joined, len(joined), _pointer(lengths), len(texts))
        check(_jasypt_encrypt_values(*name, count, *secret, *laid, values, len(values)))
    made, ends = str(bytes(values), "ascii"), accumulate(sizes)
    return [made[end - size : end] for end, size in zip(ends, sizes)]


def jasypt_encrypt_values(
    password: ReadableBuffer,
    texts: Column,
    *,
    algorithm: str = "PBEWithMD5AndDES",
    iterations: int = 1000,
    salts: Optional[ReadableBuffer] = None,
) -> List[Optional[str]]:
    """The strings that Jasypt makes of a column of texts, without ENC(..) around. The salts, 8 bytes for each text and none for None, are
    random, or the ones that are given. Nothing authenticates the texts. Algorithms and errors as of `jasypt_decrypt_values`;
    SaltLengthError."""
    taken = _taken(texts)
    return taken.spread([*_strings(password, taken.values, salts, algorithm, iterations)])


def jasypt_encrypt(
    password: ReadableBuffer,
    text: ReadableBuffer,
    *,
    algorithm: str = "PBEWithMD5AndDES",
    iterations: int = 1000,
    salt: Optional[ReadableBuffer] = None,
) -> str:
    """The string that Jasypt makes of a text, without ENC(..) around. The salt, of 8 bytes, is random, or the one that is given.
    Algorithms and errors as of `jasypt_decrypt_values`; SaltLengthError."""
    return _strings(password, [bytes_of(text)], salt, algorithm, iterations)[0]


def pbe_key(algorithm: str, password: ReadableBuffer, salt: ReadableBuffer, iterations: int, length: int) -> bytes:
    """The key, and after it the vector, together `length` bytes, that password-based encryption makes: by PKCS #5 version 1.5 (RFC 8018),
    "PBEWithMD5AndDES" or "PBEWithSHA1AndDES", 16 bytes; by Java's own rule, "PBEWithMD5AndTripleDES", 32, of a salt of 8 bytes; by
    PKCS #12 (RFC 7292, Appendix B), "PBEWithSHA1AndDESede", 32, or "pbeWithSHAAnd2-KeyTripleDES-CBC", 24, of a password in UTF-8.
    AlgorithmNameError, KeyLengthError, IterationCountError, SaltLengthError."""
    name, count, grains, size = _named(algorithm, "an algorithm"), iterations_of(iterations), bytes_of(salt), length_of(length)
    with secret_of(password) as secret, wiped_buffer(size) as made:
        status = _pbe_key(*name, count, *secret, grains, len(grains), made, size)
        if status == SALT_LENGTH:
            raise SaltLengthError(f"by this algorithm a salt has {BLOCK_SIZE} bytes, not {len(grains)}")
        check(status, taken=_LENGTHS)
        return bytes(made)
