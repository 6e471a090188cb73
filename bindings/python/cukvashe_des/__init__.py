"""DES and triple DES (FIPS 46-3), over `libcukvashe_des.so`, whose exports are proved; this wrapper is tested.

    import cukvashe_des
    cipher = cukvashe_des.TdesEde3(key)            # 24 bytes
    plaintext = cipher.decrypt_cbc(ciphertext, iv=iv)

The library is the one in this package's folder, else the file that the environment variable CUKVASHE_DES_LIBRARY names, else
that of `bindings/build`, else the one that the system finds.

Data are bytes, bytearray, memoryview or anything else with a buffer of bytes, or of words whose most significant byte comes first;
words in another order, as in array('Q'), are a TypeError. Data are read once, and never changed but by the calls named `_into`,
which work in place in anything writable and contiguous. ECB and CBC take whole blocks of 8 bytes: `pad` and `unpad` make them of
other data. CTR, OFB and CFB take any number of bytes, and `Ctr`, `Ofb` and `Cfb` take them in pieces:

    stream = cukvashe_des.Cfb(cipher, iv=iv, segment_size=8)    # 8 bits, as PyCryptodome means by CFB; others mean 64
    plaintext = stream.decrypt(first) + stream.decrypt(second)

Messages are authenticated by objects as those of `hmac`, with `update`, `digest`, `hexdigest`, `copy` and `verify`:

    mac = cukvashe_des.CmacTdesEde3(key)
    mac.update(message)
    mac.verify(tag)                                # TagMismatchError if it is not the whole tag

`TdesEde3(key, no_tables=True)`, and so each cipher and MAC, makes the library read no tables at addresses that depend on the key or
the data, which other programs on the processor could learn. That is tested of the library on x86-64, not of this package.

`check_value` and `combine` make check values and keys of components, the calls named `dukpt_` the keys of a transaction, and
`DukptTerminal` those of a terminal's transactions. The calls named `pin_` make PIN blocks, which are not encrypted, those named
`pin_translate_` translate encrypted ones, `cvv` makes card verification values, those named `emv_` keys of cards and cryptograms.
A PIN is verified by its value or its offset; a call that verifies returns nothing for the right PIN:

    cukvashe_des.pvv_verify(key, account, 1, pin, value)    # WrongPinError if it is wrong

`unwrap_key_block(protection, block)` gives the header and the key of a key block (TR-31), `wrap_key_block` makes one, with random
padding:

    header, key = cukvashe_des.unwrap_key_block(protection, block)    # KeyBlockMacError if it was changed

`open_salted(TdesEde3, password, data)` gives what `openssl enc -des3` encrypted; `pbkdf2` and `bytes_to_key` derive keys from
passwords.

Lists go in one call: `encrypt_each` and `decrypt_each` with a key for each block, `check_values` of many keys and
`dukpt_transaction_keys_from_base` of many key serial numbers. They take arrays of `uint8` or of words `>u8`, as of shape (n, 8) or
(n, 16), where they stand, and other threads of Python run meanwhile:

    keys = cukvashe_des.dukpt_transaction_keys_from_base(base, serials)
    pin_keys = b"".join(cukvashe_des.dukpt_pin_key(keys[at : at + 16]) for at in range(0, len(keys), 16))
    blocks = cukvashe_des.decrypt_each(cukvashe_des.TdesEde2, pin_keys, blocks)

The key of a transaction encrypts nothing itself, so each is made the PIN key of its transaction first.

`decrypt_cbc_records(cipher, blocks, vectors=vectors, counts=counts)` and its inverse take a column of records, `macs` and
`macs_each` many messages, and `wrong_tags` gives the places of the tags that came and are not those that these made.

Columns of databases and settings of frameworks go in one call too: `mysql_decrypt_values(password, values)`,
`pgcrypto_decrypt_values("3des", key, values)`, `jasypt_decrypt_values(password, values)`. A value that can't be read leaves the others
readable: the error of each stands in the `faults` of UnreadableValuesError by its place.

Each fault is an `Error` of its own name, which the call's text names. Those by which a call says that a tag, a PIN or a key block
is not the right one are below `VerificationError`, and no ValueError; all others are a ValueError too. An argument of the wrong
type is a TypeError. Texts tell lengths, and no other value that was given.

A class that you derive from one of the ciphers or MACs is the same cipher or MAC, whatever attributes it has.

Ciphers and MACs can be shared by threads. `close()` wipes the context of one, and so does the end of a `with` block, or of its
last use. Python itself can't wipe `bytes` and `str`, neither those that you pass nor those that you get: keys that you pass in
a `bytearray` you can overwrite.
"""

from __future__ import annotations

# Calls like those of cukvashe_des.h: made of it by bindings/describe.
from ._made import (
    cvv,
    dukpt_data_key,
    dukpt_data_variant,
    dukpt_initial_key,
    dukpt_mac_key,
    dukpt_pin_key,
    dukpt_transaction_key,
    emv_application_cryptogram,
    emv_application_key,
    emv_card_key,
    emv_card_key_b,
    emv_response_1,
    emv_response_2,
    emv_session_key,
    key_check_value,
    short_key_check_value,
)
# This ends what bindings/describe made.
from ._ciphers import Cipher, Des, TdesEde2, TdesEde3
from ._data import BLOCK_SIZE
# The errors: made by bindings/describe.
from ._faults import (
    AccountDigitError,
    AccountLengthError,
    AlgorithmNameError,
    Base64Error,
    BlockLengthError,
    ClosedError,
    CountMismatchError,
    DataLengthError,
    DirectionError,
    Error,
    ExpiryDigitError,
    ExpiryLengthError,
    FillError,
    FillLengthError,
    FormatError,
    FormatsError,
    HashNameError,
    IterationCountError,
    KeyBlockDigitError,
    KeyBlockFieldError,
    KeyBlockLengthError,
    KeyBlockMacError,
    KeyBlockVersionError,
    KeyDataLengthError,
    KeyIndexError,
    KeyLengthError,
    KeyNumberError,
    NoSerialError,
    NotEncryptedError,
    NotSaltedError,
    OptionalBlockError,
    PaddingLengthError,
    PaddingMethodError,
    PaddingMismatchError,
    PinBlockError,
    PinDigitError,
    PinLengthError,
    PositionError,
    ProtectionKeyLengthError,
    SaltLengthError,
    SegmentSizeError,
    SequenceDigitError,
    SequenceLengthError,
    SerialLengthError,
    ServiceDigitError,
    ServiceLengthError,
    StateLengthError,
    TableDigitError,
    TableLengthError,
    TableVarietyError,
    TagMismatchError,
    UnreadableValuesError,
    VectorLengthError,
    VerificationError,
    WeakKeyError,
    WrappedKeyError,
    WrappedLengthError,
    WrongPinError,
)
# This ends what bindings/describe made.
from ._columns import (
    jasypt_decrypt_values,
    jasypt_encrypt,
    jasypt_encrypt_values,
    mysql_decrypt_values,
    mysql_decrypt_values_by_file,
    mysql_encrypt_values,
    pbe_key,
    pgcrypto_decrypt_values,
    pgcrypto_encrypt_values,
)
from ._key_blocks import (
    KeyBlockHeader,
    key_block_context,
    key_block_header,
    key_block_optional_blocks,
    unwrap_key_block,
    wrap_key_block,
)
from ._key_wrap import cms_unwrap_key, cms_wrap_key, tkw_unwrap_key, tkw_wrap_key
from ._keys import (
    check_value,
    combine,
    dukpt_is_usable,
    dukpt_next_serial,
    equal_but_parity,
    is_weak_key,
    with_odd_parity,
)
from ._lists import (
    check_values,
    decrypt_cbc_records,
    decrypt_each,
    decrypt_each_into,
    dukpt_transaction_keys_from_base,
    encrypt_cbc_records,
    encrypt_each,
    encrypt_each_into,
    macs,
    macs_each,
    wrong_tags,
)
from ._macs import TAG_SIZE, CbcMacDes, CbcMacTdesEde2, CbcMacTdesEde3, CmacTdesEde2, CmacTdesEde3, Mac, RetailMacDes
from ._padding import pad, unpad
from ._passwords import bytes_to_key, open_salted, pbkdf2
from ._payment import (
    pin_decode_0,
    pin_decode_1,
    pin_decode_2,
    pin_decode_3,
    pin_encode_0,
    pin_encode_1,
    pin_encode_2,
    pin_encode_3,
    pin_translate_to_0,
    pin_translate_to_1,
    pin_translate_to_3,
)
from ._streams import Cfb, Ctr, Ofb, Stream
from ._terminal import DukptTerminal
from ._verification import DecimalTable, natural_pin, pin_offset, pin_offset_verify, pvv, pvv_verify
from ._version import __version__

# All that is imported here: made by bindings/describe.
__all__ = [
    "AccountDigitError", "AccountLengthError", "AlgorithmNameError", "BLOCK_SIZE", "Base64Error", "BlockLengthError", "CbcMacDes",
    "CbcMacTdesEde2", "CbcMacTdesEde3", "Cfb", "Cipher", "ClosedError", "CmacTdesEde2", "CmacTdesEde3", "CountMismatchError",
    "Ctr", "DataLengthError", "DecimalTable", "Des", "DirectionError", "DukptTerminal", "Error", "ExpiryDigitError",
    "ExpiryLengthError", "FillError", "FillLengthError", "FormatError", "FormatsError", "HashNameError", "IterationCountError",
    "KeyBlockDigitError", "KeyBlockFieldError", "KeyBlockHeader", "KeyBlockLengthError", "KeyBlockMacError",
    "KeyBlockVersionError", "KeyDataLengthError", "KeyIndexError", "KeyLengthError", "KeyNumberError", "Mac", "NoSerialError",
    "NotEncryptedError", "NotSaltedError", "Ofb", "OptionalBlockError", "PaddingLengthError", "PaddingMethodError",
    "PaddingMismatchError", "PinBlockError", "PinDigitError", "PinLengthError", "PositionError", "ProtectionKeyLengthError",
    "RetailMacDes", "SaltLengthError", "SegmentSizeError", "SequenceDigitError", "SequenceLengthError", "SerialLengthError",
    "ServiceDigitError", "ServiceLengthError", "StateLengthError", "Stream", "TAG_SIZE", "TableDigitError", "TableLengthError",
    "TableVarietyError", "TagMismatchError", "TdesEde2", "TdesEde3", "UnreadableValuesError", "VectorLengthError",
    "VerificationError", "WeakKeyError", "WrappedKeyError", "WrappedLengthError", "WrongPinError", "__version__", "bytes_to_key",
    "check_value", "check_values", "cms_unwrap_key", "cms_wrap_key", "combine", "cvv", "decrypt_cbc_records", "decrypt_each",
    "decrypt_each_into", "dukpt_data_key", "dukpt_data_variant", "dukpt_initial_key", "dukpt_is_usable", "dukpt_mac_key",
    "dukpt_next_serial", "dukpt_pin_key", "dukpt_transaction_key", "dukpt_transaction_keys_from_base",
    "emv_application_cryptogram", "emv_application_key", "emv_card_key", "emv_card_key_b", "emv_response_1", "emv_response_2",
    "emv_session_key", "encrypt_cbc_records", "encrypt_each", "encrypt_each_into", "equal_but_parity", "is_weak_key",
    "jasypt_decrypt_values", "jasypt_encrypt", "jasypt_encrypt_values", "key_block_context", "key_block_header",
    "key_block_optional_blocks", "key_check_value", "macs", "macs_each", "mysql_decrypt_values", "mysql_decrypt_values_by_file",
    "mysql_encrypt_values", "natural_pin", "open_salted", "pad", "pbe_key", "pbkdf2", "pgcrypto_decrypt_values",
    "pgcrypto_encrypt_values", "pin_decode_0", "pin_decode_1", "pin_decode_2", "pin_decode_3", "pin_encode_0", "pin_encode_1",
    "pin_encode_2", "pin_encode_3", "pin_offset", "pin_offset_verify", "pin_translate_to_0", "pin_translate_to_1",
    "pin_translate_to_3", "pvv", "pvv_verify", "short_key_check_value", "tkw_unwrap_key", "tkw_wrap_key", "unpad",
    "unwrap_key_block", "with_odd_parity", "wrap_key_block", "wrong_tags",
]
# This ends what bindings/describe made.

# Texts of errors and of `help` name the package, and not the file that defines a class.
for _name in __all__:
    if isinstance(globals()[_name], type):
        globals()[_name].__module__ = __name__
