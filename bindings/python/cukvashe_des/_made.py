"""Check values, keys of a transaction (DUKPT), values and cryptograms of cards (EMV): made of the header by bindings/describe."""

from __future__ import annotations

from ._data import buffer_of, bytes_from, bytes_of, data_of, key_of, text_from, text_of
from ._faults import BlockLengthError, DataLengthError, SerialLengthError, check
from ._keys import response_of
from ._library import function
from ._types import ReadableBuffer, Text

_key_check_value = function("key_check_value")
_short_key_check_value = function("short_key_check_value")
_dukpt_initial_key = function("dukpt_initial_key")
_dukpt_transaction_key = function("dukpt_transaction_key")
_dukpt_pin_key = function("dukpt_pin_key")
_dukpt_mac_key = function("dukpt_mac_key")
_dukpt_data_key = function("dukpt_data_key")
_dukpt_data_variant = function("dukpt_data_variant")
_cvv = function("cvv")
_emv_card_key = function("emv_card_key")
_emv_card_key_b = function("emv_card_key_b")
_emv_application_key = function("emv_application_key")
_emv_session_key = function("emv_session_key")
_emv_application_cryptogram = function("emv_application_cryptogram")
_emv_response_1 = function("emv_response_1")
_emv_response_2 = function("emv_response_2")


def key_check_value(key: ReadableBuffer) -> bytes:
    """The check value of a key or component, by its length: by DES of 8 bytes, by triple DES (EDE) of 16 or 24.
    KeyLengthError."""
    made = buffer_of(3)
    with key_of(key, 8, 16, 24) as copied_key:
        check(_key_check_value(copied_key, len(copied_key), made))
    return bytes(made)


def short_key_check_value(key: ReadableBuffer) -> bytes:
    """The first two bytes of the check value of a key or component of 8, 16 or 24 bytes, which some systems show.
    KeyLengthError."""
    made = buffer_of(2)
    with key_of(key, 8, 16, 24) as copied_key:
        check(_short_key_check_value(copied_key, len(copied_key), made))
    return bytes(made)


def dukpt_initial_key(base: ReadableBuffer, serial: ReadableBuffer) -> bytes:
    """The initial key (IK, IPEK) of a terminal, from the base derivation key (BDK) and any of the terminal's key serial numbers
    (KSN), whose counter plays no part. KeyLengthError, SerialLengthError."""
    taken_serial = data_of(serial, 10, "a key serial number has", SerialLengthError)
    made = buffer_of(16)
    with key_of(base, 16) as copied_base:
        _dukpt_initial_key(copied_base, taken_serial, made)
    return bytes_from(made)


def dukpt_transaction_key(initial: ReadableBuffer, serial: ReadableBuffer) -> bytes:
    """The key of a transaction, which encrypts nothing itself, from the terminal's initial key (IK, IPEK), not the base
    derivation key (BDK), and the transaction's key serial number (KSN). It takes every counter: ask first whether a transaction
    has this one. KeyLengthError, SerialLengthError."""
    taken_serial = data_of(serial, 10, "a key serial number has", SerialLengthError)
    made = buffer_of(16)
    with key_of(initial, 16) as copied_initial:
        _dukpt_transaction_key(copied_initial, taken_serial, made)
    return bytes_from(made)


def dukpt_pin_key(transaction: ReadableBuffer) -> bytes:
    """The key that encrypts PIN blocks, from the transaction's key. KeyLengthError."""
    made = buffer_of(16)
    with key_of(transaction, 16) as copied_transaction:
        _dukpt_pin_key(copied_transaction, made)
    return bytes_from(made)


def dukpt_mac_key(transaction: ReadableBuffer, is_response: bool = False) -> bytes:
    """The key that authenticates the request, or the response, from the transaction's key. KeyLengthError."""
    taken_is_response = response_of(is_response)
    made = buffer_of(16)
    with key_of(transaction, 16) as copied_transaction:
        _dukpt_mac_key(copied_transaction, taken_is_response, made)
    return bytes_from(made)


def dukpt_data_key(transaction: ReadableBuffer, is_response: bool = False) -> bytes:
    """The key that encrypts the data of the request, or of the response, from the transaction's key. KeyLengthError."""
    taken_is_response = response_of(is_response)
    made = buffer_of(16)
    with key_of(transaction, 16) as copied_transaction:
        _dukpt_data_key(copied_transaction, taken_is_response, made)
    return bytes_from(made)


def dukpt_data_variant(transaction: ReadableBuffer, is_response: bool = False) -> bytes:
    """The key that encrypts the data, made without the last step: some terminals take it. It reveals the transaction's other
    keys. KeyLengthError."""
    taken_is_response = response_of(is_response)
    made = buffer_of(16)
    with key_of(transaction, 16) as copied_transaction:
        _dukpt_data_variant(copied_transaction, taken_is_response, made)
    return bytes_from(made)


def cvv(key: ReadableBuffer, account: Text, expiry: Text, service: Text) -> str:
    """The card verification value (CVV), three ASCII digits, under a key pair of 16 bytes, of an account number (PAN) of 12 to 19
    digits, an expiry date of four, in the order that the issuer takes, and a service code of three. KeyLengthError,
    AccountLengthError, AccountDigitError, ExpiryLengthError, ExpiryDigitError, ServiceLengthError, ServiceDigitError."""
    made = buffer_of(4)
    with key_of(key, 16) as copied_key, text_of(account) as copied_account, text_of(expiry) as copied_expiry:
        with text_of(service) as copied_service:
            check(_cvv(copied_key, *copied_account, *copied_expiry, *copied_service, made))
    return text_from(made)


def emv_card_key(issuer: ReadableBuffer, account: Text, sequence: Text) -> bytes:
    """The key of a card (A1.4.1, option A), with odd parity, from the issuer's master key (IMK), an account number (PAN) of 8 to
    19 digits and a sequence number (PSN) of two, `00` if the card has none. KeyLengthError, AccountLengthError,
    AccountDigitError, SequenceLengthError, SequenceDigitError."""
    made = buffer_of(16)
    with key_of(issuer, 16) as copied_issuer, text_of(account) as copied_account, text_of(sequence) as copied_sequence:
        check(_emv_card_key(copied_issuer, *copied_account, *copied_sequence, made))
    return bytes_from(made)


def emv_card_key_b(issuer: ReadableBuffer, account: Text, sequence: Text) -> bytes:
    """The key of a card by option B (A1.4.2), which differs if the account number (PAN) has more than sixteen digits: use it if
    the card scheme asks for it. KeyLengthError, AccountLengthError, AccountDigitError, SequenceLengthError,
    SequenceDigitError."""
    made = buffer_of(16)
    with key_of(issuer, 16) as copied_issuer, text_of(account) as copied_account, text_of(sequence) as copied_sequence:
        check(_emv_card_key_b(copied_issuer, *copied_account, *copied_sequence, made))
    return bytes_from(made)


def emv_application_key(card: ReadableBuffer, counter: ReadableBuffer) -> bytes:
    """The session key for application cryptograms, from the card's key and the application transaction counter (ATC), two bytes.
    KeyLengthError, DataLengthError."""
    taken_counter = data_of(counter, 2, "a transaction counter has", DataLengthError)
    made = buffer_of(16)
    with key_of(card, 16) as copied_card:
        _emv_application_key(copied_card, taken_counter, made)
    return bytes_from(made)


def emv_session_key(card: ReadableBuffer, block: ReadableBuffer) -> bytes:
    """The session key for other uses (A1.3), from the card's key and eight bytes that are different for each session: for secure
    messaging the application cryptogram (ARQC). The third of them plays no part. KeyLengthError, BlockLengthError."""
    taken_block = data_of(block, 8, "the block of a session has", BlockLengthError)
    made = buffer_of(16)
    with key_of(card, 16) as copied_card:
        _emv_session_key(copied_card, taken_block, made)
    return bytes_from(made)


def emv_application_cryptogram(session: ReadableBuffer, data: ReadableBuffer) -> bytes:
    """The application cryptogram (ARQC, TC or AAC; 8.1.2), 8 bytes, under a session key, of the data that the card scheme names:
    the retail MAC with padding method 2. To check one that a card sent call RetailMacDes(session, 2, data).verify(cryptogram),
    and do not compare by ==. KeyLengthError."""
    taken_data = bytes_of(data)
    made = buffer_of(8)
    with key_of(session, 16) as copied_session:
        _emv_application_cryptogram(copied_session, taken_data, len(taken_data), made)
    return bytes(made)


def emv_response_1(session: ReadableBuffer, cryptogram: ReadableBuffer, code: ReadableBuffer) -> bytes:
    """The issuer's response (ARPC) by method 1 (8.2.1), 8 bytes, to an application cryptogram (ARQC), with a response code of two
    ASCII characters. KeyLengthError, BlockLengthError, DataLengthError."""
    taken_cryptogram = data_of(cryptogram, 8, "an application cryptogram has", BlockLengthError)
    taken_code = data_of(code, 2, "a response code has", DataLengthError)
    made = buffer_of(8)
    with key_of(session, 16) as copied_session:
        _emv_response_1(copied_session, taken_cryptogram, taken_code, made)
    return bytes(made)


def emv_response_2(session: ReadableBuffer, cryptogram: ReadableBuffer, status: ReadableBuffer, data: ReadableBuffer = b"") -> bytes:
    """The issuer's response (ARPC) by method 2 (8.2.2), 4 bytes, to an application cryptogram (ARQC), with a card status update
    of four bytes and at most 8 bytes of the issuer's. KeyLengthError, BlockLengthError, DataLengthError."""
    taken_cryptogram = data_of(cryptogram, 8, "an application cryptogram has", BlockLengthError)
    taken_status = data_of(status, 4, "a card status update has", DataLengthError)
    taken_data = bytes_of(data)
    made = buffer_of(4)
    with key_of(session, 16) as copied_session:
        check(_emv_response_2(copied_session, taken_cryptogram, taken_status, taken_data, len(taken_data), made))
    return bytes(made)
