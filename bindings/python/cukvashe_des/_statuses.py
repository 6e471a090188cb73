"""The statuses of the header and, at the place of its number, the sentence of each: made of it by bindings/describe."""

OK = 0
KEY_LENGTH = 1
BLOCKS = 2
WEAK_KEY = 3
PADDING_METHOD = 4
TAG = 5
NO_SERIAL = 6
FORMAT = 7
PIN_LENGTH = 8
PIN_DIGIT = 9
ACCOUNT_LENGTH = 10
ACCOUNT_DIGIT = 11
FILL = 12
EXPIRY_LENGTH = 13
EXPIRY_DIGIT = 14
SERVICE_LENGTH = 15
SERVICE_DIGIT = 16
PADDING = 17
CAPACITY = 18
COUNTS = 19
KEY_INDEX = 20
TABLE_LENGTH = 21
TABLE_DIGIT = 22
TABLE_VARIETY = 23
WRONG_PIN = 24
FORMATS = 25
PIN_BLOCK = 26
SEQUENCE_LENGTH = 27
SEQUENCE_DIGIT = 28
DATA_LENGTH = 29
PROTECTION_KEY_LENGTH = 30
KEY_BLOCK_LENGTH = 31
VERSION = 32
HEADER = 33
OPTIONAL_BLOCK = 34
KEY_DATA_LENGTH = 35
KEY_BLOCK_DIGIT = 36
KEY_BLOCK_MAC = 37
PADDING_LENGTH = 38
NO_OPTIONAL_BLOCK = 39
HASH = 40
ITERATIONS = 41
NOT_SALTED = 42
SALT_LENGTH = 43
CONTEXT = 44
MODE = 45
STREAM = 46
WRAPPED_LENGTH = 47
WRAPPED_KEY = 48
NOT_ENCRYPTED = 49
VALUES = 50
ALGORITHM = 51
BASE64 = 52
KEY_NUMBER = 53
OVERLAP = 54

SENTENCES = (
    "success",
    "the key does not have a length that the call takes",
    "the length is not a multiple of 8 bytes",
    "the key is weak, or two of its parts are one key",
    "the padding method is not one that the call takes",
    "the tag is not that of the message",
    "there is no next key serial number",
    "the first digit of the PIN block is not that of the format",
    "the PIN does not have 4 to 12 digits",
    "a character of the PIN is not a digit",
    "the account number does not have 8 to 19 digits, for a PVV or a CVV 12 to 19",
    "a character of the account number is not a digit",
    "a fill digit is not one that the format allows",
    "the expiry date does not have four digits",
    "a character of the expiry date is not a digit",
    "the service code does not have three digits",
    "a character of the service code is not a digit",
    "the data do not end with the padding",
    "the buffer is too small for all that the call would write",
    "the numbers of elements do not agree: a count, or a sum of counts, and a length",
    "the index of the key pair is not 1 to 6",
    "the decimalization table does not have sixteen digits",
    "a character of the decimalization table is not a digit",
    "the decimalization table has fewer than eight different digits",
    "the PIN is wrong",
    "there is no translation of PIN blocks from this format, only from 0, 1 and 3",
    "decrypted, the PIN block is not one of its format and account number",
    "the sequence number does not have two digits",
    "a character of the sequence number is not a digit",
    "the issuer's data have more than 8 bytes",
    "the protection key does not have 16 or 24 bytes",
    "the key block is not as long as its header says, longer than 9999 characters, or too long for its buffer",
    "the version of the key block is not one that the call takes",
    "the header does not end with two digits, 0, 1 or 2, and 0, or a field to be written is not letters and digits",
    "the optional blocks can't be read or written: a wrong length, name, content or PB, an end off a multiple of eight, or more than 99",
    "the encrypted key data do not have a length that they can have",
    "a character of the encrypted key data or the MAC is not 0 to 9 or A to F",
    "the MAC is not that of the key block",
    "the padding of the key does not have 6, 14 or 22 bytes, or has more than 30 with the key",
    "the key block has no optional block at this place",
    "the hash function is not one that the call takes",
    "the number of iterations is not 1 to 2^32 - 1",
    "the bytes do not begin with Salted__",
    "the bytes end within the salt, or it does not have 0 or 8 bytes",
    "the context is not one that the init of this type made",
    "the mode is not one that the call takes",
    "the stream is not one that was begun",
    "the wrapped key does not have 24 bytes or more, a multiple of 8 (CMS), or 12 or more, a multiple of 4 (TKW)",
    "the bytes are no key wrapped under the protection key, or were changed",
    "the value is none that MySQL encrypted",
    "some values can't be read: their statuses say why",
    "the algorithm is not one that the call takes",
    "the value is not Base64",
    "the number is not 0 to 9, or the file has no key of that number",
    "what the call would write overlaps what it reads",
)

# The error of each status that is one by itself.
ERRORS = {
    KEY_LENGTH: "KeyLengthError",
    BLOCKS: "BlockLengthError",
    PADDING_METHOD: "PaddingMethodError",
    TAG: "TagMismatchError",
    FORMAT: "FormatError",
    PIN_LENGTH: "PinLengthError",
    PIN_DIGIT: "PinDigitError",
    ACCOUNT_LENGTH: "AccountLengthError",
    ACCOUNT_DIGIT: "AccountDigitError",
    FILL: "FillError",
    EXPIRY_LENGTH: "ExpiryLengthError",
    EXPIRY_DIGIT: "ExpiryDigitError",
    SERVICE_LENGTH: "ServiceLengthError",
    SERVICE_DIGIT: "ServiceDigitError",
    PADDING: "PaddingMismatchError",
    COUNTS: "CountMismatchError",
    KEY_INDEX: "KeyIndexError",
    TABLE_LENGTH: "TableLengthError",
    TABLE_DIGIT: "TableDigitError",
    TABLE_VARIETY: "TableVarietyError",
    WRONG_PIN: "WrongPinError",
    FORMATS: "FormatsError",
    PIN_BLOCK: "PinBlockError",
    SEQUENCE_LENGTH: "SequenceLengthError",
    SEQUENCE_DIGIT: "SequenceDigitError",
    DATA_LENGTH: "DataLengthError",
    PROTECTION_KEY_LENGTH: "ProtectionKeyLengthError",
    KEY_BLOCK_LENGTH: "KeyBlockLengthError",
    VERSION: "KeyBlockVersionError",
    HEADER: "KeyBlockFieldError",
    OPTIONAL_BLOCK: "OptionalBlockError",
    KEY_DATA_LENGTH: "KeyDataLengthError",
    KEY_BLOCK_DIGIT: "KeyBlockDigitError",
    KEY_BLOCK_MAC: "KeyBlockMacError",
    PADDING_LENGTH: "PaddingLengthError",
    HASH: "HashNameError",
    ITERATIONS: "IterationCountError",
    NOT_SALTED: "NotSaltedError",
    SALT_LENGTH: "SaltLengthError",
    WRAPPED_LENGTH: "WrappedLengthError",
    WRAPPED_KEY: "WrappedKeyError",
    NOT_ENCRYPTED: "NotEncryptedError",
    ALGORITHM: "AlgorithmNameError",
    BASE64: "Base64Error",
    KEY_NUMBER: "KeyNumberError",
}
