//! The statuses of `cukvashe_des.h` and the sentence of each: made of it by `bindings/describe`.
// All are here, also those that no call of this crate returns.
#![allow(dead_code)]

use core::ffi::c_int;

pub const OK: c_int = 0;
pub const KEY_LENGTH: c_int = 1;
pub const BLOCKS: c_int = 2;
pub const WEAK_KEY: c_int = 3;
pub const PADDING_METHOD: c_int = 4;
pub const TAG: c_int = 5;
pub const NO_SERIAL: c_int = 6;
pub const FORMAT: c_int = 7;
pub const PIN_LENGTH: c_int = 8;
pub const PIN_DIGIT: c_int = 9;
pub const ACCOUNT_LENGTH: c_int = 10;
pub const ACCOUNT_DIGIT: c_int = 11;
pub const FILL: c_int = 12;
pub const EXPIRY_LENGTH: c_int = 13;
pub const EXPIRY_DIGIT: c_int = 14;
pub const SERVICE_LENGTH: c_int = 15;
pub const SERVICE_DIGIT: c_int = 16;
pub const PADDING: c_int = 17;
pub const CAPACITY: c_int = 18;
pub const COUNTS: c_int = 19;
pub const KEY_INDEX: c_int = 20;
pub const TABLE_LENGTH: c_int = 21;
pub const TABLE_DIGIT: c_int = 22;
pub const TABLE_VARIETY: c_int = 23;
pub const WRONG_PIN: c_int = 24;
pub const FORMATS: c_int = 25;
pub const PIN_BLOCK: c_int = 26;
pub const SEQUENCE_LENGTH: c_int = 27;
pub const SEQUENCE_DIGIT: c_int = 28;
pub const DATA_LENGTH: c_int = 29;
pub const PROTECTION_KEY_LENGTH: c_int = 30;
pub const KEY_BLOCK_LENGTH: c_int = 31;
pub const VERSION: c_int = 32;
pub const HEADER: c_int = 33;
pub const OPTIONAL_BLOCK: c_int = 34;
pub const KEY_DATA_LENGTH: c_int = 35;
pub const KEY_BLOCK_DIGIT: c_int = 36;
pub const KEY_BLOCK_MAC: c_int = 37;
pub const PADDING_LENGTH: c_int = 38;
pub const NO_OPTIONAL_BLOCK: c_int = 39;
pub const HASH: c_int = 40;
pub const ITERATIONS: c_int = 41;
pub const NOT_SALTED: c_int = 42;
pub const SALT_LENGTH: c_int = 43;
pub const CONTEXT: c_int = 44;
pub const MODE: c_int = 45;
pub const STREAM: c_int = 46;
pub const WRAPPED_LENGTH: c_int = 47;
pub const WRAPPED_KEY: c_int = 48;
pub const NOT_ENCRYPTED: c_int = 49;
pub const VALUES: c_int = 50;
pub const ALGORITHM: c_int = 51;
pub const BASE64: c_int = 52;
pub const KEY_NUMBER: c_int = 53;
pub const OVERLAP: c_int = 54;

/// The sentence of a status.
pub fn sentence(status: c_int) -> &'static str {
    SENTENCES[status as usize]
}

const SENTENCES: [&str; 55] = [
    "success",
    "the key does not have a length that the call takes",
    "the length is not a multiple of 8 bytes",
    "the key is weak, or two of its parts are one key",
    "the padding method is not one that the call takes",
    "the tag is not that of the message",
    "there is no next key serial number",
    "the first digit of the PIN block is not that of the format",
    "the PIN does not have 4 to 12 digits",
    "a character of the PIN is not a digit",
    "the account number does not have 8 to 19 digits, for a PVV or a CVV 12 to 19",
    "a character of the account number is not a digit",
    "a fill digit is not one that the format allows",
    "the expiry date does not have four digits",
    "a character of the expiry date is not a digit",
    "the service code does not have three digits",
    "a character of the service code is not a digit",
    "the data do not end with the padding",
    "the buffer is too small for all that the call would write",
    "the numbers of elements do not agree: a count, or a sum of counts, and a length",
    "the index of the key pair is not 1 to 6",
    "the decimalization table does not have sixteen digits",
    "a character of the decimalization table is not a digit",
    "the decimalization table has fewer than eight different digits",
    "the PIN is wrong",
    "there is no translation of PIN blocks from this format, only from 0, 1 and 3",
    "decrypted, the PIN block is not one of its format and account number",
    "the sequence number does not have two digits",
    "a character of the sequence number is not a digit",
    "the issuer's data have more than 8 bytes",
    "the protection key does not have 16 or 24 bytes",
    "the key block is not as long as its header says, longer than 9999 characters, or too long for its buffer",
    "the version of the key block is not one that the call takes",
    "the header does not end with two digits, 0, 1 or 2, and 0, or a field to be written is not letters and digits",
    "the optional blocks can't be read or written: a wrong length, name, content or PB, an end off a multiple of eight, or more than 99",
    "the encrypted key data do not have a length that they can have",
    "a character of the encrypted key data or the MAC is not 0 to 9 or A to F",
    "the MAC is not that of the key block",
    "the padding of the key does not have 6, 14 or 22 bytes, or has more than 30 with the key",
    "the key block has no optional block at this place",
    "the hash function is not one that the call takes",
    "the number of iterations is not 1 to 2^32 - 1",
    "the bytes do not begin with Salted__",
    "the bytes end within the salt, or it does not have 0 or 8 bytes",
    "the context is not one that the init of this type made",
    "the mode is not one that the call takes",
    "the stream is not one that was begun",
    "the wrapped key does not have 24 bytes or more, a multiple of 8 (CMS), or 12 or more, a multiple of 4 (TKW)",
    "the bytes are no key wrapped under the protection key, or were changed",
    "the value is none that MySQL encrypted",
    "some values can't be read: their statuses say why",
    "the algorithm is not one that the call takes",
    "the value is not Base64",
    "the number is not 0 to 9, or the file has no key of that number",
    "what the call would write overlaps what it reads",
];
