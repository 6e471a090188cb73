//! Translation of PIN blocks (ISO 9564-1): from one key to another, and from one format to another. The PIN does not come out.
//!
//! ```
//! use cukvashe_des::payment::translation::{translate, Incoming, Outgoing};
//!
//! let incoming = 0x0123456789abcdeffedcba9876543210u128.to_be_bytes();
//! let outgoing = 0x89e88cf7931444f334bd7547fc3f380cu128.to_be_bytes();
//! let fill = [10, 11, 12, 13, 14, 15, 10, 11, 12, 13];
//! let block = 0xc03d21cdbcb0c58bu64.to_be_bytes();
//! let format = Outgoing::Format3 { fill };
//! let translated = translate(&incoming, Incoming::Format0, &outgoing, format, b"4012345678909", &block)?;
//! assert_eq!(translated, 0xba041cb9b3034d36u64.to_be_bytes());
//! # Ok::<(), cukvashe_des::payment::TranslationError>(())
//! ```

use crate::error::sentences;
use crate::ffi;
use crate::statuses::{sentence, ACCOUNT_DIGIT, ACCOUNT_LENGTH, FILL, KEY_LENGTH, OK, PIN_BLOCK};
use crate::Block;
use core::ffi::c_int;
use core::ptr;

/// The format of a PIN block that comes in.
#[non_exhaustive]
#[derive(Clone, Copy, Debug, PartialEq, Eq)]
pub enum Incoming {
    /// With an account number.
    Format0,
    /// With transaction digits.
    Format1,
    /// With an account number and fill digits.
    Format3,
}

/// The format of the PIN block that is made: with an account number, and with fill digits if it has them.
///
/// ```compile_fail,E0533
/// let format = cukvashe_des::payment::translation::Outgoing::Format3;
/// ```
#[non_exhaustive]
#[derive(Clone, Copy, Debug, PartialEq, Eq)]
pub enum Outgoing {
    /// The account number alone.
    Format0,
    /// With ten fill digits from 10 to 15, of which it uses the first ones that fill it to sixteen digits: take them from a source of
    /// randomness.
    Format3 {
        /// The digits.
        fill: [u8; 10],
    },
}

/// Why a PIN block is not translated. The first of them is reported, in this order. Whatever is wrong with the block itself is
/// one error, since its faults would reveal PINs.
#[non_exhaustive]
#[derive(Clone, Copy, Debug, PartialEq, Eq)]
pub enum TranslationError {
    /// One of the keys does not have 8, 16 or 24 bytes.
    KeyLength,
    /// The account number does not have 8 to 19 digits.
    AccountLength,
    /// A character of the account number is not a digit.
    AccountDigit,
    /// A fill digit is none of 10 to 15.
    Fill,
    /// Decrypted, the block is not a PIN block of its format.
    Block,
}

sentences!(TranslationError:
    TranslationError::KeyLength => "a key does not have 8, 16 or 24 bytes",
    TranslationError::AccountLength => "the account number does not have 8 to 19 digits",
    TranslationError::AccountDigit => sentence(ACCOUNT_DIGIT),
    TranslationError::Fill => sentence(FILL),
    TranslationError::Block => sentence(PIN_BLOCK),
);

/// Translates a PIN block that is encrypted under one key, of 8, 16 or 24 bytes, into the block of the same PIN that is encrypted
/// under another: by DES, or by triple DES in the EDE form.
///
/// For a block of format 1 that stays one there is [`translate_format_1`]. The account number, a text of 8 to 19 digits with the check
/// digit, is that of both blocks.
pub fn translate(
    incoming: &[u8],
    from: Incoming,
    outgoing: &[u8],
    to: Outgoing,
    account: &[u8],
    block: &Block,
) -> Result<Block, TranslationError> {
    let number = match from {
        Incoming::Format0 => 0,
        Incoming::Format1 => 1,
        Incoming::Format3 => 3,
    };
    let mut translated = [0; 8];
    // SAFETY: the pointers are of references, those of keys and the text good for their lengths, and don't overlap what is written.
    let status = match &to {
        Outgoing::Format0 => unsafe {
            let translation = translation(incoming, number, outgoing, account, ptr::null());
            ffi::cukvashe_pin_translate_to_0(&translation, block, &mut translated)
        },
        Outgoing::Format3 { fill } => unsafe {
            let translation = translation(incoming, number, outgoing, account, fill);
            ffi::cukvashe_pin_translate_to_3(&translation, block, &mut translated)
        },
    };
    answer_of(status, translated)
}

/// Translates a PIN block of format 1 that is encrypted under one key, of 8, 16 or 24 bytes, into the same block under another: by
/// DES, or by triple DES in the EDE form. The transaction digits are unchanged, whatever they are, and there is no account number.
/// The errors are `KeyLength` and `Block`.
pub fn translate_format_1(incoming: &[u8], outgoing: &[u8], block: &Block) -> Result<Block, TranslationError> {
    let mut translated = [0; 8];
    let translation = translation(incoming, 1, outgoing, &[], ptr::null());
    // SAFETY: the pointers are of references, those of keys good for their lengths, and don't overlap what is written. It does not
    // look at fill digits.
    let status = unsafe { ffi::cukvashe_pin_translate_to_1(&translation, block, &mut translated) };
    answer_of(status, translated)
}

/// What a translation takes, for as long as what is given lives.
fn translation(
    incoming: &[u8],
    incoming_format: c_int,
    outgoing: &[u8],
    account: &[u8],
    fill: *const [u8; 10],
) -> ffi::PinTranslation {
    ffi::PinTranslation {
        incoming_key: incoming.as_ptr(),
        incoming_key_length: incoming.len(),
        incoming_format,
        outgoing_key: outgoing.as_ptr(),
        outgoing_key_length: outgoing.len(),
        account: account.as_ptr().cast(),
        account_length: account.len(),
        fill: fill.cast(),
    }
}

/// What a translation gives, by its status.
fn answer_of(status: c_int, translated: Block) -> Result<Block, TranslationError> {
    match status {
        OK => Ok(translated),
        KEY_LENGTH => Err(TranslationError::KeyLength),
        ACCOUNT_LENGTH => Err(TranslationError::AccountLength),
        ACCOUNT_DIGIT => Err(TranslationError::AccountDigit),
        PIN_BLOCK => Err(TranslationError::Block),
        _ => Err(TranslationError::Fill),
    }
}
