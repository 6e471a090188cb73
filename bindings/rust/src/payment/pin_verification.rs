//! PIN verification: the PIN verification value (PVV), and the method of the IBM 3624 with natural PINs and offsets. Count wrong
//! PINs: unlimited guesses find the right one.
//!
//! ```
//! use cukvashe_des::payment::pin_verification::{verify_offset, verify_pvv, DecimalTable, VerificationError};
//! use cukvashe_des::payment::Pin;
//!
//! let key = 0x0123456789abcdeffedcba9876543210u128.to_be_bytes();
//! let pin = Pin::new(b"1234").unwrap();
//! verify_pvv(&key, b"4123456789012345", 1, &pin, b"1894")?;
//! let wrong = verify_pvv(&key, b"4123456789012345", 1, &pin, b"1895");
//! assert_eq!(wrong, Err(VerificationError::WrongPin));
//!
//! let table = DecimalTable::new(b"0123456789012345")?;
//! let (offset, pin) = (Pin::new(b"9999").unwrap(), Pin::new(b"9519").unwrap());
//! verify_offset(&key, &table, &0x4123456789012345u64.to_be_bytes(), &pin, &offset)?;
//! # Ok::<(), VerificationError>(())
//! ```

use super::Pin;
use crate::error::sentences;
use crate::ffi;
use crate::statuses::{
    sentence, ACCOUNT_DIGIT, ACCOUNT_LENGTH, KEY_INDEX, KEY_LENGTH, OK, PIN_LENGTH, TABLE_DIGIT, TABLE_LENGTH,
    TABLE_VARIETY, WRONG_PIN,
};
use core::fmt;

/// Why there is no PIN verification value, natural PIN, offset or decimalization table, or why a PIN is not accepted. The first of
/// them is reported, in this order.
#[non_exhaustive]
#[derive(Clone, Copy, Debug, PartialEq, Eq)]
pub enum VerificationError {
    /// The account number does not have 12 to 19 digits.
    AccountLength,
    /// A character of the account number is not a digit.
    AccountDigit,
    /// The index of the key is none of 1 to 6.
    KeyIndex,
    /// The key does not have 8, 16 or 24 bytes.
    KeyLength,
    /// A natural PIN does not have 4 to 12 digits.
    PinLength,
    /// The decimalization table does not have sixteen digits.
    TableLength,
    /// A character of the decimalization table is not a digit.
    TableDigit,
    /// The decimalization table has fewer than eight different digits.
    TableVariety,
    /// The PIN is wrong.
    WrongPin,
}

sentences!(VerificationError:
    VerificationError::AccountLength => "the account number does not have 12 to 19 digits",
    VerificationError::AccountDigit => sentence(ACCOUNT_DIGIT),
    VerificationError::KeyIndex => sentence(KEY_INDEX),
    VerificationError::KeyLength => "the key does not have 8, 16 or 24 bytes",
    VerificationError::PinLength => sentence(PIN_LENGTH),
    VerificationError::TableLength => sentence(TABLE_LENGTH),
    VerificationError::TableDigit => sentence(TABLE_DIGIT),
    VerificationError::TableVariety => sentence(TABLE_VARIETY),
    VerificationError::WrongPin => sentence(WRONG_PIN),
);

/// What a call made, or the fault that its status says.
fn checked<T>(status: i32, made: T) -> Result<T, VerificationError> {
    match status {
        OK => Ok(made),
        ACCOUNT_LENGTH => Err(VerificationError::AccountLength),
        ACCOUNT_DIGIT => Err(VerificationError::AccountDigit),
        KEY_INDEX => Err(VerificationError::KeyIndex),
        KEY_LENGTH => Err(VerificationError::KeyLength),
        PIN_LENGTH => Err(VerificationError::PinLength),
        TABLE_LENGTH => Err(VerificationError::TableLength),
        TABLE_DIGIT => Err(VerificationError::TableDigit),
        TABLE_VARIETY => Err(VerificationError::TableVariety),
        _ => Err(VerificationError::WrongPin),
    }
}

/// A decimalization table: a digit from 0 to 9 for each digit of four bits.
#[derive(Clone)]
pub struct DecimalTable {
    table: ffi::DecimalTable,
}

impl DecimalTable {
    /// The table of sixteen ASCII digits, those that stand for 0 to 15 in this order. Its faults are `TableLength`, `TableDigit`,
    /// and `TableVariety` if there are fewer than eight different ones. An attacker who chooses the table finds PINs out.
    pub fn new(digits: &[u8]) -> Result<DecimalTable, VerificationError> {
        let mut table = ffi::DecimalTable { digits: [0; 16] };
        // SAFETY: the pointers are of references, that of the text good for its length, and don't overlap.
        let status = unsafe { ffi::cukvashe_decimal_table_init(&mut table, digits.as_ptr().cast(), digits.len()) };
        checked(status, DecimalTable { table })
    }

    /// A table of any variety, for old systems that have one. Its faults are `TableLength` and `TableDigit`.
    pub fn of_any_variety(digits: &[u8]) -> Result<DecimalTable, VerificationError> {
        let mut table = ffi::DecimalTable { digits: [0; 16] };
        // SAFETY: as of `new`.
        let status = unsafe { ffi::cukvashe_decimal_table_init_any(&mut table, digits.as_ptr().cast(), digits.len()) };
        checked(status, DecimalTable { table })
    }
}

/// Writes the type's name, and no digit.
impl fmt::Debug for DecimalTable {
    fn fmt(&self, f: &mut fmt::Formatter<'_>) -> fmt::Result {
        f.write_str("DecimalTable { ... }")
    }
}

// SAFETY of each call below: the pointers are of references, those of keys and texts good for their lengths, and don't overlap
// what is written. A table is one that `init` wrote.

/// The PIN verification value (PVV), four ASCII digits, of a PIN and an account number, a text of 12 to 19 digits with the check
/// digit, under a key pair of 16 bytes with an index from 1 to 6. `AccountLength`, `AccountDigit` and `KeyIndex` are its faults.
/// The first four digits of the PIN count, so several PINs have one value.
pub fn pvv(key: &[u8; 16], account: &[u8], index: u8, pin: &Pin) -> Result<[u8; 4], VerificationError> {
    let (pin, mut value) = (pin.text(), [0; 5]);
    let (account, length) = (account.as_ptr().cast(), account.len());
    let status =
        unsafe { ffi::cukvashe_pvv(key, account, length, index.into(), pin.as_ptr().cast(), pin.len(), &mut value) };
    let [first, second, third, fourth, _] = value;
    checked(status, [first, second, third, fourth])
}

/// Accepts the PIN verification value that [`pvv`] gives: its faults, and then `WrongPin` for any other value. Every character is
/// compared.
pub fn verify_pvv(
    key: &[u8; 16],
    account: &[u8],
    index: u8,
    pin: &Pin,
    value: &[u8; 4],
) -> Result<(), VerificationError> {
    let pin = pin.text();
    let status = unsafe {
        ffi::cukvashe_pvv_verify(
            key,
            account.as_ptr().cast(),
            account.len(),
            index.into(),
            pin.as_ptr().cast(),
            pin.len(),
            value.as_ptr().cast(),
            value.len(),
        )
    };
    checked(status, ())
}

/// The natural PIN of 4 to 12 digits: the validation data, sixteen digits of four bits, are encrypted under a key of 8, 16 or 24
/// bytes, each digit of the answer becomes that of the table, and the first `count` are the natural PIN. Its faults are `KeyLength`
/// and `PinLength`.
pub fn natural_pin(
    key: &[u8],
    table: &DecimalTable,
    validation: &[u8; 8],
    count: usize,
) -> Result<Pin, VerificationError> {
    let mut pin = Pin::empty();
    let status =
        unsafe { ffi::cukvashe_natural_pin(key.as_ptr(), key.len(), &table.table, validation, count, &mut pin.text) };
    checked(status, pin)
}

/// The offset of a PIN: digit by digit, modulo ten, the PIN less the natural PIN of as many digits. It has a PIN's form, and
/// `KeyLength` is its fault.
pub fn pin_offset(key: &[u8], table: &DecimalTable, validation: &[u8; 8], pin: &Pin) -> Result<Pin, VerificationError> {
    let (pin, mut offset) = (pin.text(), Pin::empty());
    let status = unsafe {
        ffi::cukvashe_pin_offset(
            key.as_ptr(),
            key.len(),
            &table.table,
            validation,
            pin.as_ptr().cast(),
            pin.len(),
            &mut offset.text,
        )
    };
    checked(status, offset)
}

/// Accepts the PIN that is the sum of an offset and the natural PIN of as many digits, digit by digit, modulo ten, and no other:
/// `KeyLength`, and then `WrongPin` if it is another, or has another length. Every digit is compared.
pub fn verify_offset(
    key: &[u8],
    table: &DecimalTable,
    validation: &[u8; 8],
    pin: &Pin,
    offset: &Pin,
) -> Result<(), VerificationError> {
    let (pin, offset) = (pin.text(), offset.text());
    let status = unsafe {
        ffi::cukvashe_pin_offset_verify(
            key.as_ptr(),
            key.len(),
            &table.table,
            validation,
            pin.as_ptr().cast(),
            pin.len(),
            offset.as_ptr().cast(),
            offset.len(),
        )
    };
    checked(status, ())
}
