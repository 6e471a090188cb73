//! Check values, keys of components, PIN blocks, PIN verification, card verification values, card cryptograms, key blocks, and the
//! keys of a transaction (DUKPT with triple DES, ANSI X9.24-1:2009) at the host and in the terminal.
//!
//! A key of a transaction has 16 bytes, two halves of 8, and a key serial number (KSN) ten, of which the last 21 bits
//! are the transaction counter. PINs, account numbers, dates and codes are texts, slices of ASCII digits. No call reads
//! a table at an index that depends on a key or a PIN. The calls that make a key of components branch on it, those that
//! take a PIN on whether its characters are digits, those that take a PIN block on its fault and on its PIN's length,
//! and verifications on whether the PIN is right.
//!
//! ```
//! use cukvashe_des::payment::pin_blocks::{decode_format_0, encode_format_0, Pin};
//! use cukvashe_des::payment::{initial_key, is_usable, pin_key, transaction_key};
//! use cukvashe_des::{BlockCipher, TdesEde2};
//!
//! let base = 0x0123456789abcdeffedcba9876543210u128.to_be_bytes();
//! let serial = [0xff, 0xff, 0x98, 0x76, 0x54, 0x32, 0x10, 0xe0, 0x00, 0x01];
//! assert!(is_usable(&serial));
//! let key = pin_key(&transaction_key(&initial_key(&base, &serial), &serial));
//!
//! let mut block = encode_format_0(&Pin::new(b"1234")?, b"4012345678909")?;
//! TdesEde2::new(&key).encrypt_block(&mut block);
//! assert_eq!(block, 0x1b9c1845eb993a7au64.to_be_bytes());
//!
//! TdesEde2::new(&key).decrypt_block(&mut block);
//! assert_eq!(decode_format_0(&block, b"4012345678909")?.text(), b"1234");
//! # Ok::<(), Box<dyn std::error::Error>>(())
//! ```

mod card_verification;
pub mod emv;
pub mod key_blocks;
pub mod pin_blocks;
pub mod pin_verification;
mod terminal;
pub mod translation;

pub use card_verification::{cvv, CvvError};
pub use emv::EmvError;
pub use key_blocks::{BlockKey, KeyBlockError};
pub use pin_blocks::{Pin, PinError};
pub use pin_verification::{DecimalTable, VerificationError};
pub use terminal::Terminal;
pub use translation::TranslationError;

use crate::each_key::{count_of_both, KeyForEach};
use crate::ffi;
use crate::statuses::OK;
use crate::{CountsDiffer, Des, InvalidLength, KeyTestError, TdesEde2, TdesEde3};

/// Which message of a transaction a key is for: its direction.
#[derive(Clone, Copy, Debug, PartialEq, Eq)]
pub enum MessageDirection {
    /// The request, which the terminal sends.
    Request,
    /// The response, which the host sends.
    Response,
}

/// A cipher whose keys have check values.
pub trait CheckValue: KeyForEach {
    /// The check value (KCV) of a key: the first three bytes of the block of zeros, encrypted under it.
    fn check_value(key: &[u8]) -> Result<[u8; 3], InvalidLength>;

    /// Writes the check value of each key at its place, 128 keys at a time, without tables; if keys and values differ in
    /// number, the values are unchanged.
    fn check_values(keys: &[Self::Key], values: &mut [[u8; 3]]) -> Result<(), CountsDiffer>;
}

/// What a call made, if the key has one of its lengths.
fn checked<T>(status: i32, made: T) -> Result<T, InvalidLength> {
    match status {
        OK => Ok(made),
        _ => Err(InvalidLength),
    }
}

macro_rules! check_value {
    ($($cipher:ident: $call:ident, $calls:ident;)*) => {
        $(impl CheckValue for $cipher {
            fn check_value(key: &[u8]) -> Result<[u8; 3], InvalidLength> {
                let mut value = [0; 3];
                // SAFETY: the pointers are of references, good for their lengths, and don't overlap.
                let status = unsafe { ffi::$call(key.as_ptr(), key.len(), &mut value) };
                checked(status, value)
            }

            fn check_values(keys: &[Self::Key], values: &mut [[u8; 3]]) -> Result<(), CountsDiffer> {
                let count = count_of_both(keys, values)?;
                let (keys, values) = (keys.as_flattened(), values.as_flattened_mut());
                // SAFETY: the pointers are of references, good for their lengths, and don't overlap. The status is 0, since the
                // lengths are those of as many elements.
                unsafe { ffi::$calls(keys.as_ptr(), keys.len(), values.as_mut_ptr(), values.len(), count) };
                Ok(())
            }
        })*
    };
}

check_value!(
    Des: cukvashe_des_check_value, cukvashe_des_check_values;
    TdesEde2: cukvashe_tdes_ede2_check_value, cukvashe_tdes_ede2_check_values;
    TdesEde3: cukvashe_tdes_ede3_check_value, cukvashe_tdes_ede3_check_values;
);

macro_rules! combine {
    ($($name:ident: $size:literal, $call:ident);*) => {
        $(/// The key that two or more components make: their xor, with odd parity; `WeakKey` if the test refuses it.
        pub fn $name(
            first: &[u8; $size],
            second: &[u8; $size],
            others: &[[u8; $size]],
        ) -> Result<[u8; $size], KeyTestError> {
            let (mut key, count, others) = ([0; $size], others.len(), others.as_flattened());
            // SAFETY: the pointers are of references, `others` good for its length, and don't overlap what is written.
            match unsafe { ffi::$call(first, second, others.as_ptr(), others.len(), count, &mut key) } {
                OK => Ok(key),
                _ => Err(KeyTestError::WeakKey),
            }
        })*
    };
}

combine!(
    combine_8: 8, cukvashe_combine_8;
    combine_16: 16, cukvashe_combine_16;
    combine_24: 24, cukvashe_combine_24
);

// SAFETY of each call below: the pointers are of references to arrays of the lengths that it takes, and don't overlap.

/// Writes the key of the transaction of each key serial number at its place, from the base derivation key (BDK): what
/// [`transaction_key`] makes of [`initial_key`]. If serial numbers and keys differ in number, the keys are unchanged. It takes every
/// counter: ask [`is_usable`] first. Such a key encrypts nothing itself: take [`pin_key`], [`mac_key`] or [`data_key`] of it.
pub fn transaction_keys_from_base(
    base: &[u8; 16],
    serials: &[[u8; 10]],
    keys: &mut [[u8; 16]],
) -> Result<(), CountsDiffer> {
    let count = count_of_both(serials, keys)?;
    let (serials, keys) = (serials.as_flattened(), keys.as_flattened_mut());
    // The status is 0, since the lengths are those of as many elements.
    unsafe {
        ffi::cukvashe_dukpt_transaction_keys_from_base(
            base,
            serials.as_ptr(),
            serials.len(),
            keys.as_mut_ptr(),
            keys.len(),
            count,
        )
    };
    Ok(())
}

/// Whether a transaction has this key serial number: its counter is not 0 and has at most ten one bits.
#[must_use]
pub fn is_usable(serial: &[u8; 10]) -> bool {
    unsafe { ffi::cukvashe_dukpt_is_usable(serial) }
}

/// The next key serial number (KSN) with at most ten one bits in its counter, if there is one.
#[must_use]
pub fn next_serial(serial: &[u8; 10]) -> Option<[u8; 10]> {
    let mut next = [0; 10];
    let status = unsafe { ffi::cukvashe_dukpt_next_serial(serial, &mut next) };
    (status == OK).then_some(next)
}

// Calls like those of `cukvashe_des.h`: made of it by `bindings/describe`.
// SAFETY of each call below: the pointers are of references, those of texts and data good for their lengths, and don't
// overlap what is written.

/// The check value of a key or component, by its length: by DES of 8 bytes, by triple DES (EDE) of 16 or 24.
pub fn key_check_value(key: &[u8]) -> Result<[u8; 3], InvalidLength> {
    let mut made = [0; 3];
    let status = unsafe { ffi::cukvashe_key_check_value(key.as_ptr(), key.len(), &mut made) };
    checked(status, made)
}

/// The first two bytes of the check value of a key or component of 8, 16 or 24 bytes, which some systems show.
pub fn short_key_check_value(key: &[u8]) -> Result<[u8; 2], InvalidLength> {
    let mut made = [0; 2];
    let status = unsafe { ffi::cukvashe_short_key_check_value(key.as_ptr(), key.len(), &mut made) };
    checked(status, made)
}

/// The initial key (IK, IPEK) of a terminal, from the base derivation key (BDK) and any of the terminal's key serial numbers
/// (KSN), whose counter plays no part.
#[must_use]
pub fn initial_key(base: &[u8; 16], serial: &[u8; 10]) -> [u8; 16] {
    let mut made = [0; 16];
    unsafe { ffi::cukvashe_dukpt_initial_key(base, serial, &mut made) };
    made
}

/// The key of a transaction, which encrypts nothing itself, from the terminal's initial key (IK, IPEK), not the base
/// derivation key (BDK), and the transaction's key serial number (KSN). It takes every counter: ask first whether a
/// transaction has this one.
#[must_use]
pub fn transaction_key(initial: &[u8; 16], serial: &[u8; 10]) -> [u8; 16] {
    let mut made = [0; 16];
    unsafe { ffi::cukvashe_dukpt_transaction_key(initial, serial, &mut made) };
    made
}

/// The key that encrypts PIN blocks, from the transaction's key.
#[must_use]
pub fn pin_key(transaction: &[u8; 16]) -> [u8; 16] {
    let mut made = [0; 16];
    unsafe { ffi::cukvashe_dukpt_pin_key(transaction, &mut made) };
    made
}

/// The key that authenticates the request, or the response, from the transaction's key.
#[must_use]
pub fn mac_key(transaction: &[u8; 16], message: MessageDirection) -> [u8; 16] {
    let mut made = [0; 16];
    unsafe { ffi::cukvashe_dukpt_mac_key(transaction, message == MessageDirection::Response, &mut made) };
    made
}

/// The key that encrypts the data of the request, or of the response, from the transaction's key.
#[must_use]
pub fn data_key(transaction: &[u8; 16], message: MessageDirection) -> [u8; 16] {
    let mut made = [0; 16];
    unsafe { ffi::cukvashe_dukpt_data_key(transaction, message == MessageDirection::Response, &mut made) };
    made
}

/// The key that encrypts the data, made without the last step: some terminals take it. It reveals the transaction's other
/// keys.
#[must_use]
pub fn data_variant(transaction: &[u8; 16], message: MessageDirection) -> [u8; 16] {
    let mut made = [0; 16];
    unsafe { ffi::cukvashe_dukpt_data_variant(transaction, message == MessageDirection::Response, &mut made) };
    made
}
// This ends what bindings/describe made.
