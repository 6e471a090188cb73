//! PIN blocks (ISO 9564-1): a PIN in eight bytes, in formats 0 to 3. A block is not encrypted here: that is one call of a
//! cipher.

use crate::error::sentences;
use crate::ffi;
use crate::statuses::{sentence, ACCOUNT_DIGIT, ACCOUNT_LENGTH, FILL, FORMAT, OK, PIN_DIGIT, PIN_LENGTH};
use crate::Block;
use core::fmt;

/// Why a PIN block is not made, or a block holds no PIN. The first of them is reported: if a block is made, of the PIN,
/// then of the account number, then of the fill digits; if one is read, of the account number, then in the order of the
/// block's digits. The fault of a block that is read reveals something of its PIN: show it to nobody.
#[non_exhaustive]
#[derive(Clone, Copy, Debug, PartialEq, Eq)]
pub enum PinError {
    /// The block's first digit is not that of the format.
    Format,
    /// The PIN does not have 4 to 12 digits, or the block's second digit is not the length of such a PIN.
    PinLength,
    /// A character of the PIN is not a digit, or a digit of the block's PIN is above 9.
    PinDigit,
    /// The account number does not have 8 to 19 digits.
    AccountLength,
    /// A character of the account number is not a digit.
    AccountDigit,
    /// A fill digit is not one that the format allows.
    Fill,
}

sentences!(PinError:
    PinError::Format => sentence(FORMAT),
    PinError::PinLength => sentence(PIN_LENGTH),
    PinError::PinDigit => sentence(PIN_DIGIT),
    PinError::AccountLength => "the account number does not have 8 to 19 digits",
    PinError::AccountDigit => sentence(ACCOUNT_DIGIT),
    PinError::Fill => sentence(FILL),
);

/// What a call made, or the fault that its status says.
fn checked<T>(status: i32, made: T) -> Result<T, PinError> {
    match status {
        OK => Ok(made),
        FORMAT => Err(PinError::Format),
        PIN_LENGTH => Err(PinError::PinLength),
        PIN_DIGIT => Err(PinError::PinDigit),
        ACCOUNT_LENGTH => Err(PinError::AccountLength),
        ACCOUNT_DIGIT => Err(PinError::AccountDigit),
        _ => Err(PinError::Fill),
    }
}

/// A personal identification number (PIN): a text of 4 to 12 digits, which is wiped when it is dropped. It has no equality:
/// compare PINs by their texts.
///
/// ```
/// # let pin = cukvashe_des::payment::Pin::new(b"1234").unwrap();
/// assert!(pin.text() == pin.text());
/// ```
///
/// ```compile_fail,E0369
/// # let pin = cukvashe_des::payment::Pin::new(b"1234").unwrap();
/// assert!(pin == pin);
/// ```
#[derive(Clone)]
pub struct Pin {
    /// The digits, and zeros after them.
    pub(super) text: [u8; 13],
}

impl Pin {
    /// The PIN of these ASCII digits: `PinLength` if there are not 4 to 12 of them, `PinDigit` if one is not a digit.
    pub fn new(text: &[u8]) -> Result<Pin, PinError> {
        // The library tests a PIN where it makes a block of it, and every PIN has one of format 1.
        let mut block = encode_1(text, &[0; 10])?;
        ffi::wipe(&mut block);
        let mut pin = Pin::empty();
        pin.text.iter_mut().zip(text).for_each(|(place, digit)| *place = *digit);
        Ok(pin)
    }

    /// A PIN for a call to write.
    pub(super) fn empty() -> Pin {
        Pin { text: [0; 13] }
    }

    /// Its ASCII digits.
    #[must_use]
    pub fn text(&self) -> &[u8] {
        self.text.split(|digit| *digit == 0).next().unwrap_or(&[])
    }
}

impl Drop for Pin {
    fn drop(&mut self) {
        ffi::wipe(&mut self.text);
    }
}

/// Writes the type's name, and no digit.
impl fmt::Debug for Pin {
    fn fmt(&self, f: &mut fmt::Formatter<'_>) -> fmt::Result {
        f.write_str("Pin { ... }")
    }
}

// SAFETY of each call below: the pointers are of references, those of texts good for their lengths, and don't overlap what is
// written.

fn encode_1(pin: &[u8], transaction: &[u8; 10]) -> Result<Block, PinError> {
    let mut block = [0; 8];
    let status = unsafe { ffi::cukvashe_pin_encode_1(pin.as_ptr().cast(), pin.len(), transaction, &mut block) };
    checked(status, block)
}

/// The block of format 0 of a PIN and an account number, a text of 8 to 19 digits with the check digit.
pub fn encode_format_0(pin: &Pin, account: &[u8]) -> Result<Block, PinError> {
    let (pin, mut block) = (pin.text(), [0; 8]);
    let status = unsafe {
        ffi::cukvashe_pin_encode_0(pin.as_ptr().cast(), pin.len(), account.as_ptr().cast(), account.len(), &mut block)
    };
    checked(status, block)
}

/// The block of format 1 of a PIN and ten transaction digits from 0 to 15, of which it uses the first ones that fill it to
/// sixteen digits; `Fill` if one of the ten is above 15.
pub fn encode_format_1(pin: &Pin, transaction: &[u8; 10]) -> Result<Block, PinError> {
    encode_1(pin.text(), transaction)
}

/// The block of format 2 of a PIN, which goes to a card in clear.
#[must_use]
pub fn encode_format_2(pin: &Pin) -> Block {
    let (pin, mut block) = (pin.text(), [0; 8]);
    // There is no fault, since the text is that of a PIN.
    unsafe { ffi::cukvashe_pin_encode_2(pin.as_ptr().cast(), pin.len(), &mut block) };
    block
}

/// The block of format 3 of a PIN, an account number as in format 0, and ten fill digits from 10 to 15, of which it uses the
/// first ones that fill it to sixteen digits; `Fill` if one of the ten is none of them.
pub fn encode_format_3(pin: &Pin, account: &[u8], fill: &[u8; 10]) -> Result<Block, PinError> {
    let (pin, mut block) = (pin.text(), [0; 8]);
    let status = unsafe {
        ffi::cukvashe_pin_encode_3(
            pin.as_ptr().cast(),
            pin.len(),
            account.as_ptr().cast(),
            account.len(),
            fill,
            &mut block,
        )
    };
    checked(status, block)
}

/// The PIN of a block of format 0 and an account number.
pub fn decode_format_0(block: &Block, account: &[u8]) -> Result<Pin, PinError> {
    let mut pin = Pin::empty();
    let status = unsafe { ffi::cukvashe_pin_decode_0(block, account.as_ptr().cast(), account.len(), &mut pin.text) };
    checked(status, pin)
}

/// The PIN of a block of format 1.
pub fn decode_format_1(block: &Block) -> Result<Pin, PinError> {
    let mut pin = Pin::empty();
    let status = unsafe { ffi::cukvashe_pin_decode_1(block, &mut pin.text) };
    checked(status, pin)
}

/// The PIN of a block of format 2.
pub fn decode_format_2(block: &Block) -> Result<Pin, PinError> {
    let mut pin = Pin::empty();
    let status = unsafe { ffi::cukvashe_pin_decode_2(block, &mut pin.text) };
    checked(status, pin)
}

/// The PIN of a block of format 3 and an account number.
pub fn decode_format_3(block: &Block, account: &[u8]) -> Result<Pin, PinError> {
    let mut pin = Pin::empty();
    let status = unsafe { ffi::cukvashe_pin_decode_3(block, account.as_ptr().cast(), account.len(), &mut pin.text) };
    checked(status, pin)
}
