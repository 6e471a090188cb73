//! Card cryptograms (EMV 4.3, Book 2), the issuer's side, with triple DES: the key of a card, the keys of its sessions, the
//! application cryptogram and the responses. A key has 16 bytes.
//!
//! ```
//! use cukvashe_des::mac::{Mac, Padding, RetailMacDes};
//! use cukvashe_des::payment::emv::{application_cryptogram, application_key, card_key};
//!
//! let issuer = 0x0123456789abcdeffedcba9876543210u128.to_be_bytes();
//! let card = card_key(&issuer, b"99012345678901234", b"45")?;
//! assert_eq!(card, 0x67f8292358083e5ea7ab7fda58d53b6bu128.to_be_bytes());
//! let session = application_key(&card, &[0x00, 0x1c]);
//! assert_eq!(application_cryptogram(&session, b""), 0x94c5b7e3c27950aau64.to_be_bytes());
//!
//! // Of a cryptogram that a card sent:
//! let sent = 0x94c5b7e3c27950aau64.to_be_bytes();
//! assert!(RetailMacDes::new_no_tables(&session, Padding::Method2).verify(&sent).is_ok());
//! # Ok::<(), cukvashe_des::payment::EmvError>(())
//! ```

// Calls like those of `cukvashe_des.h`: made of it by `bindings/describe`.
use crate::error::sentences;
use crate::ffi;
use crate::statuses::{sentence, ACCOUNT_DIGIT, ACCOUNT_LENGTH, DATA_LENGTH, OK, SEQUENCE_DIGIT, SEQUENCE_LENGTH};

/// Why a call of this module refuses what it is given. The first of them is reported, in this order.
#[non_exhaustive]
#[derive(Clone, Copy, Debug, PartialEq, Eq)]
pub enum EmvError {
    /// The account number does not have 8 to 19 digits.
    AccountLength,
    /// A character of the account number is not a digit.
    AccountDigit,
    /// The sequence number does not have two digits.
    SequenceLength,
    /// A character of the sequence number is not a digit.
    SequenceDigit,
    /// The issuer's data have more than 8 bytes.
    DataLength,
}

sentences!(EmvError:
    EmvError::AccountLength => "the account number does not have 8 to 19 digits",
    EmvError::AccountDigit => sentence(ACCOUNT_DIGIT),
    EmvError::SequenceLength => sentence(SEQUENCE_LENGTH),
    EmvError::SequenceDigit => sentence(SEQUENCE_DIGIT),
    EmvError::DataLength => sentence(DATA_LENGTH),
);

/// What a call made, or the fault that its status says.
fn checked<T>(status: i32, made: T) -> Result<T, EmvError> {
    match status {
        OK => Ok(made),
        ACCOUNT_LENGTH => Err(EmvError::AccountLength),
        ACCOUNT_DIGIT => Err(EmvError::AccountDigit),
        SEQUENCE_LENGTH => Err(EmvError::SequenceLength),
        SEQUENCE_DIGIT => Err(EmvError::SequenceDigit),
        _ => Err(EmvError::DataLength),
    }
}

// SAFETY of each call below: the pointers are of references, those of texts and data good for their lengths, and don't
// overlap what is written.

/// The key of a card (A1.4.1, option A), with odd parity, from the issuer's master key (IMK), an account number (PAN) of 8 to
/// 19 digits and a sequence number (PSN) of two, `00` if the card has none.
pub fn card_key(issuer: &[u8; 16], account: &[u8], sequence: &[u8]) -> Result<[u8; 16], EmvError> {
    let mut made = [0; 16];
    let status = unsafe {
        ffi::cukvashe_emv_card_key(
            issuer,
            account.as_ptr().cast(),
            account.len(),
            sequence.as_ptr().cast(),
            sequence.len(),
            &mut made,
        )
    };
    checked(status, made)
}

/// The key of a card by option B (A1.4.2), which differs if the account number (PAN) has more than sixteen digits: use it if
/// the card scheme asks for it.
pub fn card_key_b(issuer: &[u8; 16], account: &[u8], sequence: &[u8]) -> Result<[u8; 16], EmvError> {
    let mut made = [0; 16];
    let status = unsafe {
        ffi::cukvashe_emv_card_key_b(
            issuer,
            account.as_ptr().cast(),
            account.len(),
            sequence.as_ptr().cast(),
            sequence.len(),
            &mut made,
        )
    };
    checked(status, made)
}

/// The session key for application cryptograms, from the card's key and the application transaction counter (ATC), two bytes.
#[must_use]
pub fn application_key(card: &[u8; 16], counter: &[u8; 2]) -> [u8; 16] {
    let mut made = [0; 16];
    unsafe { ffi::cukvashe_emv_application_key(card, counter, &mut made) };
    made
}

/// The session key for other uses (A1.3), from the card's key and eight bytes that are different for each session: for secure
/// messaging the application cryptogram (ARQC). The third of them plays no part.
#[must_use]
pub fn session_key(card: &[u8; 16], block: &[u8; 8]) -> [u8; 16] {
    let mut made = [0; 16];
    unsafe { ffi::cukvashe_emv_session_key(card, block, &mut made) };
    made
}

/// The application cryptogram (ARQC, TC or AAC; 8.1.2), 8 bytes, under a session key, of the data that the card scheme names:
/// the retail MAC with padding method 2. To check one that a card sent, call `verify` of
/// [`RetailMacDes`](crate::mac::RetailMacDes), and do not compare by `==`.
#[must_use]
pub fn application_cryptogram(session: &[u8; 16], data: &[u8]) -> [u8; 8] {
    let mut made = [0; 8];
    unsafe { ffi::cukvashe_emv_application_cryptogram(session, data.as_ptr(), data.len(), &mut made) };
    made
}

/// The issuer's response (ARPC) by method 1 (8.2.1), 8 bytes, to an application cryptogram (ARQC), with a response code of
/// two ASCII characters.
#[must_use]
pub fn response_1(session: &[u8; 16], cryptogram: &[u8; 8], code: &[u8; 2]) -> [u8; 8] {
    let mut made = [0; 8];
    unsafe { ffi::cukvashe_emv_response_1(session, cryptogram, code, &mut made) };
    made
}

/// The issuer's response (ARPC) by method 2 (8.2.2), 4 bytes, to an application cryptogram (ARQC), with a card status update
/// of four bytes and at most 8 bytes of the issuer's.
pub fn response_2(
    session: &[u8; 16],
    cryptogram: &[u8; 8],
    status: &[u8; 4],
    data: &[u8],
) -> Result<[u8; 4], EmvError> {
    let mut made = [0; 4];
    let status =
        unsafe { ffi::cukvashe_emv_response_2(session, cryptogram, status, data.as_ptr(), data.len(), &mut made) };
    checked(status, made)
}
// This ends what bindings/describe made.
