//! Card verification values (CVV): three digits of a card's data under a key.

// Calls like those of `cukvashe_des.h`: made of it by `bindings/describe`.
use crate::error::sentences;
use crate::ffi;
use crate::statuses::{
    sentence, ACCOUNT_DIGIT, ACCOUNT_LENGTH, EXPIRY_DIGIT, EXPIRY_LENGTH, OK, SERVICE_DIGIT, SERVICE_LENGTH,
};

/// Why a call of this module refuses what it is given. The first of them is reported, in this order.
#[non_exhaustive]
#[derive(Clone, Copy, Debug, PartialEq, Eq)]
pub enum CvvError {
    /// The account number does not have 12 to 19 digits.
    AccountLength,
    /// A character of the account number is not a digit.
    AccountDigit,
    /// The expiry date does not have four digits.
    ExpiryLength,
    /// A character of the expiry date is not a digit.
    ExpiryDigit,
    /// The service code does not have three digits.
    ServiceLength,
    /// A character of the service code is not a digit.
    ServiceDigit,
}

sentences!(CvvError:
    CvvError::AccountLength => "the account number does not have 12 to 19 digits",
    CvvError::AccountDigit => sentence(ACCOUNT_DIGIT),
    CvvError::ExpiryLength => sentence(EXPIRY_LENGTH),
    CvvError::ExpiryDigit => sentence(EXPIRY_DIGIT),
    CvvError::ServiceLength => sentence(SERVICE_LENGTH),
    CvvError::ServiceDigit => sentence(SERVICE_DIGIT),
);

/// What a call made, or the fault that its status says.
fn checked<T>(status: i32, made: T) -> Result<T, CvvError> {
    match status {
        OK => Ok(made),
        ACCOUNT_LENGTH => Err(CvvError::AccountLength),
        ACCOUNT_DIGIT => Err(CvvError::AccountDigit),
        EXPIRY_LENGTH => Err(CvvError::ExpiryLength),
        EXPIRY_DIGIT => Err(CvvError::ExpiryDigit),
        SERVICE_LENGTH => Err(CvvError::ServiceLength),
        _ => Err(CvvError::ServiceDigit),
    }
}

// SAFETY of each call below: the pointers are of references, those of texts and data good for their lengths, and don't
// overlap what is written.

/// The card verification value (CVV), three ASCII digits, under a key pair of 16 bytes, of an account number (PAN) of 12 to
/// 19 digits, an expiry date of four, in the order that the issuer takes, and a service code of three.
pub fn cvv(key: &[u8; 16], account: &[u8], expiry: &[u8], service: &[u8]) -> Result<[u8; 3], CvvError> {
    let mut made = [0; 4];
    let status = unsafe {
        ffi::cukvashe_cvv(
            key,
            account.as_ptr().cast(),
            account.len(),
            expiry.as_ptr().cast(),
            expiry.len(),
            service.as_ptr().cast(),
            service.len(),
            &mut made,
        )
    };
    let [text @ .., _] = made;
    checked(status, text)
}
// This ends what bindings/describe made.
