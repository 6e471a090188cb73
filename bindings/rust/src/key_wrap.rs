//! Keys that are encrypted under another key: the key wrap of CMS for triple DES (RFC 3217), and TKW (NIST SP 800-38F).
//!
//! The protection key (KEK) has 16 or 24 bytes.
//!
//! ```
//! use cukvashe_des::key_wrap::{cms_unwrap, cms_wrap, UnwrapError};
//!
//! let (protection, key) = ([7; 24], [9; 16]);
//! let iv = [1, 2, 3, 4, 5, 6, 7, 8]; // random, and new each time
//! let (mut wrapped, mut unwrapped) = ([0; 32], [0; 16]);
//! assert_eq!(cms_wrap(&protection, &iv, &key, &mut wrapped)?, 32);
//! assert_eq!(cms_unwrap(&protection, &wrapped, &mut unwrapped)?, 16);
//! assert_eq!(unwrapped, key);
//! assert_eq!(cms_unwrap(&[8; 24], &wrapped, &mut unwrapped), Err(UnwrapError::WrappedKey));
//! # Ok::<(), Box<dyn std::error::Error>>(())
//! ```

use crate::error::sentences;
use crate::ffi;
use crate::statuses::{sentence, CAPACITY, OK, PROTECTION_KEY_LENGTH, WRAPPED_KEY, WRAPPED_LENGTH};
use crate::Block;

/// Why a key is not wrapped. Nothing was written.
#[non_exhaustive]
#[derive(Clone, Copy, Debug, PartialEq, Eq)]
pub enum WrapError {
    /// The protection key does not have 16 or 24 bytes.
    ProtectionKeyLength,
    /// The key does not have a length that is wrapped.
    KeyLength,
    /// The buffer is too small for the wrapped key.
    BufferTooSmall,
}

/// Why no key is unwrapped. Nothing of a key was written; of `WrappedKey` zeros stand where it would.
#[non_exhaustive]
#[derive(Clone, Copy, Debug, PartialEq, Eq)]
pub enum UnwrapError {
    /// The protection key does not have 16 or 24 bytes.
    ProtectionKeyLength,
    /// The wrapped key does not have 24 bytes or more, a multiple of 8 (CMS), or 12 or more, a multiple of 4
    /// (TKW).
    WrappedLength,
    /// The buffer is too small for the key.
    BufferTooSmall,
    /// The wrapped key was changed, or is under another protection key.
    WrappedKey,
}

sentences!(WrapError:
    WrapError::ProtectionKeyLength => sentence(PROTECTION_KEY_LENGTH),
    WrapError::KeyLength => "the key does not have a length that is wrapped",
    WrapError::BufferTooSmall => "the buffer is too small for the wrapped key",
);

sentences!(UnwrapError:
    UnwrapError::ProtectionKeyLength => sentence(PROTECTION_KEY_LENGTH),
    UnwrapError::WrappedLength => sentence(WRAPPED_LENGTH),
    UnwrapError::BufferTooSmall => "the buffer is too small for the key",
    UnwrapError::WrappedKey => sentence(WRAPPED_KEY),
);

fn wrapped_by(status: i32, size: usize) -> Result<usize, WrapError> {
    match status {
        OK => Ok(size),
        PROTECTION_KEY_LENGTH => Err(WrapError::ProtectionKeyLength),
        CAPACITY => Err(WrapError::BufferTooSmall),
        _ => Err(WrapError::KeyLength),
    }
}

fn unwrapped_by(status: i32, size: usize) -> Result<usize, UnwrapError> {
    match status {
        OK => Ok(size),
        PROTECTION_KEY_LENGTH => Err(UnwrapError::ProtectionKeyLength),
        CAPACITY => Err(UnwrapError::BufferTooSmall),
        WRAPPED_LENGTH => Err(UnwrapError::WrappedLength),
        _ => Err(UnwrapError::WrappedKey),
    }
}

// SAFETY of each call below: the pointers are of references, those of slices good for their lengths, and don't overlap what is
// written.

/// Wraps a key of 8 bytes or a multiple from a random initialization vector into the front of `wrapped`, and gives how many bytes are
/// written: 16 more than the key has.
pub fn cms_wrap(protection: &[u8], iv: &Block, key: &[u8], wrapped: &mut [u8]) -> Result<usize, WrapError> {
    let (place, capacity, mut size) = (wrapped.as_mut_ptr(), wrapped.len(), 0);
    let (kek, kek_length, bare, bare_length) = (protection.as_ptr(), protection.len(), key.as_ptr(), key.len());
    let status =
        unsafe { ffi::cukvashe_cms_wrap_key(kek, kek_length, iv, bare, bare_length, place, capacity, &mut size) };
    wrapped_by(status, size)
}

/// Unwraps a key into the front of `key`, and gives how many bytes it has. Its parity is not tested.
pub fn cms_unwrap(protection: &[u8], wrapped: &[u8], key: &mut [u8]) -> Result<usize, UnwrapError> {
    let (place, capacity, mut size) = (key.as_mut_ptr(), key.len(), 0);
    let (kek, kek_length, given, length) = (protection.as_ptr(), protection.len(), wrapped.as_ptr(), wrapped.len());
    let status = unsafe { ffi::cukvashe_cms_unwrap_key(kek, kek_length, given, length, place, capacity, &mut size) };
    unwrapped_by(status, size)
}

/// Wraps a key of 8 bytes or more, a multiple of 4, into the front of `wrapped`, and gives how many bytes are written: 4 more than the
/// key has.
pub fn tkw_wrap(protection: &[u8], key: &[u8], wrapped: &mut [u8]) -> Result<usize, WrapError> {
    let (place, capacity, mut size) = (wrapped.as_mut_ptr(), wrapped.len(), 0);
    let (kek, kek_length, bare, bare_length) = (protection.as_ptr(), protection.len(), key.as_ptr(), key.len());
    let status = unsafe { ffi::cukvashe_tkw_wrap_key(kek, kek_length, bare, bare_length, place, capacity, &mut size) };
    wrapped_by(status, size)
}

/// Unwraps a key into the front of `key`, and gives how many bytes it has.
pub fn tkw_unwrap(protection: &[u8], wrapped: &[u8], key: &mut [u8]) -> Result<usize, UnwrapError> {
    let (place, capacity, mut size) = (key.as_mut_ptr(), key.len(), 0);
    let (kek, kek_length, given, length) = (protection.as_ptr(), protection.len(), wrapped.as_ptr(), wrapped.len());
    let status = unsafe { ffi::cukvashe_tkw_unwrap_key(kek, kek_length, given, length, place, capacity, &mut size) };
    unwrapped_by(status, size)
}
