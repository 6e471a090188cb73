//! Padding of data to whole blocks, and back.
//!
//! An attacker who sends you data and learns which [`unpad`] refuses, by an answer or by the time taken, can decrypt without
//! the key: verify a MAC first.
//!
//! ```
//! use cukvashe_des::padding::{pad, unpad, Method};
//!
//! let mut buffer = *b"eleven byte\0\0\0\0\0";
//! let padded = pad(&mut buffer, 11, Method::Pkcs7)?;
//! assert_eq!(padded, b"eleven byte\x05\x05\x05\x05\x05");
//! assert_eq!(unpad(padded, Method::Pkcs7)?, b"eleven byte");
//! # Ok::<(), Box<dyn std::error::Error>>(())
//! ```

use crate::error::sentences;
use crate::ffi;
use crate::statuses::{sentence, BLOCKS, OK, PADDING};

/// How data become whole blocks, by 1 to 8 bytes after them.
#[non_exhaustive]
#[derive(Clone, Copy, Debug, PartialEq, Eq)]
pub enum Method {
    /// PKCS#7 (RFC 5652, section 6.3): each byte is their number.
    Pkcs7,
    /// ISO/IEC 7816-4: a byte 80 in hexadecimal digits, and then zeros.
    Iso7816,
}

impl Method {
    /// The number by which the library knows it.
    fn number(self) -> i32 {
        match self {
            Method::Pkcs7 => ffi::PKCS7,
            Method::Iso7816 => ffi::ISO7816,
        }
    }
}

/// Why data are not padded: the buffer is too small for the padding.
#[derive(Clone, Copy, Debug, PartialEq, Eq)]
pub struct BufferTooSmall;

/// Why no padding is taken off.
#[non_exhaustive]
#[derive(Clone, Copy, Debug, PartialEq, Eq)]
pub enum UnpadError {
    /// The data are not whole blocks of 8 bytes.
    NotBlocks,
    /// The data do not end with the padding.
    NotPadded,
}

sentences!(BufferTooSmall:
    BufferTooSmall => "the buffer is too small for the padding",
);

sentences!(UnpadError:
    UnpadError::NotBlocks => "the data are not whole blocks of 8 bytes",
    UnpadError::NotPadded => sentence(PADDING),
);

/// Writes the padding after the first `length` bytes of a buffer, and gives both together; at an error the buffer is unchanged.
pub fn pad(buffer: &mut [u8], length: usize, method: Method) -> Result<&mut [u8], BufferTooSmall> {
    let mut padded = 0;
    // SAFETY: the pointers are of references, that of the buffer good for its length, and don't overlap.
    match unsafe { ffi::cukvashe_pad(buffer.as_mut_ptr(), length, buffer.len(), method.number(), &mut padded) } {
        OK => buffer.get_mut(..padded).ok_or(BufferTooSmall),
        _ => Err(BufferTooSmall),
    }
}

/// The data before the padding.
pub fn unpad(data: &[u8], method: Method) -> Result<&[u8], UnpadError> {
    let mut length = 0;
    // SAFETY: the pointers are of references, that of the data good for its length, and don't overlap.
    match unsafe { ffi::cukvashe_unpad(data.as_ptr(), data.len(), method.number(), &mut length) } {
        OK => data.get(..length).ok_or(UnpadError::NotPadded),
        BLOCKS => Err(UnpadError::NotBlocks),
        _ => Err(UnpadError::NotPadded),
    }
}
