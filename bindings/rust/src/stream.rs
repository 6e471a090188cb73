//! Modes without padding, for data of any length in pieces: CTR, OFB and CFB (NIST SP 800-38A). None authenticates.
//!
//! Two texts under one key from one vector, or from counters that meet, give their xor away in CTR and OFB, and in CFB that of their
//! beginnings.
//!
//! ```
//! use cukvashe_des::stream::{CfbEncryptor, Ctr, Segment};
//! use cukvashe_des::Des;
//!
//! // FIPS 81, appendix D, in two pieces.
//! let cipher = Des::new(&0x0123456789abcdefu64.to_be_bytes());
//! let iv = 0x1234567890abcdefu64.to_be_bytes();
//! let mut data = *b"Now is the time";
//! let mut cfb = CfbEncryptor::new(cipher.clone(), &iv, Segment::Bits8);
//! cfb.encrypt(&mut data[..3]);
//! cfb.encrypt(&mut data[3..]);
//! assert_eq!(data[..8], 0xf31fda07011462eeu64.to_be_bytes());
//!
//! // A part of a text, of which nothing else is needed.
//! let mut text = *b"Now is the time for all";
//! Ctr::new(cipher.clone(), &iv).apply_keystream(&mut text);
//! let mut ctr = Ctr::new(cipher, &iv);
//! ctr.seek(11);
//! ctr.apply_keystream(&mut text[11..15]);
//! assert_eq!(text[11..15], *b"time");
//! ```

use crate::error::sentences;
use crate::ffi::{self, CFB1, CTR, OFB};
use crate::{Block, BlockCipher};
use core::ffi::c_int;
use core::fmt;

/// A segment of CFB. By "CFB" alone OpenSSL means 64 bits, PyCryptodome 8; RustCrypto's `cfb_mode` has 64, its `cfb8` 8.
#[non_exhaustive]
#[derive(Clone, Copy, Debug, PartialEq, Eq)]
pub enum Segment {
    /// 1 bit.
    Bits1,
    /// 8 bits.
    Bits8,
    /// 16 bits.
    Bits16,
    /// 24 bits.
    Bits24,
    /// 32 bits.
    Bits32,
    /// 40 bits.
    Bits40,
    /// 48 bits.
    Bits48,
    /// 56 bits.
    Bits56,
    /// 64 bits.
    Bits64,
}

/// A mode without padding.
#[non_exhaustive]
#[derive(Clone, Copy, Debug, PartialEq, Eq)]
pub enum Mode {
    /// The counter mode, with a counter of 64 bits, which wraps.
    Ctr,
    /// Output feedback of 64 bits.
    Ofb,
    /// Cipher feedback.
    Cfb(Segment),
}

impl Mode {
    /// The number by which the library knows it.
    pub(crate) fn number(self) -> c_int {
        match self {
            Mode::Ctr => CTR,
            Mode::Ofb => OFB,
            Mode::Cfb(segment) => CFB1 + segment as c_int,
        }
    }
}

/// Why no bits are encrypted or decrypted. Nothing was changed.
#[non_exhaustive]
#[derive(Clone, Copy, Debug, PartialEq, Eq)]
pub enum BitsError {
    /// The data have fewer bits.
    TooFew,
    /// The stream does not have segments of 1 bit.
    Segment,
}

sentences!(BitsError:
    BitsError::TooFew => "the data have fewer bits than that",
    BitsError::Segment => "the stream does not have segments of 1 bit",
);

/// Where a stream is in its text, for the calls of a [`BlockCipher`]. Pass it with one cipher and in one direction: otherwise a wrong text
/// comes out, and no error. The other types here keep both. It is wiped when it is dropped; a clone goes on by itself.
#[derive(Clone)]
pub struct Stream {
    pub(crate) state: ffi::Stream,
}

impl Stream {
    /// The beginning of a stream, from an initialization vector, in CTR the first counter block.
    #[must_use]
    pub fn new(mode: Mode, iv: &Block) -> Stream {
        let mut stream = Stream { state: ffi::Stream::empty() };
        // SAFETY: the pointers are of references, and don't overlap. The status is 0, since there is a mode of each number.
        unsafe { ffi::cukvashe_stream_begin(&mut stream.state, mode.number(), iv) };
        stream
    }

    /// CTR from the first counter block `counter`, with `blocks` blocks behind it.
    #[must_use]
    pub fn ctr_at(counter: &Block, blocks: u64) -> Stream {
        let mut stream = Stream { state: ffi::Stream::empty() };
        // SAFETY: the pointers are of references, and don't overlap.
        unsafe { ffi::cukvashe_stream_begin_ctr_at(&mut stream.state, counter, blocks) };
        stream
    }
}

/// The counter mode under a cipher. A clone goes on by itself.
#[derive(Clone)]
pub struct Ctr<C> {
    cipher: C,
    counter: Block,
    stream: Stream,
}

impl<C: BlockCipher> Ctr<C> {
    /// The beginning of a stream from its first counter block, of which the next ones are counted up as one number.
    #[must_use]
    pub fn new(cipher: C, counter: &Block) -> Self {
        Ctr { cipher, counter: *counter, stream: Stream::new(Mode::Ctr, counter) }
    }

    /// Encrypts or decrypts the bytes that come next, in place.
    pub fn apply_keystream(&mut self, data: &mut [u8]) {
        self.cipher.encrypt_stream(&mut self.stream, data);
    }

    /// Goes on at a byte of the text, from 0 on: nothing before it is needed.
    pub fn seek(&mut self, position: u64) {
        self.stream = Stream::ctr_at(&self.counter, position / 8);
        let mut skipped = [0; 8];
        self.apply_keystream(&mut skipped[..(position % 8) as usize]);
        ffi::wipe(&mut skipped);
    }
}

/// Output feedback under a cipher. A clone goes on by itself.
#[derive(Clone)]
pub struct Ofb<C> {
    cipher: C,
    stream: Stream,
}

impl<C: BlockCipher> Ofb<C> {
    /// The beginning of a stream from its initialization vector.
    #[must_use]
    pub fn new(cipher: C, iv: &Block) -> Self {
        Ofb { cipher, stream: Stream::new(Mode::Ofb, iv) }
    }

    /// Encrypts or decrypts the bytes that come next, in place.
    pub fn apply_keystream(&mut self, data: &mut [u8]) {
        self.cipher.encrypt_stream(&mut self.stream, data);
    }
}

/// Cipher feedback under a cipher, to encrypt. A clone goes on by itself.
#[derive(Clone)]
pub struct CfbEncryptor<C> {
    cipher: C,
    stream: Stream,
}

impl<C: BlockCipher> CfbEncryptor<C> {
    /// The beginning of a stream from its initialization vector.
    #[must_use]
    pub fn new(cipher: C, iv: &Block, segment: Segment) -> Self {
        CfbEncryptor { cipher, stream: Stream::new(Mode::Cfb(segment), iv) }
    }

    /// Encrypts the bytes that come next, in place.
    pub fn encrypt(&mut self, data: &mut [u8]) {
        self.cipher.encrypt_stream(&mut self.stream, data);
    }

    /// Encrypts the first `bits` bits in place, in segments of 1 bit. Bit 1 is the highest of the first byte; later bits are unchanged.
    pub fn encrypt_bits(&mut self, data: &mut [u8], bits: usize) -> Result<(), BitsError> {
        self.cipher.encrypt_stream_bits(&mut self.stream, data, bits)
    }
}

/// Cipher feedback under a cipher, to decrypt what [`CfbEncryptor`] encrypts. A clone goes on by itself.
#[derive(Clone)]
pub struct CfbDecryptor<C> {
    cipher: C,
    stream: Stream,
}

impl<C: BlockCipher> CfbDecryptor<C> {
    /// The beginning of a stream from its initialization vector.
    #[must_use]
    pub fn new(cipher: C, iv: &Block, segment: Segment) -> Self {
        CfbDecryptor { cipher, stream: Stream::new(Mode::Cfb(segment), iv) }
    }

    /// Decrypts the bytes that come next, in place.
    pub fn decrypt(&mut self, data: &mut [u8]) {
        self.cipher.decrypt_stream(&mut self.stream, data);
    }

    /// Decrypts the first `bits` bits in place, as `encrypt_bits` encrypts.
    pub fn decrypt_bits(&mut self, data: &mut [u8], bits: usize) -> Result<(), BitsError> {
        self.cipher.decrypt_stream_bits(&mut self.stream, data, bits)
    }
}

macro_rules! shown {
    ($($name:literal: [$($of:tt)*] $type:ty;)*) => {
        $(impl<$($of)*> fmt::Debug for $type {
            fn fmt(&self, f: &mut fmt::Formatter<'_>) -> fmt::Result {
                f.write_str(concat!($name, " { ... }"))
            }
        })*
    };
}

shown!(
    "Stream": [] Stream;
    "Ctr": [C] Ctr<C>;
    "Ofb": [C] Ofb<C>;
    "CfbEncryptor": [C] CfbEncryptor<C>;
    "CfbDecryptor": [C] CfbDecryptor<C>;
);
