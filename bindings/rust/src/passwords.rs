//! Keys from passwords, and what `openssl enc` encrypted under them. They are there to read what others wrote: MD5 and SHA-1 are
//! broken as hashes, and `bytes_to_key` makes a password quick to guess.
//!
//! ```
//! use cukvashe_des::passwords::Derivation;
//! use cukvashe_des::TdesEde3;
//!
//! // openssl enc -des3 -pbkdf2 -pass pass:secret
//! let file = b"Salted__\x01\x23\x45\x67\x89\xab\xcd\xef\xe9\xd6\x42\x0d\xfd\xe6\xf7\x6f\x72\xe1\x4a\xc6\xc0\x54\x6f\x83";
//! let mut plain = [0; 100];
//! let size = TdesEde3::open_salted(Derivation::Pbkdf2Sha256(10000), b"secret", file, &mut plain)?;
//! assert_eq!(plain[..size], *b"Now is the time");
//! # Ok::<(), cukvashe_des::passwords::OpenError>(())
//! ```

use crate::error::sentences;
use crate::ffi::{self, MD5, SHA1, SHA256};
use crate::statuses::{sentence, BLOCKS, CAPACITY, ITERATIONS, KEY_LENGTH, NOT_SALTED, OK, PADDING, SALT_LENGTH};
use crate::{Des, TdesEde2, TdesEde3};
use core::ffi::c_int;

/// How `openssl enc` derives key and vector from a password and a salt: by `EVP_BytesToKey` with one iteration, or by PBKDF2 under
/// `-pbkdf2` or `-iter`. The hash function is that of `-md`.
#[non_exhaustive]
#[derive(Clone, Copy, Debug, PartialEq, Eq)]
pub enum Derivation {
    /// `-md md5`, which OpenSSL took before version 1.1.0.
    Md5,
    /// `-md sha1`.
    Sha1,
    /// `-md sha256`, which OpenSSL takes since version 1.1.0.
    Sha256,
    /// `-pbkdf2 -md sha1`, and the iterations of `-iter`.
    Pbkdf2Sha1(u32),
    /// `-pbkdf2 -md sha256`, and the iterations of `-iter`: 10000 if it is not given.
    Pbkdf2Sha256(u32),
}

/// Why no key is derived.
#[non_exhaustive]
#[derive(Clone, Copy, Debug, PartialEq, Eq)]
pub enum DeriveError {
    /// There has to be one iteration at least.
    NoIteration,
    /// A key has at most 2^32 - 1 digests.
    KeyLength,
    /// Without PBKDF2 the salt has 8 bytes, or none: `EVP_BytesToKey` reads 8 bytes of any salt.
    SaltLength,
}

sentences!(DeriveError:
    DeriveError::NoIteration => "the number of iterations is 0",
    DeriveError::KeyLength => "the key is longer than 2^32 - 1 digests",
    DeriveError::SaltLength => "the salt does not have 0 or 8 bytes",
);

/// Why a file is not opened. The first of them is reported, in this order. Tell nobody who sends you files which fault they have.
#[non_exhaustive]
#[derive(Clone, Copy, Debug, PartialEq, Eq)]
pub enum OpenError {
    /// The bytes do not begin with `Salted__`.
    NotSalted,
    /// The bytes end within the salt.
    SaltCut,
    /// There has to be one iteration at least.
    NoIteration,
    /// What is encrypted is not whole blocks of 8 bytes.
    NotBlocks,
    /// The last block does not end with the padding: the password, the hash function or the number of iterations is wrong. One wrong
    /// password in 256 is not found so, and gives wrong bytes.
    Padding,
    /// The buffer is too small for what is opened.
    BufferTooSmall,
}

sentences!(OpenError:
    OpenError::NotSalted => sentence(NOT_SALTED),
    OpenError::SaltCut => "the bytes end within the salt",
    OpenError::NoIteration => "the number of iterations is 0",
    OpenError::NotBlocks => "what is encrypted is not whole blocks of 8 bytes",
    OpenError::Padding => sentence(PADDING),
    OpenError::BufferTooSmall => "the buffer is too small for what is opened",
);

impl Derivation {
    /// The number of its hash function, and its iterations; `None` with no PBKDF2.
    fn numbers(self) -> (c_int, Option<u32>) {
        match self {
            Derivation::Md5 => (MD5, None),
            Derivation::Sha1 => (SHA1, None),
            Derivation::Sha256 => (SHA256, None),
            Derivation::Pbkdf2Sha1(count) => (SHA1, Some(count)),
            Derivation::Pbkdf2Sha256(count) => (SHA256, Some(count)),
        }
    }

    /// Fills the list with the key, and after it the vector. After an error the list is unchanged.
    ///
    /// The password stands before the salt, unlike in `EVP_BytesToKey`. The salt is without `Salted__`; with no PBKDF2 it has 8 bytes,
    /// or none (`-nosalt`).
    pub fn write_bytes(self, password: &[u8], salt: &[u8], bytes: &mut [u8]) -> Result<(), DeriveError> {
        let (hash, count) = self.numbers();
        let (secret, secret_length, grains, grains_length) =
            (password.as_ptr(), password.len(), salt.as_ptr(), salt.len());
        let (place, length) = (bytes.as_mut_ptr(), bytes.len());
        // SAFETY: the pointers are of references, good for their lengths, and don't overlap what is written.
        let status = unsafe {
            match count {
                None => ffi::cukvashe_bytes_to_key(hash, secret, secret_length, grains, grains_length, place, length),
                Some(count) => ffi::cukvashe_pbkdf2(
                    hash,
                    count as usize,
                    secret,
                    secret_length,
                    grains,
                    grains_length,
                    place,
                    length,
                ),
            }
        };
        match status {
            OK => Ok(()),
            ITERATIONS => Err(DeriveError::NoIteration),
            KEY_LENGTH => Err(DeriveError::KeyLength),
            SALT_LENGTH => Err(DeriveError::SaltLength),
            _ => unreachable!("the hash function is one that the call takes"),
        }
    }
}

macro_rules! open_salted {
    ($($cipher:ident, $word:literal: $call:ident;)*) => {
        $(impl $cipher {
            #[doc = concat!("Decrypts what `openssl enc ", $word, "` encrypted under a password.")]
            ///
            /// Writes the plaintext without its padding to the front of `plain`, and gives how many bytes it has;
            /// `file.len() - 16` bytes are always enough. `file` is all that was written: `Salted__`, the salt and the
            /// ciphertext, not Base64 (`-a`). After an error `plain` is unchanged. Nothing is authenticated.
            pub fn open_salted(
                derivation: Derivation,
                password: &[u8],
                file: &[u8],
                plain: &mut [u8],
            ) -> Result<usize, OpenError> {
                let (hash, count) = derivation.numbers();
                // One more than the library takes, since 0 is no PBKDF2 there.
                let iterations = match count {
                    None => 0,
                    Some(0) => usize::MAX,
                    Some(count) => count as usize,
                };
                let mut size = 0;
                // SAFETY: the pointers are of references, good for their lengths, and don't overlap what is written.
                let status = unsafe {
                    ffi::$call(
                        hash,
                        iterations,
                        password.as_ptr(),
                        password.len(),
                        file.as_ptr(),
                        file.len(),
                        plain.as_mut_ptr(),
                        plain.len(),
                        &mut size,
                    )
                };
                match status {
                    OK => Ok(size),
                    NOT_SALTED => Err(OpenError::NotSalted),
                    SALT_LENGTH => Err(OpenError::SaltCut),
                    ITERATIONS => Err(OpenError::NoIteration),
                    BLOCKS => Err(OpenError::NotBlocks),
                    PADDING => Err(OpenError::Padding),
                    CAPACITY => Err(OpenError::BufferTooSmall),
                    _ => unreachable!("the hash function is one that the call takes"),
                }
            }
        })*
    };
}

open_salted!(
    Des, "-des-cbc": cukvashe_des_open_salted;
    TdesEde2, "-des-ede-cbc": cukvashe_tdes_ede2_open_salted;
    TdesEde3, "-des3` or `-des-ede3-cbc": cukvashe_tdes_ede3_open_salted;
);
