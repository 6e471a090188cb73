#![doc = include_str!("../README.md")]
#![no_std]
#![deny(missing_docs)]

mod cipher;
pub mod columns;
mod each_key;
mod error;
mod ffi;
pub mod key_wrap;
pub mod mac;
pub mod padding;
pub mod passwords;
pub mod payment;
mod statuses;
pub mod stream;

pub use cipher::Cipher;
pub use each_key::KeyForEach;
pub use error::{CountsDiffer, DataError, InvalidLength, KeyTestError};

use core::{fmt, slice};
use statuses::{KEY_LENGTH, OK};
use stream::{BitsError, Mode, Stream};

/// A block of 64 bits, bit 1 of the standard the most significant of the first byte.
pub type Block = [u8; 8];

/// A block cipher of 64 bits under one key. `Debug` writes no part of the key.
///
/// ```
/// use cukvashe_des::{BlockCipher, DataError, Des, InvalidLength};
///
/// // FIPS 81, appendix C, in two pieces.
/// let cipher = Des::new(&0x0123456789abcdefu64.to_be_bytes());
/// let mut iv = 0x1234567890abcdefu64.to_be_bytes();
/// let mut data = *b"Now is the time for all ";
/// cipher.encrypt_cbc(&mut iv, &mut data[..8])?;
/// cipher.encrypt_cbc(&mut iv, &mut data[8..])?;
/// assert_eq!(data[16..], 0x683788499a7c05f6u64.to_be_bytes());
/// assert_eq!(data[16..], iv);
///
/// assert_eq!(cipher.encrypt_ecb(&mut data[..7]), Err(DataError::NotBlocks));
/// assert_eq!(Des::new_from_slice(b"seven b").err(), Some(InvalidLength));
/// # Ok::<(), DataError>(())
/// ```
pub trait BlockCipher: Clone + fmt::Debug {
    /// The cipher of a key that has a length which the cipher takes, weak or not.
    fn new_from_slice(key: &[u8]) -> Result<Self, InvalidLength>;

    /// The cipher of such a key without tables: no call of it, or of a clone, reads a table at an index that depends on
    /// the key or the data.
    fn new_no_tables_from_slice(key: &[u8]) -> Result<Self, InvalidLength>;

    /// Encrypts each block of the data by itself, in place.
    fn encrypt_ecb(&self, data: &mut [u8]) -> Result<(), DataError>;

    /// Decrypts each block of the data by itself, in place.
    fn decrypt_ecb(&self, data: &mut [u8]) -> Result<(), DataError>;

    /// Encrypts each block of `input` into its place in `output`; at an error `output` is unchanged.
    fn encrypt_ecb_to(&self, input: &[u8], output: &mut [u8]) -> Result<(), DataError>;

    /// Decrypts each block of `input` into its place in `output`; at an error `output` is unchanged.
    fn decrypt_ecb_to(&self, input: &[u8], output: &mut [u8]) -> Result<(), DataError>;

    /// Encrypts in place by cipher block chaining from the initialization vector, which becomes the last ciphertext block,
    /// so that a record can come in pieces: copy the vector if you need it again.
    fn encrypt_cbc(&self, iv: &mut Block, data: &mut [u8]) -> Result<(), DataError>;

    /// Decrypts in place what cipher block chaining encrypted; the vector becomes the last ciphertext block. Padding is not removed.
    fn decrypt_cbc(&self, iv: &mut Block, data: &mut [u8]) -> Result<(), DataError>;

    /// As `encrypt_cbc`, from `input` to `output`; at an error `output` and the vector are unchanged.
    fn encrypt_cbc_to(&self, iv: &mut Block, input: &[u8], output: &mut [u8]) -> Result<(), DataError>;

    /// As `decrypt_cbc`, from `input` to `output`; at an error `output` and the vector are unchanged.
    fn decrypt_cbc_to(&self, iv: &mut Block, input: &[u8], output: &mut [u8]) -> Result<(), DataError>;

    /// Encrypts records in place, each by cipher block chaining from the vector at its place, which becomes its last ciphertext
    /// block: record k has `counts[k]` blocks, one record after the other. 128 or 256 records are worked on together, until the
    /// longest has ended, and no table is read at an index that depends on a secret. If vectors and counts differ in number,
    /// or the counts do not add up to the number of blocks, nothing is changed.
    fn encrypt_cbc_records(
        &self,
        vectors: &mut [Block],
        counts: &[usize],
        blocks: &mut [Block],
    ) -> Result<(), CountsDiffer>;

    /// Decrypts records in place, with the arguments and the error of `encrypt_cbc_records`.
    fn decrypt_cbc_records(
        &self,
        vectors: &mut [Block],
        counts: &[usize],
        blocks: &mut [Block],
    ) -> Result<(), CountsDiffer>;

    /// Encrypts a text of any length in place, in a mode without padding, from an initialization vector, in CTR the first counter
    /// block. [`stream`] has texts in pieces.
    fn encrypt_mode(&self, mode: Mode, iv: &Block, data: &mut [u8]);

    /// Decrypts a text in place, as `encrypt_mode`.
    fn decrypt_mode(&self, mode: Mode, iv: &Block, data: &mut [u8]);

    /// Encrypts the bytes that come next in a stream, in place.
    fn encrypt_stream(&self, stream: &mut Stream, data: &mut [u8]);

    /// Decrypts the bytes that come next in a stream, in place.
    fn decrypt_stream(&self, stream: &mut Stream, data: &mut [u8]);

    /// Encrypts the bits that come next in a stream of CFB with segments of 1 bit, from the highest of the first byte on, in
    /// place. The others are unchanged.
    fn encrypt_stream_bits(&self, stream: &mut Stream, data: &mut [u8], bits: usize) -> Result<(), BitsError>;

    /// Decrypts the bits that come next, as `encrypt_stream_bits`.
    fn decrypt_stream_bits(&self, stream: &mut Stream, data: &mut [u8], bits: usize) -> Result<(), BitsError>;

    /// Encrypts each block by itself, in place.
    fn encrypt_blocks(&self, blocks: &mut [Block]) {
        // Blocks are whole, so there is no error; the same holds of the calls below.
        let _ = self.encrypt_ecb(blocks.as_flattened_mut());
    }

    /// Decrypts each block by itself, in place.
    fn decrypt_blocks(&self, blocks: &mut [Block]) {
        let _ = self.decrypt_ecb(blocks.as_flattened_mut());
    }

    /// Encrypts blocks in place by cipher block chaining, as `encrypt_cbc`.
    fn encrypt_blocks_cbc(&self, iv: &mut Block, blocks: &mut [Block]) {
        let _ = self.encrypt_cbc(iv, blocks.as_flattened_mut());
    }

    /// Decrypts blocks in place, as `decrypt_cbc`.
    fn decrypt_blocks_cbc(&self, iv: &mut Block, blocks: &mut [Block]) {
        let _ = self.decrypt_cbc(iv, blocks.as_flattened_mut());
    }

    /// Encrypts a block in place.
    fn encrypt_block(&self, block: &mut Block) {
        self.encrypt_blocks(slice::from_mut(block));
    }

    /// Decrypts a block in place.
    fn decrypt_block(&self, block: &mut Block) {
        self.decrypt_blocks(slice::from_mut(block));
    }
}

/// The length of two slices, which the library takes once for both.
fn length_of_both(input: &[u8], output: &[u8]) -> Result<usize, DataError> {
    if input.len() == output.len() {
        Ok(input.len())
    } else {
        Err(DataError::LengthsDiffer)
    }
}

/// What a status of the calls of a cipher says.
fn whole(status: i32) -> Result<(), DataError> {
    match status {
        OK => Ok(()),
        _ => Err(DataError::NotBlocks),
    }
}

/// Holds a call to the success that its types promise: the context and the stream are ones that the library made.
fn sound(status: i32) {
    assert_eq!(status, OK, "the library made the context and the stream");
}

/// Refuses more bits than data have.
fn bits_within(data: &[u8], bits: usize) -> Result<(), BitsError> {
    if bits.div_ceil(8) <= data.len() {
        Ok(())
    } else {
        Err(BitsError::TooFew)
    }
}

/// What a status of the calls of bits says.
fn of_bits(status: i32) -> Result<(), BitsError> {
    match status {
        OK => Ok(()),
        _ => Err(BitsError::Segment),
    }
}

/// A cipher: its type, its context, and its calls of the library.
macro_rules! cipher {
    ($(#[$doc:meta])* $name:ident, $key_size:literal, $init:ident, $init_no_tables:ident,
     $encrypt_ecb:ident, $decrypt_ecb:ident, $encrypt_ecb_to:ident, $decrypt_ecb_to:ident,
     $encrypt_cbc:ident, $decrypt_cbc:ident, $encrypt_cbc_to:ident, $decrypt_cbc_to:ident,
     $encrypt_records:ident, $decrypt_records:ident, $encrypt_mode:ident, $decrypt_mode:ident,
     $encrypt_stream:ident, $decrypt_stream:ident, $encrypt_bits:ident, $decrypt_bits:ident) => {
        $(#[$doc])*
        #[derive(Clone)]
        pub struct $name {
            context: ffi::$name,
        }

        impl $name {
            /// The key size in bytes.
            pub const KEY_SIZE: usize = $key_size;

            /// The cipher of a key of as many bytes as its size, weak or not.
            #[must_use]
            pub fn new(key: &[u8; $key_size]) -> Self {
                let mut cipher = $name { context: ffi::$name::empty() };
                // SAFETY: the pointers are of references, good for their lengths, and don't overlap. The status is 0,
                // since the key has its length.
                unsafe { ffi::$init(&mut cipher.context, key.as_ptr(), key.len()) };
                cipher
            }

            /// The cipher of a key without tables, which answers as that of `new`: no call of it, or of a clone, reads
            /// a table at an index that depends on the key or the data. A single block and CBC encryption take two to
            /// two and a half times as long.
            #[must_use]
            pub fn new_no_tables(key: &[u8; $key_size]) -> Self {
                let mut cipher = $name { context: ffi::$name::empty() };
                // SAFETY: as of `new`.
                unsafe { ffi::$init_no_tables(&mut cipher.context, key.as_ptr(), key.len()) };
                cipher
            }
        }

        // SAFETY of each call below: the context is one that `init` wrote, and the other pointers are of references, good
        // for the length of the data, which don't overlap where one may be written.
        impl BlockCipher for $name {
            fn new_from_slice(key: &[u8]) -> Result<Self, InvalidLength> {
                key.try_into().map(Self::new).map_err(|_| InvalidLength)
            }

            fn new_no_tables_from_slice(key: &[u8]) -> Result<Self, InvalidLength> {
                key.try_into().map(Self::new_no_tables).map_err(|_| InvalidLength)
            }

            fn encrypt_ecb(&self, data: &mut [u8]) -> Result<(), DataError> {
                whole(unsafe { ffi::$encrypt_ecb(&self.context, data.as_mut_ptr(), data.len()) })
            }

            fn decrypt_ecb(&self, data: &mut [u8]) -> Result<(), DataError> {
                whole(unsafe { ffi::$decrypt_ecb(&self.context, data.as_mut_ptr(), data.len()) })
            }

            fn encrypt_ecb_to(&self, input: &[u8], output: &mut [u8]) -> Result<(), DataError> {
                let length = length_of_both(input, output)?;
                whole(unsafe { ffi::$encrypt_ecb_to(&self.context, input.as_ptr(), output.as_mut_ptr(), length) })
            }

            fn decrypt_ecb_to(&self, input: &[u8], output: &mut [u8]) -> Result<(), DataError> {
                let length = length_of_both(input, output)?;
                whole(unsafe { ffi::$decrypt_ecb_to(&self.context, input.as_ptr(), output.as_mut_ptr(), length) })
            }

            fn encrypt_cbc(&self, iv: &mut Block, data: &mut [u8]) -> Result<(), DataError> {
                whole(unsafe { ffi::$encrypt_cbc(&self.context, iv, data.as_mut_ptr(), data.len()) })
            }

            fn decrypt_cbc(&self, iv: &mut Block, data: &mut [u8]) -> Result<(), DataError> {
                whole(unsafe { ffi::$decrypt_cbc(&self.context, iv, data.as_mut_ptr(), data.len()) })
            }

            fn encrypt_cbc_to(&self, iv: &mut Block, input: &[u8], output: &mut [u8]) -> Result<(), DataError> {
                let length = length_of_both(input, output)?;
                whole(unsafe { ffi::$encrypt_cbc_to(&self.context, iv, input.as_ptr(), output.as_mut_ptr(), length) })
            }

            fn decrypt_cbc_to(&self, iv: &mut Block, input: &[u8], output: &mut [u8]) -> Result<(), DataError> {
                let length = length_of_both(input, output)?;
                whole(unsafe { ffi::$decrypt_cbc_to(&self.context, iv, input.as_ptr(), output.as_mut_ptr(), length) })
            }

            fn encrypt_cbc_records(
                &self,
                vectors: &mut [Block],
                counts: &[usize],
                blocks: &mut [Block],
            ) -> Result<(), CountsDiffer> {
                let (records, vectors) = (each_key::count_of_both(vectors, counts)?, vectors.as_flattened_mut());
                let (size, vectors, bytes) = (vectors.len(), vectors.as_mut_ptr(), blocks.as_flattened_mut());
                let (length, bytes, counts) = (bytes.len(), bytes.as_mut_ptr(), counts.as_ptr());
                each_key::agreeing(unsafe {
                    ffi::$encrypt_records(&self.context, vectors, size, counts, records, bytes, length)
                })
            }

            fn decrypt_cbc_records(
                &self,
                vectors: &mut [Block],
                counts: &[usize],
                blocks: &mut [Block],
            ) -> Result<(), CountsDiffer> {
                let (records, vectors) = (each_key::count_of_both(vectors, counts)?, vectors.as_flattened_mut());
                let (size, vectors, bytes) = (vectors.len(), vectors.as_mut_ptr(), blocks.as_flattened_mut());
                let (length, bytes, counts) = (bytes.len(), bytes.as_mut_ptr(), counts.as_ptr());
                each_key::agreeing(unsafe {
                    ffi::$decrypt_records(&self.context, vectors, size, counts, records, bytes, length)
                })
            }

            fn encrypt_mode(&self, mode: Mode, iv: &Block, data: &mut [u8]) {
                sound(unsafe { ffi::$encrypt_mode(&self.context, mode.number(), iv, data.as_mut_ptr(), data.len()) });
            }

            fn decrypt_mode(&self, mode: Mode, iv: &Block, data: &mut [u8]) {
                sound(unsafe { ffi::$decrypt_mode(&self.context, mode.number(), iv, data.as_mut_ptr(), data.len()) });
            }

            fn encrypt_stream(&self, stream: &mut Stream, data: &mut [u8]) {
                sound(unsafe { ffi::$encrypt_stream(&self.context, &mut stream.state, data.as_mut_ptr(), data.len()) });
            }

            fn decrypt_stream(&self, stream: &mut Stream, data: &mut [u8]) {
                sound(unsafe { ffi::$decrypt_stream(&self.context, &mut stream.state, data.as_mut_ptr(), data.len()) });
            }

            fn encrypt_stream_bits(&self, stream: &mut Stream, data: &mut [u8], bits: usize) -> Result<(), BitsError> {
                bits_within(data, bits)?;
                of_bits(unsafe { ffi::$encrypt_bits(&self.context, &mut stream.state, data.as_mut_ptr(), bits) })
            }

            fn decrypt_stream_bits(&self, stream: &mut Stream, data: &mut [u8], bits: usize) -> Result<(), BitsError> {
                bits_within(data, bits)?;
                of_bits(unsafe { ffi::$decrypt_bits(&self.context, &mut stream.state, data.as_mut_ptr(), bits) })
            }
        }

        impl fmt::Debug for $name {
            fn fmt(&self, f: &mut fmt::Formatter<'_>) -> fmt::Result {
                f.write_str(concat!(stringify!($name), " { ... }"))
            }
        }
    };
}

cipher!(
    /// DES, under a key of 8 bytes.
    Des, 8,
    cukvashe_des_init,
    cukvashe_des_init_no_tables,
    cukvashe_des_encrypt_ecb,
    cukvashe_des_decrypt_ecb,
    cukvashe_des_encrypt_ecb_to,
    cukvashe_des_decrypt_ecb_to,
    cukvashe_des_encrypt_cbc,
    cukvashe_des_decrypt_cbc,
    cukvashe_des_encrypt_cbc_to,
    cukvashe_des_decrypt_cbc_to,
    cukvashe_des_encrypt_cbc_records,
    cukvashe_des_decrypt_cbc_records,
    cukvashe_des_encrypt_mode,
    cukvashe_des_decrypt_mode,
    cukvashe_des_encrypt_stream,
    cukvashe_des_decrypt_stream,
    cukvashe_des_encrypt_stream_bits,
    cukvashe_des_decrypt_stream_bits
);

cipher!(
    /// Triple DES in the EDE form, under a key of 16 bytes, two parts of 8.
    TdesEde2, 16,
    cukvashe_tdes_ede2_init,
    cukvashe_tdes_ede2_init_no_tables,
    cukvashe_tdes_ede2_encrypt_ecb,
    cukvashe_tdes_ede2_decrypt_ecb,
    cukvashe_tdes_ede2_encrypt_ecb_to,
    cukvashe_tdes_ede2_decrypt_ecb_to,
    cukvashe_tdes_ede2_encrypt_cbc,
    cukvashe_tdes_ede2_decrypt_cbc,
    cukvashe_tdes_ede2_encrypt_cbc_to,
    cukvashe_tdes_ede2_decrypt_cbc_to,
    cukvashe_tdes_ede2_encrypt_cbc_records,
    cukvashe_tdes_ede2_decrypt_cbc_records,
    cukvashe_tdes_ede2_encrypt_mode,
    cukvashe_tdes_ede2_decrypt_mode,
    cukvashe_tdes_ede2_encrypt_stream,
    cukvashe_tdes_ede2_decrypt_stream,
    cukvashe_tdes_ede2_encrypt_stream_bits,
    cukvashe_tdes_ede2_decrypt_stream_bits
);

cipher!(
    /// Triple DES in the EDE form, under a key of 24 bytes, three parts of 8.
    TdesEde3, 24,
    cukvashe_tdes_ede3_init,
    cukvashe_tdes_ede3_init_no_tables,
    cukvashe_tdes_ede3_encrypt_ecb,
    cukvashe_tdes_ede3_decrypt_ecb,
    cukvashe_tdes_ede3_encrypt_ecb_to,
    cukvashe_tdes_ede3_decrypt_ecb_to,
    cukvashe_tdes_ede3_encrypt_cbc,
    cukvashe_tdes_ede3_decrypt_cbc,
    cukvashe_tdes_ede3_encrypt_cbc_to,
    cukvashe_tdes_ede3_decrypt_cbc_to,
    cukvashe_tdes_ede3_encrypt_cbc_records,
    cukvashe_tdes_ede3_decrypt_cbc_records,
    cukvashe_tdes_ede3_encrypt_mode,
    cukvashe_tdes_ede3_decrypt_mode,
    cukvashe_tdes_ede3_encrypt_stream,
    cukvashe_tdes_ede3_decrypt_stream,
    cukvashe_tdes_ede3_encrypt_stream_bits,
    cukvashe_tdes_ede3_decrypt_stream_bits
);

/// Refuses a key of 8, 16 or 24 bytes that is weak in one of its parts (few different round keys), or has two parts that
/// are one key. Parity bits count for nothing.
///
/// ```
/// use cukvashe_des::{weak_key_test, KeyTestError};
///
/// assert_eq!(weak_key_test(&[1; 8]), Err(KeyTestError::WeakKey));
/// assert_eq!(weak_key_test(&[1; 9]), Err(KeyTestError::InvalidLength));
/// assert_eq!(weak_key_test(&0x0123456789abcdefu64.to_be_bytes()), Ok(()));
/// ```
pub fn weak_key_test(key: &[u8]) -> Result<(), KeyTestError> {
    // SAFETY: the pointer is of a reference, good for its length.
    match unsafe { ffi::cukvashe_weak_key_test(key.as_ptr(), key.len()) } {
        OK => Ok(()),
        KEY_LENGTH => Err(KeyTestError::InvalidLength),
        _ => Err(KeyTestError::WeakKey),
    }
}

/// The key with its parity bits, the lowest of each byte, set to odd parity.
///
/// ```
/// assert_eq!(cukvashe_des::with_odd_parity(&[0, 1, 2, 3, 4, 5, 6, 7]), [1, 1, 2, 2, 4, 4, 7, 7]);
/// ```
#[must_use]
pub fn with_odd_parity<const SIZE: usize>(key: &[u8; SIZE]) -> [u8; SIZE] {
    let mut changed = *key;
    // SAFETY: the pointer is of a reference, good for its length.
    unsafe { ffi::cukvashe_set_odd_parity(changed.as_mut_ptr(), SIZE) };
    changed
}

/// Whether two keys agree in all but their parity bits, and so are one key. Arrays that are not whole parts of 8 bytes do not
/// compile.
///
/// ```
/// use cukvashe_des::equal_but_parity;
///
/// assert!(equal_but_parity(&[0; 16], &[1; 16]) && !equal_but_parity(&[0; 16], &[2; 16]));
/// ```
///
/// ```compile_fail,E0080
/// cukvashe_des::equal_but_parity(&[0; 7], &[0; 7]);
/// ```
#[must_use]
pub fn equal_but_parity<const SIZE: usize>(first: &[u8; SIZE], second: &[u8; SIZE]) -> bool {
    const { assert!(SIZE % 8 == 0, "a key has whole parts of 8 bytes") };
    // SAFETY: the pointers are of references, good for the length, which are only read.
    unsafe { ffi::cukvashe_equal_but_parity(first.as_ptr(), second.as_ptr(), SIZE) }
}

/// Whether this processor has all that the library's code takes: on x86-64 the features of x86-64-v2, elsewhere always. If it
/// is false, make no other call: the program would end at an instruction that the processor does not have.
///
/// ```
/// assert!(cukvashe_des::is_supported());
/// ```
#[must_use]
pub fn is_supported() -> bool {
    // SAFETY: the call takes nothing.
    unsafe { ffi::cukvashe_is_supported() }
}
