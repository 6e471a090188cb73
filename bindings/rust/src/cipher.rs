//! A cipher that the key's length chooses.

use crate::stream::{BitsError, Mode, Stream};
use crate::{Block, BlockCipher, CountsDiffer, DataError, Des, InvalidLength, TdesEde2, TdesEde3};

/// The cipher of a key whose length is known at run time only: DES of 8 bytes, triple DES in the EDE form of 16 and of 24.
///
/// ```
/// use cukvashe_des::{Block, BlockCipher, Cipher, InvalidLength};
///
/// /// Decrypts a record under a key that was read from a file.
/// fn decrypt(key: &[u8], mut iv: Block, record: &mut [u8]) -> Result<(), Box<dyn std::error::Error>> {
///     Ok(Cipher::new_from_slice(key)?.decrypt_cbc(&mut iv, record)?)
/// }
///
/// // FIPS 81, appendix C.
/// let (key, iv) = (0x0123456789abcdefu64.to_be_bytes(), 0x1234567890abcdefu64.to_be_bytes());
/// let mut record = 0xe5c7cdde872bf27cu64.to_be_bytes();
/// decrypt(&key, iv, &mut record)?;
/// assert_eq!(record, *b"Now is t");
/// assert_eq!(Cipher::new_from_slice(b"seven b").err(), Some(InvalidLength));
/// # Ok::<(), Box<dyn std::error::Error>>(())
/// ```
#[non_exhaustive]
#[derive(Clone, Debug)]
pub enum Cipher {
    /// Of a key of 8 bytes.
    Des(Des),
    /// Of a key of 16 bytes.
    TdesEde2(TdesEde2),
    /// Of a key of 24 bytes.
    TdesEde3(TdesEde3),
}

macro_rules! from {
    ($($cipher:ident)*) => {
        $(impl From<$cipher> for Cipher {
            fn from(cipher: $cipher) -> Cipher {
                Cipher::$cipher(cipher)
            }
        })*
    };
}

from!(Des TdesEde2 TdesEde3);

impl Cipher {
    /// What one of the calls makes of a key: the one for its length.
    fn by_length(
        key: &[u8],
        des: fn(&[u8]) -> Result<Des, InvalidLength>,
        ede2: fn(&[u8]) -> Result<TdesEde2, InvalidLength>,
        ede3: fn(&[u8]) -> Result<TdesEde3, InvalidLength>,
    ) -> Result<Cipher, InvalidLength> {
        match key.len() {
            Des::KEY_SIZE => des(key).map(Cipher::Des),
            TdesEde2::KEY_SIZE => ede2(key).map(Cipher::TdesEde2),
            _ => ede3(key).map(Cipher::TdesEde3),
        }
    }
}

/// Calls of `BlockCipher`, by the cipher that it is.
macro_rules! calls {
    ($($call:ident($($argument:ident: $type:ty),*) -> $answer:ty;)*) => {
        $(fn $call(&self, $($argument: $type),*) -> $answer {
            match self {
                Cipher::Des(cipher) => cipher.$call($($argument),*),
                Cipher::TdesEde2(cipher) => cipher.$call($($argument),*),
                Cipher::TdesEde3(cipher) => cipher.$call($($argument),*),
            }
        })*
    };
}

impl BlockCipher for Cipher {
    fn new_from_slice(key: &[u8]) -> Result<Self, InvalidLength> {
        Cipher::by_length(key, Des::new_from_slice, TdesEde2::new_from_slice, TdesEde3::new_from_slice)
    }

    fn new_no_tables_from_slice(key: &[u8]) -> Result<Self, InvalidLength> {
        let ede3 = TdesEde3::new_no_tables_from_slice;
        Cipher::by_length(key, Des::new_no_tables_from_slice, TdesEde2::new_no_tables_from_slice, ede3)
    }

    calls!(
        encrypt_ecb(data: &mut [u8]) -> Result<(), DataError>;
        decrypt_ecb(data: &mut [u8]) -> Result<(), DataError>;
        encrypt_ecb_to(input: &[u8], output: &mut [u8]) -> Result<(), DataError>;
        decrypt_ecb_to(input: &[u8], output: &mut [u8]) -> Result<(), DataError>;
        encrypt_cbc(iv: &mut Block, data: &mut [u8]) -> Result<(), DataError>;
        decrypt_cbc(iv: &mut Block, data: &mut [u8]) -> Result<(), DataError>;
        encrypt_cbc_to(iv: &mut Block, input: &[u8], output: &mut [u8]) -> Result<(), DataError>;
        decrypt_cbc_to(iv: &mut Block, input: &[u8], output: &mut [u8]) -> Result<(), DataError>;
        encrypt_cbc_records(vectors: &mut [Block], counts: &[usize], blocks: &mut [Block]) -> Result<(), CountsDiffer>;
        decrypt_cbc_records(vectors: &mut [Block], counts: &[usize], blocks: &mut [Block]) -> Result<(), CountsDiffer>;
        encrypt_mode(mode: Mode, iv: &Block, data: &mut [u8]) -> ();
        decrypt_mode(mode: Mode, iv: &Block, data: &mut [u8]) -> ();
        encrypt_stream(stream: &mut Stream, data: &mut [u8]) -> ();
        decrypt_stream(stream: &mut Stream, data: &mut [u8]) -> ();
        encrypt_stream_bits(stream: &mut Stream, data: &mut [u8], bits: usize) -> Result<(), BitsError>;
        decrypt_stream_bits(stream: &mut Stream, data: &mut [u8], bits: usize) -> Result<(), BitsError>;
    );
}
