//! Columns of old records: what MySQL, MariaDB, pgcrypto and Jasypt encrypted, many values in one call; and keys by their passwords.
//!
//! A column is its values, one after another, and how long each is. What can't be read leaves the others readable.
//!
//! ```
//! use cukvashe_des::columns::{mysql_decrypt, Column, Buffers, Status, ValueError};
//!
//! // MariaDB 10.11: des_encrypt('abcdefg', 'k'), and two bytes that it would give back as they are.
//! let values = b"\xff\xf0\xf1\x9f\xad\x28\x3c\x97\x14\xff\x00";
//! let column = Column::new(values, &[9, 2])?;
//! let (mut texts, mut lengths, mut statuses) = ([0; 11], [0; 2], [Status::default(); 2]);
//! let buffers = Buffers { texts: &mut texts, lengths: &mut lengths, statuses: &mut statuses };
//! let read = mysql_decrypt(b"k", column, buffers)?;
//! assert!(read.iter().eq([Ok(&b"abcdefg"[..]), Err(ValueError::NotEncrypted)]));
//! assert!(read.faults().eq([(1, ValueError::NotEncrypted)]));
//! # Ok::<(), Box<dyn std::error::Error>>(())
//! ```

use crate::error::{sentences, CountsDiffer};
use crate::ffi;
use crate::statuses::{
    sentence, ALGORITHM, BASE64, BLOCKS, COUNTS, ITERATIONS, KEY_LENGTH, NOT_ENCRYPTED, OK, PADDING, SALT_LENGTH,
    VALUES,
};
use core::ffi::c_int;
use core::iter::zip;

/// Why a value can't be read.
#[non_exhaustive]
#[derive(Clone, Copy, Debug, PartialEq, Eq)]
pub enum ValueError {
    /// It is not what `DES_ENCRYPT` writes: the server would give it back as it is.
    NotEncrypted,
    /// It is not Base64, with or without `ENC(..)` around.
    NotBase64,
    /// It ends within the salt.
    SaltCut,
    /// What is encrypted is not whole blocks of 8 bytes, or none.
    NotBlocks,
    /// It does not end with the padding: most values under a wrong key or password.
    Padding,
}

sentences!(ValueError:
    ValueError::NotEncrypted => sentence(NOT_ENCRYPTED),
    ValueError::NotBase64 => sentence(BASE64),
    ValueError::SaltCut => "the bytes end within the salt",
    ValueError::NotBlocks => "what is encrypted is not whole blocks of 8 bytes",
    ValueError::Padding => sentence(PADDING),
);

/// Why a column is not read, or not written. Nothing was written.
#[non_exhaustive]
#[derive(Clone, Copy, Debug, PartialEq, Eq)]
pub enum ColumnError {
    /// The lists of a column and of its buffers differ in length.
    CountsDiffer,
    /// The buffer is too small for the texts.
    BufferTooSmall,
    /// The algorithm is none that the call takes.
    Algorithm,
    /// There has to be one iteration at least.
    NoIteration,
}

sentences!(ColumnError:
    ColumnError::CountsDiffer => sentence(COUNTS),
    ColumnError::BufferTooSmall => "the buffer is too small for the texts",
    ColumnError::Algorithm => sentence(ALGORITHM),
    ColumnError::NoIteration => "the number of iterations is 0",
);

impl From<CountsDiffer> for ColumnError {
    fn from(_: CountsDiffer) -> Self {
        ColumnError::CountsDiffer
    }
}

/// Values, or texts, one after another, and how long each is.
#[derive(Clone, Copy)]
pub struct Column<'a> {
    bytes: &'a [u8],
    lengths: &'a [usize],
}

impl<'a> Column<'a> {
    /// A column, if the lengths add up to the bytes.
    pub fn new(bytes: &'a [u8], lengths: &'a [usize]) -> Result<Self, CountsDiffer> {
        let sum = lengths.iter().try_fold(0usize, |sum, &length| sum.checked_add(length));
        if sum == Some(bytes.len()) {
            Ok(Column { bytes, lengths })
        } else {
            Err(CountsDiffer)
        }
    }

    /// Its elements, in their order.
    pub fn iter(self) -> impl Iterator<Item = &'a [u8]> {
        let mut rest = self.bytes;
        self.lengths.iter().map(move |&length| {
            let (first, others) = rest.split_at(length);
            rest = others;
            first
        })
    }
}

/// What a call says of a value.
#[repr(transparent)]
#[derive(Clone, Copy, Debug, Default, PartialEq, Eq)]
pub struct Status(c_int);

impl Status {
    /// Why the value can't be read, if it can't.
    #[must_use]
    pub fn fault(self) -> Option<ValueError> {
        match self.0 {
            OK => None,
            NOT_ENCRYPTED => Some(ValueError::NotEncrypted),
            BASE64 => Some(ValueError::NotBase64),
            SALT_LENGTH => Some(ValueError::SaltCut),
            BLOCKS => Some(ValueError::NotBlocks),
            _ => Some(ValueError::Padding),
        }
    }
}

/// The buffers for the texts of a column: as many bytes as its values have at least, and for each value a length and a status.
pub struct Buffers<'a> {
    /// The texts, each where its value stands among the values.
    pub texts: &'a mut [u8],
    /// How long each text is.
    pub lengths: &'a mut [usize],
    /// Whether each value was read.
    pub statuses: &'a mut [Status],
}

/// The texts of a column.
#[derive(Clone, Copy)]
pub struct Texts<'a> {
    // Each text has a slot as long as its value.
    slots: Column<'a>,
    lengths: &'a [usize],
    statuses: &'a [Status],
}

impl<'a> Texts<'a> {
    /// The text of each value, or why it can't be read, in their order.
    pub fn iter(self) -> impl Iterator<Item = Result<&'a [u8], ValueError>> {
        zip(self.slots.iter(), zip(self.lengths, self.statuses))
            .map(|(slot, (&length, status))| status.fault().map_or(Ok(&slot[..length]), Err))
    }

    /// The places, from 0 on, of the values that can't be read, and why.
    pub fn faults(self) -> impl Iterator<Item = (usize, ValueError)> + 'a {
        self.statuses.iter().enumerate().filter_map(|(place, status)| Some((place, status.fault()?)))
    }
}

/// The buffers for a column, if they fit.
fn fitting<'a>(values: Column<'_>, buffers: Buffers<'a>) -> Result<Buffers<'a>, ColumnError> {
    let count = values.lengths.len();
    if buffers.lengths.len() != count || buffers.statuses.len() != count {
        return Err(ColumnError::CountsDiffer);
    }
    let texts = buffers.texts.get_mut(..values.bytes.len()).ok_or(ColumnError::BufferTooSmall)?;
    Ok(Buffers { texts, ..buffers })
}

/// The arguments of a call that reads a column: its values, and its buffers.
type Reading = (*const u8, usize, *const usize, usize, *mut u8, *mut usize, *mut c_int);

/// What a call reads, which is given the values and the buffers.
fn read<'a>(
    values: Column<'a>,
    buffers: Buffers<'a>,
    call: impl FnOnce(Reading) -> c_int,
) -> Result<Texts<'a>, ColumnError> {
    let Buffers { texts, lengths, statuses } = fitting(values, buffers)?;
    let (bytes, length, count) = (values.bytes.as_ptr(), values.bytes.len(), values.lengths.len());
    // A status is a number of C's, as its representation says.
    let places = (texts.as_mut_ptr(), lengths.as_mut_ptr(), statuses.as_mut_ptr().cast());
    match call((bytes, length, values.lengths.as_ptr(), count, places.0, places.1, places.2)) {
        OK | VALUES => Ok(Texts { slots: Column { bytes: texts, ..values }, lengths, statuses }),
        ALGORITHM => Err(ColumnError::Algorithm),
        _ => unreachable!("the lengths of a column add up"),
    }
}

// SAFETY of each call below: the pointers are of references, those of slices good for their lengths, and don't overlap what is
// written. The lengths of a column add up to its bytes.

/// Decrypts a column that `DES_ENCRYPT` of MySQL or MariaDB encrypted under a key string. Values of every key number are taken for its,
/// as the server does.
pub fn mysql_decrypt<'a>(key: &[u8], values: Column<'a>, buffers: Buffers<'a>) -> Result<Texts<'a>, ColumnError> {
    read(values, buffers, |(at, length, lengths, count, texts, sizes, statuses)| unsafe {
        ffi::cukvashe_mysql_decrypt_values(key.as_ptr(), key.len(), at, length, lengths, count, texts, sizes, statuses)
    })
}

/// Decrypts a column that `encrypt` or `encrypt_iv` of pgcrypto encrypted. `cipher` is what they were given: `des` or `3des`, which are
/// CBC, `des-ecb` or `3des-ecb`, and `/pad:none` behind it. As there, a key or vector that is shorter than the cipher's is filled with
/// zeros and a longer one cut: so a key of 16 bytes is no two-key triple DES.
pub fn pgcrypto_decrypt<'a>(
    cipher: &str,
    key: &[u8],
    iv: &[u8],
    values: Column<'a>,
    buffers: Buffers<'a>,
) -> Result<Texts<'a>, ColumnError> {
    let (secret, size, vector, vector_size) = (key.as_ptr(), key.len(), iv.as_ptr(), iv.len());
    read(values, buffers, |(at, length, lengths, count, texts, sizes, statuses)| unsafe {
        ffi::cukvashe_pgcrypto_decrypt_values(
            cipher.as_ptr().cast(),
            cipher.len(),
            secret,
            size,
            vector,
            vector_size,
            at,
            length,
            lengths,
            count,
            texts,
            sizes,
            statuses,
        )
    })
}

/// Why no key is made of a password.
#[non_exhaustive]
#[derive(Clone, Copy, Debug, PartialEq, Eq)]
pub enum PbeError {
    /// There has to be one iteration at least.
    NoIteration,
    /// By Java's own rule a salt has 8 bytes.
    SaltLength,
    /// The key and its vector do not have the length that the algorithm gives them.
    KeyLength,
}

sentences!(PbeError:
    PbeError::NoIteration => "the number of iterations is 0",
    PbeError::SaltLength => "the salt does not have 8 bytes",
    PbeError::KeyLength => sentence(KEY_LENGTH),
);

/// An algorithm of password-based encryption.
#[non_exhaustive]
#[derive(Clone, Copy, Debug, PartialEq, Eq)]
pub enum Pbe {
    /// `PBEWithMD5AndDES`, by PKCS #5 version 1.5 (RFC 8018): the default of Jasypt before version 3.
    Md5AndDes,
    /// `PBEWithSHA1AndDES`, by PKCS #5 version 1.5; not in Jasypt.
    Sha1AndDes,
    /// `PBEWithMD5AndTripleDES`, by Java's own rule.
    Md5AndTripleDes,
    /// `PBEWithSHA1AndDESede`, by PKCS #12 (RFC 7292, Appendix B).
    Sha1AndDesEde,
    /// `pbeWithSHAAnd2-KeyTripleDES-CBC`, by PKCS #12; not in Jasypt.
    ShaAnd2KeyTripleDes,
}

impl Pbe {
    fn name(self) -> &'static str {
        match self {
            Pbe::Md5AndDes => "PBEWithMD5AndDES",
            Pbe::Sha1AndDes => "PBEWithSHA1AndDES",
            Pbe::Md5AndTripleDes => "PBEWithMD5AndTripleDES",
            Pbe::Sha1AndDesEde => "PBEWithSHA1AndDESede",
            Pbe::ShaAnd2KeyTripleDes => "pbeWithSHAAnd2-KeyTripleDES-CBC",
        }
    }

    /// The name, if Jasypt has the algorithm.
    fn of_jasypt(self) -> Result<&'static str, ColumnError> {
        match self {
            Pbe::Sha1AndDes | Pbe::ShaAnd2KeyTripleDes => Err(ColumnError::Algorithm),
            _ => Ok(self.name()),
        }
    }

    /// Fills the list with the key and, after it, the vector: 16 bytes for DES, 24 for two keys and 32 for three. By Java's own rule the
    /// salt has 8 bytes, by the others any number; by PKCS #12 the password is UTF-8.
    pub fn write_bytes(self, iterations: u32, password: &[u8], salt: &[u8], bytes: &mut [u8]) -> Result<(), PbeError> {
        let (name, name_length) = (self.name().as_ptr(), self.name().len());
        let (secret, secret_length, grains, grains_length) =
            (password.as_ptr(), password.len(), salt.as_ptr(), salt.len());
        let (count, place, length) = (iterations as usize, bytes.as_mut_ptr(), bytes.len());
        let status = unsafe {
            ffi::cukvashe_pbe_key(
                name.cast(),
                name_length,
                count,
                secret,
                secret_length,
                grains,
                grains_length,
                place,
                length,
            )
        };
        match status {
            OK => Ok(()),
            ITERATIONS => Err(PbeError::NoIteration),
            SALT_LENGTH => Err(PbeError::SaltLength),
            _ => Err(PbeError::KeyLength),
        }
    }
}

/// Decrypts a column of strings that Jasypt encrypted under a password, with or without `ENC(..)` around, by the algorithms of MD5 with
/// DES and triple DES, and of SHA-1 with triple DES. White space around and within a string does not count; one whose pad bits (RFC 4648,
/// 3.5) are not zeros is not Base64. Jasypt takes 1,000 iterations unless it was told another number. The key of each string is derived
/// by itself.
pub fn jasypt_decrypt<'a>(
    algorithm: Pbe,
    iterations: u32,
    password: &[u8],
    values: Column<'a>,
    buffers: Buffers<'a>,
) -> Result<Texts<'a>, ColumnError> {
    let name = algorithm.of_jasypt()?;
    if iterations == 0 {
        return Err(ColumnError::NoIteration);
    }
    let (secret, size, rounds) = (password.as_ptr(), password.len(), iterations as usize);
    read(values, buffers, |(at, length, lengths, count, texts, sizes, statuses)| unsafe {
        ffi::cukvashe_jasypt_decrypt_values(
            name.as_ptr().cast(),
            name.len(),
            rounds,
            secret,
            size,
            at,
            length,
            lengths,
            count,
            texts,
            sizes,
            statuses,
        )
    })
}

/// How many characters the string of Jasypt has for a text of this many bytes.
#[must_use]
pub const fn jasypt_length(length: usize) -> usize {
    ((length / 8 + 2) * 8).div_ceil(3) * 4
}

/// Encrypts texts into strings as Jasypt does, without `ENC(..)` around, one after another, which fill the list: each has the
/// characters that [`jasypt_length`] says, and is made from the salt at its place, which is to be random. Algorithm and iterations are as
/// of [`jasypt_decrypt`]. Nothing authenticates the texts.
pub fn jasypt_encrypt(
    algorithm: Pbe,
    iterations: u32,
    password: &[u8],
    salts: &[[u8; 8]],
    texts: Column<'_>,
    strings: &mut [u8],
) -> Result<(), ColumnError> {
    let name = algorithm.of_jasypt()?;
    let status = unsafe {
        ffi::cukvashe_jasypt_encrypt_values(
            name.as_ptr().cast(),
            name.len(),
            iterations as usize,
            password.as_ptr(),
            password.len(),
            salts.as_ptr().cast(),
            8 * salts.len(),
            texts.bytes.as_ptr(),
            texts.bytes.len(),
            texts.lengths.as_ptr(),
            texts.lengths.len(),
            strings.as_mut_ptr(),
            strings.len(),
        )
    };
    match status {
        OK => Ok(()),
        ITERATIONS => Err(ColumnError::NoIteration),
        _ => Err(ColumnError::CountsDiffer),
    }
}
