//! Key blocks (ANSI X9.143, ASC X9 TR-31) of versions B and C, and reading of version A: a key with what it is for, encrypted and
//! authenticated under a protection key (KBPK), as ASCII characters.
//!
//! ```
//! use cukvashe_des::payment::key_blocks::{unwrap, wrap, Header};
//!
//! let protection = 0xdd7515f2bfc17f85ce48f3ca25cb21f6u128.to_be_bytes();
//! let block = b"B0080P0TE00E000094B420079CC80BA3461F86FE26EFC4A3B8E4FA4C5F5341176EED7B727B8A248E";
//! let (header, key) = unwrap(&protection, block)?;
//! assert_eq!((header.usage, header.mode), (*b"P0", b'E'));
//! assert_eq!(key.bytes(), 0x3f419e1cb7079442aa37474c2efbf8b8u128.to_be_bytes());
//!
//! let random = [0x1c, 0x29, 0x65, 0x47, 0x3c, 0xe2, 0x0d, 0x7f, 0x5a, 0x66, 0x13, 0x98, 0xb0, 0x4e];
//! let mut text = [0; 200];
//! let size = wrap(&protection, &header, &[], key.bytes(), &random, &mut text)?;
//! assert_eq!(unwrap(&protection, &text[..size])?.0, header);
//! # Ok::<(), cukvashe_des::payment::KeyBlockError>(())
//! ```

use crate::error::sentences;
use crate::ffi;
use crate::statuses::{
    sentence, HEADER, KEY_BLOCK_DIGIT, KEY_BLOCK_LENGTH, KEY_BLOCK_MAC, KEY_DATA_LENGTH, KEY_LENGTH, NO_OPTIONAL_BLOCK,
    OK, OPTIONAL_BLOCK, PADDING_LENGTH, PROTECTION_KEY_LENGTH, VERSION,
};
use core::fmt;

/// Why a key block is not made, or a block holds no key. Of a block that is read the first of them is reported, in this order.
#[non_exhaustive]
#[derive(Clone, Copy, Debug, PartialEq, Eq)]
pub enum KeyBlockError {
    /// The protection key does not have 16 or 24 bytes.
    ProtectionKeyLength,
    /// The block is not as long as its header says, or has fewer than 16 characters or more than 9999; or the buffer is too
    /// small for the block that is to be made.
    Length,
    /// The version is none of `A`, `B` and `C`; or a block of another than `B` and `C` is to be made.
    Version,
    /// The header does not end with two digits, a context and a zero; or a field of a header that is to be written has other
    /// characters than letters and digits.
    Header,
    /// The optional blocks of a block can't be read, or do not end at a multiple of eight characters; or those of a block that is
    /// to be made are more than 99, or one has a name that is not letters and digits, or a content that is not printable ASCII, or
    /// is a `PB` that is not the last, or does not end at a multiple of eight characters.
    OptionalBlock,
    /// What stands after the header and the optional blocks is not as long as encrypted key data and a MAC are.
    DataLength,
    /// A character after the header and the optional blocks is not a hexadecimal digit in upper case.
    Digit,
    /// The MAC is not that of the block.
    Mac,
    /// The key does not have 8, 16 or 24 bytes.
    KeyLength,
    /// The padding does not fill the last eight bytes, or has more than 32 bytes with the key and its length.
    PaddingLength,
}

sentences!(KeyBlockError:
    KeyBlockError::ProtectionKeyLength => sentence(PROTECTION_KEY_LENGTH),
    KeyBlockError::Length => sentence(KEY_BLOCK_LENGTH),
    KeyBlockError::Version => sentence(VERSION),
    KeyBlockError::Header => sentence(HEADER),
    KeyBlockError::OptionalBlock => sentence(OPTIONAL_BLOCK),
    KeyBlockError::DataLength => sentence(KEY_DATA_LENGTH),
    KeyBlockError::Digit => sentence(KEY_BLOCK_DIGIT),
    KeyBlockError::Mac => sentence(KEY_BLOCK_MAC),
    KeyBlockError::KeyLength => "the key does not have 8, 16 or 24 bytes",
    KeyBlockError::PaddingLength => sentence(PADDING_LENGTH),
);

/// What a call made, or the fault that its status says.
fn checked<T>(status: i32, made: T) -> Result<T, KeyBlockError> {
    match status {
        OK => Ok(made),
        PROTECTION_KEY_LENGTH => Err(KeyBlockError::ProtectionKeyLength),
        KEY_BLOCK_LENGTH => Err(KeyBlockError::Length),
        VERSION => Err(KeyBlockError::Version),
        HEADER => Err(KeyBlockError::Header),
        OPTIONAL_BLOCK => Err(KeyBlockError::OptionalBlock),
        KEY_DATA_LENGTH => Err(KeyBlockError::DataLength),
        KEY_BLOCK_DIGIT => Err(KeyBlockError::Digit),
        KEY_BLOCK_MAC => Err(KeyBlockError::Mac),
        KEY_LENGTH => Err(KeyBlockError::KeyLength),
        PADDING_LENGTH => Err(KeyBlockError::PaddingLength),
        _ => unreachable!("the calls of key blocks return no other status"),
    }
}

/// What a key is for, and who may have it: the characters of a key block's header. No call compares them with the key's length.
///
/// A header has no optional blocks. To wrap a key again, pass [`wrap`] those of the block, by [`optional_block`], without `PB`, and
/// for version A also `Header { version: b'B', ..header }`.
#[derive(Clone, Copy, Debug, PartialEq, Eq)]
pub struct Header {
    /// The version of the block: `A`, `B` or `C`.
    pub version: u8,
    /// What the key is for, as `P0`: it encrypts PIN blocks.
    pub usage: [u8; 2],
    /// The algorithm that the key is for, as `T`: triple DES.
    pub algorithm: u8,
    /// What may be done with the key, as `E`: encrypt.
    pub mode: u8,
    /// `00`: no versions; `c` and a character: the value is a component of a key, not the key; else the version.
    pub key_version: [u8; 2],
    /// `E`: exportable under a KEK in a form that complies with X9.24; `N`: not exportable; `S`: sensitive, exportable in other
    /// forms too.
    pub exportability: u8,
}

impl From<&ffi::KeyBlockFields> for Header {
    fn from(fields: &ffi::KeyBlockFields) -> Header {
        let ([first, second, _], [tens, ones, _]) = (fields.usage, fields.key_version);
        Header {
            version: fields.version,
            usage: [first, second],
            algorithm: fields.algorithm,
            mode: fields.mode,
            key_version: [tens, ones],
            exportability: fields.exportability,
        }
    }
}

impl From<&Header> for ffi::KeyBlockFields {
    fn from(header: &Header) -> ffi::KeyBlockFields {
        let ([first, second], [tens, ones]) = (header.usage, header.key_version);
        ffi::KeyBlockFields {
            version: header.version,
            usage: [first, second, 0],
            algorithm: header.algorithm,
            mode: header.mode,
            key_version: [tens, ones, 0],
            exportability: header.exportability,
        }
    }
}

/// An optional block: its name, two characters, and its content, printable ASCII characters.
#[derive(Clone, Copy, Debug, PartialEq, Eq)]
pub struct OptionalBlock<'a> {
    /// The name, as `KS` or `KV`.
    pub name: [u8; 2],
    /// What it says.
    pub content: &'a [u8],
}

/// A key out of a key block, 8, 16 or 24 bytes, which is wiped when it is dropped.
pub struct BlockKey {
    bytes: [u8; 24],
    count: usize,
}

impl BlockKey {
    /// Its bytes.
    #[must_use]
    pub fn bytes(&self) -> &[u8] {
        &self.bytes[..self.count]
    }
}

impl Drop for BlockKey {
    fn drop(&mut self) {
        ffi::wipe(&mut self.bytes);
    }
}

/// Writes the type's name, and no byte.
impl fmt::Debug for BlockKey {
    fn fmt(&self, f: &mut fmt::Formatter<'_>) -> fmt::Result {
        f.write_str("BlockKey { ... }")
    }
}

// SAFETY of each call below: the pointers are of references, those of keys and texts good for their lengths, and don't overlap
// what is written.

/// The header and the key of a key block, under a protection key of 16 or 24 bytes. Nothing of the key is given before the block is
/// authenticated. The header says what the key may be used for: look at it before you use the key.
pub fn unwrap(protection: &[u8], block: &[u8]) -> Result<(Header, BlockKey), KeyBlockError> {
    let (mut fields, mut key) = (ffi::KeyBlockFields::empty(), BlockKey { bytes: [0; 24], count: 0 });
    let status = unsafe {
        ffi::cukvashe_key_block_unwrap(
            protection.as_ptr(),
            protection.len(),
            block.as_ptr().cast(),
            block.len(),
            &mut fields,
            &mut key.bytes,
            &mut key.count,
        )
    };
    checked(status, (Header::from(&fields), key))
}

/// The fields of a block's header, read with no key: nothing of it is authenticated. Its errors are `Length` to `DataLength`.
pub fn header(block: &[u8]) -> Result<Header, KeyBlockError> {
    let mut fields = ffi::KeyBlockFields::empty();
    let status = unsafe { ffi::cukvashe_key_block_header(block.as_ptr().cast(), block.len(), &mut fields) };
    checked(status, Header::from(&fields))
}

/// Where the key of a block may be: `0` in storage and exchange, as [`wrap`] writes it, `1` in storage only, `2` in exchange only.
/// Nothing of it is authenticated. Its errors are those of [`header`].
pub fn key_context(block: &[u8]) -> Result<u8, KeyBlockError> {
    let mut context = [0];
    let written: *mut [u8; 1] = &mut context;
    let status = unsafe { ffi::cukvashe_key_block_context(block.as_ptr().cast(), block.len(), written.cast()) };
    let [character] = context;
    checked(status, character)
}

/// The optional block of a block at a place, from 0, or `None` if there are no more. Nothing of it is authenticated.
pub fn optional_block(block: &[u8], place: usize) -> Result<Option<OptionalBlock<'_>>, KeyBlockError> {
    let (mut name, mut offset, mut length) = ([0; 3], 0, 0);
    let (text, size) = (block.as_ptr().cast(), block.len());
    let status =
        unsafe { ffi::cukvashe_key_block_optional_block(text, size, place, &mut name, &mut offset, &mut length) };
    if status == NO_OPTIONAL_BLOCK {
        return Ok(None);
    }
    let [first, second, _] = name;
    checked(status, Some(OptionalBlock { name: [first, second], content: &block[offset..offset + length] }))
}

/// The most characters of a key block.
const MOST: usize = 9999;

/// The most optional blocks.
const MOST_BLOCKS: usize = 99;

/// More characters than as many optional blocks can have in a key block, each with a length of four digits.
const MOST_OPTIONAL: usize = MOST + 6 * MOST_BLOCKS;

/// Writes optional blocks one after the other, and gives how many characters they have. The library writes each in its shortest form.
fn write_blocks(blocks: &[OptionalBlock<'_>], text: &mut [u8; MOST_OPTIONAL]) -> Result<usize, KeyBlockError> {
    if blocks.len() > MOST_BLOCKS {
        return Err(KeyBlockError::OptionalBlock);
    }
    let mut at = 0;
    for OptionalBlock { name, content } in blocks {
        let size = content.len().saturating_add(10);
        let Some(part) = text[at..].get_mut(..size) else { return Err(KeyBlockError::Length) };
        let (front, rest) = part.split_at_mut(10);
        front[..2].copy_from_slice(name);
        front[2..6].copy_from_slice(b"0002");
        for (place, digit) in front[6..].iter_mut().enumerate() {
            *digit = b"0123456789ABCDEF"[size >> (12 - 4 * place) & 15];
        }
        rest.copy_from_slice(content);
        at += size;
    }
    Ok(at)
}

/// Writes the key block of a header, optional blocks, a key of 8, 16 or 24 bytes and random padding under a protection key of 16 or 24
/// bytes to the front of `text`, and gives how many characters the block has.
///
/// The padding stands after two bytes of length and the key, and ends at a multiple of eight bytes: 22, 14 or 6 bytes of it hide how
/// long a key of 8, 16 or 24 bytes is. They have to be random: take them from the system. An optional block has a name of letters and
/// digits, and a content of printable ASCII, from space to `~`. If they do not end at a multiple of eight characters, a block `PB` of
/// zeros is added; a `PB` of yours is taken only as the last, if with it they end at one.
///
/// The first fault is reported, in this order: `OptionalBlock`, if there are more than 99; `Version`, if it is neither `B` nor
/// `C`; `ProtectionKeyLength`; `Header`, if a field has other characters than letters and digits; `KeyLength`; `PaddingLength`;
/// `OptionalBlock`, if a name or a content has other characters, a `PB` is not taken, or with one that is added there are more than
/// 99; and `Length`, if the block has more than 9999 characters, or is longer than `text`. Of optional blocks that are too long
/// `Length` may come before all but the first of these. After a fault `text` is unchanged.
pub fn wrap(
    protection: &[u8],
    header: &Header,
    optional: &[OptionalBlock<'_>],
    key: &[u8],
    padding: &[u8],
    text: &mut [u8],
) -> Result<usize, KeyBlockError> {
    let mut blocks = [0; MOST_OPTIONAL];
    let count = write_blocks(optional, &mut blocks)?;
    // With space for the zero byte that the library writes after a block.
    let (mut made, mut size) = ([0; MOST + 1], 0);
    let parts = ffi::KeyBlockParts {
        protection: protection.as_ptr(),
        protection_length: protection.len(),
        header: header.into(),
        optional: blocks.as_ptr().cast(),
        optional_length: count,
        key: key.as_ptr(),
        key_length: key.len(),
        padding: padding.as_ptr(),
        padding_length: padding.len(),
    };
    let status = unsafe { ffi::cukvashe_key_block_wrap(&parts, made.as_mut_ptr().cast(), made.len(), &mut size) };
    checked(status, ())?;
    text.get_mut(..size).ok_or(KeyBlockError::Length)?.copy_from_slice(&made[..size]);
    Ok(size)
}
