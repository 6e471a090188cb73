//! Lists in which each block has a key of its own.

use crate::error::CountsDiffer;
use crate::ffi;
use crate::statuses::OK;
use crate::{Block, Des, TdesEde2, TdesEde3};

/// A cipher that takes lists in which each block has a key of its own, 128 or 256 of them at a time. No table is read at an index
/// that depends on a key or a block.
///
/// ```
/// use cukvashe_des::{CountsDiffer, Des, KeyForEach};
///
/// // FIPS 81, appendix B, and the same key with other parity bits.
/// let keys = [0x0123456789abcdefu64, 0x0022446688aaccee].map(u64::to_be_bytes);
/// let mut blocks = [*b"Now is t"; 2];
/// Des::encrypt_each(&keys, &mut blocks)?;
/// assert_eq!(blocks, [0x3fa40e8a984d4815u64.to_be_bytes(); 2]);
/// assert_eq!(Des::decrypt_each(&keys, &mut blocks[..1]), Err(CountsDiffer));
/// # Ok::<(), CountsDiffer>(())
/// ```
pub trait KeyForEach {
    /// A key, an array of as many bytes as the key size.
    type Key;

    /// Encrypts each block in place under the key at its place; if keys and blocks differ in number, the blocks are unchanged.
    fn encrypt_each(keys: &[Self::Key], blocks: &mut [Block]) -> Result<(), CountsDiffer>;

    /// Decrypts each block in place under the key at its place; if keys and blocks differ in number, the blocks are unchanged.
    fn decrypt_each(keys: &[Self::Key], blocks: &mut [Block]) -> Result<(), CountsDiffer>;
}

/// The count of two lists, which the library takes once for both.
pub(crate) fn count_of_both<A, B>(first: &[A], second: &[B]) -> Result<usize, CountsDiffer> {
    if first.len() == second.len() {
        Ok(first.len())
    } else {
        Err(CountsDiffer)
    }
}

/// What a status of lists of whole blocks says.
pub(crate) fn agreeing(status: i32) -> Result<(), CountsDiffer> {
    match status {
        OK => Ok(()),
        _ => Err(CountsDiffer),
    }
}

macro_rules! key_for_each {
    ($($cipher:ident: $size:literal, $encrypt:ident, $decrypt:ident;)*) => {
        // SAFETY of each call below: the pointers are of references, good for the count and the length, which don't overlap,
        // since one is of blocks that no other reference reads.
        $(impl KeyForEach for $cipher {
            type Key = [u8; $size];

            fn encrypt_each(keys: &[Self::Key], blocks: &mut [Block]) -> Result<(), CountsDiffer> {
                let (count, keys, blocks) = (keys.len(), keys.as_flattened(), blocks.as_flattened_mut());
                agreeing(unsafe { ffi::$encrypt(keys.as_ptr(), count, blocks.as_mut_ptr(), blocks.len()) })
            }

            fn decrypt_each(keys: &[Self::Key], blocks: &mut [Block]) -> Result<(), CountsDiffer> {
                let (count, keys, blocks) = (keys.len(), keys.as_flattened(), blocks.as_flattened_mut());
                agreeing(unsafe { ffi::$decrypt(keys.as_ptr(), count, blocks.as_mut_ptr(), blocks.len()) })
            }
        })*
    };
}

key_for_each!(
    Des: 8, cukvashe_des_encrypt_each, cukvashe_des_decrypt_each;
    TdesEde2: 16, cukvashe_tdes_ede2_encrypt_each, cukvashe_tdes_ede2_decrypt_each;
    TdesEde3: 24, cukvashe_tdes_ede3_encrypt_each, cukvashe_tdes_ede3_decrypt_each;
);
