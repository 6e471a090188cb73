//! Message authentication codes, of a message that comes in pieces: CBC-MAC and the retail MAC (ISO/IEC 9797-1:2011,
//! algorithms 1 and 3, with padding methods 1 and 2), and CMAC (NIST SP 800-38B).
//!
//! CBC-MAC is safe only if every message under a key has one length. Padding method 1 hides zeros at the end of a message.
//! The calls of one message read tables at indexes that depend on key and message, unless `new_no_tables` made the MAC. `macs` and
//! `macs_each`, of many messages, read none: for speed, sort messages of very different lengths.
//!
//! ```
//! use cukvashe_des::mac::{Mac, MacError, Padding, RetailMacDes};
//!
//! let key = 0x0123456789abcdeffedcba9876543210u128.to_be_bytes();
//! let mut mac = RetailMacDes::new(&key, Padding::Method2);
//! mac.update(b"Now is the time ");
//! mac.update(b"for it");
//! let tag = 0x5a692ce64f404145u64.to_be_bytes();
//! assert_eq!(mac.tag(), tag);
//! assert_eq!(mac.verify_tag(&tag), Ok(()));
//! assert_eq!(mac.verify_tag(&[0; 8]), Err(MacError));
//! ```
//!
//! A MAC that has padding methods is made with one, and none is taken for granted:
//!
//! ```compile_fail,E0061
//! cukvashe_des::mac::RetailMacDes::new(&[7; 16]);
//! ```

use crate::each_key::count_of_both;
use crate::error::{sentences, CountsDiffer};
use crate::ffi::{self, Message};
use crate::statuses::{sentence, OK, TAG};
use crate::InvalidLength;
use core::ffi::c_int;
use core::fmt;
use core::ptr;

/// The error of a tag that is not the message's.
#[derive(Clone, Copy, Debug, PartialEq, Eq)]
pub struct MacError;

sentences!(MacError:
    MacError => sentence(TAG),
);

/// A padding method of CBC-MAC and of the retail MAC.
#[non_exhaustive]
#[derive(Clone, Copy, Debug, PartialEq, Eq)]
pub enum Padding {
    /// As few zeros as make whole blocks, one block at least.
    Method1,
    /// A one bit, and then as few zeros as make whole blocks.
    Method2,
}

impl Padding {
    /// The number by which the library knows it.
    fn number(self) -> c_int {
        match self {
            Padding::Method1 => ffi::MAC_PADDING_1,
            Padding::Method2 => ffi::MAC_PADDING_2,
        }
    }
}

/// A message authentication code with tags of 8 bytes. `Debug` writes no part of it. Take `&mut dyn Mac` of a MAC that is known at
/// run time only.
pub trait Mac: fmt::Debug {
    /// Adds bytes to the message. However it is cut into pieces, its tag is the same.
    fn update(&mut self, bytes: &[u8]);

    /// The tag of the message so far, which may go on. To check a tag call `verify_tag`: `==` may stop at the first wrong byte.
    #[must_use]
    fn tag(&self) -> [u8; 8];

    /// Accepts the first 4 to 8 bytes of the tag of the message so far, and nothing else. Pass as many as both sides agreed on, not
    /// as many as were sent: a forger sends 4.
    fn verify_tag_truncated_left(&self, tag: &[u8]) -> Result<(), MacError>;

    /// Accepts the whole tag of the message so far, and nothing else. `verify_tag_truncated_left` takes cut tags; in C, `verify`
    /// takes both.
    fn verify_tag(&self, tag: &[u8]) -> Result<(), MacError> {
        match tag.len() {
            8 => self.verify_tag_truncated_left(tag),
            _ => Err(MacError),
        }
    }

    /// As `tag`, of a state that ends here. It is moved to this call, which wipes it; where it was, as in a `Box`, its bytes stay:
    /// call `tag` there, and drop it.
    #[must_use]
    fn finalize(self) -> [u8; 8]
    where
        Self: Sized,
    {
        self.tag()
    }

    /// As `verify_tag_truncated_left`, of a state that ends here, with what `finalize` says of moves.
    fn verify_truncated_left(self, tag: &[u8]) -> Result<(), MacError>
    where
        Self: Sized,
    {
        self.verify_tag_truncated_left(tag)
    }

    /// As `verify_tag`, of a state that ends here, with what `finalize` says of moves.
    fn verify(self, tag: &[u8]) -> Result<(), MacError>
    where
        Self: Sized,
    {
        self.verify_tag(tag)
    }
}

/// A MAC: its type, its context, and its calls of the library. In brackets stands its padding method, if it has one.
macro_rules! mac {
    ($(#[$doc:meta])* $name:ident [$($padding:ident)?], $key_size:literal, $init:ident, $init_no_tables:ident, $update:ident,
     $finalize:ident, $verify:ident) => {
        $(#[$doc])*
        /// A clone goes on by itself.
        #[derive(Clone)]
        pub struct $name {
            context: ffi::$name,
        }

        impl $name {
            /// The key size in bytes.
            pub const KEY_SIZE: usize = $key_size;

            /// The state of the message of no bytes under a key of as many bytes as its size.
            #[must_use]
            pub fn new(key: &[u8; $key_size] $(, $padding: Padding)?) -> Self {
                let mut mac = $name { context: ffi::$name::empty() };
                // SAFETY: the pointers are of references, good for their lengths, and don't overlap. The status is 0, since
                // the key has its length, and there is a padding of each method.
                unsafe { ffi::$init(&mut mac.context, key.as_ptr(), key.len() $(, $padding.number())?) };
                mac
            }

            /// The state of the message of no bytes under a key, without tables: no call of it, or of a clone, reads a
            /// table at an index that depends on the key or the message. It takes two to two and a half times as long.
            #[must_use]
            pub fn new_no_tables(key: &[u8; $key_size] $(, $padding: Padding)?) -> Self {
                let mut mac = $name { context: ffi::$name::empty() };
                // SAFETY: as of `new`.
                unsafe { ffi::$init_no_tables(&mut mac.context, key.as_ptr(), key.len() $(, $padding.number())?) };
                mac
            }

            /// As `new`, of a slice, which must have as many bytes as the key size.
            pub fn new_from_slice(key: &[u8] $(, $padding: Padding)?) -> Result<Self, InvalidLength> {
                key.try_into().map(|key| Self::new(key $(, $padding)?)).map_err(|_| InvalidLength)
            }

            /// As `new_no_tables`, of a slice, which must have as many bytes as the key size.
            pub fn new_no_tables_from_slice(key: &[u8] $(, $padding: Padding)?) -> Result<Self, InvalidLength> {
                key.try_into().map(|key| Self::new_no_tables(key $(, $padding)?)).map_err(|_| InvalidLength)
            }

            /// The tag of a whole message.
            #[must_use]
            pub fn mac(key: &[u8; $key_size], $($padding: Padding,)? message: &[u8]) -> [u8; 8] {
                let mut mac = Self::new(key $(, $padding)?);
                mac.update(message);
                mac.tag()
            }
        }

        // SAFETY of each call below: the context is one that `init` wrote, and the other pointers are of references, good
        // for their lengths, which don't overlap where one may be written.
        impl Mac for $name {
            fn update(&mut self, bytes: &[u8]) {
                let status = unsafe { ffi::$update(&mut self.context, bytes.as_ptr(), bytes.len()) };
                assert_eq!(status, OK, "the context is one that init made");
            }

            fn tag(&self) -> [u8; 8] {
                let mut tag = [0; 8];
                let status = unsafe { ffi::$finalize(&self.context, &mut tag) };
                assert_eq!(status, OK, "the context is one that init made");
                tag
            }

            fn verify_tag_truncated_left(&self, tag: &[u8]) -> Result<(), MacError> {
                match unsafe { ffi::$verify(&self.context, tag.as_ptr(), tag.len()) } {
                    OK => Ok(()),
                    _ => Err(MacError),
                }
            }
        }

        impl fmt::Debug for $name {
            fn fmt(&self, f: &mut fmt::Formatter<'_>) -> fmt::Result {
                f.write_str(concat!(stringify!($name), " { ... }"))
            }
        }
    };
}

mac!(
    /// CBC-MAC over DES.
    CbcMacDes [padding], 8, cukvashe_cbc_mac_des_init, cukvashe_cbc_mac_des_init_no_tables, cukvashe_cbc_mac_des_update,
    cukvashe_cbc_mac_des_final, cukvashe_cbc_mac_des_verify
);
mac!(
    /// CBC-MAC over triple DES, EDE with two keys.
    CbcMacTdesEde2 [padding], 16, cukvashe_cbc_mac_tdes_ede2_init, cukvashe_cbc_mac_tdes_ede2_init_no_tables, cukvashe_cbc_mac_tdes_ede2_update,
    cukvashe_cbc_mac_tdes_ede2_final, cukvashe_cbc_mac_tdes_ede2_verify
);
mac!(
    /// CBC-MAC over triple DES, EDE with three keys.
    CbcMacTdesEde3 [padding], 24, cukvashe_cbc_mac_tdes_ede3_init, cukvashe_cbc_mac_tdes_ede3_init_no_tables, cukvashe_cbc_mac_tdes_ede3_update,
    cukvashe_cbc_mac_tdes_ede3_final, cukvashe_cbc_mac_tdes_ede3_verify
);
mac!(
    /// The retail MAC over DES, with two keys.
    RetailMacDes [padding], 16, cukvashe_retail_mac_des_init, cukvashe_retail_mac_des_init_no_tables, cukvashe_retail_mac_des_update,
    cukvashe_retail_mac_des_final, cukvashe_retail_mac_des_verify
);
mac!(
    /// CMAC over triple DES, EDE with two keys.
    CmacTdesEde2 [], 16, cukvashe_cmac_tdes_ede2_init, cukvashe_cmac_tdes_ede2_init_no_tables, cukvashe_cmac_tdes_ede2_update,
    cukvashe_cmac_tdes_ede2_final, cukvashe_cmac_tdes_ede2_verify
);
mac!(
    /// CMAC over triple DES, EDE with three keys.
    CmacTdesEde3 [], 24, cukvashe_cmac_tdes_ede3_init, cukvashe_cmac_tdes_ede3_init_no_tables, cukvashe_cmac_tdes_ede3_update,
    cukvashe_cmac_tdes_ede3_final, cukvashe_cmac_tdes_ede3_verify
);

/// How many messages go together.
const GROUP: usize = 256;

/// Takes groups of messages and their tags to a call, with the number of the first message of each.
fn in_groups(messages: &[&[u8]], tags: &mut [[u8; 8]], call: impl Fn(usize, *const Message, &mut [u8], usize)) {
    for (number, (group, tags)) in messages.chunks(GROUP).zip(tags.chunks_mut(GROUP)).enumerate() {
        let mut pointers = [Message { bytes: ptr::null(), length: 0 }; GROUP];
        for (place, message) in pointers.iter_mut().zip(group) {
            *place = Message { bytes: message.as_ptr(), length: message.len() };
        }
        call(GROUP * number, pointers.as_ptr(), tags.as_flattened_mut(), group.len());
    }
}

/// The call of many messages under one key.
macro_rules! macs {
    ($name:ident [$($padding:ident)?], $size:literal, $call:ident) => {
        impl $name {
            /// Writes the tag of each message at its place; if messages and tags differ in number, the tags are unchanged.
            pub fn macs(
                key: &[u8; $size],
                $($padding: Padding,)?
                messages: &[&[u8]],
                tags: &mut [[u8; 8]],
            ) -> Result<(), CountsDiffer> {
                count_of_both(messages, tags)?;
                in_groups(messages, tags, |_, messages, tags, count| {
                    let (key, key_length, place, length) = (key.as_ptr(), key.len(), tags.as_mut_ptr(), tags.len());
                    // SAFETY: the pointers are of references, good for their lengths and the count, which don't overlap; the
                    // status is 0, since these agree, and there is a padding of each method.
                    unsafe { ffi::$call(key, key_length, $($padding.number(),)? messages, place, length, count) };
                });
                Ok(())
            }
        }
    };
}

/// The call of many messages under a key for each.
macro_rules! macs_each {
    ($name:ident [$($padding:ident)?], $size:literal, $call:ident) => {
        impl $name {
            /// Writes the tag of each message at its place, under the key there; if the lists differ in length, the tags are unchanged.
            pub fn macs_each(
                keys: &[[u8; $size]],
                $($padding: Padding,)?
                messages: &[&[u8]],
                tags: &mut [[u8; 8]],
            ) -> Result<(), CountsDiffer> {
                count_of_both(keys, messages)?;
                count_of_both(messages, tags)?;
                in_groups(messages, tags, |from, messages, tags, count| {
                    let keys = keys[from..from + count].as_flattened();
                    let (keys, keys_length, place, length) = (keys.as_ptr(), keys.len(), tags.as_mut_ptr(), tags.len());
                    // SAFETY: as of `macs`.
                    unsafe { ffi::$call(keys, keys_length, $($padding.number(),)? messages, place, length, count) };
                });
                Ok(())
            }
        }
    };
}

macs!(CbcMacDes[padding], 8, cukvashe_cbc_mac_des_macs);
macs!(CbcMacTdesEde2[padding], 16, cukvashe_cbc_mac_tdes_ede2_macs);
macs!(CbcMacTdesEde3[padding], 24, cukvashe_cbc_mac_tdes_ede3_macs);
macs!(RetailMacDes[padding], 16, cukvashe_retail_mac_des_macs);
macs!(CmacTdesEde2 [], 16, cukvashe_cmac_tdes_ede2_macs);
macs!(CmacTdesEde3 [], 24, cukvashe_cmac_tdes_ede3_macs);
macs_each!(CbcMacDes[padding], 8, cukvashe_cbc_mac_des_macs_each);
macs_each!(CbcMacTdesEde2[padding], 16, cukvashe_cbc_mac_tdes_ede2_macs_each);
macs_each!(CbcMacTdesEde3[padding], 24, cukvashe_cbc_mac_tdes_ede3_macs_each);
macs_each!(RetailMacDes[padding], 16, cukvashe_retail_mac_des_macs_each);
macs_each!(CmacTdesEde2 [], 16, cukvashe_cmac_tdes_ede2_macs_each);
macs_each!(CmacTdesEde3 [], 24, cukvashe_cmac_tdes_ede3_macs_each);

/// Writes of each tag whether it is the one at its place in `expected`, the tags that `macs` or `macs_each` made: every byte is
/// compared, wherever two tags differ. `Ok` says only that the lists have the same length: look at `right`.
/// `CountsDiffer` if the lists differ in length; `right` is then unchanged.
///
/// ```
/// use cukvashe_des::mac::{compare_tags, CmacTdesEde3};
///
/// let messages: [&[u8]; 2] = [b"Now is the time ", b"for it"];
/// let mut expected = [[0; 8]; 2];
/// CmacTdesEde3::macs(&[7; 24], &messages, &mut expected)?;
/// let mut right = [false; 2];
/// compare_tags(&[expected[0], [0; 8]], &expected, &mut right)?;
/// assert_eq!(right, [true, false]);
/// # Ok::<(), cukvashe_des::CountsDiffer>(())
/// ```
pub fn compare_tags(tags: &[[u8; 8]], expected: &[[u8; 8]], right: &mut [bool]) -> Result<(), CountsDiffer> {
    let count = count_of_both(tags, expected)?;
    count_of_both(tags, right)?;
    let (tags, expected) = (tags.as_flattened(), expected.as_flattened());
    let (place, length, other, other_length) = (tags.as_ptr(), tags.len(), expected.as_ptr(), expected.len());
    // SAFETY: the pointers are of references, good for their lengths and the count, and only `right` is written. The status is 0,
    // since these agree.
    unsafe { ffi::cukvashe_compare_tags(place, length, other, other_length, right.as_mut_ptr(), count) };
    Ok(())
}
