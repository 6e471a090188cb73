//! What `cukvashe_des.h` declares, with buffers for calls to write, and how what holds a key is wiped.

#[rustfmt::skip]
mod declarations;

pub use declarations::*;

use core::mem::size_of_val;

/// A context, which is wiped when it is dropped.
#[repr(C)]
#[derive(Clone)]
pub struct Context<const WORDS: usize> {
    words: [u64; WORDS],
}

impl<const WORDS: usize> Context<WORDS> {
    /// A context for `init` to write.
    pub fn empty() -> Self {
        Context { words: [0; WORDS] }
    }
}

impl<const WORDS: usize> Drop for Context<WORDS> {
    fn drop(&mut self) {
        wipe(&mut self.words);
    }
}

/// The state of a terminal is wiped when it is dropped.
impl Drop for DukptTerminal {
    fn drop(&mut self) {
        wipe(&mut self.serial);
        wipe(self.keys.as_flattened_mut());
    }
}

impl KeyBlockFields {
    /// Fields for a call to write.
    pub fn empty() -> Self {
        KeyBlockFields { version: 0, usage: [0; 3], algorithm: 0, mode: 0, key_version: [0; 3], exportability: 0 }
    }
}

/// What zeros are a good value of.
pub trait Plain {}

impl Plain for u8 {}
impl Plain for u64 {}

/// Writes zeros over values, which no compiler leaves out.
pub fn wipe<T: Plain>(values: &mut [T]) {
    // SAFETY: the pointer is of a reference, good for the size of its values, for which zeros are good.
    unsafe { cukvashe_wipe(values.as_mut_ptr().cast(), size_of_val(values)) }
}
