//! The errors of ciphers and keys, and how errors are written.

use crate::statuses::{sentence, COUNTS, KEY_LENGTH, WEAK_KEY};

/// Writes an error as a sentence.
macro_rules! sentences {
    ($type:ident: $($value:path => $text:expr,)*) => {
        impl core::fmt::Display for $type {
            fn fmt(&self, f: &mut core::fmt::Formatter<'_>) -> core::fmt::Result {
                f.write_str(match self {
                    $($value => $text,)*
                })
            }
        }

        impl core::error::Error for $type {}
    };
}

pub(crate) use sentences;

/// The error of a key whose length is none that the call takes.
#[derive(Clone, Copy, Debug, PartialEq, Eq)]
pub struct InvalidLength;

sentences!(InvalidLength:
    InvalidLength => sentence(KEY_LENGTH),
);

/// Why a cipher refuses data. Nothing was changed.
#[non_exhaustive]
#[derive(Clone, Copy, Debug, PartialEq, Eq)]
pub enum DataError {
    /// The data are not whole blocks of 8 bytes.
    NotBlocks,
    /// Input and output differ in length.
    LengthsDiffer,
}

sentences!(DataError:
    DataError::NotBlocks => "the data are not whole blocks of 8 bytes",
    DataError::LengthsDiffer => "input and output differ in length",
);

/// The error of numbers of elements that do not agree: lists differ in length, or counts do not add up to the number of blocks.
/// Nothing was changed.
#[derive(Clone, Copy, Debug, PartialEq, Eq)]
pub struct CountsDiffer;

sentences!(CountsDiffer:
    CountsDiffer => sentence(COUNTS),
);

/// Why a key does not pass the weak key test.
#[non_exhaustive]
#[derive(Clone, Copy, Debug, PartialEq, Eq)]
pub enum KeyTestError {
    /// The key is weak, or has two parts that are one key.
    WeakKey,
    /// The key does not have 8, 16 or 24 bytes.
    InvalidLength,
}

sentences!(KeyTestError:
    KeyTestError::WeakKey => sentence(WEAK_KEY),
    KeyTestError::InvalidLength => "the key does not have 8, 16 or 24 bytes",
);
