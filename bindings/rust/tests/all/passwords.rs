//! The buffer for what is opened; known answers and faults are in bindings/known_calls.txt.

use crate::common::bytes_of;
use cukvashe_des::passwords::*;
use cukvashe_des::TdesEde3;

/// A file of `openssl enc` in a buffer of the plaintext's length; in a smaller one nothing is written.
#[test]
fn files_need_capacity() {
    let file = [&b"Salted__"[..], &bytes_of("0123456789abcdefad295497d9157ea3743a7672497e8b5b")].concat();
    let mut plain = [0x77; 8];
    let opened = TdesEde3::open_salted(Derivation::Sha256, b"secret", &file, &mut plain[..7]);
    assert_eq!((opened, plain), (Err(OpenError::BufferTooSmall), [0x77; 8]));
    assert_eq!(TdesEde3::open_salted(Derivation::Sha256, b"secret", &file, &mut plain), Ok(8));
    assert_eq!(&plain, b"Now is t");
    assert_eq!(Derivation::Pbkdf2Sha256(0).write_bytes(b"", b"", &mut []), Err(DeriveError::NoIteration));
}
