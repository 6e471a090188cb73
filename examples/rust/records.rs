//! Decrypts a file of old records. Each is an initialization vector of 8 bytes, and 32 bytes of ciphertext: triple DES with
//! three keys in CBC mode, padded by PKCS#7.

use cukvashe_des::padding::{unpad, Method};
use cukvashe_des::{BlockCipher, TdesEde3};
use std::{env, error::Error, fs};

/// The bytes of a ciphertext: yours may have another size.
const SIZE: usize = 32;

/// The key is 48 hexadecimal digits in a file. On the command line every user of the machine could read it. The crate wipes
/// what it holds of a key; the digits and the bytes here are yours to wipe.
fn read_key(file: &str) -> Result<[u8; 24], Box<dyn Error>> {
    let digits = fs::read_to_string(file)?;
    let digits = digits.trim_end();
    if digits.len() != 48 || !digits.bytes().all(|digit| digit.is_ascii_hexdigit()) {
        return Err("the key does not have 48 hexadecimal digits".into());
    }
    let mut key = [0; 24];
    for (at, byte) in key.iter_mut().enumerate() {
        *byte = u8::from_str_radix(&digits[2 * at..2 * at + 2], 16)?;
    }
    Ok(key)
}

fn main() -> Result<(), Box<dyn Error>> {
    let arguments: Vec<String> = env::args().collect();
    let [_, key_file, file] = &arguments[..] else {
        return Err("give the file of a key, and a file of records".into());
    };
    let cipher = TdesEde3::new(&read_key(key_file)?);
    for record in fs::read(file)?.chunks_mut(8 + SIZE) {
        let (vector, data) = record.split_first_chunk_mut().ok_or("the file ends within a record")?;
        cipher.decrypt_cbc(vector, data)?; // the vector becomes the last block
        println!("{}", String::from_utf8_lossy(unpad(data, Method::Pkcs7)?));
    }
    Ok(())
}

// NIST SP 800-67, Appendix B, has the key. OpenSSL encrypted the records: see examples/data/by_openssl.
// $ cargo run -q --manifest-path bindings/rust/Cargo.toml --example records examples/data/key examples/data/records
// The qufck brown fox jump
// Now is the time for all men
// Account 4012345678909, 25.00
