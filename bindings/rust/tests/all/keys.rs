//! Parity and padding; known answers and faults are in bindings/known_calls.txt.

use crate::common::*;
use cukvashe_des::padding::*;
use cukvashe_des::*;

fn parity_of<const SIZE: usize>() {
    let key: [u8; SIZE] = std::array::from_fn(|at| (37 * at % 256) as u8);
    let odd = with_odd_parity(&key);
    assert!(odd.iter().zip(key).all(|(odd, byte)| odd.count_ones() % 2 == 1 && odd >> 1 == byte >> 1));
    assert!(equal_but_parity(&key, &odd) && equal_but_parity(&odd, &odd.map(|byte| byte ^ 1)));
    for at in 0..SIZE {
        let mut other = key;
        other[at] ^= 2;
        assert!(!equal_but_parity(&key, &other));
    }
}

#[test]
fn parity_is_set() {
    parity_of::<8>();
    parity_of::<16>();
    parity_of::<24>();
    assert_eq!(with_odd_parity(&[0xfe; 5]), [0xfe; 5]);
    assert_eq!(with_odd_parity(&[0; 5]), [1; 5]);
    assert_eq!(with_odd_parity(&[]), []);
}

/// The data and their padding: RFC 5652, section 6.3, and ISO/IEC 7816-4.
fn padded(data: &[u8], method: Method) -> Vec<u8> {
    let count = 8 - data.len() % 8;
    let padding = match method {
        Method::Pkcs7 => vec![count as u8; count],
        _ => [&[0x80], &vec![0; count - 1][..]].concat(),
    };
    [data, &padding].concat()
}

#[test]
fn padding_comes_and_goes() {
    for method in [Method::Pkcs7, Method::Iso7816] {
        for length in LENGTHS.chain([1023, 1024, 4800]) {
            let data: Vec<u8> = (0..length).map(|at| (at % 255) as u8).collect();
            let expected = padded(&data, method);
            for space in 0..16 {
                let mut buffer = data.clone();
                buffer.resize(length + space, 0x5a);
                let before = buffer.clone();
                if length + space < expected.len() {
                    assert_eq!(pad(&mut buffer, length, method), Err(BufferTooSmall));
                    assert_eq!(buffer, before);
                } else {
                    assert_eq!(pad(&mut buffer, length, method), Ok(&mut expected.clone()[..]));
                    assert_eq!(buffer[expected.len()..], before[expected.len()..]);
                }
            }
            assert_eq!(unpad(&expected, method), Ok(&data[..]));
        }
        for length in [9, 16, 17, usize::MAX - 7, usize::MAX] {
            assert_eq!(pad(&mut [0x5a; 8], length, method), Err(BufferTooSmall));
        }
    }
}
