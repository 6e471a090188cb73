//! The message authentication codes: one table over all of them, beside known answers.

use crate::common::*;
use cukvashe_des::mac::Padding::{Method1, Method2};
use cukvashe_des::mac::*;
use cukvashe_des::{Block, InvalidLength};

/// The tag of a message as `answers_cut`, and what is refused.
fn answers<M: Mac + Clone>(begun: &M, message: &[u8], tag: Block) {
    answers_cut(begun, message, tag);
    refuses_tags(begun, message, tag);
}

/// The tag of a message that is cut at some places, from the state of no bytes: by pieces, and by a clone.
fn answers_cut<M: Mac + Clone>(begun: &M, message: &[u8], tag: Block) {
    for cut in [0, 1, 7, 8, 9, message.len() / 2, message.len()].into_iter().filter(|&cut| cut <= message.len()) {
        let mut mac = begun.clone();
        mac.update(&message[..cut]);
        let mut other = mac.clone();
        mac.update(&message[cut..]);
        message[cut..].iter().for_each(|byte| other.update(&[*byte]));
        assert_eq!((mac.tag(), mac.clone().finalize(), other.finalize()), (tag, tag, tag));
        assert_eq!((mac.verify_tag(&tag), mac.clone().verify(&tag)), (Ok(()), Ok(())));
        // A tag of the message so far ends nothing.
        mac.update(b"more");
        let longer: Vec<u8> = message.iter().copied().chain(*b"more").collect();
        let mut whole = begun.clone();
        whole.update(&longer);
        assert_eq!(mac.tag(), whole.finalize());
    }
}

/// Lengths that no tag has, and each byte turned.
fn refuses_tags<M: Mac + Clone>(begun: &M, message: &[u8], tag: Block) {
    let mut mac = begun.clone();
    mac.update(message);
    let long: Vec<u8> = tag.into_iter().chain([0; 26]).collect();
    for length in LENGTHS {
        let accepted = mac.verify_tag_truncated_left(&long[..length]);
        assert_eq!(accepted, if (4..=8).contains(&length) { Ok(()) } else { Err(MacError) });
        assert_eq!(mac.clone().verify_truncated_left(&long[..length]), accepted);
        let whole = if length == 8 { Ok(()) } else { Err(MacError) };
        assert_eq!((mac.verify_tag(&long[..length]), mac.clone().verify(&long[..length])), (whole, whole));
    }
    for place in 0..8 {
        let mut turned = tag;
        turned[place] ^= 1;
        assert_eq!((mac.verify_tag(&turned), mac.clone().verify(&turned)), (Err(MacError), Err(MacError)));
        let part = &turned[..place.max(3) + 1];
        assert_eq!(mac.verify_tag_truncated_left(part), Err(MacError));
        assert_eq!(mac.clone().verify_truncated_left(part), Err(MacError));
    }
}

/// The known answers of a MAC and a padding method by each constructor and by the call of a whole message, and the key sizes that are
/// refused.
macro_rules! known {
    ($mac:ident, $name:literal, $method:literal, $size:literal $(, $padding:expr)?) => {
        for known in tags($name, $method) {
            let key: &[u8; $size] = known.key[..].try_into().unwrap();
            answers(&$mac::new(key $(, $padding)?), &known.message, known.tag);
            answers_cut(&$mac::new_no_tables(key $(, $padding)?), &known.message, known.tag);
            answers_cut(&$mac::new_from_slice(key $(, $padding)?).unwrap(), &known.message, known.tag);
            answers_cut(&$mac::new_no_tables_from_slice(key $(, $padding)?).unwrap(), &known.message, known.tag);
            assert_eq!($mac::mac(key, $($padding,)? &known.message), known.tag);
        }
        assert_eq!($mac::KEY_SIZE, $size);
        for length in LENGTHS.chain([48, 64, 256 + $size]) {
            let (key, refused) = (vec![1; length], (length != $size).then_some(InvalidLength));
            assert_eq!($mac::new_from_slice(&key $(, $padding)?).err(), refused);
            assert_eq!($mac::new_no_tables_from_slice(&key $(, $padding)?).err(), refused);
        }
    };
}

#[test]
fn macs_answer() {
    known!(CbcMacDes, "cbc_mac_des", "1", 8, Method1);
    known!(CbcMacDes, "cbc_mac_des", "2", 8, Method2);
    known!(CbcMacTdesEde2, "cbc_mac_tdes_ede2", "1", 16, Method1);
    known!(CbcMacTdesEde2, "cbc_mac_tdes_ede2", "2", 16, Method2);
    known!(CbcMacTdesEde3, "cbc_mac_tdes_ede3", "1", 24, Method1);
    known!(CbcMacTdesEde3, "cbc_mac_tdes_ede3", "2", 24, Method2);
    known!(RetailMacDes, "retail_mac_des", "1", 16, Method1);
    known!(RetailMacDes, "retail_mac_des", "2", 16, Method2);
    known!(CmacTdesEde2, "cmac_tdes_ede2", "-", 16);
    known!(CmacTdesEde3, "cmac_tdes_ede3", "-", 24);
}

/// A MAC whose kind is known at run time only.
#[test]
fn macs_are_chosen_at_run_time() {
    for name in ["retail_mac_des", "cmac_tdes_ede2"] {
        let known = &tags(name, if name == "retail_mac_des" { "2" } else { "-" })[1];
        let mut mac: Box<dyn Mac> = match name {
            "retail_mac_des" => Box::new(RetailMacDes::new_from_slice(&known.key, Method2).unwrap()),
            _ => Box::new(CmacTdesEde2::new_from_slice(&known.key).unwrap()),
        };
        mac.update(&known.message);
        assert_eq!((mac.tag(), mac.verify_tag(&known.tag)), (known.tag, Ok(())));
    }
}

/// The examples of CMAC over triple DES that go with NIST SP 800-38B.
#[test]
fn cmac_answers_the_standard() {
    let three = CmacTdesEde3::new_from_slice(&bytes_of("8aa83bf8cbda10620bc1bf19fbb6cd58bc313d4a371ca8b5")).unwrap();
    let two = CmacTdesEde2::new_from_slice(&bytes_of("4cf15134a2850dd58a3d10ba80570d38")).unwrap();
    let message = bytes_of("6bc1bee22e409f96e93d7e117393172aae2d8a571e03ac9c9eb76fac45af8e51");
    let rows: [(usize, u64, u64); 4] = [
        (0, 0xb7a688e122ffaf95, 0xbd2ebf9a3ba00361),
        (8, 0x8e8f293136283797, 0x4ff2ab813c53ce83),
        (20, 0x743ddbe0ce2dc2ed, 0x62dd1b471902bd4e),
        (32, 0x33e6b1092400eae5, 0x31b1e431dabc4eb8),
    ];
    for (length, by_three, by_two) in rows {
        answers(&three, &message[..length], by_three.to_be_bytes());
        answers(&two, &message[..length], by_two.to_be_bytes());
    }
}
