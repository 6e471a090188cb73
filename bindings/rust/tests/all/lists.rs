//! Calls for lists, beside the calls of one, at each count; and numbers of elements that do not agree.

use crate::common::{COUNTS, KEY, TEXT};
use cukvashe_des::mac::Padding::{Method1, Method2};
use cukvashe_des::mac::{
    compare_tags, CbcMacDes, CbcMacTdesEde2, CbcMacTdesEde3, CmacTdesEde2, CmacTdesEde3, RetailMacDes,
};
use cukvashe_des::payment::{initial_key, transaction_key, transaction_keys_from_base, CheckValue};
use cukvashe_des::{Block, BlockCipher, Cipher, CountsDiffer, Des, KeyForEach, TdesEde2, TdesEde3};

/// Arrays of bytes that differ from place to place.
fn some<const SIZE: usize>(count: usize, first: usize) -> Vec<[u8; SIZE]> {
    let byte = |at: usize| (first + 7 * at + at / 251) as u8;
    (0..count).map(|place| std::array::from_fn(|at| byte(SIZE * place + at))).collect()
}

fn lists_answer<C: BlockCipher + CheckValue + KeyForEach<Key = [u8; SIZE]>, const SIZE: usize>() {
    for count in COUNTS {
        let (keys, plain) = (some::<SIZE>(count, 1), some::<8>(count, 99));
        let mut answers = plain.clone();
        for (key, block) in keys.iter().zip(&mut answers) {
            C::new_from_slice(key).unwrap().encrypt_block(block);
        }
        let mut blocks = plain.clone();
        assert_eq!(C::encrypt_each(&keys, &mut blocks), Ok(()));
        assert_eq!(blocks, answers);
        assert_eq!(C::decrypt_each(&keys, &mut blocks), Ok(()));
        assert_eq!(blocks, plain);
        let mut values = some::<3>(count, 5);
        assert_eq!(C::check_values(&keys, &mut values), Ok(()));
        let wanted: Vec<_> = keys.iter().map(|key| C::check_value(key).unwrap()).collect();
        assert_eq!(values, wanted);
        refuses::<C, SIZE>(&keys, count + 1);
        refuses::<C, SIZE>(&keys, count / 2 + 2 * (count < 2) as usize);
    }
}

/// `count` blocks and values, if the keys have another number, are refused, and stay.
fn refuses<C: CheckValue + KeyForEach<Key = [u8; SIZE]>, const SIZE: usize>(keys: &[[u8; SIZE]], count: usize) {
    let (mut blocks, mut values) = (some::<8>(count, 3), some::<3>(count, 3));
    assert_eq!(C::encrypt_each(keys, &mut blocks), Err(CountsDiffer));
    assert_eq!(C::decrypt_each(keys, &mut blocks), Err(CountsDiffer));
    assert_eq!(C::check_values(keys, &mut values), Err(CountsDiffer));
    assert_eq!((blocks, values), (some::<8>(count, 3), some::<3>(count, 3)));
}

#[test]
fn lists_of_keys_answer() {
    lists_answer::<Des, 8>();
    lists_answer::<TdesEde2, 16>();
    lists_answer::<TdesEde3, 24>();
}

/// NIST Special Publication 800-67, appendix B.
#[test]
fn known_blocks_answer() {
    let mut blocks: Vec<Block> = TEXT.chunks(8).map(|block| block.try_into().unwrap()).collect();
    TdesEde3::encrypt_each(&[KEY; 3], &mut blocks).unwrap();
    assert_eq!(blocks, [0xa826fd8ce53b855f, 0xcce21c8112256fe6, 0x68d5c05dd9b6b900].map(u64::to_be_bytes));
}

#[test]
fn transactions_of_lists_answer() {
    let base: [u8; 16] = KEY[..16].try_into().unwrap();
    for count in COUNTS {
        let serials = some::<10>(count, 1);
        let wanted: Vec<_> =
            serials.iter().map(|serial| transaction_key(&initial_key(&base, serial), serial)).collect();
        let mut keys = some::<16>(count, 7);
        assert_eq!(transaction_keys_from_base(&base, &serials, &mut keys), Ok(()));
        assert_eq!(keys, wanted);
        let mut more = some::<16>(count + 1, 7);
        assert_eq!(transaction_keys_from_base(&base, &serials, &mut more), Err(CountsDiffer));
        assert_eq!(more, some::<16>(count + 1, 7));
    }
}

fn records_answer<C: BlockCipher>(size: usize) {
    let cipher = C::new_from_slice(&KEY[..size]).unwrap();
    for records in COUNTS {
        let counts: Vec<usize> = (0..records).map(|k| if k == records / 2 { 40 } else { k % 5 }).collect();
        let (vectors, plain) = (some::<8>(records, 1), some::<8>(counts.iter().sum(), 77));
        let (mut next, mut answers, mut at) = (vectors.clone(), plain.clone(), 0);
        for (vector, count) in next.iter_mut().zip(&counts) {
            cipher.encrypt_blocks_cbc(vector, &mut answers[at..at + count]);
            at += count;
        }
        let (mut left, mut blocks) = (vectors.clone(), plain.clone());
        assert_eq!(cipher.encrypt_cbc_records(&mut left, &counts, &mut blocks), Ok(()));
        assert_eq!((&left, &blocks), (&next, &answers));
        left = vectors.clone();
        assert_eq!(cipher.decrypt_cbc_records(&mut left, &counts, &mut blocks), Ok(()));
        assert_eq!((&left, &blocks), (&next, &plain));
        let (total, more) = (plain.len(), [&counts[..], &[1]].concat());
        refuses_records(&cipher, records, &more, total);
        refuses_records(&cipher, records + 1, &more, total);
        refuses_records(&cipher, records, &counts, total + 1);
        refuses_records(&cipher, records + 1, &counts, total);
        // The sum is the right one, in 64 bits; and lengths in bytes.
        refuses_records(&cipher, 2, &[usize::MAX, total + 1], total);
        if total > 0 {
            let lengths: Vec<usize> = counts.iter().map(|count| 8 * count).collect();
            refuses_records(&cipher, records, &lengths, total);
        }
    }
}

/// Counts that do not agree with the numbers of vectors or blocks are refused, and both stay.
fn refuses_records<C: BlockCipher>(cipher: &C, vectors: usize, counts: &[usize], blocks: usize) {
    let (mut left, mut changed) = (some::<8>(vectors, 1), some::<8>(blocks, 77));
    assert_eq!(cipher.encrypt_cbc_records(&mut left, counts, &mut changed), Err(CountsDiffer));
    assert_eq!(cipher.decrypt_cbc_records(&mut left, counts, &mut changed), Err(CountsDiffer));
    assert_eq!((left, changed), (some::<8>(vectors, 1), some::<8>(blocks, 77)));
}

#[test]
fn lists_of_records_answer() {
    records_answer::<Des>(8);
    records_answer::<TdesEde2>(16);
    records_answer::<TdesEde3>(24);
    records_answer::<Cipher>(24);
}

/// The calls of lists of messages of a MAC and a padding method, beside its call of one.
macro_rules! macs_answer {
    ($mac:ident, $size:literal $(, $padding:expr)?) => {
        let text = some::<8>(20, 3).concat();
        for count in COUNTS {
            let keys = some::<$size>(count, 1);
            let messages: Vec<&[u8]> = (0..count).map(|k| &text[k % 40..k % 40 + k % 41]).collect();
            let wanted: Vec<_> =
                keys.iter().zip(&messages).map(|(key, text)| $mac::mac(key, $($padding,)? text)).collect();
            let mut tags = some::<8>(count, 5);
            assert_eq!($mac::macs_each(&keys, $($padding,)? &messages, &mut tags), Ok(()));
            assert_eq!(tags, wanted);
            let mut more = some::<8>(count + 1, 5);
            assert_eq!($mac::macs_each(&keys, $($padding,)? &messages, &mut more), Err(CountsDiffer));
            let (mut stays, other) = (vec![[3; 8]; count], some::<$size>(count + 1, 1));
            for keys in [&other[..], &keys[..count / 2]].into_iter().filter(|keys| keys.len() != count) {
                assert_eq!($mac::macs_each(keys, $($padding,)? &messages, &mut stays), Err(CountsDiffer));
            }
            assert_eq!((stays, &more), (vec![[3; 8]; count], &some::<8>(count + 1, 5)));
            let Some(key) = keys.first() else { continue };
            assert_eq!($mac::macs(key, $($padding,)? &messages, &mut tags), Ok(()));
            let wanted: Vec<_> = messages.iter().map(|text| $mac::mac(key, $($padding,)? text)).collect();
            assert_eq!(tags, wanted);
            assert_eq!($mac::macs(key, $($padding,)? &messages, &mut more), Err(CountsDiffer));
            assert_eq!(more, some::<8>(count + 1, 5));
        }
    };
}

#[test]
fn lists_of_messages_answer() {
    macs_answer!(CbcMacDes, 8, Method1);
    macs_answer!(CbcMacDes, 8, Method2);
    macs_answer!(CbcMacTdesEde2, 16, Method1);
    macs_answer!(CbcMacTdesEde2, 16, Method2);
    macs_answer!(CbcMacTdesEde3, 24, Method1);
    macs_answer!(CbcMacTdesEde3, 24, Method2);
    macs_answer!(RetailMacDes, 16, Method1);
    macs_answer!(RetailMacDes, 16, Method2);
    macs_answer!(CmacTdesEde2, 16);
    macs_answer!(CmacTdesEde3, 24);
}

/// Of each three tags two have one bit that is wrong, at any place.
#[test]
fn lists_of_tags_are_verified() {
    for count in COUNTS {
        let expected = some::<8>(count, 3);
        let wanted: Vec<bool> = (0..count).map(|place| place % 3 == 0).collect();
        let mut tags = expected.clone();
        for place in (0..count).filter(|place| place % 3 > 0) {
            tags[place][place / 3 % 8] ^= 1 << (place / 24 % 8);
        }
        for initial in [false, true] {
            let mut right = vec![initial; count];
            assert_eq!(compare_tags(&tags, &expected, &mut right), Ok(()));
            assert_eq!(right, wanted);
            let mut more = vec![initial; count + 1];
            assert_eq!(compare_tags(&tags, &expected, &mut more), Err(CountsDiffer));
            assert_eq!(compare_tags(&tags, &some::<8>(count + 1, 3), &mut right), Err(CountsDiffer));
            assert_eq!((more, right), (vec![initial; count + 1], wanted.clone()));
        }
    }
}
