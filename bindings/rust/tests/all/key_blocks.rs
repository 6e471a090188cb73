//! Key blocks: their buffers, what is made and read again, and the most of it; known ones and faults are in bindings/known_calls.txt.

use cukvashe_des::payment::key_blocks::*;

const PIN: Header =
    Header { version: b'B', usage: *b"P0", algorithm: b'T', mode: b'E', key_version: *b"00", exportability: b'E' };

/// A block in a buffer of its length; in a smaller one nothing is written.
#[test]
fn blocks_need_capacity() {
    let (mut exact, mut short) = ([0x77; 96], [0x77; 95]);
    assert_eq!(wrap(&[0x31; 16], &PIN, &[], &[0x5b; 16], &[0xaa; 14], &mut exact), Ok(96));
    assert_eq!(unwrap(&[0x31; 16], &exact).unwrap().1.bytes(), [0x5b; 16]);
    for capacity in [0, 1, 95] {
        let made = wrap(&[0x31; 16], &PIN, &[], &[0x5b; 16], &[0xaa; 14], &mut short[..capacity]);
        assert_eq!((made, short), (Err(KeyBlockError::Length), [0x77; 95]));
    }
}

/// With contents of each length about those that change the form of an optional block, and the longest.
#[test]
fn blocks_are_read_again() {
    let (content, key, mut text) = ([b'7'; 70000], [0x5b; 24], vec![0; 10000]);
    for size in [0, 1, 2, 3, 4, 5, 6, 7, 8, 9, 250, 251, 252, 600, 9800] {
        for (version, length) in [(b'B', 8), (b'B', 16), (b'C', 16), (b'C', 24)] {
            let of = Header { version, ..PIN };
            let optional = [OptionalBlock { name: *b"KS", content: &content[..size] }];
            let count =
                wrap(&[0x31; 24], &of, &optional, &key[..length], &[0xaa; 22][..30 - length], &mut text).unwrap();
            let (opened, bytes) = unwrap(&[0x31; 24], &text[..count]).unwrap();
            assert_eq!((opened, bytes.bytes()), (of, &key[..length]));
            assert_eq!(optional_block(&text[..count], 0), Ok(Some(optional[0])));
        }
    }
    for size in [9896, 9900, 10583, 10584, 70000] {
        let optional = [OptionalBlock { name: *b"KS", content: &content[..size] }];
        let fault = wrap(&[0x31; 24], &PIN, &optional, &key, &[0xaa; 6], &mut text);
        assert_eq!(fault, Err(KeyBlockError::Length));
    }
}

/// 99 of them that need no `PB`, which have more than 9,999 characters with a length of four digits, and fewer in the block.
#[test]
fn most_optional_blocks_are_made() {
    let (block, mut text) = (OptionalBlock { name: *b"KS", content: &[b'7'; 92] }, [0; 10000]);
    let count = wrap(&[0x31; 16], &PIN, &[block; 99], &[0x5b; 16], &[0xaa; 14], &mut text);
    assert_eq!(count, Ok(16 + 99 * 96 + 80));
    assert_eq!(optional_block(&text[..9600], 98), Ok(Some(block)));
    assert_eq!(optional_block(&text[..9600], 99), Ok(None));
}

/// What is made with optional blocks.
fn made(optional: &[OptionalBlock<'_>]) -> Result<usize, KeyBlockError> {
    wrap(&[1; 16], &PIN, optional, &[2; 16], &[3; 14], &mut [0; 10000])
}

/// One that is added would be the hundredth. A name of characters beside ASCII is none; a `PB` that fills is taken, and names that are alike.
#[test]
fn optional_blocks_are_refused() {
    let none = OptionalBlock { name: *b"KS", content: b"" };
    for wrong in [&[none; 100][..], &[none; 99], &[none, OptionalBlock { name: [b'K', 0xe9], ..none }]] {
        assert_eq!(made(wrong), Err(KeyBlockError::OptionalBlock));
    }
    assert!(made(&[none, OptionalBlock { name: *b"PB", ..none }]).is_ok());
    for name in [*b"pb", *b"Pb", *b"BP", *b"PA"] {
        assert!(made(&[OptionalBlock { name, ..none }]).is_ok());
    }
}
