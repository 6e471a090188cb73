//! PINs of each length, and a terminal's keys beside the host's; known answers and faults are in bindings/known_calls.txt.

use cukvashe_des::payment::pin_blocks::*;
use cukvashe_des::payment::{initial_key, next_serial, transaction_keys_from_base, Terminal};

/// PINs of 4 to 12 digits, zeros too, come back from each format.
#[test]
fn pins_of_every_length_come_back() {
    let (account, transaction, fill) =
        (b"4012345678909", [15, 14, 0, 9, 10, 5, 1, 2, 3, 4], [10, 11, 12, 13, 14, 15, 10, 11, 12, 13]);
    for (digits, length) in [b"908172635441", b"000000000000"].into_iter().flat_map(|d| (4..13).map(move |n| (d, n))) {
        let pin = Pin::new(&digits[..length]).unwrap();
        assert_eq!(pin.text(), &digits[..length]);
        let block = encode_format_0(&pin, account).unwrap();
        assert_eq!(decode_format_0(&block, account).unwrap().text(), pin.text());
        let block = encode_format_1(&pin, &transaction).unwrap();
        assert_eq!(decode_format_1(&block).unwrap().clone().text(), pin.text());
        assert_eq!(decode_format_2(&encode_format_2(&pin)).unwrap().text(), pin.text());
        let block = encode_format_3(&pin, account, &fill).unwrap();
        assert_eq!(decode_format_3(&block, account).unwrap().text(), pin.text());
    }
}

const BASE: [u8; 16] = 0x0123456789abcdeffedcba9876543210_u128.to_be_bytes();

/// The key serial number of the published values with a counter.
fn serial(counter: u32) -> [u8; 10] {
    let mut serial = [0xff, 0xff, 0x98, 0x76, 0x54, 0x32, 0, 0, 0, 0];
    serial[6..].copy_from_slice(&(0x10e00000 | counter).to_be_bytes());
    serial
}

fn terminal(counter: u32) -> Terminal {
    Terminal::new(&initial_key(&BASE, &serial(0)), &serial(counter))
}

/// The host's keys, and those of a terminal that goes on from a state; a key that was given is not in the state. The counter of the key serial
/// number that a terminal is made of plays no part.
#[test]
fn terminals_answer_as_the_host() {
    let mut terminal = terminal(0x1abcde);
    assert_eq!(terminal.serial(), &serial(0));
    let (mut serials, mut keys) = (vec![], vec![]);
    for _ in 0..3000 {
        let next = next_serial(terminal.serial());
        let (serial, key) = terminal.next_key().unwrap();
        assert_eq!((next, terminal.serial()), (Some(serial), &serial));
        let state = terminal.state();
        assert!(state[10..].chunks(16).all(|register| register != key));
        terminal = Terminal::from_state(&state);
        serials.push(serial);
        keys.push(key);
    }
    let mut wanted = vec![[0; 16]; keys.len()];
    transaction_keys_from_base(&BASE, &serials, &mut wanted).unwrap();
    assert_eq!(keys, wanted);
}

/// The last counter is 1ff800; after its transaction there is none, and the state stays.
#[test]
fn terminals_end() {
    let mut state = [7; Terminal::STATE_SIZE];
    state[..10].copy_from_slice(&serial(0x1ff7ff));
    let mut terminal = Terminal::from_state(&state);
    assert_eq!(terminal.state(), state);
    assert_eq!(terminal.next_key().map(|(serial, _)| serial), Some(serial(0x1ff800)));
    let last = terminal.state();
    for _ in 0..3 {
        assert_eq!(terminal.next_key(), None);
        assert_eq!(terminal.state(), last);
    }
}

/// A state without future keys, as one that was wiped, makes no key, and stays; one byte of one key is enough.
#[test]
fn terminals_need_a_future_key() {
    for begin in [[0; 10], serial(0)] {
        let mut state = [0; Terminal::STATE_SIZE];
        state[..10].copy_from_slice(&begin);
        let mut terminal = Terminal::from_state(&state);
        assert_eq!(terminal.next_key(), None);
        assert_eq!(terminal.state(), state);
        for at in [10, Terminal::STATE_SIZE - 1] {
            let mut other = state;
            other[at] = 1;
            assert!(Terminal::from_state(&other).next_key().is_some());
        }
    }
}
