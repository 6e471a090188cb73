//! The terminal's side of DUKPT (ANSI X9.24-1:2009).

use crate::ffi;
use crate::statuses::OK;
use core::fmt;

/// The keys of a terminal's transactions to come, which are wiped when it is dropped. It has no clone, which would give the same
/// keys again.
///
/// ```
/// use cukvashe_des::payment::{initial_key, transaction_key, Terminal};
///
/// let base = 0x0123456789abcdeffedcba9876543210u128.to_be_bytes();
/// let before = [0xff, 0xff, 0x98, 0x76, 0x54, 0x32, 0x10, 0xe0, 0x00, 0x00];
/// let initial = initial_key(&base, &before);
/// let mut terminal = Terminal::new(&initial, &before);
///
/// let (serial, key) = terminal.next_key().unwrap();
/// assert_eq!(key, 0x042666b49184cfa368de9628d0397bc9u128.to_be_bytes());
/// assert_eq!(key, transaction_key(&initial, &serial));
/// ```
pub struct Terminal {
    state: ffi::DukptTerminal,
}

impl Terminal {
    /// How many bytes the state has.
    pub const STATE_SIZE: usize = 346;

    /// The terminal of an initial key, before its first transaction. The counter of the key serial number plays no part.
    #[must_use]
    pub fn new(initial: &[u8; 16], serial: &[u8; 10]) -> Terminal {
        let mut terminal = Terminal::empty();
        // SAFETY: the pointers are of references, and don't overlap.
        unsafe { ffi::cukvashe_dukpt_terminal_init(&mut terminal.state, initial, serial) };
        terminal
    }

    /// A terminal for a call to write.
    fn empty() -> Terminal {
        Terminal { state: ffi::DukptTerminal { serial: [0; 10], keys: [[0; 16]; 21] } }
    }

    /// The key serial number and the key of the next transaction, that of [`transaction_key`](super::transaction_key), which the
    /// terminal then forgets. Store the state before you use the key, or a key is used twice. `None` after the last transaction,
    /// the 1,048,575th, and of a state without future keys, as one of zeros.
    #[must_use = "the terminal has forgotten the key"]
    pub fn next_key(&mut self) -> Option<([u8; 10], [u8; 16])> {
        let (mut serial, mut key) = ([0; 10], [0; 16]);
        // SAFETY: the pointers are of references, and don't overlap.
        let status = unsafe { ffi::cukvashe_dukpt_terminal_next_key(&mut self.state, &mut serial, &mut key) };
        (status == OK).then_some((serial, key))
    }

    /// The key serial number of the last transaction; before the first its counter is 0.
    #[must_use]
    pub fn serial(&self) -> &[u8; 10] {
        &self.state.serial
    }

    /// The state, from which `from_state` goes on. It is secret: it has the keys of all transactions to come.
    #[must_use]
    pub fn state(&self) -> [u8; Self::STATE_SIZE] {
        let mut state = [0; Self::STATE_SIZE];
        let (serial, keys) = state.split_at_mut(10);
        serial.copy_from_slice(&self.state.serial);
        keys.copy_from_slice(self.state.keys.as_flattened());
        state
    }

    /// The terminal of a state.
    #[must_use]
    pub fn from_state(state: &[u8; Self::STATE_SIZE]) -> Terminal {
        let mut terminal = Terminal::empty();
        let (serial, keys) = state.split_at(10);
        terminal.state.serial.copy_from_slice(serial);
        terminal.state.keys.as_flattened_mut().copy_from_slice(keys);
        terminal
    }
}

/// Writes the type's name, and no part of a key.
impl fmt::Debug for Terminal {
    fn fmt(&self, f: &mut fmt::Formatter<'_>) -> fmt::Result {
        f.write_str("Terminal { ... }")
    }
}
