"""A terminal's keys: the host's, and what is left of them."""

import concurrent.futures
import copy
import pickle
import unittest

import cukvashe_des
from cukvashe_des import ClosedError, DukptTerminal, NoSerialError

from .values import PAIR

INITIAL = bytes.fromhex("6ac292faa1315b4d858ab3a3d7d5933a")
BEFORE = bytes.fromhex("ffff9876543210e00000")


class Terminals(unittest.TestCase):
    def test_many_keys(self):
        """Those of the host, and of a terminal that goes on from a state; and a key that was given is not in the state. The counter of the key
        serial number that a terminal is made of plays no part."""
        terminal = DukptTerminal(INITIAL, bytearray.fromhex("ffff9876543210fabcde"))
        taken, next_serial = [], BEFORE
        for _ in range(2500):
            serial, key = terminal.next_key()
            next_serial = cukvashe_des.dukpt_next_serial(next_serial)
            self.assertEqual(serial, next_serial)
            state = terminal.state()
            self.assertNotIn(key, [state[at : at + 16] for at in range(10, 346, 16)])
            terminal = DukptTerminal.from_state(bytearray(state))
            taken.append((serial, key))
        keys = cukvashe_des.dukpt_transaction_keys_from_base(PAIR, b"".join(serial for serial, _ in taken))
        self.assertEqual(b"".join(key for _, key in taken), keys)

    def test_end(self):
        """The last counter is 1ff800; after its transaction there is none, and the state stays."""
        terminal = DukptTerminal.from_state(bytes.fromhex("ffff9876543210fff7ff") + bytes([7]) * 336)
        serial, _ = terminal.next_key()
        self.assertEqual(serial.hex(), "ffff9876543210fff800")
        state = terminal.state()
        for _ in range(3):
            self.assertRaises(NoSerialError, terminal.next_key)
            self.assertEqual(terminal.state(), state)

    def test_zeros(self):
        """A state without future keys, as one that was wiped, makes no key, and stays; one byte of one key is enough."""
        for serial in (bytes(10), BEFORE):
            terminal = DukptTerminal.from_state(serial + bytes(336))
            self.assertRaises(NoSerialError, terminal.next_key)
            self.assertEqual(terminal.state(), serial + bytes(336))
            for at in (0, 335):
                keys = bytearray(336)
                keys[at] = 1
                DukptTerminal.from_state(serial + keys).next_key()

    def test_close(self):
        """What it held is gone, by `close` and at the end of a `with` block, and it goes into no text, copy or file."""
        terminal = DukptTerminal(INITIAL, BEFORE)
        context = terminal._context
        for call in (copy.copy, copy.deepcopy, pickle.dumps):
            self.assertRaises(TypeError, call, terminal)
        self.assertEqual(str(terminal), "DukptTerminal { ... }")
        self.assertFalse(hasattr(terminal, "__dict__"))
        with terminal as same:
            self.assertIs(same, terminal)
            terminal.next_key()
        self.assertNotEqual(bytes(context), bytes(346))
        for call in (terminal.next_key, terminal.state):
            self.assertRaises(ClosedError, call)
        terminal.close()
        context.__del__()
        self.assertEqual(bytes(context), bytes(346))

    def test_threads(self):
        """Calls take turns: no key is given twice, and none is left out."""
        terminal = DukptTerminal(INITIAL, BEFORE)
        with concurrent.futures.ThreadPoolExecutor(8) as pool:
            taken = sorted(pool.map(lambda _: terminal.next_key(), range(1000)))
        other = DukptTerminal(INITIAL, BEFORE)
        self.assertEqual(taken, [other.next_key() for _ in range(1000)])
