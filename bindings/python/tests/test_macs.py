"""The message authentication codes: one table over all of them, beside known answers."""

import unittest

import cukvashe_des
from cukvashe_des import CmacTdesEde2, CmacTdesEde3, KeyLengthError, PaddingMethodError, RetailMacDes, TagMismatchError

from .values import CMACS, COUNTS, KEY, LENGTHS, PADDED_MACS, PAIR, TEXT, known_macs

# The examples of CMAC over triple DES that go with NIST SP 800-38B: the length of the message, the tags under three keys and two.
THREE = bytes.fromhex("8aa83bf8cbda10620bc1bf19fbb6cd58bc313d4a371ca8b5")
TWO = bytes.fromhex("4cf15134a2850dd58a3d10ba80570d38")
MESSAGE = bytes.fromhex("6bc1bee22e409f96e93d7e117393172aae2d8a571e03ac9c9eb76fac45af8e51")
CMAC = [
    (0, "b7a688e122ffaf95", "bd2ebf9a3ba00361"),
    (8, "8e8f293136283797", "4ff2ab813c53ce83"),
    (20, "743ddbe0ce2dc2ed", "62dd1b471902bd4e"),
    (32, "33e6b1092400eae5", "31b1e431dabc4eb8"),
]


class Tags(unittest.TestCase):
    def answers(self, kind, arguments, message, tag):
        for no_tables in (False, True):
            self.answers_by(no_tables, kind, arguments, message, tag)

    def answers_by(self, no_tables, kind, arguments, message, tag):
        """The tag of the message at once, and cut at some places: by pieces, by a copy, and after tags of what came before."""
        self.assertEqual(kind(*arguments, message, no_tables=no_tables).digest(), tag)
        for cut in sorted({0, 1, 7, 8, 9, len(message) // 2, len(message)}):
            mac = kind(*arguments, no_tables=no_tables)
            mac.update(message[:cut])
            other = mac.copy()
            mac.digest()
            self.assertNotEqual(mac.hexdigest(), "")
            mac.update(message[cut:])
            for byte in message[cut : cut + 40]:
                other.update(bytes([byte]))
            other.update(message[cut + 40 :])
            self.assertEqual((mac.digest(), other.hexdigest()), (tag, tag.hex()))
        self.verifies(mac, tag)

    def verifies(self, mac, tag):
        """The tag by `verify`, its first 4 to 8 bytes by `verify_truncated_left`, and nothing else of any length or with a bit
        turned."""
        for accepts, least in ((mac.verify, 8), (mac.verify_truncated_left, 4)):
            for length in LENGTHS:
                part = (tag + bytes(33))[:length]
                if least <= length <= 8:
                    self.assertIsNone(accepts(part))
                    for place in range(length):
                        turned = bytearray(part)
                        turned[place] ^= 1
                        self.assertRaises(TagMismatchError, accepts, turned)
                else:
                    self.assertRaises(TagMismatchError, accepts, part)
            self.assertRaises(TagMismatchError, accepts, tag + tag)
        self.assertEqual(mac.digest(), tag)

    def test_known(self):
        met = set()
        for kind, arguments, message, tag in known_macs():
            met.add((kind, *arguments[1:], len(message)))
            self.answers(kind, arguments, message, tag)
        for kind in PADDED_MACS + CMACS:
            for method in ((), ) if kind in CMACS else ((1,), (2,)):
                self.assertLessEqual({(kind, *method, 8 * count) for count in COUNTS}, met)

    def test_published(self):
        for length, three, two in CMAC:
            self.answers(CmacTdesEde3, (THREE,), MESSAGE[:length], bytes.fromhex(three))
            self.answers(CmacTdesEde2, (TWO,), MESSAGE[:length], bytes.fromhex(two))

    def test_whole_blocks(self):
        """A message of three blocks, to which the padding adds one. The tag is by three runs of `openssl enc`."""
        message, tag = "38413d4ba2325cf1141f707471ac2ced57db530f0123b5ac", "cbedb61c18323675"
        self.answers(RetailMacDes, (PAIR, 2), bytes.fromhex(message), bytes.fromhex(tag))

    def test_long(self):
        """A message longer than 16 bits count, at once and in pieces."""
        message = bytes(range(251)) * 300
        for kind in PADDED_MACS + CMACS:
            arguments = (KEY[: kind.key_size],) if kind in CMACS else (KEY[: kind.key_size], 2)
            pieces, whole = kind(*arguments), kind(*arguments)
            for at in range(0, len(message), 1000):
                pieces.update(message[at : at + 1000])
            whole.update(message)
            self.assertEqual(whole.digest(), pieces.digest())
            self.assertEqual(kind(*arguments, message).digest(), pieces.digest())
            self.assertRaises(TagMismatchError, whole.verify, kind(*arguments, message[: len(message) % 65536]).digest())

    def test_no_tables(self):
        """A MAC without tables, and its copy, are of another state than one with tables; the argument is asked for by name alone."""
        for kind in PADDED_MACS + CMACS:
            arguments = (KEY[: kind.key_size],) if kind in CMACS else (KEY[: kind.key_size], 2)
            no_tables = kind(*arguments, no_tables=True)
            self.assertNotEqual(bytes(no_tables._context), bytes(kind(*arguments)._context))
            self.assertEqual(bytes(no_tables._context), bytes(no_tables.copy()._context))
            self.assertRaises(TypeError, kind, *arguments, b"", True)

    def test_method_by_name(self):
        for kind in PADDED_MACS:
            key = KEY[: kind.key_size]
            for method in (1, 2):
                self.assertEqual(kind(key, padding=method, data=TEXT).digest(), kind(key, method, TEXT).digest())


class Refused(unittest.TestCase):
    def test_keys(self):
        for kind in PADDED_MACS + CMACS:
            method = () if kind in CMACS else (1,)
            for length in LENGTHS:
                for no_tables in (False, True):
                    if length == kind.key_size:
                        self.assertIsInstance(kind(bytes(length), *method, no_tables=no_tables), kind)
                    else:
                        self.assertRaisesRegex(KeyLengthError, f"not {length}$", kind, bytes(length), *method, no_tables=no_tables)

    def test_methods(self):
        for kind in PADDED_MACS:
            key = KEY[: kind.key_size]
            for number in (0, 3, -1, 257, 2**32 + 1, 2**64 + 2, 10**30):
                self.assertRaises(PaddingMethodError, kind, key, number)
                self.assertRaises(PaddingMethodError, kind, key, number, no_tables=True)
            for other in (b"1", "1", 1.0, None, True, False, key):
                self.assertRaises(TypeError, kind, key, other)

    def test_sizes(self):
        for kind in PADDED_MACS + CMACS:
            self.assertEqual((kind.digest_size, kind.block_size), (8, 8))
        self.assertEqual([kind.key_size for kind in PADDED_MACS + CMACS], [8, 16, 24, 16, 16, 24])
        self.assertEqual(cukvashe_des.TAG_SIZE, 8)
