"""Key blocks: what is made and read again, beside the `cryptography` package; known ones and faults are in bindings/known_calls.txt."""

import enum
import inspect
import os
import random
import unittest
from dataclasses import replace
from unittest import mock

try:
    from cryptography.hazmat.primitives.ciphers import Cipher, modes
    from cryptography.hazmat.primitives.cmac import CMAC
except ImportError:
    Cipher = None
else:
    try:
        from cryptography.hazmat.decrepit.ciphers.algorithms import TripleDES
    except ImportError:
        from cryptography.hazmat.primitives.ciphers.algorithms import TripleDES

import cukvashe_des
from cukvashe_des import (
    KeyBlockFieldError,
    KeyBlockHeader,
    KeyBlockVersionError,
    key_block_optional_blocks,
    unwrap_key_block,
    wrap_key_block,
)

from .values import BLOCK, BLOCK_HEADER, BLOCK_KEY, PROTECTION, SEED, random_bytes

LONG = bytes.fromhex("3132333435363738393a3b3c3d3e3f404142434445464748")
LONG_KEY = bytes(range(24))
DATA = KeyBlockHeader("B", "D0", "T", "B", "00", "N")
LONG_BLOCK = "B0112D0TB00N0200KV0AABCDEFPB0600E5F817BCB9632D20A17A5D89EACA9C285438591465453BC1D189836F4D5E534A7F55B5941D869047"


def changed(**fields):
    """The header of BLOCK with other fields."""
    names = ("version", "usage", "algorithm", "mode", "key_version", "exportability")
    return KeyBlockHeader(**{**{name: getattr(BLOCK_HEADER, name) for name in names}, **fields})


class KeyBlocks(unittest.TestCase):
    def test_made(self):
        """With optional blocks as pairs of each kind."""
        for optional in ([("KV", "ABCDEF")], (["KV", "ABCDEF"],), {"KV": "ABCDEF"}, iter([("KV", "ABCDEF")])):
            self.assertEqual(wrap_key_block(LONG, DATA, LONG_KEY, optional=optional, padding=b"\xa1" * 6), LONG_BLOCK)

    def test_read_again(self):
        """Keys of each length, under keys of each, of both versions: blocks are of one length, and two of one key differ."""
        for version in "BC":
            header, lengths = changed(version=version), set()
            for protection in (PROTECTION, LONG):
                for key in (LONG_KEY[:8], LONG_KEY[:16], LONG_KEY):
                    block, other = (wrap_key_block(protection, header, key) for _ in range(2))
                    self.assertIs(type(block), str)
                    self.assertNotEqual(block, other)
                    lengths |= {len(block), len(other)}
                    for made in (block, other):
                        self.assertEqual(unwrap_key_block(protection, made), (header, key))
            self.assertEqual(lengths, {96 if version == "B" else 88})

    def test_random_padding(self):
        """It is the system's, as many bytes as hide the length."""
        for key in (LONG_KEY[:8], LONG_KEY[:16], LONG_KEY):
            for padding in ({}, {"padding": None}):
                with mock.patch.object(os, "urandom", return_value=bytes(30 - len(key))) as urandom:
                    block = wrap_key_block(PROTECTION, BLOCK_HEADER, key, **padding)
                urandom.assert_called_once_with(30 - len(key))
                self.assertEqual(block, wrap_key_block(PROTECTION, BLOCK_HEADER, key, padding=bytes(30 - len(key))))

    def test_wrapped_again(self):
        """By what was read of it: header, key and optional blocks are the same, with and without the block that fills."""
        read = key_block_optional_blocks(LONG_BLOCK)
        for optional in (read, read[:1]):
            again = wrap_key_block(LONG, *unwrap_key_block(LONG, LONG_BLOCK), optional=optional)
            self.assertEqual((unwrap_key_block(LONG, again), key_block_optional_blocks(again)), ((DATA, LONG_KEY), read))

    def test_printable_contents(self):
        """Each character that a content may have."""
        optional = [("KS", "".join(map(chr, range(0x20, 0x7F))) + " ")]
        block = wrap_key_block(PROTECTION, BLOCK_HEADER, BLOCK_KEY, optional=optional)
        self.assertEqual(key_block_optional_blocks(block)[:1], optional)

    def test_long_optional_blocks(self):
        for length in (0, 1, 7, 250, 251, 252, 600, 9800):
            content = "x" * length
            block = wrap_key_block(PROTECTION, BLOCK_HEADER, BLOCK_KEY, optional=[("CT", content), ("KS", "")])
            self.assertEqual(key_block_optional_blocks(block)[:2], [("CT", content), ("KS", "")])
            self.assertEqual(unwrap_key_block(PROTECTION, block), (BLOCK_HEADER, BLOCK_KEY))
        for length in (9900, 10001, 70000):
            with self.assertRaises(cukvashe_des.KeyBlockLengthError):
                wrap_key_block(PROTECTION, BLOCK_HEADER, BLOCK_KEY, optional=[("CT", "x" * length)])

    def test_each_filling(self):
        """Optional blocks of both forms that end at each place within eight characters: PB has each of its lengths."""
        for length in (*range(8), *range(248, 264)):
            block = wrap_key_block(PROTECTION, BLOCK_HEADER, BLOCK_KEY, optional=[("CT", "x" * length)])
            self.assertEqual(key_block_optional_blocks(block)[0], ("CT", "x" * length))

    def test_headers_refused(self):
        """Characters of more than one byte, and other types."""
        self.assertRaises(KeyBlockVersionError, wrap_key_block, PROTECTION, changed(version="\U0001f600"), BLOCK_KEY)
        for name in ("usage", "algorithm", "mode", "key_version", "exportability"):
            for text in ("P\xe9", "\U0001f600", "\uff25"):
                self.assertRaises(KeyBlockFieldError, wrap_key_block, PROTECTION, changed(**{name: text}), BLOCK_KEY)
            for wrong in (b"P0", 0, None):
                self.assertRaises(TypeError, wrap_key_block, PROTECTION, changed(**{name: wrong}), BLOCK_KEY)
        for header in ("B", None, ("B", "P0", "T", "E", "00", "E"), BLOCK.decode(), changed(version=b"B")):
            self.assertRaises(TypeError, wrap_key_block, PROTECTION, header, BLOCK_KEY)

    def test_texts_of_other_classes(self):
        """Members of enumerations that are texts too, and a text that says another length, are taken for their characters."""

        class KeyBlockUsage(str, enum.Enum):
            PIN = "P0"

        class Said(str):
            def __len__(self):
                return 1

            def __format__(self, _):
                return "9"

            def encode(self, *_):
                return b"A"

        header = replace(BLOCK_HEADER, usage=KeyBlockUsage.PIN, algorithm=Said("T"), version=Said("B"))
        padding = bytes.fromhex("1c2965473ce2")
        self.assertEqual(wrap_key_block(PROTECTION, header, BLOCK_KEY, padding=padding), BLOCK.decode())
        self.assertEqual(unwrap_key_block(PROTECTION, Said(BLOCK.decode())), (BLOCK_HEADER, BLOCK_KEY))
        for name in ("version", "usage", "algorithm", "mode", "key_version", "exportability"):
            with self.assertRaises((KeyBlockFieldError, KeyBlockVersionError)):
                wrap_key_block(PROTECTION, replace(BLOCK_HEADER, **{name: Said("P0T")}), BLOCK_KEY, padding=padding)

    def test_optional_refused(self):
        for optional in ([("K\xe9", "")], [("\xe9", "")], [("KS", "")] * 100, [("KS", "")] * 99, [("KS", "\ud800")],
                         [("PB", "0000"), ("PB", "0000")]):
            with self.assertRaises(cukvashe_des.OptionalBlockError):
                wrap_key_block(PROTECTION, BLOCK_HEADER, BLOCK_KEY, optional=optional)
        for name in ("pb", "Pb", "BP", "PA"):
            block = wrap_key_block(PROTECTION, BLOCK_HEADER, BLOCK_KEY, optional=[(name, "")])
            self.assertEqual(key_block_optional_blocks(block), [(name, ""), ("PB", "")])
        for optional in ("KS04", b"KS04", bytearray(b"KS04"), ["KS"], [("KS",)], [("KS", "", "")], [("KS", b"00")], [(1, "")], 3, [None]):
            with self.assertRaises(TypeError):
                wrap_key_block(PROTECTION, BLOCK_HEADER, BLOCK_KEY, optional=optional)

    def test_types_refused(self):
        """A protection key or a key as a text, and a padding that stands where a key does."""
        for wrong in (PROTECTION.hex(), None, 16):
            self.assertRaises(TypeError, unwrap_key_block, wrong, BLOCK)
            self.assertRaises(TypeError, wrap_key_block, wrong, BLOCK_HEADER, BLOCK_KEY)
            self.assertRaises(TypeError, wrap_key_block, PROTECTION, BLOCK_HEADER, wrong)
        self.assertRaises(TypeError, wrap_key_block, PROTECTION, BLOCK_HEADER, BLOCK_KEY, (), bytes(6))
        for name in ("optional", "padding"):
            self.assertIs(inspect.signature(wrap_key_block).parameters[name].kind, inspect.Parameter.KEYWORD_ONLY)

    def test_header(self):
        """It is a value: equal to one of the same fields, and none of them can be changed."""
        self.assertEqual(BLOCK_HEADER, KeyBlockHeader("B", "P0", "T", "E", "00", "E"))
        self.assertEqual(hash(BLOCK_HEADER), hash(changed()))
        self.assertNotEqual(BLOCK_HEADER, changed(mode="D"))
        with self.assertRaises(AttributeError):
            BLOCK_HEADER.mode = "D"


@unittest.skipIf(Cipher is None, "the package `cryptography` is not there")
class BesideCryptography(unittest.TestCase):
    """Blocks by the package's ciphers and the standard's steps, of random keys, are read, and those that are made are the same."""

    @staticmethod
    def by_cbc(key, iv, data):
        encryptor = Cipher(TripleDES((key * 2)[:24]), modes.CBC(iv)).encryptor()
        return encryptor.update(data) + encryptor.finalize()

    @staticmethod
    def cmac(key, data):
        mac = CMAC(TripleDES((key * 2)[:24]))
        mac.update(data)
        return mac.finalize()

    def derived(self, protection, usage):
        """The key for encryption, 0, or MACs, 1, of version B: CMACs of a counter, the usage, and the length in bits."""
        three = len(protection) == 24
        rest = bytes([0, usage, 0, 0, three, 0, 0xC0 if three else 0x80])
        return b"".join(self.cmac(protection, bytes([counter]) + rest) for counter in range(1, len(protection) // 8 + 1))

    def block(self, protection, version, rest, optional, data):
        """The block of key data. `rest` are the fields from the usage to the exportability."""
        front = version + "%04d" + rest + "%02d00" % len(optional) + "".join(optional)
        front = (front % (len(front) + 2 * len(data) + (16 if version == "B" else 8))).encode()
        if version == "B":
            mac = self.cmac(self.derived(protection, 1), front + data)
            encrypted = self.by_cbc(self.derived(protection, 0), mac, data)
        else:
            encryption, mac_key = (bytes(byte ^ mask for byte in protection) for mask in b"EM")
            encrypted = self.by_cbc(encryption, front[:8], data)
            mac = self.by_cbc(mac_key, bytes(8), front + encrypted)[-8:-4]
        return front.decode() + encrypted.hex().upper() + mac.hex().upper()

    def test_random_blocks(self):
        chance = random.Random(SEED)
        for number in range(300):
            protection, key = random_bytes(chance, 16 + 8 * (number % 2)), random_bytes(chance, 8 + 8 * (number // 2 % 3))
            padding = random_bytes(chance, 30 - len(key) - 8 * (number // 12 % 2 if len(key) < 24 else 0))
            header = KeyBlockHeader("BC"[number // 6 % 2], "D0", "T", "B", "00", "N")
            optional = [("KS", "0123456789ab"), ("CT", "x" * 300 + "yz")][: number // 24 % 3]
            data = bytes([0, 8 * len(key)]) + key + padding
            texts = ["KS10" + "0123456789ab", "CT00020138" + "x" * 300 + "yz"][: len(optional)]
            block = self.block(protection, header.version, "D0TB00N", texts, data)
            self.assertEqual(wrap_key_block(protection, header, key, optional=optional, padding=padding), block, (SEED, number))
            self.assertEqual(unwrap_key_block(protection, block), (header, key))
            self.assertEqual(key_block_optional_blocks(block), optional)

    def test_version_a(self):
        """It is read: as version C, by the same keys."""
        chance = random.Random(SEED)
        for size in (8, 16, 24):
            key = random_bytes(chance, size)
            data = bytes([0, 8 * size]) + key + random_bytes(chance, 6)
            self.assertEqual(unwrap_key_block(PROTECTION, self.block(PROTECTION, "A", "P0TE00E", [], data)),
                             (changed(version="A"), key))
