"""The library by ctypes alone, as a program calls it that has no C compiler: calls give it the numbers of the header."""

import ctypes
import hashlib
import unittest

from cukvashe_des import _library


class WithoutHeader(unittest.TestCase):
    def setUp(self):
        self.library = ctypes.CDLL(_library._place())

    def call(self, name, *arguments):
        """What a call returns as an int. A number is passed as size_t."""
        given = [ctypes.c_size_t(it) if isinstance(it, int) else it for it in arguments]
        return getattr(self.library, f"cukvashe_{name}")(*given)

    def size(self, name):
        call = getattr(self.library, f"cukvashe_{name}_size")
        call.restype = ctypes.c_size_t
        return call()

    def test_version(self):
        self.library.cukvashe_version.restype = ctypes.c_char_p
        parts = [self.call(f"version_{part}") for part in ("major", "minor", "patch")]
        self.assertEqual(self.library.cukvashe_version().decode(), ".".join(map(str, parts)))

    def test_cipher(self):
        """The worked example of J. Orlin Grabbe, in a context of the size that the library names: nothing is written after it."""
        context = (ctypes.c_uint64 * (self.size("des") // 8 + 1))()
        key, block = bytes.fromhex("133457799bbcdff1"), ctypes.create_string_buffer(bytes.fromhex("0123456789abcdef"), self.size("block"))
        self.assertEqual(self.call("des_init", context, key, self.size("des_key")), 0)
        self.assertEqual(self.call("des_encrypt_ecb", context, block, self.size("block")), 0)
        self.assertEqual(block.raw.hex(), "85e813540f0ab405")
        self.assertNotEqual(context[-2], 0)
        self.assertEqual(context[-1], 0)

    def test_methods(self):
        """Padding as RFC 5652 has it, and a key from a password that hashlib makes too."""
        buffer, length = ctypes.create_string_buffer(b"12345", self.size("block")), ctypes.c_size_t()
        method = ctypes.c_int(self.call("pkcs7"))
        self.assertEqual(self.call("pad", buffer, 5, self.size("block"), method, ctypes.byref(length)), 0)
        self.assertEqual((buffer.raw, length.value), (b"12345\3\3\3", 8))
        for name in ("sha1", "sha256"):
            key = ctypes.create_string_buffer(self.size("tdes_ede3_key"))
            self.assertEqual(self.call("pbkdf2", ctypes.c_int(self.call(name)), 7, b"password", 8, b"salt", 4, key, len(key)), 0)
            self.assertEqual(key.raw, hashlib.pbkdf2_hmac(name, b"password", b"salt", 7, 24))
