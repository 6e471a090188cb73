"""Keys from passwords beside `hashlib`, and files of `openssl enc`; faults are in bindings/known_calls.txt."""

import hashlib
import inspect
import random
import shutil
import subprocess
import unittest

from cukvashe_des import Des, TdesEde2, TdesEde3, bytes_to_key, open_salted, pbkdf2

from .values import SALTED, SALTED_TEXT, SEED, random_bytes

SALT = bytes.fromhex("0123456789abcdef")

# Of each cipher the word of `openssl enc`.
CIPHERS = {Des: "des-cbc", TdesEde2: "des-ede-cbc", TdesEde3: "des3"}

# Each -md, and the iterations of -iter.
DERIVATIONS = [("md5", None), ("sha1", None), ("sha256", None), ("sha1", 1), ("sha256", 7)]


class Keys(unittest.TestCase):
    def test_beside_hashlib(self):
        for password in (b"", b"x", b"secret", bytes(range(63)), bytes(range(64)), bytes(range(65)), bytes(200)):
            for name in ("sha1", "sha256"):
                for length in (1, 8, 20, 21, 32, 33, 100):
                    for count, salt in ((1, SALT), (2, b""), (2, b"Salted__" + SALT), (50, SALT)):
                        key = hashlib.pbkdf2_hmac(name, password, salt, count, length)
                        self.assertEqual(pbkdf2(name, password, salt, count, length), key)
            for name in ("md5", "sha1", "sha256"):
                digest = made = b""
                while len(made) < 100:
                    digest = hashlib.new(name, digest + password + SALT).digest()
                    made += digest
                for length in (1, 16, 24, 32, 33, 100):
                    self.assertEqual(bytes_to_key(name, bytearray(password), memoryview(SALT), length), made[:length])

    def test_types(self):
        for wrong in ("secret", None, 6):
            self.assertRaises(TypeError, pbkdf2, "sha1", wrong, SALT, 1, 24)
            self.assertRaises(TypeError, pbkdf2, "sha1", b"secret", wrong, 1, 24)
            self.assertRaises(TypeError, bytes_to_key, "sha1", wrong, SALT, 24)
        for wrong in ("1", 1.0, None, True):
            self.assertRaises(TypeError, pbkdf2, "sha1", b"secret", SALT, wrong, 24)
            self.assertRaises(TypeError, pbkdf2, "sha1", b"secret", SALT, 1, wrong)
        for wrong in (b"sha1", hashlib.sha1, 22):
            self.assertRaises(TypeError, pbkdf2, wrong, b"secret", SALT, 1, 24)


class Files(unittest.TestCase):
    def test_types(self):
        self.assertEqual(open_salted(TdesEde3, b"secret", SALTED, hash_name="sha256", iterations=None), SALTED_TEXT)
        self.assertRaises(TypeError, open_salted, TdesEde3, "secret", SALTED)
        self.assertRaises(TypeError, open_salted, TdesEde3, b"secret", SALTED.hex())
        self.assertRaises(TypeError, open_salted, "des3", b"secret", SALTED)
        self.assertRaises(TypeError, open_salted, TdesEde3, b"secret", SALTED, "sha256")
        for name in ("hash_name", "iterations"):
            self.assertIs(inspect.signature(open_salted).parameters[name].kind, inspect.Parameter.KEYWORD_ONLY)

    @unittest.skipIf(shutil.which("openssl") is None, "the program `openssl` is not there")
    def test_beside_openssl(self):
        """Files of each cipher, hash function and length about that of a block."""
        chance = random.Random(SEED)
        for cipher, word in CIPHERS.items():
            for name, count in DERIVATIONS:
                for length in (0, 1, 7, 8, 9, 100, 5000):
                    text = random_bytes(chance, length)
                    words = ["openssl", "enc", f"-{word}", "-md", name, "-pass", "pass:secret", "-provider", "legacy",
                             "-provider", "default"]
                    words += [] if count is None else ["-iter", str(count)]
                    data = subprocess.run(words, input=text, stdout=subprocess.PIPE, stderr=subprocess.DEVNULL, check=True).stdout
                    self.assertEqual(open_salted(cipher, b"secret", data, hash_name=name, iterations=count), text, (SEED, word, name, length))
