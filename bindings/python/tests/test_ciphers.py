"""The ciphers: one table over all of them, beside known answers."""

import unittest

from cukvashe_des import BlockLengthError, Des, KeyLengthError, VectorLengthError

from .values import ANSWERS, CIPHERS, COUNTS, IV, KEY, LENGTHS, LONG, TEXT, known_ciphertexts

# The first byte is 0, which the end of a text would be.
CBC_IV = bytes.fromhex("0034567890abcdef")


class KnownAnswers(unittest.TestCase):
    """Each call of a cipher makes the answer, and the call of the other direction takes it back."""

    def electronic_codebook(self, cipher, plain, answer):
        self.assertEqual(cipher.encrypt_ecb(plain), answer)
        self.assertEqual(cipher.decrypt_ecb(answer), plain)
        data = bytearray(plain)
        self.assertIsNone(cipher.encrypt_ecb_into(data))
        self.assertEqual(data, answer)
        self.assertIsNone(cipher.decrypt_ecb_into(data))
        self.assertEqual(data, plain)

    def cbc(self, cipher, iv, plain, answer):
        self.assertEqual(cipher.encrypt_cbc(plain, iv=iv), answer)
        self.assertEqual(cipher.decrypt_cbc(answer, iv=iv), plain)
        data, last = bytearray(plain), (iv + answer)[-8:]
        self.assertEqual(cipher.encrypt_cbc_into(data, iv=iv), last)
        self.assertEqual(data, answer)
        self.assertEqual(cipher.decrypt_cbc_into(data, iv=iv), last)
        self.assertEqual(data, plain)

    def test_published(self):
        met = set()
        for name, key, plain, answer, iv in known_ciphertexts():
            kind = CIPHERS.get(name.partition("-")[0])
            if kind is None:
                continue
            met.add(name)
            for no_tables in (False, True):
                if iv:
                    self.cbc(kind(key, no_tables=no_tables), iv, plain, answer)
                else:
                    self.electronic_codebook(kind(key, no_tables=no_tables), plain, answer)
        self.assertLessEqual({"des", "ede2", "ede3", "des-cbc", "ede3-cbc"}, met)

    def test_lists(self):
        """The published blocks, again and again. CBC decrypts their ciphertexts to each block xor the answer before it,
        so its encryption gives the answers back."""
        for kind, answer in ANSWERS.items():
            ciphers = kind(KEY[: kind.key_size]), kind(KEY[: kind.key_size], no_tables=True)
            for count in (*COUNTS, LONG):
                plain, encrypted = (TEXT * LONG)[: 8 * count], (answer * LONG)[: 8 * count]
                before = (CBC_IV + encrypted)[: 8 * count]
                by_cbc = bytes(byte ^ other for byte, other in zip(plain, before))
                for cipher in ciphers:
                    self.electronic_codebook(cipher, plain, encrypted)
                    self.cbc(cipher, CBC_IV, by_cbc, encrypted)

    def test_cbc_in_pieces(self):
        """What the calls in place make of pieces is what the call of the whole makes, in both directions."""
        for kind in ANSWERS:
            cipher, blocks = kind(KEY[: kind.key_size]), bytes(range(256)) * 24
            by_cbc = cipher.encrypt_cbc(blocks, iv=IV)
            for call, whole, made in ((cipher.encrypt_cbc_into, blocks, by_cbc), (cipher.decrypt_cbc_into, by_cbc, blocks)):
                vector, pieces = IV, bytearray(whole)
                for start, end in ((0, 8), (8, 8), (8, 2056), (2056, len(pieces))):
                    vector = call(memoryview(pieces)[start:end], iv=vector)
                self.assertEqual((pieces, vector), (made, by_cbc[-8:]))


class Lengths(unittest.TestCase):
    def test_keys(self):
        for kind in ANSWERS:
            for length in LENGTHS:
                for no_tables in (False, True):
                    if length == kind.key_size:
                        self.assertIsInstance(kind(bytes(length), no_tables=no_tables), kind)
                    else:
                        self.assertRaisesRegex(KeyLengthError, f"not {length}$", kind, bytes(length), no_tables=no_tables)

    def test_data(self):
        """Each call refuses each length that is not whole blocks, and those in place change nothing."""
        for kind in ANSWERS:
            cipher = kind(KEY[: kind.key_size])
            for length in [length for length in (*LENGTHS, 1023, 1025, 2047, 4801) if length % 8]:
                for call in (cipher.encrypt_ecb, cipher.decrypt_ecb, cipher.encrypt_ecb_into, cipher.decrypt_ecb_into):
                    data = bytearray(b"\x5a" * length)
                    self.assertRaisesRegex(BlockLengthError, f"^{length} bytes", call, data)
                    self.assertEqual(data, b"\x5a" * length)
                for call in (cipher.encrypt_cbc, cipher.decrypt_cbc, cipher.encrypt_cbc_into, cipher.decrypt_cbc_into):
                    data, iv = bytearray(b"\x5a" * length), bytearray(IV)
                    self.assertRaisesRegex(BlockLengthError, f"^{length} bytes", call, data, iv=iv)
                    self.assertEqual((data, iv), (b"\x5a" * length, IV))

    def test_vectors(self):
        for kind in ANSWERS:
            cipher = kind(KEY[: kind.key_size])
            for length in LENGTHS:
                for call in (cipher.encrypt_cbc, cipher.decrypt_cbc, cipher.encrypt_cbc_into, cipher.decrypt_cbc_into):
                    data = bytearray(TEXT)
                    if length == 8:
                        call(data, iv=bytes(length))
                    else:
                        self.assertRaisesRegex(VectorLengthError, f"not {length}$", call, data, iv=bytes(length))
                        self.assertEqual(data, TEXT)

    def test_vector_by_name(self):
        """The order of other libraries, by which two blocks that are exchanged gave other bytes, is a TypeError that says what to write, and
        changes nothing; so is any other in which the vector has no name."""
        for kind in ANSWERS:
            cipher, data = kind(KEY[: kind.key_size]), bytearray(TEXT[:8])
            for call in (cipher.encrypt_cbc, cipher.decrypt_cbc, cipher.encrypt_cbc_into, cipher.decrypt_cbc_into):
                written = f"^the data come first, and vectors go by name: {call.__name__}\\(data, iv=iv\\)$"
                for arguments in ((IV, data), (data, IV), (IV, data, data)):
                    self.assertRaisesRegex(TypeError, written, call, *arguments)
                self.assertRaisesRegex(TypeError, "'iv'", call, data)
                self.assertEqual(data, TEXT[:8])

    def test_no_tables(self):
        """A cipher without tables is made by its own call, and is asked for by name alone."""
        for kind in ANSWERS:
            key = KEY[: kind.key_size]
            contexts = [bytes(kind(key, **words)._context) for words in ({}, {"no_tables": False}, {"no_tables": True})]
            self.assertEqual(contexts[0], contexts[1])
            self.assertNotEqual(contexts[0], contexts[2])
            self.assertRaises(TypeError, kind, key, True)

    def test_sizes(self):
        """What the classes say of themselves."""
        self.assertEqual([(kind.key_size, kind.block_size) for kind in ANSWERS], [(8, 8), (16, 8), (24, 8)])
        self.assertEqual(Des(bytearray(KEY[:8])).encrypt_ecb(TEXT), ANSWERS[Des])
