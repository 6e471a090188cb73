"""Columns of MySQL, MariaDB, pgcrypto and Jasypt, and keys by their passwords: values of the servers and libraries, and which of a column
can't be read."""

import pickle
import unittest
from base64 import b64decode

import cukvashe_des
from cukvashe_des import (
    AlgorithmNameError,
    Base64Error,
    BlockLengthError,
    IterationCountError,
    KeyLengthError,
    KeyNumberError,
    NotEncryptedError,
    PaddingMismatchError,
    SaltLengthError,
    UnreadableValuesError,
    jasypt_decrypt_values,
    jasypt_encrypt,
    jasypt_encrypt_values,
    mysql_decrypt_values,
    mysql_decrypt_values_by_file,
    mysql_encrypt_values,
    pbe_key,
    pgcrypto_decrypt_values,
    pgcrypto_encrypt_values,
)

try:
    import numpy
except ImportError:
    numpy = None
try:
    import pandas
except ImportError:
    pandas = None

HEX = bytes.fromhex
# DES_ENCRYPT of MariaDB 10.11: key string, text, value.
MARIADB = [
    (b"secret key", b"4111111111111111", "FF761CE2F3FCEDDD8A59A88A58A8C312F3722AED0D3FFC72C8"),
    (b"secret key", b"12345678", "FFA3B355AF8C509A975B3C4BB286B70D4C"),
    (b"secret key", b"", ""),
    (b"k", b"abcdefg", "FFF0F19FAD283C9714"),
    (b"k", b"abcdefgh", "FF0CEC8A9D3373AE6BFA4D2EB4055DE21B"),
    (b"k", b"x" * 20, "FF02731A6A0A4CF8035BDF098EBB4FE2938BED7DC10B8AABDC"),
    (b"", HEX("00ff"), "FF137F1306ADB26457"),
]
# The server's key file, and a value under each of its keys.
KEYS = b"0 key_zero\n1 another key\n"
BY_FILE = ["809370F9100E6CABCA", "81FDBFE045C327A5F2"]
# `encrypt` and `encrypt_iv` of pgcrypto in PostgreSQL 15: cipher, key, vector, text, value.
POSTGRESQL = [
    ("3des", b"0123456789abcdef01234567", b"", b"hello world", "5548aa9afc0bf656bae4a844accf0674"),
    ("3des-ecb", b"0123456789abcdef01234567", b"", b"hello world", "5548aa9afc0bf6569d9d5e0d89ab4535"),
    ("3des", b"0123456789abcdef", b"", b"hello world", "5edd30c020f618ff180b53afd62efef9"),
    ("3des", b"short key", b"", b"hello world", "ce1252c01a55ff49ca7c3db7617f8e96"),
    ("3des", b"k" * 30, b"", b"hello world", "14f1dc714b9a4453af5180b08e561e04"),
    ("3des", b"0123456789abcdef01234567", b"12345678", b"hello world", "90aaa5a2eb3a74905ebbd8bc8355164f"),
    ("des", b"01234567", b"", b"hello world", "9a02b43b244034e9c9c44c1d26b778af"),
    ("des", b"123456789", b"", b"hello world", "28dba02eb5f6dd4778407276c7967fb2"),
    ("des", b"1234", b"", b"hello world", "a158a37495c57fa513fb8177bff54c46"),
    ("des", b"01234567", b"1234", b"hello world", "71696c4b5f4e3176f806b75d4508f5a9"),
    ("des-ecb/pad:none", b"01234567", b"", b"hello wo", "9a02b43b244034e9"),
    ("des", b"01234567", b"", b"", "08bb5db6b37c06d7"),
]
# Jasypt 1.9.3, of the password "secret" with 1,000 iterations.
JASYPT = {
    "PBEWithMD5AndDES": "XFI3GkOHuvaUreHPZLAFn+zx81+pE+jN",
    "PBEWithMD5AndTripleDES": "+34RBE07LtEN82W7f6UWaHttfv/kGSJv",
    "PBEWithSHA1AndDESede": "AM7XwsOzxflFDMNvCTJm5cjZuLZa/GEf",
}
STRING = JASYPT["PBEWithMD5AndDES"]
SETTING = b"jdbc password 1"


def salt_of(string):
    return b64decode(string)[:8]


class Known(unittest.TestCase):
    def test_mariadb(self):
        for password, text, value in MARIADB:
            self.assertEqual(mysql_decrypt_values(password, [HEX(value)]), [text])
            self.assertEqual(mysql_encrypt_values(password, [text]), [HEX(value)])
        self.assertEqual(mysql_decrypt_values_by_file(KEYS, map(HEX, BY_FILE)), [b"abc", b"abc"])
        for number, password in enumerate((b"key_zero", b"another key")):
            self.assertEqual(mysql_encrypt_values(password, [b"abc"], number=number), [HEX(BY_FILE[number])])
            self.assertEqual(mysql_decrypt_values(password, [HEX(BY_FILE[number])]), [b"abc"])

    def test_key_file(self):
        """Lines of the server's file of keys, as MariaDB reads them: each with the key that it has of number 1."""
        long = b"x" * 1022
        for line, key in (
            (b"1 a b", b"a b"), (b"1a", b"a"), (b"12 a", b"2 a"), (b"1\t\x0b\x0c\xa0 a \x01\x9d\x7f\r", b"a"), (b"1 \x01a", b"\x01a"),
            (b"1 a\0b", b"a"), (b"1 \xe9\xff", b"\xe9\xff"), (b"1 a\n1 b", b"b"), (b"1 a\n1", b"a"), (b"1 a\n1 \t ", b"a"),
            (b"1 " + long + b"x", long[2:]), (b"0 " + long[2:] + b"1 b", b"b"),
        ):
            value = mysql_encrypt_values(key, [b"abc"], number=1)
            self.assertEqual(mysql_decrypt_values_by_file(line + b"\n", value), [b"abc"], line)
        for line in (b"1 a", b" 1 a\n", b"#1 a\n", b"\xef\xbb\xbf1 a\n", b"1\n", b"1 \n", b"1\0a\n", b"", b"2 a\n"):
            value = mysql_encrypt_values(b"a", [b"abc"], number=1)
            self.assertEqual(mysql_decrypt_values_by_file(line, value, errors="none"), [None], line)

    def test_postgresql(self):
        for cipher, key, iv, text, value in POSTGRESQL:
            for name in (cipher, cipher.upper()):
                self.assertEqual(pgcrypto_decrypt_values(name, key, [HEX(value)], iv=iv), [text])
                self.assertEqual(pgcrypto_encrypt_values(name, key, [text], iv=iv), [HEX(value)])
        for cipher in ("des3-cbc", "3des-cbc/pad:none/pad:pkcs", "3des//"):
            value = pgcrypto_encrypt_values(cipher, b"0123456789abcdef01234567", [b"hello world"])
            self.assertEqual(value, [HEX(POSTGRESQL[0][4])])

    def test_jasypt(self):
        for algorithm, string in JASYPT.items():
            column = [string, f"ENC({string})", string.encode(), f"\t ENC( {string[:5]}\r\n{string[5:]}\f) \n"]
            self.assertEqual(jasypt_decrypt_values(b"secret", column, algorithm=algorithm), [SETTING] * 4)
            self.assertEqual(jasypt_encrypt(b"secret", SETTING, algorithm=algorithm, salt=salt_of(string)), string)
            for length in range(40):
                made = jasypt_encrypt(b"secret", bytes(length), algorithm=algorithm, iterations=3)
                self.assertEqual(jasypt_decrypt_values(b"secret", [made], algorithm=algorithm, iterations=3), [bytes(length)])
            made = jasypt_encrypt_values(b"secret", [SETTING, None, SETTING], algorithm=algorithm, salts=2 * salt_of(string))
            self.assertEqual(made, [string, None, string])
            texts = [SETTING, None, b"", *map(bytes, range(40)), SETTING]
            strings = jasypt_encrypt_values(b"secret", texts, algorithm=algorithm, iterations=3)
            self.assertEqual(jasypt_decrypt_values(b"secret", strings, algorithm=algorithm, iterations=3), texts)
            self.assertNotEqual(strings[0], strings[-1])
        self.assertEqual(jasypt_encrypt_values(b"secret", [None]), [None])
        self.assertNotEqual(jasypt_encrypt(b"secret", SETTING), jasypt_encrypt(b"secret", SETTING))

    def test_keys(self):
        """The keys open what they made: Jasypt's, and a value of the JDK with two equal halves of its salt."""
        for algorithm, string in JASYPT.items():
            length = 16 if algorithm == "PBEWithMD5AndDES" else 32
            made = pbe_key(algorithm, b"secret", salt_of(string), 1000, length)
            cipher = (cukvashe_des.Des if length == 16 else cukvashe_des.TdesEde3)(made[:-8])
            opened = cipher.decrypt_cbc(b64decode(string)[8:], iv=made[-8:])
            self.assertEqual(cukvashe_des.unpad(opened, "pkcs7"), SETTING)
        made = pbe_key("PBEWithMD5AndTripleDES", b"secret", HEX("0102030401020304"), 20, 32)
        opened = cukvashe_des.TdesEde3(made[:24]).decrypt_cbc(HEX("0a6ddec322c99c34"), iv=made[24:])
        self.assertEqual(cukvashe_des.unpad(opened, "pkcs7"), b"abc")


class Faults(unittest.TestCase):
    def faults(self, call, *arguments, **words):
        with self.assertRaises(UnreadableValuesError) as caught:
            call(*arguments, **words)
        error = caught.exception
        again = pickle.loads(pickle.dumps(error))
        self.assertEqual((str(again), again.texts, list(again.faults)), (str(error), error.texts, list(error.faults)))
        self.assertEqual(call(*arguments, **words, errors="none"), error.texts)
        for place, fault in error.faults.items():
            self.assertIsNone(error.texts[place])
            self.assertIsInstance(fault, cukvashe_des.Error)
        first = min(error.faults)
        begin = f"{len(error.faults)} of {len(error.texts)} values can't be read, the first at place {first}: "
        self.assertEqual(str(error), begin + str(error.faults[first]))
        return error

    def test_mysql(self):
        good = HEX("FF0CEC8A9D3373AE6BFA4D2EB4055DE21B")
        column = [HEX("FF00"), good, None, HEX("FF0000000000000000"), b"", good[1:]]
        error = self.faults(mysql_decrypt_values, b"k", column)
        kinds = {place: type(fault) for place, fault in error.faults.items()}
        self.assertEqual(kinds, {0: NotEncryptedError, 3: PaddingMismatchError, 5: NotEncryptedError})
        self.assertEqual(error.texts, [None, b"abcdefgh", None, None, b"", None])
        error = self.faults(mysql_decrypt_values_by_file, KEYS, [HEX(BY_FILE[1]), b"\x82" + HEX(BY_FILE[1])[1:], good])
        self.assertEqual({place: type(fault) for place, fault in error.faults.items()}, {1: KeyNumberError, 2: KeyNumberError})
        self.assertEqual(str(error.faults[1]), "the file has no key of the value's number")
        self.assertEqual(error.texts, [b"abc", None, None])
        column = [b"", None, b"\x80", HEX(BY_FILE[0])[1:], HEX(BY_FILE[0])[:-1] + b"\0", HEX(BY_FILE[0])]
        error = self.faults(mysql_decrypt_values_by_file, KEYS, column)
        kinds = {place: type(fault) for place, fault in error.faults.items()}
        self.assertEqual(kinds, {2: NotEncryptedError, 3: NotEncryptedError, 4: PaddingMismatchError})
        self.assertEqual(error.texts, [b"", None, None, None, None, b"abc"])

    def test_pgcrypto(self):
        value = HEX("5548aa9afc0bf656bae4a844accf0674")
        error = self.faults(pgcrypto_decrypt_values, "3des", b"0123456789abcdef01234567", [value[:8], value, b"", value[:9]])
        kinds = {place: type(fault) for place, fault in error.faults.items()}
        self.assertEqual(kinds, {0: PaddingMismatchError, 2: BlockLengthError, 3: BlockLengthError})
        self.assertEqual(error.texts, [None, b"hello world", None, None])

    def test_jasypt(self):
        column = ["ENC", STRING[:8], STRING[:-4] + "AAAA", STRING, STRING[:-1] + "é", STRING[:12], "XFI3GkOHuR=="]
        error = self.faults(jasypt_decrypt_values, b"secret", column)
        kinds = [type(error.faults.get(place)) for place in range(7)]
        wanted = [Base64Error, SaltLengthError, PaddingMismatchError, type(None), Base64Error, BlockLengthError, Base64Error]
        self.assertEqual(kinds, wanted)
        self.assertEqual(error.texts[3], SETTING)
        self.assertEqual(str(error.faults[1]), "the value ends within the salt")
        self.assertEqual(str(error.faults[5]), "what is encrypted is not whole blocks of 8 bytes")

    def test_arguments(self):
        for call, fault in (
            (lambda: mysql_encrypt_values(b"k", [b"abc"], number=10), KeyNumberError),
            (lambda: mysql_encrypt_values(b"k", [b"abc"], number=126), KeyNumberError),
            (lambda: mysql_encrypt_values(b"k", [b"abc"], number=128), KeyNumberError),
            (lambda: mysql_encrypt_values(b"k", [b"abc"], number=-1), KeyNumberError),
            (lambda: mysql_encrypt_values(b"k", [b"abc"], number=2**32), KeyNumberError),
            (lambda: pgcrypto_decrypt_values("aes", b"k", []), AlgorithmNameError),
            (lambda: pgcrypto_encrypt_values("3des/pad:zeros", b"k", []), AlgorithmNameError),
            (lambda: pgcrypto_encrypt_values("des3", b"k", []), AlgorithmNameError),
            (lambda: pgcrypto_encrypt_values("des ", b"k", []), AlgorithmNameError),
            (lambda: pgcrypto_encrypt_values("des/pad:none", b"k", [b"12345678", b"1234567"]), BlockLengthError),
            (lambda: jasypt_decrypt_values(b"k", [], algorithm="PBEWithMD5AndRC2"), AlgorithmNameError),
            (lambda: jasypt_decrypt_values(b"k", [], iterations=0), IterationCountError),
            (lambda: jasypt_decrypt_values(b"k", [STRING], iterations=2**32, errors="none"), IterationCountError),
            (lambda: jasypt_encrypt(b"k", b"", iterations=2**32), IterationCountError),
            (lambda: jasypt_encrypt_values(b"k", [], algorithm="PBEWithSHA1AndDES"), AlgorithmNameError),
            (lambda: jasypt_encrypt_values(b"k", [], iterations=0), IterationCountError),
            (lambda: jasypt_encrypt_values(b"k", [b"", None], salts=bytes(16)), SaltLengthError),
            (lambda: jasypt_encrypt(b"k", b"", salt=b"1234567"), SaltLengthError),
            (lambda: jasypt_decrypt_values(b"k", [], algorithm="PBEWithSHA1AndDES"), AlgorithmNameError),
            (lambda: pbe_key("PBEWithMD5AndTripleDES", b"k", b"123456789", 1, 32), SaltLengthError),
            (lambda: pbe_key("PBEWithMD5AndDES", b"k", b"12345678", 1, 24), KeyLengthError),
            (lambda: pbe_key("PBEWithMD5AndDES", b"k", b"12345678", 1, 0), KeyLengthError),
            (lambda: pbe_key("PBES2", b"k", b"12345678", 1, 16), AlgorithmNameError),
            (lambda: mysql_decrypt_values(b"k", [], errors="ignore"), ValueError),
        ):
            self.assertRaises(fault, call)

    def test_types(self):
        value = HEX(MARIADB[0][2])
        for column in (value, value.hex(), bytearray(value), {value}, {0: value}, 3, None):
            self.assertRaises(TypeError, mysql_decrypt_values, b"k", column)
        for one in (value.hex(), 3, 1.5, [value]):
            self.assertRaises(TypeError, mysql_decrypt_values, b"k", [one])
        self.assertRaises(TypeError, mysql_decrypt_values, "k", [value])
        self.assertRaises(TypeError, mysql_encrypt_values, b"k", ["text"])
        for number in (True, "1", 1.0, None):
            self.assertRaises(TypeError, mysql_encrypt_values, b"k", [b"abc"], number=number)
        self.assertRaises(TypeError, pgcrypto_decrypt_values, b"3des", b"k", [value])
        self.assertRaises(TypeError, jasypt_decrypt_values, b"k", STRING)
        self.assertRaises(TypeError, jasypt_encrypt_values, b"k", ["text"])
        self.assertRaises(TypeError, jasypt_encrypt, b"k", None)


class Columns(unittest.TestCase):
    def test_kinds(self):
        """Values as bytes of each kind, and a column that is gone through once."""
        value, text = HEX(MARIADB[0][2]), MARIADB[0][1]
        values = [value, bytearray(value), memoryview(value), memoryview(value + value)[25:], None]
        self.assertEqual(mysql_decrypt_values(b"secret key", iter(values)), [text] * 4 + [None])
        self.assertEqual(mysql_decrypt_values(b"secret key", []), [])
        self.assertEqual(mysql_decrypt_values(b"secret key", [None, None]), [None, None])
        self.assertEqual(mysql_encrypt_values(b"secret key", (text, None, bytearray(text))), [value, None, value])
        rows = memoryview(value * 3).cast("B", (3, 25))
        self.assertEqual(mysql_decrypt_values(b"secret key", rows), [text] * 3)
        self.assertRaises(TypeError, mysql_decrypt_values, b"secret key", memoryview(value * 3))

    def test_long(self):
        texts = [bytes([length % 256]) * (length % 40) for length in range(1000)]
        for call, back, first in (
            (mysql_encrypt_values, mysql_decrypt_values, (b"k",)),
            (pgcrypto_encrypt_values, pgcrypto_decrypt_values, ("3des", b"k")),
            (pgcrypto_encrypt_values, pgcrypto_decrypt_values, ("des-ecb", b"k")),
        ):
            values = call(*first, texts)
            self.assertEqual(back(*first, values), texts)
            self.assertEqual([back(*first, [value])[0] for value in values], texts)

    @unittest.skipIf(numpy is None, "numpy is not installed")
    def test_numpy(self):
        value, text = HEX(MARIADB[0][2]), MARIADB[0][1]
        objects = numpy.array([value, None, value, float("nan")], object)
        self.assertEqual(mysql_decrypt_values(b"secret key", objects), [text, None, text, None])
        rows = numpy.frombuffer(value * 3, numpy.uint8).reshape(3, 25)
        self.assertEqual(mysql_decrypt_values(b"secret key", rows), [text] * 3)
        self.assertEqual(mysql_decrypt_values(b"secret key", rows[::2]), [text] * 2)
        self.assertEqual(mysql_decrypt_values(b"secret key", rows[:0]), [])
        masked = numpy.ma.masked_array(rows, mask=[[True] * 25, [False] * 25, [False] * 25])
        for other in (rows.reshape(-1), rows.reshape(3, 5, 5), numpy.array([value]), rows.astype(float), masked, masked[1:]):
            self.assertRaises(TypeError, mysql_decrypt_values, b"secret key", other)
        self.assertEqual(jasypt_decrypt_values(b"secret", numpy.array([STRING, f"ENC({STRING})"])), [SETTING] * 2)

    @unittest.skipIf(pandas is None, "pandas is not installed")
    def test_pandas(self):
        value, text = HEX(MARIADB[0][2]), MARIADB[0][1]
        frame = pandas.DataFrame({"card": [value, None, pandas.NA, pandas.NaT, value]}, index=[7, 3, 2, 4, 9], dtype=object)
        frame["text"] = mysql_decrypt_values(b"secret key", frame["card"])
        self.assertEqual(frame["text"].tolist(), [text, None, None, None, text])
        strings = pandas.Series([STRING, None], dtype="string")
        self.assertEqual(jasypt_decrypt_values(b"secret", strings), [SETTING, None])


if __name__ == "__main__":
    unittest.main()
