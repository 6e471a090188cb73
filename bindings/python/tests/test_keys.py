"""Keys: digits in their place, and other types; and padding."""

import unittest

import cukvashe_des
from cukvashe_des import KeyLengthError, TdesEde2, TdesEde3, pad, unpad

from .values import ACCOUNT, BLOCK, BLOCK_HEADER, KEY, LENGTHS, OBJECTS, OF_A_KEY, OTHER, PAIR, PROTECTION, SERIAL


class Hexadecimal(unittest.TestCase):
    """The hexadecimal digits of a key in its place, as a text or as bytes, are refused, and the error says how to make a key of them."""

    CALLS = (
        *((kind, KEY[: kind.key_size], arguments[1:]) for kind, arguments in OBJECTS),
        (cukvashe_des.DukptTerminal, PAIR, (SERIAL,)),
        *((call, PAIR, ()) for call in (*OF_A_KEY, cukvashe_des.dukpt_pin_key, cukvashe_des.dukpt_data_key)),
        (cukvashe_des.combine, PAIR, (OTHER,)),
        *((call, PAIR, (SERIAL,)) for call in (cukvashe_des.dukpt_initial_key, cukvashe_des.dukpt_transaction_key,
                                               cukvashe_des.dukpt_transaction_keys_from_base)),
        (cukvashe_des.unwrap_key_block, PROTECTION, (BLOCK,)),
        (cukvashe_des.wrap_key_block, PROTECTION, (BLOCK_HEADER, PAIR)),
        (lambda key: cukvashe_des.wrap_key_block(PROTECTION, BLOCK_HEADER, key), KEY, ()),
        (lambda key: cukvashe_des.check_value(TdesEde3, key), KEY, ()),
        (lambda key: cukvashe_des.macs(cukvashe_des.CmacTdesEde2, key, None, [], b""), PAIR, ()),
    )

    def test_digits(self):
        for call, key, others in self.CALLS:
            call(key, *others)
            for digits in (key.hex(), key.hex().upper()):
                self.assertRaisesRegex(TypeError, "^a key is bytes and not a text: bytes.fromhex makes", call, digits, *others)
                for data in (digits.encode(), bytearray(digits, "ascii")):
                    with self.assertRaisesRegex(cukvashe_des.Error, ": bytes.fromhex makes a key of hexadecimal digits$") as caught:
                        call(data, *others)
                    self.assertIn(type(caught.exception), (cukvashe_des.KeyLengthError, cukvashe_des.ProtectionKeyLengthError))


    def test_other_bytes_are_no_texts(self):
        """A password, data, a vector and a salt that are texts, which most who pass them mean encoded or as digits."""
        cipher = TdesEde3(KEY)
        for call in (
            lambda: cukvashe_des.pbkdf2("sha1", "password", b"salt", 1, 24),
            lambda: cukvashe_des.pbkdf2("sha1", b"password", "salt", 1, 24),
            lambda: cipher.encrypt_ecb("8 bytes."),
            lambda: cipher.encrypt_cbc(b"8 bytes.", iv="1234567890abcdef"),
        ):
            needed = "^(bytes are needed|an initialization vector is bytes) and not a text: encode makes them of a text"
            self.assertRaisesRegex(TypeError, needed, call)

    def test_what_has_no_bytes(self):
        """A number, None and a list, in the place of each argument that is bytes or digits."""
        cipher, mac = TdesEde3(KEY), cukvashe_des.CmacTdesEde2(PAIR)
        calls = [("a key is bytes", lambda key, call=call, others=others: call(key, *others)) for call, _, others in self.CALLS]
        calls += [(f"{what} is bytes", lambda iv, call=call: call(b"8 bytes.", iv=iv)) for what, call in (
            ("an initialization vector", cipher.encrypt_cbc), ("an initialization vector", cipher.decrypt_ofb),
            ("a counter block", lambda data, iv: cipher.encrypt_ctr(data, counter=iv)),
        )]
        calls += [("digits are needed as str or bytes", call) for call in (
            lambda digits: cukvashe_des.pvv(PAIR, ACCOUNT, 1, digits), lambda digits: cukvashe_des.pvv(PAIR, digits, 1, "1234"),
            lambda digits: cukvashe_des.cvv(PAIR, ACCOUNT, digits, "101"), lambda digits: cukvashe_des.pin_encode_0("1234", digits),
            lambda digits: cukvashe_des.emv_card_key(PAIR, ACCOUNT, digits), cukvashe_des.DecimalTable,
        )]
        calls += [("bytes are needed", call) for call in (
            cipher.encrypt_ecb, cipher.encrypt_ecb_into, mac.update, mac.verify, cukvashe_des.dukpt_is_usable,
            lambda data: cukvashe_des.pbkdf2("sha1", data, b"salt", 1, 24), lambda data: cukvashe_des.pad(data, "pkcs7"),
            lambda data: cukvashe_des.pin_decode_0(data, ACCOUNT), lambda data: cukvashe_des.encrypt_each(TdesEde2, PAIR, data),
            lambda data: cukvashe_des.encrypt_each_into(TdesEde2, PAIR, data), lambda data: cukvashe_des.wrong_tags(data, b""),
            lambda data: cukvashe_des.decrypt_cbc_records(cipher, b"", vectors=data, counts=[]),
            lambda data: cukvashe_des.macs(cukvashe_des.CmacTdesEde2, PAIR, None, [], data),
        )]
        calls += [("a key is bytes", lambda key: cukvashe_des.check_values(TdesEde2, key)),
                  ("a key block is str or bytes", lambda block: cukvashe_des.unwrap_key_block(PROTECTION, block))]
        for needed, call in calls:
            for wrong, name in ((1234, "int"), (None, "NoneType"), ([8], "list")):
                self.assertRaisesRegex(TypeError, f"^{needed}, not {name}$", call, wrong)

    def test_texts_of_keys(self):
        for call in (cukvashe_des.encrypt_each, cukvashe_des.decrypt_each):
            self.assertRaisesRegex(TypeError, "bytes.fromhex", call, TdesEde2, PAIR.hex(), bytes(8))
        self.assertRaisesRegex(TypeError, "bytes.fromhex", cukvashe_des.check_values, TdesEde2, PAIR.hex())

    def test_no_digits(self):
        """Other bytes of a wrong length are told nothing of digits, nor is another length of digits."""
        for key in (bytes(48), PAIR.hex().encode()[:-1] + b"g", b"0" * 30, b"0" * 24 + b" " + b"0" * 23, b"0" * 32):
            self.assertRaisesRegex(KeyLengthError, f"not {len(key)}$", TdesEde3, key)


class Types(unittest.TestCase):
    def test_others(self):
        """Another class for a cipher, one component alone, and another word for the response, which has a name too."""
        for other in (cukvashe_des.CmacTdesEde2, int, KEY, None, TdesEde2.__mro__[1]):
            self.assertRaises(TypeError, cukvashe_des.check_value, other, KEY)
        self.assertRaises(TypeError, cukvashe_des.combine, PAIR)
        for call in (cukvashe_des.dukpt_mac_key, cukvashe_des.dukpt_data_key, cukvashe_des.dukpt_data_variant):
            self.assertEqual(call(PAIR, is_response=True), call(PAIR, True))
            for other in ("request", "", 0, 1, None, b"\1"):
                self.assertRaises(TypeError, call, PAIR, other)


class Padding(unittest.TestCase):
    @staticmethod
    def padded(data, method):
        """The data and their padding: RFC 5652, section 6.3, and ISO/IEC 7816-4."""
        count = 8 - len(data) % 8
        return data + (bytes([count]) * count if method == "pkcs7" else b"\x80" + bytes(count - 1))

    def test_there_and_back(self):
        for method in ("pkcs7", "iso7816"):
            for length in (*LENGTHS, 1023, 1024, 4800, 65535, 65536, 65537):
                data = bytes(byte % 255 for byte in range(length))
                given = bytearray(data)
                self.assertEqual(pad(given, method), self.padded(data, method))
                self.assertEqual(given, data)
                self.assertEqual(unpad(bytearray(pad(data, method)), method), data)

    def test_methods(self):
        for call in (pad, unpad):
            for method in (1, None, b"pkcs7"):
                self.assertRaises(TypeError, call, b"\1" * 8, method)
