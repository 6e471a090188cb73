"""Classes that a caller derives: each is what its base is, whatever attributes it has."""

import ctypes
import unittest
from unittest import mock

import cukvashe_des
from cukvashe_des import KeyLengthError, RetailMacDes, TdesEde2, TdesEde3, _keys, _made, _padding, _terminal
from cukvashe_des._calls import CALLS, INT
from cukvashe_des._data import KINDS

from .values import ANSWERS, CMACS, FUNCTIONS, IV, KEY, MESSAGE, OBJECTS, PADDED_MACS, PAIR, SERIAL, TEXT, decrypt_records, encrypt_records

# What a caller might set, or the package might ask a class, each with values of another cipher, and of none.
ATTRIBUTES = [{"name": "des"}, {"name": "cmac_tdes_ede2"}, {"name": ""}, {"key_size": 8}, {"key_size": 16}, {"key_size": 24},
              {"key_size": 0}, {"key_size": 2**40}, {"block_size": 16}, {"digest_size": 4}, {"_words": 0}, {"_words": 1},
              {"_paddings": ()}, {"_context_type": ctypes.c_uint64}, {"name": "des", "key_size": 8, "_words": 17}]


def derived(kind):
    """Classes derived from one, with attributes of other sizes and names, and one that is derived from such a one."""
    for attributes in ATTRIBUTES:
        made = type("Derived", (kind,), {"__slots__": (), **attributes})
        yield made
        yield type("Again", (made,), {"key_size": 16})


def outcome(call, *arguments):
    """What a call answers, or its error."""
    try:
        return call(*arguments)
    except (TypeError, ValueError) as error:
        return type(error), str(error)


def returns_status(name):
    """Whether a call is made of the header, and returns a status there."""
    return hasattr(_made, name) and CALLS[name][0] is INT


class Derived(unittest.TestCase):
    def test_ciphers(self):
        for kind, answer in ANSWERS.items():
            key = KEY[: kind.key_size]
            for made in derived(kind):
                for no_tables in (False, True):
                    cipher = made(key, no_tables=no_tables)
                    self.assertEqual((cipher.encrypt_ecb(TEXT), cipher.decrypt_ecb(answer)), (answer, TEXT))
                    self.assertEqual(cipher.encrypt_cbc(TEXT, iv=IV), kind(key).encrypt_cbc(TEXT, iv=IV))
                    for length in {8, 16, 24} - {kind.key_size}:
                        self.assertRaisesRegex(KeyLengthError, f"^a key has {kind.key_size} bytes, not {length}$", made, KEY[:length])

    def test_calls_of_a_class(self):
        """Keys and blocks in every number: none is read beyond its end, and a call is refused where it is with the base."""
        for kind in ANSWERS:
            for made in derived(kind):
                for length in range(0, 97, 8):
                    keys = (KEY * 4)[:length]
                    self.assertEqual(outcome(cukvashe_des.check_value, made, keys), outcome(cukvashe_des.check_value, kind, keys))
                    self.assertEqual(outcome(cukvashe_des.check_values, made, keys), outcome(cukvashe_des.check_values, kind, keys))
                    for count in (1, 2, 3):
                        given = (keys, MESSAGE[: 8 * count])
                        for call in (cukvashe_des.encrypt_each, cukvashe_des.decrypt_each):
                            self.assertEqual(outcome(call, made, *given), outcome(call, kind, *given))

    def test_records(self):
        for kind in ANSWERS:
            key = KEY[: kind.key_size]
            for made in derived(kind):
                for call in (encrypt_records, decrypt_records):
                    self.assertEqual(call(made(key), TEXT, IV * 2, (1, 2)), call(kind(key), TEXT, IV * 2, (1, 2)))

    def test_macs(self):
        for kind, arguments in OBJECTS[len(ANSWERS) :]:
            tag = kind(*arguments).digest()
            for made in derived(kind):
                mac = made(*arguments)
                self.assertEqual((mac.digest(), mac.copy().digest()), (tag, tag))
                self.assertIsInstance(mac.copy(), made)
                self.assertIsNone(mac.verify(tag))
                for length in {8, 16, 24} - {kind.key_size}:
                    self.assertRaises(KeyLengthError, made, KEY[:length], *arguments[1:])

    def test_macs_of_a_class(self):
        for kind in PADDED_MACS + CMACS:
            for made in derived(kind):
                for padding in (1, 2, 3, None):
                    for length in range(0, 73, 8):
                        given = ((KEY * 3)[:length], padding, (20, 4), MESSAGE)
                        for call in (cukvashe_des.macs, cukvashe_des.macs_each):
                            self.assertEqual(outcome(call, made, *given), outcome(call, kind, *given))

    def test_changed(self):
        """The attributes of the package's own classes are for whoever reads them: nothing asks them."""
        with mock.patch.object(TdesEde3, "key_size", 16), mock.patch.object(TdesEde3, "name", "des"):
            self.assertRaises(KeyLengthError, TdesEde3, KEY[:16])
            self.assertRaises(KeyLengthError, cukvashe_des.check_values, TdesEde3, KEY[:16])
            self.assertEqual(TdesEde3(KEY).encrypt_ecb(TEXT), ANSWERS[TdesEde3])

    def test_other_class(self):
        """An object whose class is set anew stays what it is: its context is not read as a longer one."""
        cipher, mac = TdesEde2(PAIR), RetailMacDes(PAIR, 2, MESSAGE)
        answer, tag = cipher.encrypt_ecb(TEXT), mac.digest()
        cipher.__class__, mac.__class__ = TdesEde3, CMACS[1]
        self.assertEqual((cipher.encrypt_ecb(TEXT), mac.digest(), mac.copy().digest()), (answer, tag, tag))
        self.assertEqual(encrypt_records(cipher, TEXT, IV, (3,)), TdesEde2(PAIR).encrypt_cbc(TEXT, iv=IV))
        for made, other in ((mac, cukvashe_des.DukptTerminal), (cipher, cukvashe_des.DukptTerminal), (cipher, RetailMacDes)):
            self.assertRaises(TypeError, setattr, made, "__class__", other)

    def test_none(self):
        """The classes behind the ciphers and MACs, and a mixture, have no key."""
        for base in (TdesEde3.__base__, CMACS[0].__base__, CMACS[0].__base__.__base__):
            made = type("Own", (base,), {"name": "des", "key_size": 8, "__init__": lambda self: None})
            for call in (cukvashe_des.check_values, cukvashe_des.encrypt_each):
                self.assertRaises(TypeError, call, made, KEY[:8], IV)
            self.assertRaises(TypeError, cukvashe_des.macs, made, KEY[:8], 1, (8,), IV)
        for base, arguments in ((cukvashe_des.Cipher, (KEY[:8],)), (cukvashe_des.Mac, (KEY[:8],)), (cukvashe_des.Mac, ())):
            self.assertRaisesRegex(TypeError, "^a class of ", base, *arguments)
        mixed = type("Mixed", (TdesEde3, RetailMacDes), {})
        self.assertEqual(cukvashe_des.check_value(mixed, KEY), cukvashe_des.check_value(TdesEde3, KEY))
        self.assertEqual(cukvashe_des.macs(mixed, PAIR, 2, (8,), IV), cukvashe_des.macs(RetailMacDes, PAIR, 2, (8,), IV))


class Statuses(unittest.TestCase):
    """A status that a call does not have, as another library could return it, is a RuntimeError and no answer."""

    def test_objects(self):
        for kind, arguments in OBJECTS:
            for name in ("init", "init_no_tables"):
                with mock.patch.dict(KINDS[kind].calls, {name: lambda *_: 99}):
                    with self.assertRaisesRegex(RuntimeError, "99"):
                        kind(*arguments, no_tables=name == "init_no_tables")

    def test_functions(self):
        for module, name, call, arguments in (
            (_keys, "_weak_key_test", cukvashe_des.is_weak_key, (KEY,)),
            *((_made, f"_{call.__name__}", call, arguments) for call, arguments in FUNCTIONS if returns_status(call.__name__)),
            (_keys, "_next_serial", cukvashe_des.dukpt_next_serial, (SERIAL,)),
            (_padding, "_pad", cukvashe_des.pad, (TEXT, "pkcs7")),
            (_padding, "_unpad", cukvashe_des.unpad, (TEXT, "pkcs7")),
            (_terminal, "_next_key", cukvashe_des.DukptTerminal(PAIR, SERIAL).next_key, ()),
        ):
            with mock.patch.object(module, name, return_value=99):
                self.assertRaisesRegex(RuntimeError, "99", call, *arguments)
        with mock.patch.dict(_keys._combine, {24: lambda *_: 99}):
            self.assertRaises(RuntimeError, cukvashe_des.combine, KEY, bytes(24))
        for kind in ANSWERS:
            with mock.patch.dict(KINDS[kind].calls, check_value=lambda *_: 99):
                self.assertRaises(RuntimeError, cukvashe_des.check_value, kind, KEY[: kind.key_size])
