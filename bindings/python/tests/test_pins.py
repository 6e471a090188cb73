"""PINs of each length, and types that the calls for PINs do not take; answers and faults are in bindings/known_calls.txt."""

import unittest

import cukvashe_des
from cukvashe_des import DecimalTable

from .values import ACCOUNT, DIGITS, FILL, ONE, OTHER, PAIR, SENT, TABLE, VALIDATION, to_format_0


class Pins(unittest.TestCase):
    def test_every_length(self):
        """PINs of 4 to 12 digits, zeros too, come back from each format."""
        for length in range(4, 13):
            for digits in ("908172635441", "000000000000"):
                pin = digits[:length]
                self.assertEqual(cukvashe_des.pin_decode_0(cukvashe_des.pin_encode_0(pin, ACCOUNT), ACCOUNT), pin)
                self.assertEqual(cukvashe_des.pin_decode_1(cukvashe_des.pin_encode_1(pin, DIGITS)), pin)
                self.assertEqual(cukvashe_des.pin_decode_2(cukvashe_des.pin_encode_2(pin)), pin)
                self.assertEqual(cukvashe_des.pin_decode_3(cukvashe_des.pin_encode_3(pin, ACCOUNT, FILL), ACCOUNT), pin)

    def test_types(self):
        for wrong in ("1", b"1", None, True, 1.0):
            self.assertRaises(TypeError, cukvashe_des.pvv, PAIR, "1" * 12, wrong, "1234")
            self.assertRaises(TypeError, cukvashe_des.pvv_verify, PAIR, "1" * 12, wrong, "1234", "1234")
            self.assertRaises(TypeError, cukvashe_des.natural_pin, PAIR, TABLE, VALIDATION, wrong)
            self.assertRaises(TypeError, to_format_0, PAIR, wrong, OTHER, ACCOUNT, SENT)
        for table in ("0123456789012345", b"0123456789012345", None):
            self.assertRaises(TypeError, cukvashe_des.natural_pin, PAIR, table, VALIDATION, 4)
            self.assertRaises(TypeError, cukvashe_des.pin_offset, PAIR, table, VALIDATION, "1234")
            self.assertRaises(TypeError, cukvashe_des.pin_offset_verify, PAIR, table, VALIDATION, "1234", "0000")
        self.assertEqual(repr(DecimalTable.of_any_variety(b"0" * 16)), "DecimalTable { ... }")

    def test_keys_by_name(self):
        """Neither key goes by its place, in which it could be taken for the other, and none is left out."""
        for call, arguments in ((cukvashe_des.pin_translate_to_0, (0, ACCOUNT, SENT)), (cukvashe_des.pin_translate_to_1, (ONE,)),
                                (cukvashe_des.pin_translate_to_3, (0, ACCOUNT, FILL, SENT))):
            keys = {"incoming_key": PAIR, "outgoing_key": OTHER}
            self.assertEqual(len(call(*arguments, **keys)), 8)
            self.assertRaises(TypeError, call, PAIR, arguments[0], OTHER, *arguments[1:])
            self.assertRaises(TypeError, call, *arguments, PAIR, OTHER)
            for name, key in keys.items():
                self.assertRaises(TypeError, call, *arguments, **{name: key})
