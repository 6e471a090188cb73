"""No text of an error or an object tells three bytes, or three characters, of what was given."""

import re
import traceback
import unittest

import cukvashe_des
from cukvashe_des import Des, KeyBlockHeader, _statuses

from .values import ACCOUNT, BLOCK, BLOCK_HEADER, FUNCTIONS, IV, KEY, LISTS, MESSAGE, OBJECTS, PADDED_MACS, SALTED
from .values import faults_of_package, in_places, lines_of, methods, opens, to_format_0


# Each error and its text, which tells a length, here #, and nothing else that is not the same at every call: those of the known calls, and
# of other ones.
KNOWN = (re.match("! ([A-Za-z]+) (.*)", line) for line in lines_of("bindings", "known_calls.txt") if line.startswith("!"))
SENTENCES = {(known[1] + "Error", known[2]) for known in KNOWN} | {
    ("ClosedError", "the cipher, MAC or terminal was closed"),
    ("KeyLengthError", "the key does not have a length that the call takes: a multiple of 4 bytes, at least 8"),
    ("DirectionError", "this stream encrypts: begin another to decrypt"),
    ("PositionError", "a position in a stream is 0 to 2^67 - 1"),
    ("SegmentSizeError", "a segment has 1 bit, or 8, 16, 24, 32, 40, 48, 56 or 64"),
    ("VectorLengthError", "a counter block has 8 bytes, not #"),
    ("CountMismatchError", "the numbers of vectors and counts differ"),
    ("KeyBlockLengthError", "a key block has at most 9999 characters"),
    ("NoSerialError", "the terminal has no key for a next transaction"),
    ("TagMismatchError", "the tag is not that of the message"),
    ("VectorLengthError", "# bytes are not whole vectors of 8"),
    ("VectorLengthError", "an initialization vector has 8 bytes, not #"),
}

# Calls of columns that can't be read, or with arguments that can't be taken.
COLUMNS = (
    (lambda password, value: cukvashe_des.mysql_decrypt_values(password, [value]), KEY, MESSAGE),
    (lambda password, value: cukvashe_des.jasypt_decrypt_values(password, [value]), KEY, MESSAGE),
    (lambda keys, value: cukvashe_des.mysql_decrypt_values_by_file(keys, [b"\x81" + value[:8]]), b"0 " + MESSAGE.hex().encode() + b"\n", MESSAGE),
    (lambda password, text: cukvashe_des.mysql_encrypt_values(password, [text], number=128), KEY, MESSAGE),
    (lambda key, value: cukvashe_des.pgcrypto_decrypt_values(key.hex(), key, [value]), KEY, MESSAGE),
    (lambda password, salt: cukvashe_des.pbe_key("PBEWithMD5AndTripleDES", password, salt, 1, 32), KEY, MESSAGE),
)
UNREAD = "1 of 1 values can't be read, the first at place 0: "
SENTENCES |= {
    ("UnreadableValuesError", UNREAD + _statuses.SENTENCES[_statuses.NOT_ENCRYPTED]),
    ("UnreadableValuesError", UNREAD + "the value is not Base64"),
    ("UnreadableValuesError", UNREAD + "the file has no key of the value's number"),
    ("KeyNumberError", "the number of a key is 0 to 9, or 127 of a key string"),
    ("AlgorithmNameError", _statuses.SENTENCES[_statuses.ALGORITHM]),
    ("SaltLengthError", "by this algorithm a salt has 8 bytes, not #"),
}

# What no text hides, since all have it.
METHODS = ("pkcs7", "iso7816", "md5", "sha1", "sha256")


def pieces_of(value):
    """Each three bytes of a value, or three characters of a text, as an error might show them."""
    if isinstance(value, str):
        return {value[at : at + 3] for at in range(len(value) - 2)}
    pieces = [bytes(value)[at : at + 3] for at in range(len(value) - 2)]
    forms = (bytes.hex, lambda piece: str(list(piece))[1:-1], lambda piece: repr(piece)[2:-1])
    return {form(piece) for piece in pieces for form in forms}


class Texts(unittest.TestCase):
    def tells_nothing(self, teller, given):
        texts = [form(teller) for form in (str, repr, format, ascii, "{!s}".format, "%s".__mod__)]
        if isinstance(teller, BaseException):
            while teller is not None:
                texts += [str(teller), repr(teller.args), "".join(traceback.format_exception_only(type(teller), teller))]
                texts += getattr(teller, "__notes__", [])
                teller = teller.__cause__ or teller.__context__
        for value in given:
            if isinstance(value, (bytes, bytearray, str)) and value not in METHODS:
                for piece in pieces_of(value) - pieces_of(b"Salted__"):
                    for text in texts:
                        self.assertNotIn(piece.lower(), text.lower())

    def faults(self, call, *arguments):
        """The error of a call, if it has one, tells nothing of the arguments, and is an Error of the package or a TypeError."""
        try:
            call(*arguments)
        except (TypeError, cukvashe_des.Error) as error:
            self.tells_nothing(error, arguments)
            if isinstance(error, cukvashe_des.Error):
                length = re.search("(?<=not )[0-9]+$|^[0-9]+(?= bytes)", str(error))
                if length:
                    self.assertIn(int(length[0]), [len(value) for value in arguments if isinstance(value, (bytes, bytearray))])
                text = str(error)
                shown = text[: length.start()] + "#" + text[length.end() :] if length else text
                self.sentences.add((type(error).__name__, shown))
                self.assertEqual((error.args, error.__cause__, error.__context__), ((str(error),), None, None))
            faults = list(getattr(error, "faults", {}).values())
            for fault in faults:
                self.tells_nothing(fault, arguments)
            return {type(it).__name__ for it in [error, *faults]}
        return set()

    def setUp(self):
        self.sentences = set()

    def calls(self):
        """Every call of the package, those in place and those of closed objects too. The objects are its own: calls change them."""
        calls = OBJECTS + FUNCTIONS + methods() + LISTS
        calls += [(call, (Des, KEY, bytearray(MESSAGE))) for call in (cukvashe_des.encrypt_each_into, cukvashe_des.decrypt_each_into)]
        for kind, arguments in OBJECTS:
            made, closed = kind(*arguments), kind(*arguments)
            closed.close()
            for one in (made, closed):
                if hasattr(one, "encrypt_ecb"):
                    calls += [(one.encrypt_ecb_into, (MESSAGE,)), (one.decrypt_cbc_into, (MESSAGE, IV)), (one.encrypt_cbc, (MESSAGE, IV))]
                    calls += [(in_places(call, "iv"), (MESSAGE, IV)) for call in (one.decrypt_cbc_into, one.encrypt_cbc)]
                else:
                    calls += [(one.update, (MESSAGE,)), (one.verify, (MESSAGE[:8],)), (one.verify_truncated_left, (MESSAGE[:4],))]
        return calls

    def test_objects(self):
        for kind, arguments in OBJECTS:
            made = kind(*arguments)
            self.tells_nothing(made, arguments)
            for form in (str, repr, format, ascii, "{}".format, "%s".__mod__):
                self.assertEqual(form(made), kind.__name__ + " { ... }")
            self.assertFalse(hasattr(made, "__dict__"))
            self.assertNotEqual(made, kind(*arguments))
            self.assertRaises(TypeError, bytes, made)
            self.assertRaises(TypeError, memoryview, made)

    def test_errors(self):
        """Each argument cut, made longer, and changed, as bytes and as a text; all turned round; and one too many."""
        names = set()
        for call, arguments in self.calls():
            names |= self.faults(call, *reversed(arguments))
            names |= self.faults(call, *arguments, KEY)
            for at, value in enumerate(arguments):
                for wrong in (MESSAGE, MESSAGE.hex(), KEY, bytearray(KEY), None, 3):
                    names |= self.faults(call, *arguments[:at], wrong, *arguments[at + 1 :])
                if isinstance(value, bytes):
                    turned = bytes([value[0] ^ 0xA0]) + value[1:] if value else b"\x80"
                    for wrong in (value[:-1], value + b"7", value.hex(), turned, turned.decode("latin-1")):
                        names |= self.faults(call, *arguments[:at], wrong, *arguments[at + 1 :])
        for call in (cukvashe_des.pin_decode_0, cukvashe_des.pin_decode_3):
            for first in range(256):
                names |= self.faults(call, bytes([first]) + bytes.fromhex("a274edcba9876e"), ACCOUNT)
        for digits in (b"01234567", b"012345678901234a", b"3131313131313131"):
            names |= self.faults(cukvashe_des.DecimalTable, digits) | self.faults(cukvashe_des.DecimalTable.of_any_variety, digits)
        last = bytes.fromhex("ffff9876543210fff800") + MESSAGE * 14
        terminal = cukvashe_des.DukptTerminal.from_state(last)
        self.tells_nothing(terminal, (last,))
        names |= self.faults(terminal.next_key) | self.faults(cukvashe_des.DukptTerminal.from_state, last[:-1])
        names |= self.faults(cukvashe_des.pvv, KEY[:16], ACCOUNT, 7, "8765")
        names |= self.faults(to_format_0, KEY[:16], 2, KEY[:16], ACCOUNT, MESSAGE[:8])
        names |= self.faults(cukvashe_des.combine, KEY, KEY)
        names |= self.faults(PADDED_MACS[0], KEY[:8], 3)
        names |= self.faults(cukvashe_des.cvv, KEY[:16], ACCOUNT, "87:1", "101") | self.faults(
            cukvashe_des.cvv, KEY[:16], ACCOUNT, "8701", "1:1")
        for place, character in ((0, b"C"), (12, b"x"), (13, b"1"), (20, b"x")):
            names |= self.faults(cukvashe_des.unwrap_key_block, KEY, BLOCK[:place] + character + BLOCK[place + 1 :])
        for header, optional in ((BLOCK_HEADER, [("K", "")]), (BLOCK_HEADER, [("PB", "")]), (BLOCK_HEADER, [("KS", "x" * 10001)]),
                                 (BLOCK_HEADER, ["KS"]), (BLOCK_HEADER, [("KS", "\n")]),
                                 (BLOCK_HEADER, "KS04"), (KeyBlockHeader("BB", "P0", "T", "E", "00", "E"), ()),
                                 (KeyBlockHeader("B", "P", "T", "E", "00", "E"), ()), (KeyBlockHeader("B", "P0", "T", "E", 0, "E"), ()),
                                 (KeyBlockHeader("B", "P0", "T", "E", "  ", "E"), ())):
            names |= self.faults(lambda key, of=header, more=optional: cukvashe_des.wrap_key_block(key, of, key, optional=more), KEY)
        for call, *arguments in COLUMNS:
            names |= self.faults(call, *arguments)
        for name, count in (("sha256", 0), ("md5", 1), ("whirlpool", 1)):
            names |= self.faults(cukvashe_des.pbkdf2, name, MESSAGE, IV, count, 24)
        names |= self.faults(cukvashe_des.pbkdf2, "sha1", MESSAGE, IV, 1, 0)
        for cut in (7, 15):
            names |= self.faults(opens, KEY, SALTED[:cut])
        names |= self.faults(cukvashe_des.Ctr(cukvashe_des.TdesEde3(KEY), counter=IV).seek, -1)
        stream = cukvashe_des.Cfb(cukvashe_des.TdesEde3(KEY), iv=IV, segment_size=8)
        stream.encrypt(MESSAGE)
        names |= self.faults(stream.decrypt, MESSAGE)
        self.assertEqual(names, {fault.__name__ for fault in faults_of_package()} | {"TypeError"})
        self.assertLessEqual(self.sentences, SENTENCES)

    def test_method(self):
        """A key, or a message, in the place of the padding method."""
        for kind in PADDED_MACS:
            key = KEY[: kind.key_size]
            number = int.from_bytes(key, "big")
            for arguments in ((1, key), (key, MESSAGE), (key, key), (key, key.hex()), (key, number), (number, key)):
                with self.assertRaises((TypeError, ValueError)) as caught:
                    kind(*arguments)
                self.tells_nothing(caught.exception, [*arguments, str(number)])
        for call in (cukvashe_des.pad, cukvashe_des.unpad):
            for arguments in ((MESSAGE, KEY.hex()), (MESSAGE, KEY), ("pkcs7", MESSAGE)):
                with self.assertRaises((TypeError, ValueError)) as caught:
                    call(*arguments)
                self.tells_nothing(caught.exception, arguments)
