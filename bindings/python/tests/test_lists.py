"""Calls for lists, beside the calls of one: answers at every length, kinds of data, what is refused, and threads."""

import array
import ctypes
import threading
import unittest
from unittest import mock

import cukvashe_des
from cukvashe_des import (
    BlockLengthError,
    CountMismatchError,
    KeyLengthError,
    RetailMacDes,
    SerialLengthError,
    TdesEde2,
    TdesEde3,
    VectorLengthError,
    _data,
    _lists,
    check_value,
    check_values,
    decrypt_each,
    decrypt_each_into,
    dukpt_initial_key,
    dukpt_transaction_key,
    dukpt_transaction_keys_from_base,
    encrypt_each,
    encrypt_each_into,
)
from cukvashe_des._data import KINDS

from .test_data import WatchesWiping, by_columns, views, words
from .values import ANSWERS, CMACS, COUNTS, ELEMENTS, KEY, LISTS, PADDED_MACS, PAIR, SERIALS, TEXT, decrypt_records, encrypt_records

try:
    import numpy
except ImportError:
    numpy = None

# The keys of SERIALS, by ANSI X9.24-1:2009, Annex A.4.
TRANSACTIONS = bytes.fromhex("042666b49184cfa368de9628d0397bc9" "c46551cef9fd24b0aa9ad834130d3bc7" "f9cdfebf4f5b1d9eb3ec12454527e176")


def some(count, first=1):
    """Bytes that differ from place to place."""
    return bytes((first + 7 * i + i // 251) % 256 for i in range(count))


def parts(data, size):
    return [data[at : at + size] for at in range(0, len(data), size)]


class Answers(unittest.TestCase):
    def test_each(self):
        for kind in ANSWERS:
            for count in COUNTS:
                keys, blocks = some(kind.key_size * count), some(8 * count, 99)
                pairs = zip(parts(keys, kind.key_size), parts(blocks, 8))
                answer = b"".join(kind(key).encrypt_ecb(block) for key, block in pairs)
                self.assertEqual(encrypt_each(kind, keys, blocks), answer)
                self.assertEqual(decrypt_each(kind, keys, answer), blocks)
                changed = bytearray(blocks)
                encrypt_each_into(kind, keys, changed)
                self.assertEqual(changed, answer)
                decrypt_each_into(kind, keys, changed)
                self.assertEqual(changed, blocks)

    def test_known(self):
        for kind, answer in ANSWERS.items():
            self.assertEqual(encrypt_each(kind, KEY[: kind.key_size] * 3, TEXT), answer)
            self.assertEqual(decrypt_each(kind, KEY[: kind.key_size] * 3, answer), TEXT)

    def test_check_values(self):
        for kind in ANSWERS:
            for count in COUNTS:
                keys = some(kind.key_size * count)
                values = b"".join(check_value(kind, key) for key in parts(keys, kind.key_size))
                self.assertEqual(check_values(kind, keys), values)

    def test_transactions(self):
        self.assertEqual(dukpt_transaction_keys_from_base(PAIR, SERIALS), TRANSACTIONS)
        for count in COUNTS:
            serials = some(10 * count)
            keys = (dukpt_transaction_key(dukpt_initial_key(PAIR, serial), serial) for serial in parts(serials, 10))
            self.assertEqual(dukpt_transaction_keys_from_base(PAIR, serials), b"".join(keys))


    def test_name_of_base(self):
        """Of one transaction the initial key is taken, of many the base key: a name that differs by its plural alone is none, since the other
        key in its place gives other keys."""
        self.assertFalse(hasattr(cukvashe_des, "dukpt_transaction_keys"))
        initial = dukpt_initial_key(PAIR, SERIALS[:10])
        self.assertEqual(dukpt_transaction_key(initial, SERIALS[:10]), TRANSACTIONS[:16])
        self.assertNotEqual(dukpt_transaction_keys_from_base(initial, SERIALS[:10]), TRANSACTIONS[:16])


class Records(unittest.TestCase):
    def test_records(self):
        for kind in ANSWERS:
            cipher = kind(KEY[: kind.key_size])
            for records in COUNTS:
                counts = [40 if k == records // 2 else k % 5 for k in range(records)]
                vectors, plain, answer, at = some(8 * records), some(8 * sum(counts), 9), b"", 0
                for vector, count in zip(parts(vectors, 8), counts):
                    answer += cipher.encrypt_cbc(plain[at : at + 8 * count], iv=vector)
                    at += 8 * count
                self.assertEqual(encrypt_records(cipher, plain, vectors, counts), answer)
                self.assertEqual(decrypt_records(cipher, answer, vectors, array.array("Q", counts)), plain)
                self.assertEqual(decrypt_records(cipher, bytearray(answer), memoryview(vectors), iter(counts)), plain)

    def test_vectors_by_name(self):
        """One record of one block, by whose place it could be the vector: a TypeError that says what to write."""
        cipher = TdesEde3(KEY)
        for call in (cukvashe_des.encrypt_cbc_records, cukvashe_des.decrypt_cbc_records):
            written = f"^the data come first, .*: {call.__name__}\\(cipher, blocks, vectors=vectors, counts=counts\\)$"
            for arguments in ((TEXT[:8], [1], TEXT[8:16]), (TEXT[:8], TEXT[8:16], [1]), (TEXT[:8], TEXT[8:16])):
                self.assertRaisesRegex(TypeError, written, call, cipher, *arguments)

    def test_refused(self):
        cipher = TdesEde3(KEY)
        for call in (encrypt_records, decrypt_records):
            for counts in ([1, 1], [1, 3], [4], [], [3], [1, 1, 1], [-1, 4], [2**64, 3], [2**64 - 1, 4]):
                self.assertRaises(CountMismatchError, call, cipher, bytes(24), bytes(16), counts)
            # Lengths in bytes, and counts of which eight times as much is right in 64 bits.
            for counts in ([8, 16], [2**61 + 1, 2]):
                self.assertRaises(CountMismatchError, call, cipher, bytes(24), bytes(16), counts)
            self.assertRaises(VectorLengthError, call, cipher, bytes(24), bytes(15), [3])
            self.assertRaises(BlockLengthError, call, cipher, bytes(23), bytes(8), [3])
            for wrong in (b"12", "12", 3, None, [1.5], ["1"], {1, 2}, frozenset((1, 2)), {1: 1, 2: 2}, {1: 1, 2: 2}.keys()):
                self.assertRaises(TypeError, call, cipher, bytes(24), bytes(16), wrong)
            self.assertRaises(TypeError, call, TdesEde3, bytes(24), bytes(8), [3])
            with cipher.__class__(KEY) as closed:
                pass
            self.assertRaises(cukvashe_des.ClosedError, call, closed, bytes(24), bytes(8), [3])


class Messages(unittest.TestCase):
    def test_macs(self):
        kinds = [(kind, (padding,)) for kind in PADDED_MACS for padding in (1, 2)] + [(kind, ()) for kind in CMACS]
        for kind, method in kinds:
            padding = method[0] if method else None
            for count in COUNTS:
                lengths = [k % 41 for k in range(count)]
                text, keys, at, pieces = some(sum(lengths), 3), some(kind.key_size * count), 0, []
                for length in lengths:
                    pieces.append(text[at : at + length])
                    at += length
                key = KEY[: kind.key_size]
                tags = b"".join(kind(key, *method, piece).digest() for piece in pieces)
                self.assertEqual(cukvashe_des.macs(kind, key, padding, lengths, text), tags)
                tags = b"".join(kind(key, *method, piece).digest() for key, piece in zip(parts(keys, kind.key_size), pieces))
                self.assertEqual(cukvashe_des.macs_each(kind, keys, padding, iter(lengths), text), tags)

    def test_refused(self):
        for kind in PADDED_MACS + CMACS:
            key, right = KEY[: kind.key_size], 1 if kind in PADDED_MACS else None
            for call, keys in ((cukvashe_des.macs, key), (cukvashe_des.macs_each, key * 2)):
                for lengths in ([1, 1], [3, 1], [-1, 4], [2**64, 3], [2**64 - 1, 4]):
                    self.assertRaises(CountMismatchError, call, kind, keys, right, lengths, b"abc")
                for padding in (0, 3, -1, 2**40):
                    fault = cukvashe_des.PaddingMethodError if right else TypeError
                    self.assertRaises(fault, call, kind, keys, padding, [1, 2], b"abc")
                self.assertRaises(KeyLengthError, call, kind, keys[:-1], right, [1, 2], b"abc")
                for lengths in ({1, 2}, {1: 1, 2: 2}):
                    self.assertRaises(TypeError, call, kind, keys, right, lengths, b"abc")
                for padding in ("1", True, None if right else 1):
                    self.assertRaises(TypeError, call, kind, keys, padding, [1, 2], b"abc")
                self.assertRaises(TypeError, call, TdesEde3, keys, right, [1, 2], b"abc")
                for words in (array.array("H", b"ab"), (ctypes.c_uint64 * 1)()):
                    with self.assertRaisesRegex(TypeError, "most significant byte first"):
                        call(kind, keys, right, [1, memoryview(words).nbytes - 1], words)
            for keys in (b"", key, key * 3):
                self.assertRaises(CountMismatchError, cukvashe_des.macs_each, kind, keys, right, [1, 2], b"abc")


class Tags(unittest.TestCase):
    def test_compared(self):
        for count in COUNTS:
            expected, right = some(8 * count, 3), [place % 3 == 0 for place in range(count)]
            tags = bytearray(expected)
            for place in range(count):
                if not right[place]:
                    tags[8 * place + place // 3 % 8] ^= 1 << place // 24 % 8
            wrong = [place for place in range(count) if not right[place]]
            self.assertEqual(cukvashe_des.wrong_tags(tags, expected), wrong)
            self.assertEqual(cukvashe_des.wrong_tags(expected, tags), wrong)
            self.assertEqual(cukvashe_des.wrong_tags(expected, expected), [])

    def test_made(self):
        keys, lengths, text = PAIR * 3, (20, 0, 4), some(24)
        tags = cukvashe_des.macs_each(RetailMacDes, keys, 2, lengths, text)
        self.assertEqual(cukvashe_des.wrong_tags(tags[:16] + bytes(8), tags), [2])


def views_of_list(value, size):
    """Elements of a size as data of other kinds: in one piece or not, in rows, in rows of rows, in big-endian words."""
    count = len(value) // size
    yield bytearray(value)
    yield memoryview(bytearray(b"head" + value + b"tail"))[4 : 4 + len(value)].toreadonly()
    yield memoryview(bytes(byte for pair in zip(value, value[::-1]) for byte in pair))[::2]
    yield memoryview(value[::-1])[::-1]
    yield array.array("b", value)
    yield (ctypes.c_char * len(value)).from_buffer_copy(value)
    yield memoryview(value).cast("B", (count, size))
    yield memoryview(value).cast("c", (1, count, size))
    yield by_columns(value, count)
    yield memoryview(b"".join(reversed(parts(value, size)))).cast("B", (count, size))[::-1]
    yield (ctypes.c_uint16.__ctype_be__ * (len(value) // 2)).from_buffer_copy(value)
    yield (ctypes.c_uint16.__ctype_be__ * (size // 2) * count).from_buffer_copy(value)
    if size % 8 == 0:
        yield (ctypes.c_uint64.__ctype_be__ * (size // 8) * count).from_buffer_copy(value)


def wrong_rows(value, size):
    """The same bytes in rows of another size, of bytes and of words."""
    for row in range(1, len(value) + 1):
        if len(value) % row == 0 and row != size:
            yield memoryview(value).cast("B", (len(value) // row, row))
            yield memoryview(value).cast("B", (1, len(value) // row, row))
    yield (ctypes.c_uint16.__ctype_be__ * 1 * (len(value) // 2)).from_buffer_copy(value)


def wrong_words(value, size):
    """The same bytes as words of a machine that has the least byte first, and as other items, also in rows."""
    yield from words(value)
    for kind in (ctypes.c_uint16, ctypes.c_uint64, ctypes.c_double.__ctype_be__):
        if size % ctypes.sizeof(kind) == 0:
            yield (kind * (size // ctypes.sizeof(kind)) * (len(value) // size)).from_buffer_copy(value)


class Kinds(unittest.TestCase):
    def each_place(self, views_of):
        """Each call for lists of elements, the place of a list, and its arguments with one of the views in that place."""
        for call, arguments in LISTS:
            for at, value in enumerate(arguments):
                for view in views_of(value, ELEMENTS[call, at]) if (call, at) in ELEMENTS else ():
                    yield call, at, arguments, (*arguments[:at], view, *arguments[at + 1 :])
                    self.assertEqual(memoryview(view).tobytes(), value)

    def test_views(self):
        """Lists as data of each kind, which stay as they were."""
        for call, _, arguments, given in self.each_place(views_of_list):
            self.assertEqual(call(*given), call(*arguments))

    def test_other_rows(self):
        faults = {24: KeyLengthError, 16: KeyLengthError, 10: SerialLengthError, 8: BlockLengthError}
        for call, at, _, given in self.each_place(wrong_rows):
            size = ELEMENTS[call, at]
            fault = VectorLengthError if "records" in call.__name__ and at == 2 else faults[size]
            fault = CountMismatchError if call is cukvashe_des.wrong_tags else fault
            row = memoryview(given[at]).itemsize * memoryview(given[at]).shape[-1]
            hint = f": reshape\\(-1, {8 // memoryview(given[at]).itemsize}\\) makes them of it" if fault is BlockLengthError and row % 8 == 0 else ""
            with self.assertRaisesRegex(fault, f"^rows of {row} bytes are not [a-z ]+ of {size}{hint}$"):
                call(*given)

    def test_other_words(self):
        for call, _, _, given in self.each_place(wrong_words):
            with self.assertRaisesRegex(TypeError, "most significant byte first"):
                call(*given)

    def test_refused_in_place(self):
        """Where rows or words are refused, of the blocks or the keys, the blocks stay."""
        for call in (encrypt_each_into, decrypt_each_into):
            data = bytearray(TEXT)
            for shape in ((2, 12), (24, 1), (1, 6, 4)):
                self.assertRaises(BlockLengthError, call, TdesEde3, KEY * 3, memoryview(data).cast("B", shape))
            for words in "HQd":
                self.assertRaises(TypeError, call, TdesEde3, KEY * 3, memoryview(data).cast(words))
            for keys in wrong_rows(KEY * 3, 24):
                self.assertRaises(KeyLengthError, call, TdesEde3, keys, data)
            for keys in wrong_words(KEY * 3, 24):
                self.assertRaises(TypeError, call, TdesEde3, keys, data)
            self.assertEqual(data, TEXT)

    def test_views_of_messages(self):
        """The keys and messages of MACs as data of each kind, which stay as they were."""
        for call, arguments in LISTS:
            for at, value in enumerate(arguments):
                if isinstance(value, bytes) and (call, at) not in ELEMENTS:
                    for view in views(value):
                        self.assertEqual(call(*arguments[:at], view, *arguments[at + 1 :]), call(*arguments))
                        self.assertEqual(memoryview(view).tobytes(), value)
                    for view in words(value):
                        self.assertRaises(TypeError, call, *arguments[:at], view, *arguments[at + 1 :])

    def test_other_types(self):
        for call, arguments in LISTS:
            for at, value in enumerate(arguments):
                for other in (None, 3, [1, 2, 3], "text", object) if isinstance(value, (bytes, type)) else ():
                    self.assertRaises(TypeError, call, *arguments[:at], other, *arguments[at + 1 :])
        for call in (encrypt_each_into, decrypt_each_into):
            for other in (TEXT, memoryview(TEXT), memoryview(bytearray(TEXT * 2))[::2], by_columns(TEXT, 3)):
                with self.assertRaisesRegex(TypeError, "needs writable blocks in one piece"):
                    call(TdesEde3, KEY * 3, other)
            for other in (None, "text"):
                self.assertRaises(TypeError, call, TdesEde3, KEY * 3, other)

    def test_rows(self):
        """Rows of keys and blocks, as they stand: nothing of them is copied."""
        keys = memoryview(PAIR * 300).cast("B", (300, 16))
        blocks = memoryview(bytearray(some(8 * 300))).cast("B", (300, 8))
        with mock.patch.object(_data, "copy_of", side_effect=AssertionError):
            encrypt_each_into(TdesEde2, keys, blocks)
        self.assertEqual(blocks.tobytes(), TdesEde2(PAIR).encrypt_ecb(some(8 * 300)))

    def test_lent(self):
        """What is lent stands where the object has it."""
        memory = (ctypes.c_uint8 * 24).from_buffer_copy(KEY)
        for view in (memory, memoryview(memory), memoryview(memory).toreadonly(), memoryview(memory).toreadonly().cast("B", (3, 8))):
            with _data.lent(view) as (start, length):
                self.assertEqual((start, length), (ctypes.addressof(memory), 24))
        data = bytearray(KEY)
        with _data.lent(data):
            self.assertRaises(BufferError, data.clear)
        data.clear()

    @unittest.skipIf(numpy is None, "numpy is not installed")
    def test_numpy(self):
        blocks = numpy.frombuffer(TEXT, numpy.uint8).reshape(3, 8)
        for kind, answer in ANSWERS.items():
            keys = numpy.tile(numpy.frombuffer(KEY[: kind.key_size], numpy.uint8), (3, 1))
            self.assertEqual(encrypt_each(kind, keys, blocks), answer)
            self.assertEqual(encrypt_each(kind, keys.view(">u8"), blocks.view(">u8")), answer)
            self.assertEqual(encrypt_each(kind, numpy.asfortranarray(keys), numpy.asfortranarray(blocks)), answer)
            changed = blocks.copy()
            encrypt_each_into(kind, keys, changed)
            self.assertEqual(changed.tobytes(), answer)
            self.assertEqual(decrypt_each(kind, keys, changed), TEXT)
            self.assertRaises(KeyLengthError, check_values, kind, numpy.zeros((3, kind.key_size + 8), numpy.uint8))
            self.assertRaises(BlockLengthError, encrypt_each, kind, keys, blocks.reshape(2, 12))
            masked = numpy.ma.masked_array(keys)
            for other in (keys.view(numpy.uint64), keys.view(f"S{kind.key_size}"), keys.astype(object), keys.astype(float), masked):
                self.assertRaises(TypeError, encrypt_each, kind, other, blocks)
                self.assertRaises(TypeError, check_values, kind, other)

    @unittest.skipIf(numpy is None, "numpy is not installed")
    def test_numpy_counts(self):
        """Counts in an array of any integers."""
        cipher, counts = TdesEde3(KEY), (1, 2)
        answer = encrypt_records(cipher, TEXT, TEXT[:16], counts)
        for kind in (numpy.uint64, numpy.int64, numpy.uint8, ">u4"):
            self.assertEqual(encrypt_records(cipher, TEXT, TEXT[:16], numpy.array(counts, kind)), answer)
        for other in (numpy.array(counts, float), numpy.array([counts])):
            self.assertRaises(TypeError, encrypt_records, cipher, TEXT, TEXT[:16], other)

    def test_apart(self):
        """Keys and blocks of one memory at every distance: where a byte of the keys would be written over, the call has a copy of them, and
        else the keys themselves."""
        for kind in ANSWERS:
            size, given = 2 * kind.key_size, []
            memory = bytearray(some(size + 16 + size))
            begin = ctypes.addressof(ctypes.c_uint8.from_buffer(memory))

            def noting(keys, _, blocks, __):
                given.append((keys, ctypes.addressof(blocks._obj), ctypes.string_at(keys, size)))
                return _lists.OK

            for call in (encrypt_each_into, decrypt_each_into):
                with mock.patch.dict(KINDS[kind].calls, {call.__name__[: -len("_into")]: noting}):
                    for at in range(size + 17):
                        call(kind, memoryview(memory)[at : at + size], memoryview(memory)[size : size + 16])
                        keys, blocks, taken = given.pop()
                        self.assertEqual((blocks, taken), (begin + size, memory[at : at + size]))
                        is_apart = at + size <= size or size + 16 <= at
                        self.assertEqual(keys == begin + at, is_apart)
                        self.assertTrue(keys + size <= blocks or blocks + 16 <= keys)

    def test_overlap(self):
        """Keys that are written over meanwhile are taken as they were."""
        for kind in ANSWERS:
            data = bytearray(some(8 * 40))
            keys = bytes(data[: kind.key_size * 10])
            answer = encrypt_each(kind, keys, data[:80])
            encrypt_each_into(kind, memoryview(data)[: kind.key_size * 10], memoryview(data)[:80])
            self.assertEqual(data[:80], answer)
            self.assertEqual(data[80:], some(8 * 40)[80:])


class Refused(unittest.TestCase):
    def test_stays(self):
        for call in (encrypt_each_into, decrypt_each_into):
            for keys, fault in ((KEY * 2, CountMismatchError), (KEY * 4, CountMismatchError), (KEY[:23], KeyLengthError), (b"", CountMismatchError)):
                blocks = bytearray(TEXT)
                self.assertRaises(fault, call, TdesEde3, keys, blocks)
                self.assertEqual(blocks, TEXT)
            self.assertRaises(BlockLengthError, call, TdesEde3, KEY, bytearray(7))


class Threads(unittest.TestCase):
    def test_two_threads(self):
        """Two threads, each on its half of one list of keys and blocks, in place."""
        count = 20_000
        keys, blocks = some(16 * count), bytearray(some(8 * count, 5))
        answer = encrypt_each(TdesEde2, keys, blocks)

        def half(at):
            mine = slice(at * count // 2, (at + 1) * count // 2)
            of_keys = memoryview(keys).cast("B", (count, 16))[mine]
            encrypt_each_into(TdesEde2, of_keys, memoryview(blocks).cast("B", (count, 8))[mine])

        threads = [threading.Thread(target=half, args=(at,)) for at in range(2)]
        for thread in threads:
            thread.start()
        for thread in threads:
            thread.join()
        self.assertEqual(blocks, answer)


class Words(unittest.TestCase):
    def test_words(self):
        """Words with the most significant byte first are changed in place."""
        words = (ctypes.c_uint64.__ctype_be__ * 3).from_buffer_copy(TEXT)
        encrypt_each_into(TdesEde3, KEY * 3, words)
        self.assertEqual(bytes(words), ANSWERS[TdesEde3])
        self.assertIn("encrypt_each", cukvashe_des.__all__)


class Wiped(WatchesWiping):
    """Copies that a call makes of keys are wiped after it: of keys in pieces, and of those that it writes over."""

    def test_pieces(self):
        for kind in ANSWERS:
            keys = KEY[: kind.key_size] * 3
            spread = memoryview(bytes(byte for byte in keys for _ in range(2)))[::2]
            for call, arguments in ((check_values, ()), (encrypt_each, (TEXT,)), (encrypt_each_into, (bytearray(TEXT),))):
                self.wiped.clear()
                call(kind, keys, *arguments)
                self.assertEqual(self.wiped, [])
                call(kind, spread, *arguments)
                self.assertEqual((self.wiped, self.contents), ([len(keys)], keys))

    def test_pieces_of_a_refused_call(self):
        spread = memoryview(bytes(byte for byte in KEY * 2 for _ in range(2)))[::2]
        for call, blocks in ((encrypt_each, TEXT), (encrypt_each_into, bytearray(TEXT))):
            self.wiped.clear()
            self.assertRaises(CountMismatchError, call, TdesEde3, spread, blocks)
            self.assertEqual(self.wiped, [48])

    def test_overlap(self):
        for kind in ANSWERS:
            data, size = bytearray(some(8 * 40)), kind.key_size * 10
            keys = bytes(data[:size])
            self.wiped.clear()
            encrypt_each_into(kind, memoryview(data)[:size], memoryview(data)[:80])
            self.assertEqual((self.wiped, self.contents), ([size], keys))

    def test_messages(self):
        keys = PAIR * 3
        spread = memoryview(bytes(byte for byte in keys for _ in range(2)))[::2]
        cukvashe_des.macs_each(RetailMacDes, keys, 2, (20, 0, 4), some(24))
        self.assertEqual(self.wiped, [])
        cukvashe_des.macs_each(RetailMacDes, spread, 2, (20, 0, 4), some(24))
        self.assertEqual((self.wiped, self.contents), ([len(keys)], keys))

    def test_transactions(self):
        serials = bytes.fromhex("ffff9876543210e00001" "ffff9876543210e00002")
        keys = cukvashe_des.dukpt_transaction_keys_from_base(PAIR, serials)
        self.assertEqual((sorted(self.wiped), len(keys)), ([16, 32], 32))
