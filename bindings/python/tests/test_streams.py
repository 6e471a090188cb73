"""CTR, OFB and CFB: of whole texts and in pieces, beside published values and other packages; and what is refused."""

import copy
import ctypes
import gc
import pickle
import random
import threading
import unittest
from unittest import mock

import cukvashe_des
from cukvashe_des import (
    Cfb,
    ClosedError,
    Ctr,
    DataLengthError,
    Des,
    DirectionError,
    Ofb,
    PositionError,
    SegmentSizeError,
    TdesEde2,
    TdesEde3,
    VectorLengthError,
    _streams,
)
from cukvashe_des._data import KINDS

from .test_data import WatchesWiping, by_columns, views, words
from .values import ANSWERS, IV, KEY, LENGTHS, SEED, TEXT, in_places, random_bytes

SEGMENTS = (1, *range(8, 65, 8))

# FIPS 81, appendices C and D, as far as it is printed there, and to its end by OpenSSL's legacy provider (-des-cfb1, -cfb8, -cfb, -ofb).
FIPS_KEY, FIPS_TEXT = bytes.fromhex("0123456789abcdef"), b"Now is the time for all "
PUBLISHED = (
    (Des, FIPS_KEY, ("cfb", 1), FIPS_TEXT, "cd1ec959add480f11ee40c517f29fb52b282946f94765a13"),
    (Des, FIPS_KEY, ("cfb", 8), FIPS_TEXT, "f31fda07011462ee187f43d80a7cd9b5b0d290da6e5b9a87"),
    (Des, FIPS_KEY, ("cfb", 64), FIPS_TEXT, "f3096249c7f46e51a69e839b1a92f78403467133898ea622"),
    (Des, FIPS_KEY, ("ofb", 0), FIPS_TEXT, "f3096249c7f46e5135f24a242eeb3d3f3d6d5be3255af8c3"),
)


def calls_of(cipher, mode, segment, vector):
    """The calls of a cipher for whole texts in a mode, of both directions, and what makes its stream."""
    name, named = {"ctr": ("Ctr", {"counter": vector}), "ofb": ("Ofb", {"iv": vector}),
                   "cfb": ("Cfb", {"iv": vector, "segment_size": segment})}[mode]
    encrypt, decrypt = (getattr(cipher, f"{direction}_{mode}") for direction in ("encrypt", "decrypt"))
    return (lambda data: encrypt(data, **named), lambda data: decrypt(data, **named),
            lambda: getattr(cukvashe_des, name)(cipher, **named))


def modes():
    yield from ((mode, 0) for mode in ("ctr", "ofb"))
    yield from (("cfb", segment) for segment in SEGMENTS)


def in_pieces(stream, is_encryption, data, cuts):
    """What a stream makes of data that are cut at these places, by turns in place and not."""
    made, begin = b"", 0
    for at, end in enumerate([*cuts, len(data)]):
        piece, begin = data[begin:end], end
        if at % 2:
            changed = bytearray(piece)
            (stream.encrypt_into if is_encryption else stream.decrypt_into)(changed)
            made += changed
        else:
            made += (stream.encrypt if is_encryption else stream.decrypt)(piece)
    return made


class KnownAnswers(unittest.TestCase):
    def test_published(self):
        for kind, key, (mode, segment), plain, digits in PUBLISHED:
            answer = bytes.fromhex(digits)
            for no_tables in (False, True):
                encrypt, decrypt, stream = calls_of(kind(key, no_tables=no_tables), mode, segment, IV)
                self.assertEqual((encrypt(plain), decrypt(answer)), (answer, plain))
                for cut in range(len(plain) + 1):
                    self.assertEqual(in_pieces(stream(), True, plain, [cut, cut]), answer)
                    self.assertEqual(in_pieces(stream(), False, answer, [cut]), plain)

    def test_counter(self):
        """The key stream is the blocks of the counter, which is one number of 64 bits, and wraps."""
        for kind in ANSWERS:
            cipher = kind(KEY[: kind.key_size])
            for first in (0, 255, 2**32 - 1, 2**64 - 2):
                counters = b"".join(((first + at) % 2**64).to_bytes(8, "big") for at in range(600))
                stream = cipher.encrypt_ecb(counters)
                self.assertEqual(cipher.encrypt_ctr(bytes(4800), counter=counters[:8]), stream)
                self.assertEqual(cipher.decrypt_ctr(stream[:4799], counter=counters[:8]), bytes(4799))

    def test_seek(self):
        """Every place of a text, forward and back; in the largest the counter has come round."""
        cipher = TdesEde3(KEY)
        stream = cipher.encrypt_ctr(bytes(100), counter=IV)
        one = Ctr(cipher, counter=IV)
        for position in (*range(100), 3, 99, 0, 8, 7):
            one.seek(position)
            self.assertEqual(one.copy().encrypt(bytes(100 - position)), stream[position:])
            self.assertEqual(one.decrypt(stream[position:]), bytes(100 - position))
        one.seek(2**67 - 5)
        self.assertEqual(one.encrypt(bytes(11))[5:], stream[:6])
        for position in (-1, -(2**70), 2**67, 2**100):
            self.assertRaises(PositionError, one.seek, position)
        for position in (None, "3", 3.0, True, b"3"):
            self.assertRaises(TypeError, one.seek, position)
        self.assertEqual(one.encrypt(bytes(4)), stream[6:10])

    def test_counter_is_kept(self):
        """Where a stream seeks, its counter block is that of the beginning, in a copy too: the caller may have changed his own."""
        cipher, counter = TdesEde3(KEY), bytearray(IV)
        one = Ctr(cipher, counter=counter)
        other = one.copy()
        counter[:] = bytes(8)
        for stream in (one, other):
            stream.seek(11)
            self.assertEqual(stream.encrypt(TEXT[11:]), cipher.encrypt_ctr(TEXT, counter=IV)[11:])

    def test_bits(self):
        """The bits of a text in pieces are those of the whole, and the others stay."""
        cipher = TdesEde3(KEY)
        plain = TEXT[:5]
        answer = cipher.encrypt_cfb(plain, iv=IV, segment_size=1)
        digits = [format(int.from_bytes(data, "big"), "040b") for data in (plain, answer)]
        for decrypts in (0, 1):
            given, made = digits[decrypts], digits[1 - decrypts]
            for cut in range(41):
                stream = Cfb(cipher, iv=IV, segment_size=1)
                call = stream.decrypt_bits if decrypts else stream.encrypt_bits
                for bits, right in ((given[:cut], made[:cut]), (given[cut:], made[cut:])):
                    data = int((bits + "10110101")[: -(-len(bits) // 8) * 8] or "0", 2).to_bytes(-(-len(bits) // 8), "big")
                    shown = "".join(format(byte, "08b") for byte in call(data, len(bits)))
                    self.assertEqual(shown, right + "10110101"[: len(shown) - len(bits)])

    def test_copy(self):
        for mode, segment in modes():
            encrypt, _, begun = calls_of(TdesEde2(KEY[:16]), mode, segment, IV)
            one, answer = begun(), encrypt(TEXT)
            self.assertEqual(one.encrypt(TEXT[:11]), answer[:11])
            other = one.copy()
            self.assertEqual((one.encrypt(TEXT[11:]), type(other)), (answer[11:], type(one)))
            one.close()
            self.assertEqual(other.encrypt(TEXT[11:]), answer[11:])

    def test_kinds_of_data(self):
        """Data and vectors of each kind, which stay as they were; words in another order are refused."""
        for mode, segment in modes():
            encrypt, decrypt, begun = calls_of(Des(KEY[:8]), mode, segment, IV)
            answer = encrypt(TEXT)
            for call in (encrypt, lambda data: begun().encrypt(data)):
                for view in views(TEXT):
                    self.assertEqual(call(view), answer)
                    self.assertEqual(memoryview(view).tobytes(), TEXT)
                for view in words(TEXT):
                    self.assertRaises(TypeError, call, view)
            for view in views(IV):
                _, of_view, stream = calls_of(Des(KEY[:8]), mode, segment, view)
                self.assertEqual((of_view(answer), stream().decrypt(answer)), (TEXT, TEXT))
            self.assertEqual((encrypt(b""), decrypt(b""), begun().encrypt(b"")), (b"", b"", b""))

    def test_in_place(self):
        for mode, segment in modes():
            encrypt, _, begun = calls_of(TdesEde3(KEY), mode, segment, IV)
            around = bytearray(b"head" + TEXT + b"tail")
            self.assertIsNone(begun().encrypt_into(memoryview(around)[4:28]))
            self.assertEqual(around, b"head" + encrypt(TEXT) + b"tail")
            self.assertIsNone(begun().decrypt_into(memoryview(around)[4:28]))
            self.assertEqual(around, b"head" + TEXT + b"tail")
            stream, columns = begun(), by_columns(TEXT, 3)
            for view in (TEXT, memoryview(around).toreadonly(), memoryview(around)[::2], columns, "text", *words(TEXT)):
                self.assertRaises(TypeError, stream.encrypt_into, view)
                self.assertRaises(TypeError, stream.decrypt_into, view)
            self.assertEqual(stream.encrypt(TEXT), encrypt(TEXT))


class Refused(unittest.TestCase):
    def test_vectors(self):
        for mode, segment in modes():
            for length in LENGTHS:
                encrypt, decrypt, begun = calls_of(Des(KEY[:8]), mode, segment, bytes(length))
                what = "a counter block" if mode == "ctr" else "an initialization vector"
                for call in (lambda: encrypt(TEXT), lambda: decrypt(TEXT), begun) if length != 8 else ():
                    self.assertRaisesRegex(VectorLengthError, f"^{what} has 8 bytes, not {length}$", call)

    def test_segments(self):
        cipher = TdesEde3(KEY)
        calls = [in_places(call, "iv", "segment_size") for call in (cipher.encrypt_cfb, cipher.decrypt_cfb)]
        calls.append(lambda _, iv, segment: Cfb(cipher, iv=iv, segment_size=segment))
        for call in calls:
            for segment in range(-1, 130):
                if segment not in SEGMENTS:
                    with self.assertRaisesRegex(SegmentSizeError, "^a segment has 1 bit, or 8, 16, 24, 32, 40, 48, 56 or 64$"):
                        call(TEXT, IV, segment)
            for segment in (2**64 + 8, -(2**64) + 8):
                self.assertRaises(SegmentSizeError, call, TEXT, IV, segment)
            for segment in (None, "8", 8.0, True, b"8"):
                self.assertRaisesRegex(TypeError, "^segment_size is a number of bits$", call, TEXT, IV, segment)

    def test_segment_is_said(self):
        """There is no usual segment: the error says why."""
        cipher = TdesEde3(KEY)
        said = r"\(.*segment_size=segment_size\), with the bits of a segment: by CFB alone PyCryptodome means 8, OpenSSL and cryptography 64$"
        self.assertRaisesRegex(TypeError, "^write encrypt_cfb" + said, cipher.encrypt_cfb, TEXT, iv=IV)
        self.assertRaisesRegex(TypeError, "^write decrypt_cfb" + said, cipher.decrypt_cfb, TEXT, iv=IV)
        self.assertRaisesRegex(TypeError, "^write Cfb" + said, Cfb, cipher, iv=IV)

    def test_names(self):
        """Vectors go by name: in another order they would be data."""
        cipher = TdesEde3(KEY)
        for call in (cipher.encrypt_ctr, cipher.decrypt_ctr, cipher.encrypt_ofb, cipher.decrypt_ofb, cipher.encrypt_cfb, cipher.decrypt_cfb):
            for arguments in ((TEXT, IV), (IV, TEXT), (TEXT, IV, 8)):
                self.assertRaisesRegex(TypeError, f"^the data come first, and vectors go by name: {call.__name__}\\(data, ", call, *arguments)
            self.assertRaises(TypeError, call, TEXT)
            self.assertRaises(TypeError, call, TEXT, vector=IV)
        for kind in (Ctr, Ofb, Cfb):
            self.assertRaisesRegex(TypeError, f"^the cipher comes first, and vectors go by name: {kind.__name__}\\(cipher, ", kind, cipher, IV)
            self.assertRaises(TypeError, kind, cipher)
            for wrong in (None, KEY, TdesEde3, cukvashe_des.CmacTdesEde3(KEY), Ofb(cipher, iv=IV)):
                named = {"counter": IV} if kind is Ctr else {"iv": IV} if kind is Ofb else {"iv": IV, "segment_size": 8}
                self.assertRaisesRegex(TypeError, "^the first argument is a cipher", kind, wrong, **named)
        self.assertRaisesRegex(TypeError, "^a stream is ", cukvashe_des.Stream, cipher)

    def test_bits(self):
        stream = Cfb(TdesEde3(KEY), iv=IV, segment_size=1)
        for call in (stream.encrypt_bits, stream.decrypt_bits):
            for bits in (-1, 25, 2**64, 2**64 + 1):
                self.assertRaisesRegex(DataLengthError, "^the number of bits is from 0 to 24$", call, bytes(3), bits)
            for bits in (None, 1.0, True, "1"):
                self.assertRaisesRegex(TypeError, "^the number of bits is a number$", call, bytes(3), bits)
        for segment in SEGMENTS[1:]:
            other = Cfb(TdesEde3(KEY), iv=IV, segment_size=segment)
            for call in (other.encrypt_bits, other.decrypt_bits):
                self.assertRaisesRegex(SegmentSizeError, "^bits are taken with segments of 1 bit alone$", call, bytes(3), 5)
        self.assertEqual(stream.encrypt(TEXT), TdesEde3(KEY).encrypt_cfb(TEXT, iv=IV, segment_size=1))

    def test_directions(self):
        """A stream goes in one direction, once a byte or a bit has, and a copy in the same; CTR in either from a position on."""
        for mode, segment in modes():
            encrypt, decrypt, begun = calls_of(TdesEde3(KEY), mode, segment, IV)
            for direction, other, whole in (("encrypt", "decrypt", encrypt), ("decrypt", "encrypt", decrypt)):
                stream = begun()
                getattr(stream, other)(b"")
                first = getattr(stream, direction)(TEXT[:5])
                for one in (stream, stream.copy()):
                    data = bytearray(TEXT)
                    calls = [(getattr(one, other), data), (getattr(one, other), b""), (getattr(one, f"{other}_into"), data)]
                    calls += [(getattr(one, f"{other}_bits"), data, 3)] if segment == 1 else []
                    for call, *arguments in calls:
                        says = f"^this stream {direction}s: begin another to {other}$"
                        self.assertRaisesRegex(DirectionError, says, call, *arguments)
                    self.assertEqual((data, first + getattr(one, direction)(TEXT[5:])), (TEXT, whole(TEXT)))
                if mode == "ctr":
                    stream.seek(5)
                    self.assertEqual(first + getattr(stream, other)(TEXT[5:]), whole(TEXT))
        stream = Cfb(TdesEde3(KEY), iv=IV, segment_size=1)
        stream.encrypt_bits(TEXT, 0)
        stream.decrypt_bits(TEXT, 1)
        self.assertRaises(DirectionError, stream.encrypt_bits, TEXT, 1)

    def test_closed(self):
        """A stream ends with its cipher, or by itself; the cipher stays."""
        for mode, segment in modes():
            for closes_cipher in (False, True):
                cipher = TdesEde3(KEY)
                encrypt, decrypt, begun = calls_of(cipher, mode, segment, IV)
                with begun() as stream:
                    if closes_cipher:
                        cipher.close()
                data = bytearray(TEXT)
                calls = [(stream.encrypt, data), (stream.decrypt, data), (stream.encrypt_into, data), (stream.decrypt_into, data), (stream.copy,)]
                calls += [(stream.seek, 8)] if mode == "ctr" else [(stream.encrypt_bits, data, 3)] if segment == 1 else []
                calls += [(encrypt, data), (decrypt, data), (begun,)] if closes_cipher else []
                for call, *arguments in calls:
                    self.assertRaises(ClosedError, call, *arguments)
                self.assertEqual(data, TEXT)
                stream.close()
                if not closes_cipher:
                    self.assertEqual(cipher.encrypt_ecb(TEXT), ANSWERS[TdesEde3])

    def test_refusal_changes_nothing(self):
        for mode, segment in modes():
            encrypt, _, begun = calls_of(TdesEde3(KEY), mode, segment, IV)
            stream = begun()
            first = stream.encrypt(TEXT[:5])
            for wrong in ("text", None, 3, [1]):
                for call in (stream.encrypt, stream.decrypt, stream.encrypt_into):
                    self.assertRaises(TypeError, call, wrong)
            self.assertEqual(first + stream.encrypt(TEXT[5:]), encrypt(TEXT))

    def test_status(self):
        """A status that a call does not have is a RuntimeError, and no answer."""
        for name in ("encrypt_mode", "encrypt_stream"):
            with mock.patch.dict(KINDS[TdesEde3].calls, {name: lambda *_: 46}):
                for mode, segment in modes():
                    encrypt, _, begun = calls_of(TdesEde3(KEY), mode, segment, IV)
                    self.assertRaisesRegex(RuntimeError, "46", encrypt if name == "encrypt_mode" else begun().encrypt, TEXT)
        with mock.patch.object(_streams, "_begin", return_value=45):
            self.assertRaisesRegex(RuntimeError, "45", Ofb, TdesEde3(KEY), iv=IV)


class Objects(WatchesWiping):
    def test_wiped(self):
        """The state by close, by the end of `with`, by the end of the last use, and where seek puts another in its place; no key."""
        cipher = TdesEde3(KEY)
        for mode, segment in modes():
            _, _, begun = calls_of(cipher, mode, segment, IV)
            self.wiped.clear()
            begun().close()
            with begun():
                pass
            begun()
            gc.collect()
            self.assertEqual(self.wiped, [32, 32, 32])
            stream = begun()
            other = stream.copy()
            self.wiped.clear()
            other.close()
            if mode == "ctr":
                stream.seek(9)
            # The states of the copy, and of where the stream was, and the key stream of the byte that is skipped.
            self.assertEqual(self.wiped, [32, 32, 1] if mode == "ctr" else [32])
        self.wiped.clear()
        del stream, other, begun
        cipher.close()
        gc.collect()
        self.assertIn(ctypes.sizeof(KINDS[TdesEde3].context), self.wiped)

    def test_not_shown(self):
        for mode, segment in modes():
            _, _, begun = calls_of(TdesEde3(KEY), mode, segment, IV)
            stream = begun()
            for form in (str, repr, format, ascii, "%s".__mod__):
                self.assertEqual(form(stream), f"{type(stream).__name__} {{ ... }}")
            self.assertFalse(hasattr(stream, "__dict__"))
            self.assertNotEqual(stream, begun())
            for call in (bytes, memoryview, pickle.dumps, copy.copy, copy.deepcopy):
                self.assertRaises(TypeError, call, stream)
            for other in (cukvashe_des.DukptTerminal, TdesEde3, cukvashe_des.CmacTdesEde3):
                self.assertRaises(TypeError, setattr, stream, "__class__", other)

    def test_derived(self):
        """A class that a caller derives is the same."""
        class Own(TdesEde2):
            name, key_size = "des", 8

        class OwnStream(Ofb):
            pass

        cipher, key = Own(KEY[:16]), TdesEde2(KEY[:16])
        self.assertEqual(OwnStream(cipher, iv=IV).encrypt(TEXT), key.encrypt_ofb(TEXT, iv=IV))
        self.assertEqual(cipher.encrypt_ctr(TEXT, counter=IV), key.encrypt_ctr(TEXT, counter=IV))
        self.assertIsInstance(OwnStream(cipher, iv=IV).copy(), OwnStream)

    def test_threads(self):
        """Threads that share a stream take each byte of it once."""
        cipher, made = TdesEde3(KEY), []
        stream = Ctr(cipher, counter=IV)

        def work():
            for _ in range(200):
                made.append(stream.encrypt(bytes(8)))

        threads = [threading.Thread(target=work) for _ in range(4)]
        for thread in threads:
            thread.start()
        for thread in threads:
            thread.join()
        whole = cipher.encrypt_ctr(bytes(6400), counter=IV)
        self.assertEqual(sorted(made), sorted(whole[at : at + 8] for at in range(0, 6400, 8)))

    def test_turns(self):
        """While a call changes the state, the stream is locked: threads seldom meet there by themselves."""
        cipher, locked = TdesEde3(KEY), []
        stream = Cfb(cipher, iv=IV, segment_size=1)
        counter = Ctr(cipher, counter=IV)
        others = stream.copy(), counter.copy()
        calls = [(it.encrypt, TEXT) for it in (stream, counter)] + [(it.decrypt_into, bytearray(TEXT)) for it in others]
        calls += [(stream.encrypt_bits, TEXT, 3), (others[0].decrypt_bits, TEXT, 3), (counter.seek, 3)]
        for call, *arguments in calls:
            def of_call(*_, lock=call.__self__._turns):
                locked.append(lock.locked())
                return 0

            names = [f"{direction}_stream{what}" for direction in ("encrypt", "decrypt") for what in ("", "_bits")]
            with mock.patch.dict(KINDS[TdesEde3].calls, dict.fromkeys(names, of_call)):
                call(*arguments)
        self.assertEqual(locked, [True] * len(calls))
        for name in ("copy", "close"):
            counter._turns = mock.MagicMock()
            getattr(counter, name)()
            counter._turns.__enter__.assert_called_once_with()


class Others(unittest.TestCase):
    """Random texts, cut at random, beside PyCryptodome and `cryptography`; CFB with segments of 1 bit beside the definition of FIPS 81 over
    PyCryptodome's ECB."""

    COUNT = 20_000

    def setUp(self):
        try:
            from Cryptodome.Cipher import DES, DES3
            from Cryptodome.Util import Counter
        except ImportError:
            try:
                from Crypto.Cipher import DES, DES3
                from Crypto.Util import Counter
            except ImportError:
                self.skipTest("PyCryptodome is not installed")
        self.counter = Counter
        self.theirs = {Des: DES, TdesEde2: DES3, TdesEde3: DES3}

    def by_bits(self, block, vector, data, is_encryption):
        register, made, number = int.from_bytes(vector, "big"), 0, int.from_bytes(data, "big")
        for at in range(8 * len(data) - 1, -1, -1):
            given = number >> at & 1
            answer = given ^ block.encrypt(register.to_bytes(8, "big"))[0] >> 7
            register = (register << 1 | (answer if is_encryption else given)) % 2**64
            made = made << 1 | answer
        return made.to_bytes(len(data), "big")

    def by_pycryptodome(self, kind, key, mode, segment, vector, data, is_encryption):
        theirs = self.theirs[kind]
        if mode == "cfb" and segment == 1:
            return self.by_bits(theirs.new(key, theirs.MODE_ECB), vector, data, is_encryption)
        if mode == "ctr":
            cipher = theirs.new(key, theirs.MODE_CTR, counter=self.counter.new(64, initial_value=int.from_bytes(vector, "big"), little_endian=False))
        elif mode == "ofb":
            cipher = theirs.new(key, theirs.MODE_OFB, iv=vector)
        else:
            cipher = theirs.new(key, theirs.MODE_CFB, iv=vector, segment_size=segment)
        # It takes whole segments alone: what is added changes nothing before it.
        whole = data + bytes(-len(data) % (segment // 8 or 1))
        return (cipher.encrypt if is_encryption else cipher.decrypt)(whole)[: len(data)]

    def test_random(self):
        rng = random.Random(SEED)
        pool = []
        for kind in ANSWERS:
            for no_tables in (False, True):
                for _ in range(8):
                    key = random_bytes(rng, kind.key_size)
                    pool.append((kind, key, kind(key, no_tables=no_tables)))
        for number in range(self.COUNT):
            kind, key, cipher = rng.choice(pool)
            mode, segment = rng.choice([("ctr", 0), ("ofb", 0), ("cfb", rng.choice(SEGMENTS))])
            length = rng.choice((rng.randrange(20), rng.randrange(60), rng.randrange(300) if number % 8 == 0 and segment != 1 else 8))
            vector, data, is_encryption = random_bytes(rng, 8), random_bytes(rng, length), rng.random() < 0.5
            encrypt, decrypt, begun = calls_of(cipher, mode, segment, vector)
            expected = self.by_pycryptodome(kind, key, mode, segment, vector, data, is_encryption)
            if number % 2:
                made = (encrypt if is_encryption else decrypt)(data)
            else:
                made = in_pieces(begun(), is_encryption, data, sorted(rng.randrange(length + 1) for _ in range(rng.randrange(4))))
            self.assertEqual(made, expected, (SEED, kind, mode, segment, length, is_encryption, number))

    def test_cryptography(self):
        """`cryptography` means 64 bits by CFB, and has 8 by another name."""
        try:
            from cryptography.hazmat.primitives.ciphers import Cipher, modes as their_modes
        except ImportError:
            self.skipTest("cryptography is not installed")
        try:
            from cryptography.hazmat.decrepit.ciphers.algorithms import TripleDES
        except ImportError:
            from cryptography.hazmat.primitives.ciphers.algorithms import TripleDES
        rng = random.Random(SEED)
        cases = ((their_modes.CFB, "cfb", 64), (their_modes.CFB8, "cfb", 8), (their_modes.OFB, "ofb", 0))
        for number in range(600):
            key, vector, data = random_bytes(rng, 24), random_bytes(rng, 8), random_bytes(rng, rng.randrange(200))
            theirs, mode, segment = cases[number % 3]
            encrypt, decrypt, _ = calls_of(TdesEde3(key), mode, segment, vector)
            made = Cipher(TripleDES(key), theirs(vector))
            for call, other in ((encrypt, made.encryptor()), (decrypt, made.decryptor())):
                self.assertEqual(call(data), other.update(data) + other.finalize(), (SEED, number))
