"""What is given: data of every kind, read once and never changed; and what becomes of memory that held a key."""

import array
import copy
import ctypes
import gc
import pickle
import struct
import sys
import threading
import unittest
import weakref
from unittest import mock

from cukvashe_des import (
    BlockLengthError,
    ClosedError,
    CmacTdesEde3,
    Des,
    DukptTerminal,
    Error,
    StateLengthError,
    TagMismatchError,
    TdesEde3,
    _ciphers,
    _data,
    _statuses,
    _terminal,
    bytes_to_key,
    combine,
    open_salted,
    pin_decode_2,
    unwrap_key_block,
    wrap_key_block,
)
from cukvashe_des._data import KINDS

from .values import (
    ANSWERS,
    BLOCK,
    BLOCK_HEADER,
    CALLS,
    CMACS,
    FUNCTIONS,
    IV,
    KEY,
    MESSAGE,
    OBJECTS,
    PADDED_MACS,
    PROTECTION,
    SALTED,
    SALTED_TEXT,
    SERIAL,
    TEXT,
    in_places,
)


_view_of = ctypes.pythonapi.PyMemoryView_FromBuffer
_view_of.argtypes, _view_of.restype = (ctypes.POINTER(_data._Buffer),), ctypes.py_object


def view_by(form, shape, strides, size, value):
    """A writable view of a copy of bytes by any format, shape and strides, as NumPy's arrays have them: items of a size."""
    memory, numbers = ctypes.create_string_buffer(value, len(value)), ctypes.c_ssize_t * len(shape)
    parts = (memory, ctypes.c_char_p(form.encode()), numbers(*shape), numbers(*strides))
    places = (ctypes.cast(kept, ctypes.c_void_p).value for kept in parts[1:])
    view = _view_of(_data._Buffer(ctypes.addressof(memory), None, len(value), size, 0, len(shape), *places))
    weakref.finalize(view, id, parts)
    return view


def by_columns(value, rows):
    """The bytes in rows that stand column by column: in one piece, but not in their order."""
    row = len(value) // rows
    return view_by("B", (rows, row), (1, rows), 1, b"".join(value[at::row] for at in range(row)))


def views(value):
    """The same bytes as data of other kinds: in the middle of others, of every second byte, turned round, in rows, in words whose
    most significant byte comes first."""
    yield bytearray(value)
    yield memoryview(value)
    yield memoryview(bytearray(b"head" + value + b"tail"))[4 : 4 + len(value)].toreadonly()
    yield memoryview(bytes(byte for pair in zip(value, value[::-1]) for byte in pair))[::2]
    yield memoryview(value[::-1])[::-1]
    yield (ctypes.c_uint8 * len(value)).from_buffer_copy(value)
    yield (ctypes.c_char * len(value)).from_buffer_copy(value)
    yield array.array("B", value)
    yield array.array("b", value)
    if value and len(value) % 2 == 0:
        yield memoryview(value).cast("B", (2, len(value) // 2))
        yield by_columns(value, 2)
        yield (ctypes.c_uint16.__ctype_be__ * (len(value) // 2)).from_buffer_copy(value)
    if len(value) % 8 == 0:
        yield (ctypes.c_uint64.__ctype_be__ * (len(value) // 8)).from_buffer_copy(value)


def words(value):
    """The same bytes as words in the machine's order, and as other items, of which the bytes are not those of a text."""
    yield memoryview(bytearray(value)).cast("?")
    if len(value) % 8 == 0:
        yield view_by("=Q", (len(value) // 8,), (8,), 8, value)
    for kind in (ctypes.c_uint16, ctypes.c_int32, ctypes.c_uint64, ctypes.c_double, ctypes.c_double.__ctype_be__):
        if len(value) % ctypes.sizeof(kind) == 0:
            yield (kind * (len(value) // ctypes.sizeof(kind))).from_buffer_copy(value)
    for kind in "HhIiLlQqfd":
        if len(value) % array.array(kind).itemsize == 0:
            yield array.array(kind, value)


class Kinds(unittest.TestCase):
    def test_every_call(self):
        """Each argument of each call as data of each kind, which stay as they were."""
        for call, arguments in CALLS:
            answer = call(*arguments)
            for at, value in enumerate(arguments):
                for view in views(value) if isinstance(value, bytes) else ():
                    self.assertEqual(call(*arguments[:at], view, *arguments[at + 1 :]), answer)
                    self.assertEqual(memoryview(view).tobytes(), value)

    def test_every_object(self):
        for kind, arguments in OBJECTS:
            answer = kind(*arguments)
            for at, value in enumerate(arguments):
                for view in views(value) if isinstance(value, bytes) else ():
                    made = kind(*arguments[:at], view, *arguments[at + 1 :])
                    self.assertEqual(memoryview(view).tobytes(), value)
                    if kind in ANSWERS:
                        self.assertEqual(made.encrypt_ecb(TEXT), answer.encrypt_ecb(TEXT))
                    else:
                        self.assertEqual(made.digest(), answer.digest())

    def test_update(self):
        for kind, arguments in OBJECTS[len(ANSWERS) :]:
            for view in views(MESSAGE):
                made = kind(*arguments[:-1])
                made.update(view)
                self.assertEqual(made.digest(), kind(*arguments).digest())
                self.assertEqual(memoryview(view).tobytes(), MESSAGE)

    def test_words(self):
        """Words in the machine's order, whose bytes stand otherwise than they are written, are a TypeError in each place."""
        for call, arguments in CALLS + OBJECTS:
            for at, value in enumerate(arguments):
                for view in words(value) if isinstance(value, bytes) else ():
                    with self.assertRaisesRegex(TypeError, "most significant byte first"):
                        call(*arguments[:at], view, *arguments[at + 1 :])
                    self.assertEqual(memoryview(view).tobytes(), value)
        for call, arguments in ((DukptTerminal, (KEY[:16], SERIAL)), (DukptTerminal.from_state, (bytes(346),))):
            for at, value in enumerate(arguments):
                for view in words(value):
                    self.assertRaises(TypeError, call, *arguments[:at], view, *arguments[at + 1 :])

    def test_formats(self):
        """Of the formats of single items those alone are taken by which the most significant byte is the first, and of bytes those that
        are numbers or characters; and none of several items."""
        taken = set()
        for form in (order + letter for order in ("", *"@=<>!") for letter in "xcbB?hHiIlLqQnNefdspP"):
            try:
                size = struct.calcsize(form)
            except struct.error:
                continue
            is_number = form[-1] in "hHiIlLqQnN" and struct.pack(form, 1) == (1).to_bytes(size, "big")
            if is_number or form[-1] in "cbB":
                self.assertEqual(_data.bytes_of(view_by(form, (16 // size,), (size,), size, TEXT[:16])), TEXT[:16], form)
                taken.add(form)
            else:
                self.assertRaises(TypeError, _data.bytes_of, view_by(form, (16 // size,), (size,), size, TEXT[:16]))
        self.assertEqual(len(taken), 34)
        for form in ("BB", "1B", "16B", "B\n", " B", ">2Q", ">Q>Q", "Zf", "(2)B", "T{B:a:}", ">", "O", "&B", "^Q", "w", "u"):
            self.assertRaises(TypeError, _data.bytes_of, view_by(form, (16,), (1,), 1, TEXT[:16]))

    def test_other_types(self):
        """What has no buffer is a TypeError in each place for data."""
        for call, arguments in CALLS + OBJECTS:
            for at, value in enumerate(arguments):
                for other in (None, 3, [1, 2, 3], 1.5) if isinstance(value, bytes) else ():
                    self.assertRaises(TypeError, call, *arguments[:at], other, *arguments[at + 1 :])
        for kind in ANSWERS:
            self.assertRaises(TypeError, kind, "0123456789abcdef01234567"[: kind.key_size])
            self.assertRaises(TypeError, kind(KEY[: kind.key_size]).encrypt_ecb, "text of 16 bytes")


class InPlace(unittest.TestCase):
    def calls(self):
        """Of each cipher the calls in place, each with what it makes of TEXT."""
        for kind in ANSWERS:
            cipher = kind(KEY[: kind.key_size])
            yield cipher.encrypt_ecb_into, cipher.encrypt_ecb(TEXT)
            yield cipher.decrypt_ecb_into, cipher.decrypt_ecb(TEXT)
            yield lambda data, cipher=cipher: cipher.encrypt_cbc_into(data, iv=IV), cipher.encrypt_cbc(TEXT, iv=IV)
            yield lambda data, cipher=cipher: cipher.decrypt_cbc_into(data, iv=IV), cipher.decrypt_cbc(TEXT, iv=IV)

    def test_writable(self):
        for call, answer in self.calls():
            around = bytearray(b"head" + TEXT + b"tail")
            call(memoryview(around)[4:28])
            self.assertEqual(around, b"head" + answer + b"tail")
            for data in (bytearray(TEXT), array.array("B", TEXT), (ctypes.c_uint64.__ctype_be__ * 3).from_buffer_copy(TEXT)):
                call(data)
                self.assertEqual(bytes(data), answer)
            data = bytearray(TEXT)
            call(memoryview(data).cast("B", (3, 8)))
            self.assertEqual(data, answer)

    def test_refused(self):
        """What can't be written, or lies in pieces, is a TypeError and stays as it was."""
        for call, _ in self.calls():
            spread = bytearray(byte for pair in zip(TEXT, TEXT) for byte in pair)
            data = bytearray(TEXT)
            columns = by_columns(TEXT, 3)
            for view in (TEXT, memoryview(TEXT), memoryview(data).toreadonly(), memoryview(spread)[::2], memoryview(data)[::-1], columns):
                with self.assertRaisesRegex(TypeError, "needs writable data in one piece"):
                    call(view)
            self.assertEqual((data, spread[::2], spread[1::2], columns.tobytes()), (TEXT, TEXT, TEXT, TEXT))
            for view in words(TEXT):
                self.assertRaises(TypeError, call, view)
                self.assertEqual(memoryview(view).tobytes(), TEXT)
            for view in (TEXT[:7], "text of 24 bytes, quite", None, 8):
                self.assertRaises(TypeError, call, view)

    def test_vector_stays(self):
        """The vector that is given stays; the next one is the answer."""
        for kind in ANSWERS:
            cipher = kind(KEY[: kind.key_size])
            for call in (cipher.encrypt_cbc_into, cipher.decrypt_cbc_into):
                iv = bytearray(IV)
                self.assertNotEqual(call(bytearray(TEXT), iv=iv), IV)
                self.assertEqual(iv, IV)

    def test_nothing(self):
        for kind in ANSWERS:
            cipher = kind(KEY[: kind.key_size])
            cipher.encrypt_ecb_into(bytearray())
            self.assertEqual(cipher.encrypt_cbc_into(array.array("B"), iv=IV), IV)
            self.assertEqual((cipher.encrypt_ecb(b""), cipher.decrypt_cbc(b"", iv=IV)), (b"", b""))

    def test_length_is_kept(self):
        """As long as a call works on a bytearray, nobody can make it shorter."""
        cipher, data, tried = Des(KEY[:8]), bytearray(TEXT), []

        def shortening(*_):
            self.assertRaises(BufferError, data.clear)
            tried.append(True)
            return _statuses.OK

        with mock.patch.dict(KINDS[Des].calls, encrypt_ecb=shortening, decrypt_cbc=shortening):
            cipher.encrypt_ecb_into(data)
            cipher.decrypt_cbc_into(data, iv=IV)
        self.assertEqual(len(tried), 2)
        data.clear()


class OnceAlone(unittest.TestCase):
    """What is given is read once: what becomes of it later, by another thread, changes no answer and is read nowhere."""

    READERS = (_data.bytes_of.__code__, _data.copy_of.__code__)

    def emptied(self, call, arguments):
        """The answer of a call whose arguments are emptied as soon as one function of the package has read them."""

        def profile(frame, event, _):
            if event == "return" and frame.f_code in self.READERS:
                given = frame.f_locals["data"]
                if isinstance(given, bytearray):
                    given.clear()

        sys.setprofile(profile)
        try:
            return call(*arguments)
        finally:
            sys.setprofile(None)

    def test_emptied(self):
        for call, arguments in CALLS:
            given = [bytearray(value) if isinstance(value, bytes) else value for value in arguments]
            self.assertEqual(self.emptied(call, given), call(*arguments))
            self.assertFalse(any(value for value in given if isinstance(value, bytearray)))
        for kind, arguments in OBJECTS:
            given = [bytearray(value) if isinstance(value, bytes) else value for value in arguments]
            one, other = self.emptied(kind, given), kind(*arguments)
            self.assertFalse(any(value for value in given if isinstance(value, bytearray)))
            if kind in ANSWERS:
                self.assertEqual(one.encrypt_ecb(TEXT), other.encrypt_ecb(TEXT))
            else:
                self.emptied(one.update, [bytearray(TEXT)])
                other.update(TEXT)
                self.assertEqual(one.digest(), other.digest())

    def test_one_view(self):
        """No function takes the buffer of an argument twice, between which another thread could change it."""
        taken = []

        def counting(data):
            taken.append(id(data))
            return memoryview(data)

        with mock.patch.object(_data, "memoryview", counting, create=True), \
                mock.patch.object(_ciphers, "memoryview", counting, create=True):
            for call, arguments in CALLS + OBJECTS:
                given = [bytearray(value) if isinstance(value, bytes) else value for value in arguments]
                taken.clear()
                call(*given)
                self.assertEqual(sorted(taken), sorted(id(value) for value in given if isinstance(value, bytearray)))
            for kind in ANSWERS:
                iv, data = bytearray(IV), bytearray(TEXT)
                cipher = kind(KEY[: kind.key_size])
                taken.clear()
                cipher.decrypt_cbc_into(data, iv=iv)
                self.assertEqual(sorted(taken), sorted([id(iv), id(data)]))

    def test_other_lengths(self):
        """A class that says another length than it has, in `len`, is taken for the bytes that it has."""

        class Said(bytes):
            def __len__(self):
                return self.said

            said = 24

        for call, arguments in OBJECTS + CALLS:
            for at, value in enumerate(arguments):
                for said in (0, 7, 8, 10, 16, 24, 32) if isinstance(value, bytes) else ():
                    lying, short = Said(value), Said(value[:-3])
                    lying.said = short.said = said
                    for given, same in ((lying, value), (short, value[:-3])):
                        one, other = (self.outcome(call, arguments, at, data) for data in (given, same))
                        self.assertEqual(one, other)

    def outcome(self, call, arguments, at, value):
        """What a call answers with another value at a place, or its error; of an object what it makes of a text."""
        try:
            answer = call(*arguments[:at], value, *arguments[at + 1 :])
        except Error as error:
            return type(error), str(error)
        if hasattr(answer, "encrypt_ecb"):
            return answer.encrypt_ecb(TEXT)
        return answer.digest() if hasattr(answer, "digest") else answer


class SeenLock:
    """In the place of an object's lock: whether it is held, whether the object was open at each turn's begin and end, and whether it was
    held at each call that is noted."""

    def __init__(self, made):
        self.made, self.is_held, self.seen, self.noted = made, False, [], []

    def __enter__(self):
        self.is_held = True
        self.seen.append(self.made._context is not None)

    def __exit__(self, *_):
        self.is_held = False
        self.seen.append(self.made._context is not None)

    def noting(self, call):
        def noted(*arguments):
            self.noted.append(self.is_held)
            return call(*arguments)

        return noted


class Threads(unittest.TestCase):
    """ctypes lets other threads run while a call works."""

    def together(self, count, work):
        """Runs work in threads that begin at once; an error of one fails the test."""
        begin, errors = threading.Barrier(count), []

        def run(number):
            try:
                begin.wait()
                work(number)
            except BaseException as error:
                errors.append(error)

        threads = [threading.Thread(target=run, args=(number,)) for number in range(count)]
        for thread in threads:
            thread.start()
        for thread in threads:
            thread.join()
        if errors:
            raise errors[0]

    def test_cipher(self):
        """One cipher in four threads, both ways."""
        cipher, plain = TdesEde3(KEY), TEXT * 2000
        encrypted, by_cbc = cipher.encrypt_ecb(plain), cipher.encrypt_cbc(plain, iv=IV)

        def work(_):
            for _ in range(8):
                self.assertEqual(cipher.encrypt_ecb(plain), encrypted)
                self.assertEqual(cipher.decrypt_ecb(encrypted), plain)
                self.assertEqual(cipher.decrypt_cbc(by_cbc, iv=IV), plain)

        self.together(4, work)

    def test_mac(self):
        """One MAC, to which four threads add the same bytes in pieces that are no whole blocks."""
        for kind in PADDED_MACS + CMACS:
            method = () if kind in CMACS else (2,)
            mac, piece = kind(KEY[: kind.key_size], *method), b"x" * 30011

            def work(_):
                for _ in range(10):
                    mac.update(piece)
                    mac.copy().digest()

            self.together(4, work)
            self.assertEqual(mac.digest(), kind(KEY[: kind.key_size], *method, piece * 40).digest())

    def turn(self, made, lock, call, *arguments):
        """Whether the object is open when a call of it takes the lock, and when it gives it back: once, and not in its own turn."""
        self.assertFalse(lock.is_held)
        lock.seen.clear()
        call(*arguments)
        self.assertFalse(lock.is_held)
        return lock.seen

    def test_turns(self):
        """Each call of a MAC has the lock from before it takes the context until the library is done with it, and so has `close`."""
        for kind, arguments in OBJECTS[len(ANSWERS) :]:
            mac, known = kind(*arguments), KINDS[kind]
            self.assertIsInstance(mac._lock, type(threading.Lock()))
            lock, tag = SeenLock(mac), mac.digest()
            mac._lock = lock
            noted = {name: lock.noting(known.calls[name]) for name in ("update", "final", "verify")}
            copied = lock.noting(known.context.from_buffer_copy)
            opened = lock.noting(kind._open)
            with mock.patch.dict(known.calls, noted), mock.patch.object(known.context, "from_buffer_copy", copied), \
                    mock.patch.object(_data.Keyed, "_open", opened):
                for call, *given in ((mac.update, b""), (mac.digest,), (mac.verify, tag), (mac.verify_truncated_left, tag[:4]), (mac.copy,)):
                    self.assertEqual(self.turn(mac, lock, call, *given), [True, True])
                    self.assertEqual(lock.noted, [True, True])
                    lock.noted.clear()
                self.assertEqual(self.turn(mac, lock, self.assertRaises, TagMismatchError, mac.verify, b""), [True, True])
            self.assertIsInstance(mac.copy()._lock, type(threading.Lock()))
            self.assertEqual(self.turn(mac, lock, mac.close), [True, False])
            self.assertEqual(self.turn(mac, lock, self.assertRaises, ClosedError, mac.update, b""), [False, False])

    def test_turns_of_a_terminal(self):
        """The same of a terminal, which gives no key twice."""
        terminal = DukptTerminal(KEY[:16], SERIAL)
        self.assertIsInstance(terminal._turns, type(threading.Lock()))
        lock = terminal._turns = SeenLock(terminal)
        state = type(terminal._context)

        def read(data):
            return lock.noting(bytes)(data) if isinstance(data, state) else bytes(data)

        with mock.patch.object(_terminal, "_next_key", lock.noting(_terminal._next_key)), \
                mock.patch.object(_terminal, "bytes", read, create=True), \
                mock.patch.object(_data.Keyed, "_open", lock.noting(_data.Keyed._open)):
            for call in (terminal.next_key, terminal.state):
                self.assertEqual(self.turn(terminal, lock, call), [True, True])
                self.assertEqual(lock.noted, [True, True])
                lock.noted.clear()
        self.assertEqual(self.turn(terminal, lock, terminal.close), [True, False])
        for call in (terminal.next_key, terminal.state):
            self.assertEqual(self.turn(terminal, lock, self.assertRaises, ClosedError, call), [False, False])

    def test_closing(self):
        """A cipher that another thread closes answers right, or not at all."""
        for _ in range(20):
            cipher, plain = TdesEde3(KEY), TEXT * 500
            answer = ANSWERS[TdesEde3] * 500

            def work(number):
                if number == 0:
                    cipher.close()
                    return
                try:
                    for _ in range(20):
                        self.assertEqual(cipher.encrypt_ecb(plain), answer)
                except ClosedError:
                    pass

            self.together(4, work)


class WatchesWiping(unittest.TestCase):
    """What the package wipes: the sizes in `wiped`, and what was in the last memory in `contents`."""

    def setUp(self):
        gc.collect()  # What other tests left behind is wiped before.
        self.wiped, self.contents = [], b""
        real = _data.wipe

        def wipe(memory, size):
            self.assertEqual(ctypes.sizeof(memory), size)
            self.contents = bytes(memory)
            real(memory, size)
            self.assertFalse(any(bytes(memory)))
            self.wiped.append(size)

        patched = mock.patch.object(_data, "wipe", wipe)
        patched.start()
        self.addCleanup(patched.stop)


class Wiped(WatchesWiping):
    """Memory that held a key is wiped as soon as nothing uses it."""

    def test_objects(self):
        """The copy of the key at once; the context by close, by the end of `with`, and by the end of the last use."""
        for kind, arguments in OBJECTS:
            size = ctypes.sizeof(KINDS[kind].context)

            def closed():
                made = kind(*arguments)
                made.close()
                self.assertEqual(self.wiped, [kind.key_size, size])

            def left():
                with kind(*arguments) as made:
                    self.assertIsInstance(made, kind)
                    self.assertEqual(self.wiped, [kind.key_size])
                self.assertEqual(self.wiped, [kind.key_size, size])

            def dropped():
                kind(*arguments)

            for use in (closed, left, dropped):
                self.wiped.clear()
                use()
                gc.collect()
                self.assertEqual(self.wiped, [kind.key_size, size])

    def test_copies(self):
        """A copy of a MAC has a context of its own, which stays when the other is closed."""
        for kind, arguments in OBJECTS[len(ANSWERS) :]:
            one = kind(*arguments)
            other, tag = one.copy(), one.digest()
            self.wiped.clear()
            one.close()
            self.assertEqual(self.wiped, [ctypes.sizeof(KINDS[kind].context)])
            self.assertEqual(other.digest(), tag)

    def test_refused_key(self):
        self.assertRaises(ValueError, CmacTdesEde3, KEY[:16])
        self.assertRaises(ValueError, PADDED_MACS[0], KEY[:8], 3)
        gc.collect()
        self.assertIn(8, self.wiped)

    def test_refused_component(self):
        """The components up to one that is refused are wiped: the third's copy and the fourth's, all others, the second and the first."""
        self.wiped.clear()
        self.assertRaises(ValueError, combine, bytes(8), bytes(8), bytes(8), bytes(16))
        self.assertEqual(self.wiped, [8, 16, 16, 8, 8])

    def test_functions(self):
        """Each function wipes its copies of keys, PINs, PIN blocks and other digits, and the memory in which a key or a PIN was made."""
        for call, arguments in FUNCTIONS:
            self.wiped.clear()
            answer = call(*arguments)
            name = call.__name__
            if name in ("dukpt_next_serial", "dukpt_is_usable", "pad", "unpad") or name.startswith("key_block_"):
                continue
            sizes = {"equal_but_parity": [8, 8], "check_value": [24], "cvv": [3, 4, 4, 16, 16]}
            # a PIN of four digits, an account number of thirteen, a block, and the buffer of the PIN
            sizes.update({"pin_encode_0": [4, 8, 13], "pin_encode_1": [4, 8], "pin_encode_3": [4, 8, 13]})
            sizes.update({"pin_decode_0": [8, 13, 13], "pin_decode_1": [8, 13], "pin_decode_3": [8, 13, 13]})
            sizes.update({"pin_encode_2": [4, 8], "pin_decode_2": [8, 13]})
            # both keys, an account number, a block, and the buffer of the other
            sizes.update({"to_format_0": [8, 8, 13, 16, 16], "to_format_1": [8, 8, 16, 16], "to_format_3": [8, 8, 13, 16, 16]})
            sizes.update({"pvv": [4, 5, 16, 16], "pvv_verify": [4, 4, 16, 16]})
            sizes.update({"natural_pin": [13, 16], "pin_offset": [4, 13, 16], "pin_offset_verify": [4, 4, 16]})
            sizes.update({"emv_card_key": [2, 16, 16, 17], "emv_card_key_b": [2, 16, 16, 17], "emv_session_key": [16, 16], "emv_application_key": [16, 16]})
            sizes.update({"unwrap_key_block": [16, 24], "wrap_with_padding": [16, 16]})
            # what is wrapped or unwrapped, the protection key, and the buffer of the other
            sizes.update({"wrap_from_vector": [24, 24, 40], "cms_unwrap_key": [24, 24, 40]})
            sizes.update({"tkw_wrap_key": [8, 12, 24], "tkw_unwrap_key": [8, 12, 24]})
            sizes.update({"pbkdf2": [24, 24], "bytes_to_key": [24, 24], "opens": [6, 56]})
            if name == "combine":  # the two components, a copy of the third, all others, and the key
                sizes[name] = [24] * 5
            elif name.startswith("dukpt_"):
                sizes[name] = [16, len(answer)]
            elif name not in sizes:  # its key alone
                sizes[name] = [len(arguments[0])]
            self.assertEqual(sorted(self.wiped), sizes[name], name)

    def test_refused_secrets(self):
        """Secrets of a call that is refused are wiped too."""
        for call, arguments, sizes in ((unwrap_key_block, (KEY[:16], BLOCK), [16]), (bytes_to_key, ("md5", b"secret", IV[:3], 24), [6]),
                                       (wrap_key_block, (PROTECTION, BLOCK_HEADER, KEY[:9]), [9, 16]),
                                       (open_salted, (TdesEde3, b"Secret", SALTED), [6])):
            self.wiped.clear()
            self.assertRaises(Error, call, *arguments)
            self.assertEqual(sorted(self.wiped), sizes, call.__name__)

    def test_states(self):
        """Of the state of a terminal one copy is made, which is wiped; that of another length too."""
        state = bytes(range(256)) + bytes(90)
        terminal = DukptTerminal.from_state(bytearray(state))
        self.assertEqual((self.wiped, self.contents), ([346], state))
        with mock.patch.object(_data, "bytes_of", side_effect=AssertionError):
            self.assertEqual(DukptTerminal.from_state(terminal.state()).state(), state)
        self.wiped.clear()
        for length in (0, 345, 347):
            self.assertRaisesRegex(StateLengthError, f"^the state of a terminal has 346 bytes, not {length}$", DukptTerminal.from_state, bytes(length))
        self.assertEqual(self.wiped[1:], [345, 347])

    def test_next_key(self):
        """The memory in which the library made a transaction's key is wiped."""
        terminal = DukptTerminal(KEY[:16], SERIAL)
        self.wiped.clear()
        _, key = terminal.next_key()
        self.assertEqual((self.wiped, self.contents), ([16], key))

    def test_no_other_copies(self):
        """Of the memory that a call wrote the bytes of the answer are made, and no more, which could not be wiped; of a text none."""
        short, made = wrap_key_block(PROTECTION, BLOCK_HEADER, KEY[:8]), []

        def noting(data):
            self.assertIsInstance(data, ctypes.Array)
            made.append(bytes(data))
            return made[-1]

        def of_arguments(data):
            self.assertNotIsInstance(data, ctypes.Array)
            return bytearray(data)

        with mock.patch.multiple(_data, bytes=noting, bytearray=of_arguments, create=True):
            _, key = unwrap_key_block(PROTECTION, short)
            plain = open_salted(TdesEde3, b"secret", SALTED)
            self.assertEqual(pin_decode_2(bytes.fromhex("241234ffffffffff")), "1234")
        self.assertEqual(made, [key, plain])
        self.assertEqual(made, [KEY[:8], SALTED_TEXT])

    def test_while_a_call_runs(self):
        """Where another thread closes a cipher, its context stays until the call is done."""
        for call, name in (("encrypt_ecb", "encrypt_ecb_to"), ("encrypt_ecb_into", "encrypt_ecb")):
            cipher = Des(KEY[:8])
            self.wiped.clear()

            def closing(context, *_):
                cipher.close()
                gc.collect()
                self.assertTrue(any(context))
                self.assertEqual(self.wiped, [])
                return _statuses.OK

            with mock.patch.dict(KINDS[Des].calls, {name: closing}):
                getattr(cipher, call)(bytearray(TEXT))
            gc.collect()
            self.assertEqual(self.wiped, [ctypes.sizeof(KINDS[Des].context)])

    def test_closed(self):
        """A closed object refuses each call, and can be closed again."""
        for kind, arguments in OBJECTS:
            made = kind(*arguments)
            made.close()
            made.close()
            data = bytearray(TEXT)
            if kind in ANSWERS:
                calls = [(made.encrypt_ecb, data), (made.decrypt_ecb, data), (made.encrypt_ecb_into, data)]
                calls += [(made.decrypt_ecb_into, data)]
                calls += [(in_places(call, "iv"), data, IV) for call in (made.encrypt_cbc, made.decrypt_cbc, made.encrypt_cbc_into,
                                                                         made.decrypt_cbc_into)]
            else:
                calls = [(made.update, data), (made.digest,), (made.hexdigest,), (made.verify, data), (made.verify_truncated_left, data),
                         (made.copy,)]
            for call, *arguments in calls:
                self.assertRaises(ClosedError, call, *arguments)
            self.assertEqual(data, TEXT)
            self.assertRaises(ClosedError, made.__enter__().copy if kind not in ANSWERS else lambda: made.encrypt_ecb(b""))

    def test_with(self):
        """An error inside `with` goes on, and the object is closed."""
        for kind, arguments in OBJECTS:
            made = kind(*arguments)
            with self.assertRaises(ZeroDivisionError):
                with made:
                    raise ZeroDivisionError
            self.assertIsNone(made._context)

    def test_not_pickled(self):
        for kind, arguments in OBJECTS:
            made = kind(*arguments)
            for call in (pickle.dumps, copy.copy, copy.deepcopy):
                self.assertRaises(TypeError, call, made)


class Faults(unittest.TestCase):
    def test_message_goes_on(self):
        """A refused call leaves a MAC and a cipher as they were."""
        mac = CmacTdesEde3(KEY, TEXT)
        tag = mac.digest()
        self.assertRaises(TagMismatchError, mac.verify, bytes(8))
        self.assertRaises(TypeError, mac.update, "text")
        self.assertEqual(mac.digest(), tag)
        cipher = TdesEde3(KEY)
        self.assertRaises(BlockLengthError, cipher.encrypt_ecb, TEXT[:-1])
        self.assertEqual(cipher.encrypt_ecb(TEXT), ANSWERS[TdesEde3])
