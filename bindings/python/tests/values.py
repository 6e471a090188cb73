"""Known answers, and every object and call of the package with arguments that it takes."""

import functools
import inspect
import os
import random

import cukvashe_des
from cukvashe_des import (
    CbcMacDes,
    CbcMacTdesEde2,
    CbcMacTdesEde3,
    CmacTdesEde2,
    CmacTdesEde3,
    Des,
    RetailMacDes,
    TdesEde2,
    TdesEde3,
)

# Random values are those of a seed, which a failure tells; SEED=NUMBER repeats them.
SEED = int(os.environ.get("SEED") or random.SystemRandom().randrange(2**32))

TOP = os.path.join(os.path.dirname(os.path.abspath(__file__)), os.pardir, os.pardir, os.pardir)


def random_bytes(chance, length):
    return bytes(chance.getrandbits(8) for _ in range(length))


KEY = bytes.fromhex("0123456789abcdef23456789abcdef01456789abcdef0123")
PAIR = bytes.fromhex("0123456789abcdeffedcba9876543210")
IV = bytes.fromhex("1234567890abcdef")
TEXT = b"The qufck brown fox jump"

# Bytes of which no three are characters of an error's text.
MESSAGE = bytes.fromhex("6bc1bee22e409f96e93d7e117393172aae2d8a571e03ac9c")
SERIAL = bytes.fromhex("ffff9876543210e00001")
ACCOUNT = "4012345678909"
DIGITS = bytes([15, 14, 0, 9, 10, 5, 1, 2, 3, 4])
FILL = bytes([10, 11, 12, 13, 14, 15, 10, 11, 12, 13])

# Another key; the PIN 1234 of ACCOUNT in format 0, and in format 1, encrypted under PAIR by OpenSSL; validation data, and the plain table.
OTHER = bytes.fromhex("89e88cf7931444f334bd7547fc3f380c")
SENT = bytes.fromhex("c03d21cdbcb0c58b")
ONE = bytes.fromhex("646855a2370347d8")
VALIDATION = bytes.fromhex("4123456789012345")
TABLE = cukvashe_des.DecimalTable("0123456789012345")

# A protection key, a key block of version B that is published, its header and its key.
PROTECTION = bytes.fromhex("dd7515f2bfc17f85ce48f3ca25cb21f6")
BLOCK = b"B0080P0TE00E000094B420079CC80BA3461F86FE26EFC4A3B8E4FA4C5F5341176EED7B727B8A248E"
BLOCK_HEADER = cukvashe_des.KeyBlockHeader("B", "P0", "T", "E", "00", "E")
BLOCK_KEY = bytes.fromhex("3f419e1cb7079442aa37474c2efbf8b8")

# The example of RFC 3217, whose wrapped key has the vector within; and a value of NIST's validation program for TKW.
CMS_KEK = bytes.fromhex("255e0d1c07b646dfb3134cc843ba8aa71f025b7c0838251f")
CMS_KEY = bytes.fromhex("2923bf85e06dd6ae529149f1f1bae9eab3a7da3d860d3e98")
CMS_IV = bytes.fromhex("5dd4cbfc96f5453b")
CMS_WRAPPED = bytes.fromhex("690107618ef092b3b48ca1796b234ae9fa33ebb4159604037db5d6a84eb3aac2768c632775a467d4")
TKW_KEK = bytes.fromhex("12b84c663120c196f8fc17428bc86a110d92cc7c4d3cb695")
TKW_KEY, TKW_WRAPPED = bytes.fromhex("ef7da3da918d0679"), bytes.fromhex("7a72bbca3aa323aa1ac231ba")

# `openssl enc -des3 -md sha256 -pass pass:secret`, of OpenSSL 3.0, and what it encrypted.
SALTED = bytes.fromhex("53616c7465645f5fe927a7d874ff28cd93ad37243eb1e04e969de009cb5daeb794437e9ef739ae56dc0b84dd9380ace766ec9187d68c226b")
SALTED_TEXT = b"Now is the time for all good men"

# Lists shorter than a batch of either width, whole ones, and longer ones, in blocks.
COUNTS = (0, 1, 2, 127, 128, 129, 300, 600)

# More bytes in blocks than 16 bits count.
LONG = 8200

# Every length that a caller might take for a right one.
LENGTHS = range(34)

CIPHERS = {"des": Des, "ede2": TdesEde2, "ede3": TdesEde3}
PADDED_MACS = (CbcMacDes, CbcMacTdesEde2, CbcMacTdesEde3, RetailMacDes)
CMACS = (CmacTdesEde2, CmacTdesEde3)

# NIST Special Publication 800-67, appendix B, of TEXT; the answers of `des` and `ede2` are OpenSSL's.
ANSWERS = {
    Des: bytes.fromhex("a28e91724c4bba31167e47ec24f71d632c1a917234425365"),
    TdesEde2: bytes.fromhex("c44862f70cf2fbdc9077d0909fa91b884cabd61fc58e0cbb"),
    TdesEde3: bytes.fromhex("a826fd8ce53b855fcce21c8112256fe668d5c05dd9b6b900"),
}


def lines_of(*place):
    """The lines of a file of known answers, in words."""
    with open(os.path.join(TOP, *place), encoding="ascii") as file:
        return [line for line in file if line.strip() and not line.startswith("#")]


def known_ciphertexts():
    """Of each list of known_answers.txt the name, the key, the plaintext, the ciphertext, and of CBC the vector."""
    lists = []
    for line in lines_of("crates", "des_tests", "known_answers.txt"):
        words = line.split()
        if line.startswith(" "):
            lists[-1][2] += bytes.fromhex(words[0])
            lists[-1][3] += bytes.fromhex(words[1])
        else:
            lists.append([words[0], *map(bytes.fromhex, words[1:4]), bytes.fromhex("".join(words[4:]))])
    return lists


def known_macs():
    """Of each line of known_macs.txt what makes the MAC, the message and the tag."""
    kinds = {kind.name: kind for kind in PADDED_MACS + CMACS}
    rows = []
    for line in lines_of("bindings", "known_macs.txt"):
        name, method, key, length, tag = line.split()
        key = bytes.fromhex(key)
        arguments = (key,) if method == "-" else (key, int(method))
        rows.append((kinds[name], arguments, bytes(i % 251 for i in range(int(length))), bytes.fromhex(tag)))
    return rows


# Of each cipher and MAC the arguments that make an object.
OBJECTS = [(kind, (KEY[: kind.key_size],)) for kind in ANSWERS]
OBJECTS += [(kind, (KEY[: kind.key_size], 2, MESSAGE)) for kind in PADDED_MACS]
OBJECTS += [(kind, (KEY[: kind.key_size], MESSAGE)) for kind in CMACS]


def wrap_with_padding(protection, key, padding):
    """The call that makes a key block, with the padding in the place that the tests of all calls give it, and not random."""
    if padding is None:
        raise TypeError("the padding is random")
    return cukvashe_des.wrap_key_block(protection, BLOCK_HEADER, key, padding=padding)


def wrap_from_vector(protection, key, iv):
    """The call that wraps a key, with the vector in the place that the tests of all calls give it, and not random."""
    if iv is None:
        raise TypeError("the vector is random")
    return cukvashe_des.cms_wrap_key(protection, key, iv=iv)


def to_format_0(incoming, number, outgoing, account, block):
    """The call that translates a PIN block, with its two keys, which go by name alone, in places."""
    return cukvashe_des.pin_translate_to_0(number, account, block, incoming_key=incoming, outgoing_key=outgoing)


def to_format_1(incoming, outgoing, block):
    """The call to format 1, with its two keys."""
    return cukvashe_des.pin_translate_to_1(block, incoming_key=incoming, outgoing_key=outgoing)


def to_format_3(incoming, number, outgoing, account, fill, block):
    """The call to format 3, with its two keys."""
    return cukvashe_des.pin_translate_to_3(number, account, fill, block, incoming_key=incoming, outgoing_key=outgoing)


def faults_of_package():
    """The errors of the package, without the two that are bases."""
    values = (getattr(cukvashe_des, name) for name in cukvashe_des.__all__)
    errors = [value for value in values if isinstance(value, type) and issubclass(value, cukvashe_des.Error)]
    return [error for error in errors if error not in (cukvashe_des.Error, cukvashe_des.VerificationError)]


def in_places(call, *names):
    """A call whose last arguments go by name alone, with these in places."""

    @functools.wraps(call)
    def placed(*arguments):
        first = len(arguments) - len(names)
        return call(*arguments[:first], **dict(zip(names, arguments[first:])))

    return placed


encrypt_records = in_places(cukvashe_des.encrypt_cbc_records, "vectors", "counts")
decrypt_records = in_places(cukvashe_des.decrypt_cbc_records, "vectors", "counts")


def opens(password, data):
    """The call that opens a file, whose own name is a part of the file's first bytes."""
    return cukvashe_des.open_salted(TdesEde3, password, data)


# The functions that take a key of any size, and nothing else.
OF_A_KEY = [it for it in vars(cukvashe_des).values() if inspect.isfunction(it) and list(inspect.signature(it).parameters) == ["key"]]

# Of each function its arguments. Of the numbers of card and PIN no three digits are a length that a text may tell.
FUNCTIONS = [
    *((call, (KEY,)) for call in OF_A_KEY),
    (cukvashe_des.equal_but_parity, (KEY[:8], KEY[8:16])),
    (cukvashe_des.check_value, (TdesEde3, KEY)),
    (cukvashe_des.combine, (KEY, bytes(range(24)), bytes(range(100, 124)))),
    (cukvashe_des.dukpt_initial_key, (PAIR, SERIAL)),
    (cukvashe_des.dukpt_transaction_key, (PAIR, SERIAL)),
    (cukvashe_des.dukpt_pin_key, (PAIR,)),
    (cukvashe_des.dukpt_mac_key, (PAIR, True)),
    (cukvashe_des.dukpt_data_key, (PAIR, True)),
    (cukvashe_des.dukpt_data_variant, (PAIR, True)),
    (cukvashe_des.dukpt_next_serial, (SERIAL,)),
    (cukvashe_des.dukpt_is_usable, (SERIAL,)),
    (cukvashe_des.pad, (MESSAGE[:21], "pkcs7")),
    (cukvashe_des.unpad, (MESSAGE[:22] + b"\x02\x02", "pkcs7")),
    (cukvashe_des.pin_encode_0, (b"8765", b"4012345678909")),
    (cukvashe_des.pin_encode_1, (b"8765", DIGITS)),
    (cukvashe_des.pin_encode_2, (b"8765",)),
    (cukvashe_des.pin_encode_3, (b"8765", b"4012345678909", FILL)),
    (cukvashe_des.pin_decode_0, (bytes.fromhex("041274edcba9876f"), b"4012345678909")),
    (cukvashe_des.pin_decode_1, (bytes.fromhex("141234fe09a51234"),)),
    (cukvashe_des.pin_decode_2, (bytes.fromhex("241234ffffffffff"),)),
    (cukvashe_des.pin_decode_3, (bytes.fromhex("341274b9f9b9d35d"), b"4012345678909")),
    (to_format_0, (PAIR, 0, OTHER, b"4012345678909", SENT)),
    (to_format_1, (PAIR, OTHER, ONE)),
    (to_format_3, (PAIR, 0, OTHER, b"4012345678909", FILL, SENT)),
    (cukvashe_des.pvv, (PAIR, b"4123456789012345", 1, b"1234")),
    (cukvashe_des.pvv_verify, (PAIR, b"4123456789012345", 1, b"1234", b"1894")),
    (cukvashe_des.natural_pin, (PAIR, TABLE, VALIDATION, 6)),
    (cukvashe_des.pin_offset, (PAIR, TABLE, VALIDATION, b"9519")),
    (cukvashe_des.pin_offset_verify, (PAIR, TABLE, VALIDATION, b"9519", b"9999")),
    (cukvashe_des.emv_card_key, (PAIR, b"99012345678901234", b"45")),
    (cukvashe_des.emv_card_key_b, (PAIR, b"99012345678901234", b"45")),
    (cukvashe_des.emv_session_key, (PAIR, IV)),
    (cukvashe_des.emv_application_key, (PAIR, b"\x35\x1c")),
    (cukvashe_des.emv_application_cryptogram, (PAIR, MESSAGE)),
    (cukvashe_des.emv_response_1, (PAIR, IV, b"\xd1\xe2")),
    (cukvashe_des.emv_response_2, (PAIR, IV, MESSAGE[:4], MESSAGE[8:12])),
    (cukvashe_des.cvv, (PAIR, b"4123456789012345", b"8701", b"101")),
    (cukvashe_des.unwrap_key_block, (PROTECTION, BLOCK)),
    (wrap_with_padding, (PROTECTION, BLOCK_KEY, bytes.fromhex("1c2965473ce2"))),
    (cukvashe_des.key_block_header, (BLOCK,)),
    (cukvashe_des.key_block_context, (BLOCK,)),
    (wrap_from_vector, (CMS_KEK, CMS_KEY, CMS_IV)),
    (cukvashe_des.cms_unwrap_key, (CMS_KEK, CMS_WRAPPED)),
    (cukvashe_des.tkw_wrap_key, (TKW_KEK, TKW_KEY)),
    (cukvashe_des.tkw_unwrap_key, (TKW_KEK, TKW_WRAPPED)),
    (cukvashe_des.pbkdf2, ("sha1", MESSAGE, IV, 1, 24)),
    (cukvashe_des.bytes_to_key, ("md5", MESSAGE, IV, 24)),
    (opens, (b"secret", SALTED)),
    (cukvashe_des.key_block_optional_blocks, (BLOCK,)),
]

# Counters 1, 2 and eff800.
SERIALS = bytes.fromhex("ffff9876543210e00001" "ffff9876543210e00002" "ffff9876543210eff800")

# Of each function for lists its arguments, which it reads where they stand.
LISTS = [
    (cukvashe_des.encrypt_each, (TdesEde3, KEY * 3, MESSAGE)),
    (cukvashe_des.decrypt_each, (TdesEde2, PAIR * 3, MESSAGE)),
    (cukvashe_des.check_values, (TdesEde3, KEY * 2)),
    (cukvashe_des.dukpt_transaction_keys_from_base, (PAIR, SERIALS)),
    (encrypt_records, (TdesEde3(KEY), MESSAGE, MESSAGE[:16], (1, 2))),
    (decrypt_records, (TdesEde3(KEY), MESSAGE, MESSAGE[:16], (1, 2))),
    (cukvashe_des.macs, (CbcMacTdesEde2, PAIR, 2, (20, 4), MESSAGE)),
    (cukvashe_des.macs_each, (RetailMacDes, PAIR * 2, 2, (20, 4), MESSAGE)),
    (cukvashe_des.macs_each, (CmacTdesEde2, PAIR * 2, None, (20, 4), MESSAGE)),
    (cukvashe_des.wrong_tags, (MESSAGE, MESSAGE[:8] + bytes(8) + MESSAGE[16:])),
]

# Where in those arguments a list of elements stands, and their size.
ELEMENTS = {
    (cukvashe_des.encrypt_each, 1): 24,
    (cukvashe_des.encrypt_each, 2): 8,
    (cukvashe_des.decrypt_each, 1): 16,
    (cukvashe_des.decrypt_each, 2): 8,
    (cukvashe_des.check_values, 1): 24,
    (cukvashe_des.dukpt_transaction_keys_from_base, 1): 10,
    (encrypt_records, 1): 8,
    (encrypt_records, 2): 8,
    (decrypt_records, 1): 8,
    (decrypt_records, 2): 8,
    (cukvashe_des.macs_each, 1): 16,
    (cukvashe_des.wrong_tags, 0): 8,
    (cukvashe_des.wrong_tags, 1): 8,
}


def methods():
    """Of an object of each class its calls that return something, and their arguments."""
    calls = []
    for kind, arguments in OBJECTS:
        made = kind(*arguments)
        if kind in ANSWERS:
            calls += [(made.encrypt_ecb, (MESSAGE,)), (made.decrypt_ecb, (MESSAGE,))]
            calls += [(in_places(call, "iv"), (MESSAGE, IV)) for call in (made.encrypt_cbc, made.decrypt_cbc, made.encrypt_ofb, made.decrypt_ofb)]
            calls += [(in_places(call, "counter"), (MESSAGE, IV)) for call in (made.encrypt_ctr, made.decrypt_ctr)]
            calls += [(in_places(call, "iv", "segment_size"), (MESSAGE, IV, 8)) for call in (made.encrypt_cfb, made.decrypt_cfb)]
        else:
            calls += [(made.update, (b"",)), (made.digest, ()), (made.hexdigest, ()), (made.verify, (made.digest(),)),
                      (made.verify_truncated_left, (made.digest(),))]
    return calls


CALLS = FUNCTIONS + methods()
