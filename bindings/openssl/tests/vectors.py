"""Published answers of triple DES through Python's `cryptography`, which calls OpenSSL: vectors.py KNOWN_ANSWERS.

Ends with status 1 where an answer is another one.
"""

import sys

from cryptography.exceptions import InvalidSignature
from cryptography.hazmat.backends.openssl import backend
from cryptography.hazmat.primitives import cmac, padding
from cryptography.hazmat.primitives.ciphers import Cipher, modes

try:
    from cryptography.hazmat.decrepit.ciphers.algorithms import TripleDES
except ImportError:
    from cryptography.hazmat.primitives.ciphers.algorithms import TripleDES

try:
    from cryptography.hazmat.decrepit.ciphers.modes import CFB, CFB8, OFB
except ImportError:
    from cryptography.hazmat.primitives.ciphers.modes import CFB, CFB8, OFB


def of_three_parts(key):
    """The package wants three: one part three times makes DES, and two make a key of two when the first comes again."""
    return (key * 3)[:24]


def known_answers(path):
    """Each list of the file by CBC or block by block: its name, key, vector (or nothing), text and answer."""
    lists = []
    with open(path, encoding="ascii") as lines:
        for line in lines:
            words = line.split("#")[0].split()
            if line[:1].isspace() and words:
                lists[-1][3] += bytes.fromhex(words[0])
                lists[-1][4] += bytes.fromhex(words[1])
            elif words:
                key, text, answer, *vector = (bytes.fromhex(word) for word in words[1:])
                lists.append([words[0], of_three_parts(key), vector, text, answer])
    return [one for one in lists if not one[0].startswith("eee")]


def answers(key, vector, data, decrypts):
    """What comes of the data at once, and in pieces of 1 to 13 bytes."""
    cipher = Cipher(TripleDES(key), modes.CBC(vector[0]) if vector else modes.ECB())
    at_once, in_pieces = (cipher.decryptor() if decrypts else cipher.encryptor() for _ in range(2))
    pieces = [data[at : at + 13] for at in range(0, len(data), 13)]
    return (
        at_once.update(data) + at_once.finalize(),
        b"".join([in_pieces.update(piece) for piece in pieces]) + in_pieces.finalize(),
    )


def check(holds, what):
    """Ends with a message where something does not hold."""
    if not holds:
        sys.exit(f"vectors.py: {what}")


def check_long_record():
    """A record that was padded, of more than one batch, both ways."""
    text = bytes(index % 251 for index in range(40_003))
    padder = padding.PKCS7(64).padder()
    sealed, _ = answers(bytes(range(24)), [bytes(8)], padder.update(text) + padder.finalize(), False)
    for opened in answers(bytes(range(24)), [bytes(8)], sealed, True):
        unpadder = padding.PKCS7(64).unpadder()
        check(unpadder.update(opened) + unpadder.finalize() == text, "a long record")


def check_feedback():
    """FIPS 81, appendices C and D, by a key of equal parts: CFB of 64 and of 8 bits, and OFB."""
    key, vector = of_three_parts(bytes.fromhex("0123456789abcdef")), bytes.fromhex("1234567890abcdef")
    for mode, published in [
        (CFB, "f3096249c7f46e51a69e839b1a92f78403467133898ea622"),
        (CFB8, "f31fda07011462ee187f"),
        (OFB, "f3096249c7f46e5135f24a242eeb3d3f3d6d5be3255af8c3"),
    ]:
        answer = bytes.fromhex(published)
        text = b"Now is the time for all "[: len(answer)]
        encryptor, decryptor = Cipher(TripleDES(key), mode(vector)).encryptor(), Cipher(TripleDES(key), mode(vector)).decryptor()
        pieces = [text[at : at + 5] for at in range(0, len(text), 5)]
        check(b"".join(map(encryptor.update, pieces)) + encryptor.finalize() == answer, f"{mode.name}, encryption")
        check(decryptor.update(answer) + decryptor.finalize() == text, f"{mode.name}, decryption")


def check_faults():
    """What the package refuses, and by its own words."""
    decryptor = Cipher(TripleDES(bytes(range(24))), modes.CBC(bytes(8))).decryptor()
    decryptor.update(bytes(13))
    try:
        decryptor.finalize()
    except ValueError as fault:
        check("block length" in str(fault), f"another fault: {fault}")
    else:
        check(False, "no fault of a part of a block")


def check_cmac():
    """NIST SP 800-38B, D.4, example 2: CMAC is OpenSSL's own, over the provider's cipher."""
    key = bytes.fromhex("8aa83bf8cbda10620bc1bf19fbb6cd58bc313d4a371ca8b5")
    mac = cmac.CMAC(TripleDES(key))
    mac.update(bytes.fromhex("6bc1bee22e409f96"))
    try:
        mac.verify(bytes.fromhex("8e8f293136283797"))
    except InvalidSignature:
        check(False, "CMAC")


def main():
    """All of it."""
    lists = known_answers(sys.argv[1])
    for name, key, vector, text, answer in lists:
        for got in answers(key, vector, text, False):
            check(got == answer, f"{name} {key.hex()}, encryption")
        for got in answers(key, vector, answer, True):
            check(got == text, f"{name} {key.hex()}, decryption")
    check_long_record()
    check_feedback()
    check_faults()
    check_cmac()
    print(f"Python's cryptography over {backend.openssl_version_text()}: {len(lists)} published answers, both ways")


main()
