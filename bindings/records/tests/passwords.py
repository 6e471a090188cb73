"""Jasypt, the JDK's ciphers and Bouncy Castle's, under passwords, beside ours, both ways: passwords.py JAVA.

JAVA is the command that runs it, with its words."""

import os
import re
import subprocess
import sys
import tempfile
from base64 import b64decode, b64encode

from cases import chance, same, some, texts, words
from library import read_jasypt, read_pbe, write_jasypt, write_pbe

# Our names, the JDK's, and Bouncy Castle's. Jasypt takes the JDK's.
NAMES = (
    ("PBEWithMD5AndDES", "PBEWithMD5AndDES", "PBEWITHMD5ANDDES"),
    ("PBEWithSHA1AndDES", None, "PBEWITHSHA1ANDDES"),
    ("PBEWithMD5AndTripleDES", "PBEWithMD5AndTripleDES", None),
    ("PBEWithSHA1AndDESede", "PBEWithSHA1AndDESede", "PBEWITHSHAAND3-KEYTRIPLEDES-CBC"),
    ("pbeWithSHAAnd2-KeyTripleDES-CBC", None, "PBEWITHSHAAND2-KEYTRIPLEDES-CBC"),
)
PKCS12 = ("PBEWithSHA1AndDESede", "pbeWithSHAAnd2-KeyTripleDES-CBC")


def java(requests):
    """Java's answers to requests: who, encrypt or decrypt, algorithm, iterations, password, salt, data. None for data that it refuses."""
    lines = [" ".join((word.hex() or "-") if isinstance(word, bytes) else str(word) for word in request) for request in requests]
    done = subprocess.run([*sys.argv[1:], "Passwords"], input="\n".join(lines), stdout=subprocess.PIPE, text=True, check=True)
    return [None if line == "null" else bytes.fromhex(line) for line in done.stdout.splitlines()]


def as_javas(answers):
    """Answers of ours in which each error is None."""
    return [None if isinstance(answer, str) else answer for answer in answers]


def others():
    """Bytes of each length that nobody encrypted, and many of two blocks, of which a few have a padding."""
    return [chance.randbytes(length) for length in [*range(1, 41), *[16] * 200]]


def character():
    """One of all that a text may have, half of them of ASCII."""
    return chr(chance.choice((chance.randrange(1, 0x80), chance.randrange(1, 0xD800), chance.randrange(0x10000, 0x110000))))


def strings():
    """A text of each length from 0 to 40 characters."""
    return ["".join(character() for _ in range(length)).encode() for length in range(41)]


def jasypt():
    """How many of Jasypt's values were compared: of bytes, and of strings as they stand in a configuration, within ENC(..)."""
    columns = []
    for algorithm in (of_jdk for _, of_jdk, _ in NAMES if of_jdk):
        for form, iterations in (("bytes", 1000), ("property", 1000), ("bytes", 1), ("property", 77)):
            columns.append((form, algorithm, iterations, words(1, 40).encode(), list(texts()) if form == "bytes" else strings()))
    written = iter(java((form, "encrypt", *settings, b"", text) for form, *settings, column in columns for text in column))
    requests, expected = [], []
    for form, algorithm, iterations, password, column in columns:
        theirs = [b64encode(value).decode() if form == "bytes" else value.decode() for _, value in zip(column, written)]
        same(f"{form} by Jasypt's {algorithm}", read_jasypt(theirs, algorithm, password, iterations), column)
        ours = write_jasypt(column, algorithm, password, iterations)
        wrong = others() if form == "bytes" else []
        data = [b64decode(value) if form == "bytes" else f"ENC({value})".encode() for value in ours]
        requests += [(form, "decrypt", algorithm, iterations, password, b"", value) for value in data + wrong]
        expected += column + as_javas(read_jasypt([b64encode(value).decode() for value in wrong], algorithm, password, iterations))
    same("Jasypt, of what is written here", expected, java(requests))
    return sum(2 * len(column) for *_, column in columns)


def password(who, algorithm):
    """PKCS #12 takes all characters, the JDK of ASCII alone. Bouncy Castle gives an empty one no zeros."""
    if who == "jdk" or algorithm not in PKCS12:
        return words(1 if who == "bouncy" else 0, 40).encode()
    return "".join(character() for _ in range(10)).encode()


def ciphers():
    """How many values of the JDK and of Bouncy Castle were compared: what both write, and what they say to other bytes."""
    requests, ours = [], []
    for algorithm, *theirs in NAMES:
        for who, name in zip(("jdk", "bouncy"), theirs):
            # The first salt has equal halves, which Java's own rule takes in another way.
            last = some(1, 40) if who == "bouncy" and algorithm in PKCS12 else chance.randbytes(8)
            for salt in (b"halfhalf", chance.randbytes(8), last) if name else ():
                key, iterations = password(who, algorithm), chance.randint(1, 50)
                for direction, call, column in (("encrypt", write_pbe, list(texts())), ("decrypt", read_pbe, others())):
                    requests += [(who, direction, name, iterations, key, salt, data) for data in column]
                    ours += as_javas(call(column, algorithm, key, salt, iterations))
    return same("ciphers of Java", ours, java(requests))


def store():
    """The private key of a JCEKS store, which lies in it as PKCS #8 has it, but under Java's own rule (1.3.6.1.4.1.42.2.19.1)."""
    with tempfile.TemporaryDirectory() as folder:
        place, key = f"{folder}/store", words(6, 40)
        make = ["-genkeypair", "-alias", "key", "-keyalg", "RSA", "-dname", "CN=test", "-storetype", "JCEKS", "-keystore", place]
        make += ["-storepass:env", "KEY", "-keypass:env", "KEY"]
        subprocess.run(["keytool", *make], env={**os.environ, "KEY": key}, check=True, capture_output=True)
        with open(place, "rb") as file:
            parts = re.search(rb"\x06\x09\x2b\x06\x01\x04\x01\x2a\x02\x13\x01\x30.\x04\x08(.{8})\x02(.)(.*)", file.read(), re.DOTALL)
        salt, size, rest = parts[1], parts[2][0], parts[3]
        iterations, value = int.from_bytes(rest[:size], "big"), rest[size:]
        # An OCTET STRING with two bytes of length.
        value = value[4 : 4 + int.from_bytes(value[2:4], "big")]
        ours = read_pbe([value], "PBEWithMD5AndTripleDES", key.encode(), salt, iterations)
        same("a JCEKS store", ours, java([("store", "decrypt", "-", 1, key.encode(), b"", place.encode())]))


def main():
    print(f"Jasypt: {jasypt()} values compared; ciphers of Java: {ciphers()}")
    store()


main()
