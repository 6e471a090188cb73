"""The calls that the tests compare, of the package for Python. What can't be read is the name of its error, in the place of its text."""

import sys
from pathlib import Path

sys.dont_write_bytecode = True
sys.path.insert(0, str(Path(__file__).resolve().parents[2] / "python"))

import cukvashe_des
from cukvashe_des import Des, Error, TdesEde2, TdesEde3, UnreadableValuesError, pad, unpad

# The cipher of each algorithm.
ALGORITHMS = {
    "PBEWithMD5AndDES": Des,
    "PBEWithSHA1AndDES": Des,
    "PBEWithMD5AndTripleDES": TdesEde3,
    "PBEWithSHA1AndDESede": TdesEde3,
    "pbeWithSHAAnd2-KeyTripleDES-CBC": TdesEde2,
}


def _name(fault):
    return type(fault).__name__


def _read(call, *arguments, **more):
    """The texts of a column, and the names of errors among them."""
    try:
        return call(*arguments, **more)
    except UnreadableValuesError as unreadable:
        return [_name(unreadable.faults[place]) if place in unreadable.faults else text for place, text in enumerate(unreadable.texts)]


def read_mysql(values, key):
    return _read(cukvashe_des.mysql_decrypt_values, key, values)


def read_mysql_by_file(values, keys):
    return _read(cukvashe_des.mysql_decrypt_values_by_file, keys, values)


def write_mysql(texts, key):
    return cukvashe_des.mysql_encrypt_values(key, texts)


def write_mysql_by_number(texts, key, number):
    return cukvashe_des.mysql_encrypt_values(key, texts, number=number)


def read_pgcrypto(values, kind, key, iv):
    return _read(cukvashe_des.pgcrypto_decrypt_values, kind, key, values, iv=iv)


def write_pgcrypto(texts, kind, key, iv):
    """A text that can't be written is the name of its error: the call writes none then, so it is asked for each."""
    try:
        return cukvashe_des.pgcrypto_encrypt_values(kind, key, texts, iv=iv)
    except Error as fault:
        return [_name(fault)] if len(texts) == 1 else [value for text in texts for value in write_pgcrypto([text], kind, key, iv)]


def read_jasypt(strings, algorithm, password, iterations):
    return _read(cukvashe_des.jasypt_decrypt_values, password, strings, algorithm=algorithm, iterations=iterations)


def write_jasypt(texts, algorithm, password, iterations):
    return cukvashe_des.jasypt_encrypt_values(password, texts, algorithm=algorithm, iterations=iterations)


def _cipher(algorithm, password, salt, iterations):
    """The cipher under a password, and the vector."""
    kind = ALGORITHMS[algorithm]
    both = cukvashe_des.pbe_key(algorithm, password, salt, iterations, kind.key_size + 8)
    return kind(both[:-8]), both[-8:]


def write_pbe(texts, algorithm, password, salt, iterations):
    cipher, vector = _cipher(algorithm, password, salt, iterations)
    return [cipher.encrypt_cbc(pad(text, "pkcs7"), iv=vector) for text in texts]


def read_pbe(values, algorithm, password, salt, iterations):
    cipher, vector = _cipher(algorithm, password, salt, iterations)

    def read(value):
        try:
            return unpad(cipher.decrypt_cbc(value, iv=vector), "pkcs7")
        except Error as fault:
            return _name(fault)

    return [read(value) for value in values]
