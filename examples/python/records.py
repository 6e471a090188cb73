"""Decrypts a column of records of a CSV table in one call: triple DES with three keys in CBC mode, padded by PKCS#7.

    records.py KEY TABLE        KEY is a file of 48 hexadecimal digits: on the command line every user could read them
"""

import csv
import sys
from typing import Dict, Iterator, List

import cukvashe_des


def decrypted(cipher: cukvashe_des.Cipher, rows: List[Dict[str, str]]) -> Iterator[bytes]:
    """The texts of the records, each of which has an initialization vector of its own."""
    vectors = b"".join(bytes.fromhex(row["vector"]) for row in rows)
    blocks = b"".join(bytes.fromhex(row["ciphertext"]) for row in rows)
    counts = [len(row["ciphertext"]) // 16 for row in rows]  # blocks of 8 bytes
    plain = cukvashe_des.decrypt_cbc_records(cipher, blocks, vectors=vectors, counts=counts)
    end = 0
    for count in counts:
        begin, end = end, end + 8 * count
        yield cukvashe_des.unpad(plain[begin:end], "pkcs7")


def main(key_file: str, table: str) -> None:
    with open(key_file) as file:
        key = bytes.fromhex(file.read())
    with open(table, newline="") as file:
        rows = list(csv.DictReader(file))
    # The end of `with` wipes the round keys. Python can't wipe `key`.
    with cukvashe_des.TdesEde3(key) as cipher:
        for row, text in zip(rows, decrypted(cipher, rows)):
            print(row["number"], text.decode())


if __name__ == "__main__":
    main(*sys.argv[1:])

# NIST SP 800-67, Appendix B, has the key. OpenSSL encrypted the records: see examples/data/by_openssl.
# $ PYTHONPATH=bindings/python python3 examples/python/records.py examples/data/key examples/data/records.csv
# 1 The qufck brown fox jump
# 2 Now is the time
# 3 Account 4012345678909: 25.00 paid in
# 4 No
