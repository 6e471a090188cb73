"""Decrypts a record of old data: triple DES with three keys in CBC mode, padded by PKCS#7."""

from cukvashe_des import TdesEde3, unpad

key = bytes.fromhex("0123456789abcdef23456789abcdef01456789abcdef0123")
iv = bytes.fromhex("1234567890abcdef")
record = bytes.fromhex("38413d4ba2325cf1141f707471ac2ced57db530f0123b5acdda77ebde0c63614")
print(unpad(TdesEde3(key).decrypt_cbc(record, iv=iv), "pkcs7").decode())

# The first record of examples/data/records.csv, which OpenSSL encrypted, and its key.
# $ PYTHONPATH=bindings/python python3 examples/python/first.py
# The qufck brown fox jump
