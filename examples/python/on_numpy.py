"""Records of 16 bytes in arrays of NumPy: decrypts them, each from a vector of its own, and encrypts them from one vector for all."""

import cukvashe_des
import numpy

key = bytes.fromhex("0123456789abcdef23456789abcdef01456789abcdef0123")
digits = "1234567890abcdef" "fedcba0987654321" "0f1e2d3c4b5a6978"
vectors = numpy.frombuffer(bytes.fromhex(digits), numpy.uint8).reshape(-1, 8)
digits = "d703d656a08ae6ced71937deab3b0647" "0329fd663be06d5ee66b7d3f9a3e9053" "b4b2cc50e52c85c634edaf2c1410a765"
records = numpy.frombuffer(bytes.fromhex(digits), numpy.uint8).reshape(-1, 16)

counts = [2] * len(records)  # blocks of each record
with cukvashe_des.TdesEde3(key) as cipher:
    # A row is a block, so a record of two blocks is two rows.
    plain = cukvashe_des.decrypt_cbc_records(cipher, records.reshape(-1, 8), vectors=vectors, counts=counts)
    texts = numpy.frombuffer(plain, "S16")
    print(*texts.astype(str), sep="\n")

    # From one vector, records that begin with the same block show it: do so only where the system that reads them does.
    one = numpy.broadcast_to(vectors[0], vectors.shape)
    sealed = cukvashe_des.encrypt_cbc_records(cipher, texts.view(numpy.uint8), vectors=one, counts=counts)
    for record in numpy.frombuffer(sealed, numpy.uint8).reshape(-1, 16):
        print(record.tobytes().hex())

# OpenSSL encrypted the records, by -des-ede3-cbc -nopad, and gives the last three lines from the first vector.
# $ PYTHONPATH=bindings/python python3 examples/python/on_numpy.py
# Paid in    25.00
# Paid out  118.40
# Balance   906.60
# d703d656a08ae6ced71937deab3b0647
# 4131505d0013590d45496c8b8dbccf86
# 21849895d5e26bdc222aaebf876f6edc
