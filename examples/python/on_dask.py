"""Decrypts a column of records in partitions on a Dask cluster, here of two processes of this machine.

    on_dask.py KEY TABLE        as of records.py

On a cluster of your own `Client("tcp://HOST:8786")` names the scheduler. Each worker has this package and the key's file.
"""

import csv
import os
import sys
from typing import Iterator, List, Tuple

import cukvashe_des
from dask.distributed import Client, LocalCluster


def decrypted(key_file: str, vectors: bytes, counts: List[int], blocks: bytes) -> bytes:
    """The plaintext of a partition, with its padding. The worker reads the key: none goes over the network."""
    with open(key_file) as file:
        cipher = cukvashe_des.TdesEde3(bytes.fromhex(file.read()))
    return cukvashe_des.decrypt_cbc_records(cipher, blocks, vectors=vectors, counts=counts)


def partitions(vectors: bytes, counts: List[int], blocks: bytes, size: int) -> Iterator[Tuple[bytes, List[int], bytes]]:
    """A column in partitions of `size` records."""
    end = 0
    for first in range(0, len(counts), size):
        part, begin = counts[first : first + size], end
        end = begin + 8 * sum(part)
        yield vectors[8 * first : 8 * (first + size)], part, blocks[begin:end]


def main(key_file: str, table: str) -> None:
    with open(table, newline="") as file:
        rows = list(csv.DictReader(file)) * 25_000  # as if the table were long
    vectors = bytes.fromhex("".join(row["vector"] for row in rows))
    blocks = bytes.fromhex("".join(row["ciphertext"] for row in rows))
    column = vectors, [len(row["ciphertext"]) // 16 for row in rows], blocks
    with LocalCluster(n_workers=2, threads_per_worker=1, dashboard_address=None) as cluster, Client(cluster) as client:
        key_file = os.path.abspath(key_file)  # where each worker has it
        parts = [client.submit(decrypted, key_file, *part) for part in partitions(*column, size=9_999)]
        plain = b"".join(client.gather(parts))
    assert plain == decrypted(key_file, *column), "the cluster's answer is not that of one process"
    first = cukvashe_des.unpad(plain[: 8 * column[1][0]], "pkcs7").decode()
    print(f"{len(rows):,} records in {len(parts)} partitions, as by one process. The first: {first}")


if __name__ == "__main__":
    main(*sys.argv[1:])

# $ PYTHONPATH=bindings/python python3 examples/python/on_dask.py examples/data/key examples/data/records.csv
# 100,000 records in 11 partitions, as by one process. The first: The qufck brown fox jump
