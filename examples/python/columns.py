"""Decrypts a column that DES_ENCRYPT of MySQL or MariaDB encrypted under a key string: in a data frame of pandas, and in partitions of
Dask, each in a process of its own.

    columns.py KEY TABLE        KEY is a file of the key string; TABLE is what `mysql -B -e 'select id, hex(card) as card from t'` prints
"""

import os
import sys
from typing import Any, List, Optional

import cukvashe_des
import dask.dataframe
import pandas


def value_of(digits: Any) -> Optional[bytes]:
    """The bytes of a value, of which the table has the hexadecimal digits, or None where it has NULL."""
    return bytes.fromhex(digits) if isinstance(digits, str) else None


def decrypted(part: Any, key_file: str) -> Any:
    """The texts of a partition, with None for what can't be read. The worker reads the key string: none goes over the network."""
    with open(key_file, "rb") as file:
        texts = cukvashe_des.mysql_decrypt_values(file.read(), part.map(value_of), errors="none")
    return pandas.Series(texts, part.index, object)


def main(key_file: str, table: str) -> None:
    frame = pandas.read_csv(table, sep="\t", keep_default_na=False, na_values="NULL")
    with open(key_file, "rb") as file:
        key = file.read()
    texts: List[Optional[bytes]]
    try:
        texts = cukvashe_des.mysql_decrypt_values(key, frame["card"].map(value_of))
    except cukvashe_des.UnreadableValuesError as error:
        for place, fault in error.faults.items():
            print(f"id {frame['id'][place]}: {fault}")
        texts = error.texts
    frame["text"] = texts
    print(frame[["id", "text"]].to_string(index=False))

    # As if the table were long: 10,000 rows in four partitions.
    long = pandas.concat([frame] * 2500, ignore_index=True)
    column = dask.dataframe.from_pandas(long, npartitions=4)["card"]
    # On a cluster each worker has this package and the key's file.
    parts = column.map_partitions(decrypted, os.path.abspath(key_file), meta=("text", object))
    assert parts.compute(scheduler="processes").tolist() == texts * 2500
    print(f"{len(long):,} rows in {parts.npartitions} partitions")


if __name__ == "__main__":
    main(*sys.argv[1:])

# MariaDB 10.11 encrypted the values, but for the last, which it would give back as it is.
# $ PYTHONPATH=bindings/python python3 examples/python/columns.py examples/data/des_encrypt.key examples/data/des_encrypt.tsv
# id 4: the value is none that MySQL encrypted
#  id                text
#   1 b'4111111111111111'
#   2                None
#   3         b'12345678'
#   4                None
# 10,000 rows in 4 partitions
